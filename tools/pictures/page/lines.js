// The script with its answers, at the left.

const rowOfStep = new Map();

// Makes the rows of all lines, once.
function makeLines() {
  const list = byId("lines");
  const rows = data.lines.map(([line, text]) => {
    const step = stepOfLine.get(line);
    const row = step ? stepRow(step, text) : make("li", { class: "remark" }, make("span", { class: "number" }, line), make("code", {}, text));
    if (step) {
      rowOfStep.set(step.index, row);
    }
    return row;
  });
  list.append(...rows);
}

// What sort of answer a step has: its class and the word for it.
function sortOf(step) {
  if (step.command === "deliver" && ["late", "early", "stale", "noreplica"].includes(step.outcome)) {
    return "idle";
  }
  if (step.outcome.startsWith("stopped")) {
    return "stopped";
  }
  return ["ok", "taken", "complete"].includes(step.outcome) ? (step.outcome === "complete" ? "completed" : "done") : "refused";
}

// The row of a command, with its answer, of which the number is left out.
function stepRow(step, text) {
  const answers = step.answer.split("\n").map((it) => it.slice(it.indexOf(" ") + 1));
  const sign = { refused: "✗", idle: "○", stopped: "⚡", completed: "★", done: "" }[sortOf(step)];
  const more = answers.slice(1, 40).map((it) => make("code", { class: "answer more" }, it));
  const count = answers.length > 1 ? make("span", { class: "count" }, ` and ${plural(answers.length - 1, "line")}`) : null;
  return make("li", { class: sortOf(step) }, make("a", { href: `#line-${step.line}`, class: "step" },
    make("span", { class: "number" }, step.line), make("code", { class: "text" }, text),
    make("code", { class: "answer" }, sign ? make("span", { class: "sign", "aria-hidden": "true" }, `${sign} `) : null, answers[0], count), more));
}

// Marks the present line, and brings it into view.
let shownRow = null;
function showLine() {
  shownRow?.classList.remove("present");
  shownRow?.firstChild.removeAttribute("aria-current");
  shownRow = rowOfStep.get(present.index);
  shownRow.classList.add("present");
  shownRow.firstChild.setAttribute("aria-current", "step");
  const list = byId("lines");
  const [top, height] = [shownRow.offsetTop, shownRow.offsetHeight];
  if (top < list.scrollTop + 40 || top + height > list.scrollTop + list.clientHeight - 40) {
    list.scrollTop = top - list.clientHeight / 2 + height / 2;
  }
}

// Marks the lines of what is chosen, or shows these alone.
function showLife() {
  const { chosen, life } = choice;
  const isAlone = byId("only").checked && chosen !== null;
  byId("lines").classList.toggle("alone", isAlone);
  rowOfStep.forEach((row, index) => row.classList.toggle("life", Boolean(life?.has(index))));
  byId("filtered").textContent = chosen ? `${choiceWords(chosen)}: ${plural(life.size, "line")}${isAlone ? ", these alone" : ", marked"}` : "";
}
