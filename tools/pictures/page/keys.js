// Keys, the field for what is sought, and the beginning.

const HELP = [
  ["→ ←, j k", "one line on, or back"], ["Home, End", "the first line, the last one"], ["h H", "the next command at this house, or the one before"],
  ["s S", "the next complete skulk, or the one before"], ["e E", "the next line that changed the chosen entry (of a stamp or message: that has to do with it)"],
  ["r R", "the next refused line"], ["g", "to a line by its number"], ["/", "find an entry, a stamp as 3@1 (time and house), a message as 17, or any text"],
  ["Esc", "nothing is chosen any more"], ["?", "these keys, and what the marks are"],
];

// What the marks of the time pane are.
const MARKS = [
  ["mark with corners", "a command; light: a question; dashed: refused"], ["round mark", "a delivery, in the colour of its message; hollow: it changed nothing"],
  ["cross, ring", "the message was lost; it was never delivered"], ["thick line, with gaps", "the house is the master; it is secondary"],
  ["thin line, dotted", "it holds a replica and is read-only; it holds none"], ["no line", "the house is down, or not made yet"],
  ["yellow, dashed box", "a skulk that is complete; one that is not"], ["> <", "the arrow goes on at that line, or comes from it"],
];

// Shows the present line in all panes, once for all that happens up to the next frame.
let isDue = false;
function show() {
  if (!isDue) {
    isDue = true;
    requestAnimationFrame(showNow);
  }
}

function showNow() {
  isDue = false;
  const step = steps[present.index];
  showLine();
  const said = showState(step);
  showMoves();
  showLanes();
  document.title = `line ${step.line}, ${data.name}`;
  const answer = step.answer.split("\n")[0].replace(/^\d+ /, "");
  byId("spoken").textContent = `Line ${step.line}: ${(textOfLine.get(step.line) ?? "").trim()}. Answer: ${answer}. ${said.slice(0, 4).join(". ")}`;
}

// Shows what the address names: a line.
function showAddress() {
  const found = location.hash.match(/^#line-(\d+)$/);
  goTo(found ? closestStep(Number(found[1])).index : 0);
  showNow();
}

function toggleHelp() {
  byId("help").hidden = !byId("help").hidden;
  byId("asks").setAttribute("aria-expanded", String(!byId("help").hidden));
}

// What a key does that is not typed into a field.
function onKey(event) {
  const isTyped = event.target instanceof Element && event.target.matches("input:not([type=checkbox]), select, textarea");
  if (event.key === "Escape") {
    byId("sought").value = "";
    byId("help").hidden = true;
    event.target.blur();
    choose(null);
    return;
  }
  if (isTyped || event.ctrlKey || event.altKey || event.metaKey) {
    return;
  }
  const key = { j: "ArrowRight", k: "ArrowLeft" }[event.key] ?? event.key;
  const move = MOVES.find((it) => it.keys.includes(key));
  const others = { "/": () => byId("sought").focus(), g: () => byId("line").select(), "?": toggleHelp };
  if (move || others[key]) {
    event.preventDefault();
    return move ? take(move, move.keys.indexOf(key) === 1) : others[key]();
  }
}

// What is typed into the field for what is sought.
function onSought(event) {
  event.preventDefault();
  const text = byId("sought").value.trim();
  if (!text) {
    return choose(null);
  }
  choose(meantBy(text), true);
  if (event.type === "submit") {
    byId("sought").blur();
  }
  const first = choice.life.size && !choice.life.has(present.index) ? steps[Math.min(...choice.life)] : null;
  return first ? go(first) : undefined;
}

function begin() {
  takeAll();
  makeLines();
  makeMoves();
  const about = [`form ${data.form}`, plural(steps.length, "step"), plural(Object.keys(data.nodes).length, "house"), plural(messages.size, "message")];
  byId("about").textContent = about.join(", ");
  byId("help").append(make("dl", {}, HELP.map(([keys, words]) => [make("dt", {}, make("kbd", {}, keys)), make("dd", {}, words)])),
    make("dl", {}, MARKS.map(([mark, words]) => [make("dt", {}, mark), make("dd", {}, words)])),
    make("p", {}, "A stamp 3@1 is the time 3 at the node of house 1; point at it for the whole. In tables “missed” is what the master has and this house lacks, ",
      "“only here” what the master lacks, “purged” what one of the two has forgotten up to its AllUpTo. ● marks what the present line changed."));
  const known = entriesKnown().slice(0, 400).map(({ dir, name }) => make("option", { value: `${name} (directory ${dir})` }));
  byId("known").append(...known);
  document.addEventListener("keydown", onKey);
  byId("find").addEventListener("submit", onSought);
  byId("sought").addEventListener("change", onSought);
  byId("only").addEventListener("change", showLife);
  byId("clear").addEventListener("click", () => { byId("sought").value = ""; choose(null); });
  byId("asks").addEventListener("click", toggleHelp);
  window.addEventListener("hashchange", showAddress);
  showAddress();
}

begin();
