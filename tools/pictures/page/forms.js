// What other forms of the program add: the put of a journal, the list of a clerk, answers to questions, and the tree of names.

const CALLS = ["write the record", "sync", "open its gate", "sync"];

// The four calls of the put inside which a house lost its power, and what its disk has.
function stopPanel({ stop, outcome, line }) {
  if (!stop) {
    return null;
  }
  const [house, failed, what] = [stop[0], Number(stop[1]), stop[2]];
  const isStopped = outcome.startsWith("stopped");
  const calls = CALLS.map((words, at) => {
    const [state, sign] = !isStopped || at + 1 > failed ? ["not called", "·"] : at + 1 < failed ? ["done", "✓"] : ["the power goes here", "⚡"];
    return make("li", { class: at + 1 === failed && isStopped ? "missed" : null }, `${sign} ${words}: ${state}`);
  });
  const kept = { keep: "all that was written", drop: "nothing of it", torn: "of each write the first half" }[what];
  const gives = { "stopped after": `gives the new image: the command of line ${line} is done, and its messages are lost`,
    "stopped before": `gives the image of before: nothing of line ${line} is done` }[outcome];
  const end = isStopped ? `Since the last sync the disk has ${kept}. Its journal ${gives}.` : "It put nothing, so nothing stopped: the answer is that of the command.";
  return make("section", { "aria-label": "the put" }, make("h3", {}, `House ${house} puts its image`), make("ol", { class: "calls" }, calls), make("p", {}, end));
}

// The list of the clerk after the present line, the answer that was used last first.
function clerkPanel(step) {
  if (!data.form.startsWith("clerk")) {
    return null;
  }
  const head = make("h3", {}, "The clerk");
  if (!data.clerk) {
    return make("section", {}, head, make("p", { class: "quiet" }, "Its list is shown where the whole script is."));
  }
  const [list, isKnown] = clerkList(step.at);
  if (!isKnown) {
    return make("section", {}, head, make("p", {}, "Its list is not known from here on: the program answered otherwise than it says."));
  }
  const now = new Map((data.clerk[step.at] ?? []).map(([what, house, asks]) => [`${house} ${asks}`, what]));
  const rows = [...list].reverse().map(([key, [house, asks, answer, line]]) => make("li", { class: now.has(key) ? "changed" : null },
    now.has(key) ? make("strong", {}, now.get(key) === "used" ? "used now: " : "kept now: ") : null,
    `${asks}, by way of house ${house}: ${answer}, since `, lineLink(line)));
  const room = Number(data.form.split(" ")[1]);
  return make("section", { "aria-label": "the clerk" }, head, make("p", { class: "quiet" }, `${list.size} of ${room} answers, the one used last first`),
    make("ol", { class: "clerk" }, rows));
}

// What the clerk keeps, the one that goes next first.
function clerkList(at) {
  const [list, room] = [new Map(), Number(data.form.split(" ")[1])];
  for (const step of steps) {
    if (step.at > at || !(step.at in data.clerk)) {
      continue;
    }
    if (data.clerk[step.at] === null) {
      return [list, false];
    }
    for (const [what, house, asks, answer, line] of data.clerk[step.at]) {
      const key = `${house} ${asks}`;
      list.delete(key);
      if (what === "kept" && list.size === room) {
        list.delete(list.keys().next().value);
      }
      list.set(key, [house, asks, answer, line]);
    }
  }
  return [list, true];
}

// Whether a step searches names, so that its way is shown at once.
function isSearch(step) {
  return data.searches[step.at] !== undefined && (data.form === "inquire" || messages.size === 0 || ["import", "lookup"].includes(step.command));
}

// The tree of names as the masters have it, with the way of a search.
function namesPanel(step, isOpen) {
  const way = data.searches[step.at];
  if (!lastEpoch(1, step.at) || data.dir !== null) {
    return null;
  }
  const numbers = new Map((way ?? []).map(([dir, name], at) => [`${dir} ${name}`, at + 1]));
  const box = make("details", { open: isOpen, class: "names" }, make("summary", {}, make("h3", {}, way ? "Names, and the way of this question" : "Names")));
  const fillIn = () => box.append(nameTree(1, step.at, numbers, new Set([1]), { left: 400 }));
  if (isOpen) {
    fillIn();
  } else {
    box.addEventListener("toggle", fillIn, { once: true });
  }
  return box;
}

// The entries of a directory, as its master has them.
function nameTree(dir, at, numbers, seen, room) {
  const epoch = lastEpoch(dir, at);
  const facts = epoch ? [...replicaOf(epoch.master, dir).facts] : [];
  const own = facts.map(([place, said]) => ({ ...keyOf(place), said })).sort((a, b) => (a.text < b.text ? -1 : 1));
  const items = own.filter((it) => it.attribute === undefined && data.words[it.said].endsWith(" live")).map((it) => {
    room.left -= 1;
    return room.left < 0 ? null : nameItem(it, own, dir, at, numbers, seen, room);
  });
  return make("ul", {}, items, room.left < 0 ? make("li", {}, "…") : null);
}

// An entry with its values, and below a child its directory.
function nameItem(entry, own, dir, at, numbers, seen, room) {
  const kind = data.words[entry.said].split(" ")[0];
  const values = own.filter((it) => it.entry === entry.entry && it.value !== undefined && data.words[it.said].startsWith("present"));
  const number = numbers.get(`${dir} ${entry.entry}`);
  const said = values.slice(0, 8).map((it) => make("li", {}, `${it.attribute}: ${data.values[it.place] ?? shortened(it.value)}`));
  const child = kind === "child" && values.map((it) => it.value).find((it) => parseInt(it.slice(0, 8), 16) > 0);
  const below = child ? parseInt(child.slice(0, 8), 16) : null;
  const inner = below && !seen.has(below) ? nameTree(below, at, numbers, seen.add(below), room) : null;
  return make("li", {}, number ? make("strong", { class: "order", title: "its place in the search" }, `${number}. `) : null,
    make("button", { type: "button", class: "entry", onclick: () => choose({ kind: "entry", dir, name: entry.entry }) }, entry.entry), ` ${kind}`,
    said.length ? make("ul", {}, said) : null, inner);
}
