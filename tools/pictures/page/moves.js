// Ways from line to line, each with a button and a key.

const COMPLETED = (step) => /^\d+ ok complete /m.test(step.answer);
const MOVES = [
  { name: "line", keys: ["ArrowLeft", "ArrowRight"], shown: ["←", "→"], to: (forward) => steps[present.index + (forward ? 1 : -1)] },
  { name: "ends", keys: ["Home", "End"], shown: ["Home", "End"], to: (forward) => steps.at(forward ? -1 : 0) },
  { name: "house", keys: ["H", "h"], to: (forward) => nextStep(forward, (step) => step.house !== null && step.house === moves.house) },
  { name: "skulk", keys: ["S", "s"], to: (forward) => nextStep(forward, COMPLETED) },
  { name: "life", keys: ["E", "e"], to: (forward) => nextStep(forward, isOfLife) },
  { name: "refused", keys: ["R", "r"], to: (forward) => nextStep(forward, (step) => sortOf(step) === "refused") },
];
const NAMES = { line: () => "line", ends: () => "first, last", skulk: () => "complete skulk", refused: () => "refused",
  house: () => (moves.house === null ? "this house" : `house ${moves.house}`),
  life: () => (choice.chosen ? shortened(choiceWords(choice.chosen), 28) : "entry, stamp") };
const moves = { house: null, buttons: new Map() };

// Whether a step is of the life of what is chosen; of an entry, whether it changes it.
function isOfLife(step) {
  const { chosen, life } = choice;
  if (chosen?.kind === "entry") {
    return changesFact(step, chosen.dir, (place) => keyOf(place).entry === chosen.name);
  }
  return Boolean(life?.has(step.index));
}

// A button that moves on or back.
function moveButton(move, forward) {
  const [key, sign] = [move.keys[Number(forward)], move.name === "ends" ? ["|◀", "▶|"] : ["◀", "▶"]];
  const named = { "aria-keyshortcuts": key, title: `key ${(move.shown ?? move.keys)[Number(forward)]}` };
  return make("button", { type: "button", onclick: () => take(move, forward), ...named }, sign[Number(forward)]);
}

// The buttons, and the field for a line's number.
function makeMoves() {
  const groups = MOVES.map((move) => {
    const [back, on] = [false, true].map((forward) => moveButton(move, forward));
    const label = make("span", { class: "label" });
    moves.buttons.set(move.name, { back, on, label });
    return make("span", { class: "move", role: "group" }, back, label, on);
  });
  const field = make("input", { id: "line", type: "number", min: "1", "aria-label": "line", title: "key g" });
  field.addEventListener("change", () => go(closestStep(Number(field.value))));
  byId("moves").append(groups[0], make("label", { class: "goto" }, "to line ", field), ...groups.slice(1));
}

// Moves, if there is where to.
function take(move, forward) {
  const step = move.to(forward);
  if (step && step.index !== present.index) {
    go(step);
  }
}

// The step of a line, or the last one before it.
function closestStep(line) {
  return stepOfLine.get(line) ?? steps.findLast((it) => it.line <= line) ?? steps[0];
}

// Goes to a step by its address.
function go(step) {
  history.replaceState(null, "", `#line-${step.line}`);
  goTo(step.index);
  show();
}

// Says on the buttons where they lead, and which lead nowhere.
function showMoves() {
  const { house } = steps[present.index];
  moves.house = house ?? moves.house;
  for (const move of MOVES) {
    const { back, on, label } = moves.buttons.get(move.name);
    const words = NAMES[move.name]();
    label.textContent = words;
    [back, on].forEach((button, forward) => {
      const step = move.to(Boolean(forward));
      button.setAttribute("aria-disabled", String(!step || step.index === present.index));
      const way = move.name === "ends" ? ["first line", "last line"][forward] : `${forward ? "next" : "previous"} ${words}`;
      button.setAttribute("aria-label", way);
    });
  }
  byId("line").value = steps[present.index].line;
}
