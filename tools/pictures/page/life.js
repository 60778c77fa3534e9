// What is chosen: an entry, a stamp or a message; its life, which is the lines that have to do with it; and what is sought.

const choice = { chosen: null, life: null };

// Whether a step changes a fact so that a test holds of what it is then, or was before.
function changesFact(step, dir, test) {
  const holds = (house) => house[4].some(([of, , pairs]) =>
    (dir === null || of === dir) && pairs.some((place, at) => at % 2 === 0 && test(place, pairs[at + 1])));
  return data.changes[step.index + 1].some(holds) || undos[step.index].some(holds);
}

// Whether a message carries a fact that a test holds of.
function carriesFact(message, dir, test) {
  if (!message || message.load < 0 || (dir !== null && message.dir !== dir)) {
    return false;
  }
  const [pairs] = data.loads[message.load];
  return pairs.some((place, at) => at % 2 === 0 && test(place, pairs[at + 1]));
}

// The message that a step delivers or loses.
function messageOf(step) {
  return step.serial === null ? undefined : messages.get(step.serial);
}

// Whether the words of a step name an entry of a directory.
function namesEntry(step, { dir, name }) {
  const words = (textOfLine.get(step.line) ?? "").trim().split(/ +/);
  const full = (data.names[dir] ?? "…") + `/${name}`;
  return words.includes(full) || (step.dirs.includes(dir) && words.includes(name));
}

// The steps that have to do with what is chosen.
function lifeOf(chosen) {
  if (chosen.kind === "message") {
    const message = messages.get(chosen.serial);
    const ats = new Set([message.posted, ...message.deliveries, message.lost]);
    return steps.filter((step) => ats.has(step.at));
  }
  if (chosen.kind === "entry") {
    const test = (place) => keyOf(place).entry === chosen.name;
    return steps.filter((step) => namesEntry(step, chosen) || changesFact(step, chosen.dir, test)
      || carriesFact(messageOf(step), chosen.dir, test));
  }
  if (chosen.kind === "stamp") {
    const test = (place, said) => said >= 0 && data.words[said].includes(chosen.stamp);
    return steps.filter((step) => ` ${step.answer} `.includes(` ${chosen.stamp} `) || step.answer.endsWith(chosen.stamp)
      || changesFact(step, null, test) || carriesFact(messageOf(step), null, test));
  }
  const sought = chosen.text.toLowerCase();
  return steps.filter((step) => `${textOfLine.get(step.line)}\n${step.answer}`.toLowerCase().includes(sought));
}

// What is chosen, in words.
function choiceWords({ kind, name, dir, stamp, serial, text }) {
  return { entry: `entry ${name} of directory ${dir}`, stamp: `stamp ${brief(stamp ?? "0@0")}`, message: `message ${serial}`, text: `“${text}”` }[kind];
}

// Chooses something, or nothing; the lines of its life are marked, and alone shown where that is asked.
function choose(chosen, isAlone = byId("only").checked) {
  choice.chosen = chosen;
  choice.life = chosen && new Set(lifeOf(chosen).map((step) => step.index));
  byId("only").checked = Boolean(chosen) && isAlone;
  showLife();
  show();
  requestAnimationFrame(() => document.querySelector(".panel")?.scrollIntoView({ block: "nearest" }));
}

// What a text that is sought means: a message, a stamp, an entry, or any text.
function meantBy(text) {
  const serial = text.match(/^(?:message |#)?([1-9]\d*)$/);
  if (serial && messages.has(Number(serial[1]))) {
    return { kind: "message", serial: Number(serial[1]) };
  }
  const stamp = text.match(/^(\d+)@([0-9a-f]+)$/i);
  if (stamp) {
    const node = data.nodes[stamp[2]] ?? stamp[2].toLowerCase().padStart(12, "0");
    return { kind: "stamp", stamp: `${stamp[1]}@${node}` };
  }
  const [, name, dir] = text.match(/^(.*?)(?: \(directory (\d+)\))?$/);
  const found = entriesKnown().find((it) => it.name === name && (dir === undefined || it.dir === Number(dir)));
  return found ? { kind: "entry", ...found } : { kind: "text", text };
}

// Each entry that any house ever has, with its directory.
let allEntries = null;
function entriesKnown() {
  if (allEntries === null) {
    const found = new Map();
    for (const changes of data.changes) {
      for (const [, , , , directories] of changes) {
        for (const [dir, , pairs] of directories) {
          pairs.forEach((place, at) => at % 2 === 0 && found.set(`${dir} ${keyOf(place).entry}`, { dir, name: keyOf(place).entry }));
        }
      }
    }
    allEntries = [...found.values()];
  }
  return allEntries;
}

// The next or the last step before the present one that a test holds of, or null.
function nextStep(forward, test) {
  const order = forward ? steps.slice(present.index + 1) : steps.slice(0, present.index).reverse();
  return order.find(test) ?? null;
}

// What is said of what is chosen, at the present step.
function choicePanel(at) {
  const { chosen } = choice;
  if (!chosen) {
    return null;
  }
  const body = { message: messagePanel, stamp: stampPanel, entry: entryPanel, text: () => [] }[chosen.kind](chosen, at);
  const lines = [...choice.life].map((it) => steps[it].line);
  const links = lines.slice(0, 40).flatMap((line) => [lineLink(line, `${line}`), " "]);
  const all = make("p", {}, `${plural(lines.length, "line")}: `, links, lines.length > 40 ? `… and ${lines.length - 40} more` : "");
  const close = make("button", { type: "button", onclick: () => choose(null) }, "Close");
  return make("section", { class: "panel", "aria-label": choiceWords(chosen) }, make("h3", {}, choiceWords(chosen), " ", close), body, all);
}

// A message: where it was posted, what it carries, and what became of it.
function messagePanel({ serial }, at) {
  const message = messages.get(serial);
  const facts = [make("p", {}, `${message.kind} ${wayOf(message)}`, message.dir === null ? "" : `, directory ${message.dir}, epoch ${message.epoch}`)];
  facts.push(make("p", {}, "posted in ", lineLink(lineAt(message.posted)), `; ${fateWords(message, at)}`));
  const carried = loadWords(message, 12);
  return carried.length ? [...facts, make("p", {}, "it carries:"), make("ul", {}, carried.map((it) => make("li", {}, it)))] : facts;
}

// What became of a message up to a place of the replay.
function fateWords(message, at) {
  const came = message.deliveries.filter((it) => it <= at);
  const taken = message.taken !== null && message.taken <= at;
  const words = came.map((it) => `delivered in line ${lineAt(it)} (${it === message.taken ? "taken" : outcomeAt(it)})`);
  if (message.lost !== null && message.lost <= at) {
    words.push(`lost in line ${lineAt(message.lost)}`);
  } else if (!taken) {
    words.push("under way");
  }
  return words.join(", ");
}

// What the answer of a delivery says.
function outcomeAt(at) {
  return steps[columnOf(at)]?.at === at ? steps[columnOf(at)].outcome : "another line";
}

// A stamp: the line that gave it, and who has it.
function stampPanel({ stamp }, at) {
  const given = steps.find((step) => step.command !== "deliver" && ` ${step.answer.replaceAll("\n", " ")} `.includes(` ${stamp} `));
  const has = [...present.houses].filter(([, house]) => [...house.replicas.values()].some((replica) => hasStamp(replica, stamp)));
  const past = [...present.houses].filter(([number, house]) => !has.some(([it]) => it === number) && [...house.replicas.values()]
    .some((replica) => isUpTo(stamp, headOf(replica.head)))).map(([number]) => number).sort((a, b) => a - b);
  const carried = underWay(at).filter((it) => carriesFact(it, null, (place, said) => stampsOf(said).includes(stamp)));
  const named = (found) => (found.length ? housesOf(found.map(([number]) => number).sort((a, b) => a - b)) : "no house");
  return [
    make("p", {}, given ? ["given in ", lineLink(given.line), ": ", make("code", {}, shortened(textOfLine.get(given.line) ?? "", 80))]
      : "no answer here gives it alone"),
    make("p", {}, `Now ${named(has)} ${has.length > 1 ? "have" : "has"} a fact with it.`),
    past.length ? make("p", {}, `Not at ${housesOf(past)}, whose AllUpTo is not earlier.`) : null,
    carried.length ? make("p", {}, "Under way with it: ", carried.slice(0, 12).map((it) => [messageLink(it), ` to house ${it.receiver} `])) : null,
  ];
}

function hasStamp(replica, stamp) {
  return [...replica.facts.values()].some((said) => stampsOf(said).includes(stamp));
}

// An entry: who has it how.
function entryPanel({ dir, name }) {
  const found = [...present.houses].map(([number, house]) => [number, house.replicas.get(dir)]).filter(([, it]) => it && it.head.startsWith("epoch"));
  const said = new Map();
  for (const [number, replica] of found) {
    const place = [...replica.facts.keys()].find((it) => data.words[it] === name);
    const words = place === undefined ? "nothing" : factText(place, replica.facts.get(place));
    said.set(words, [...(said.get(words) ?? []), number]);
  }
  return make("ul", {}, [...said].map(([words, numbers]) => make("li", {}, `${housesOf(numbers.sort((a, b) => a - b))}: ${words}`)));
}
