// Elements, and how stamps, facts and messages are said.

const SVG = "http://www.w3.org/2000/svg";

function fill(element, attributes, children) {
  for (const [name, value] of Object.entries(attributes ?? {})) {
    if (name.startsWith("on")) {
      element.addEventListener(name.slice(2), value);
    } else if (value !== null && value !== undefined && value !== false) {
      element.setAttribute(name, value === true ? "" : value);
    }
  }
  element.append(...children.flat(Infinity).filter((it) => it !== null && it !== undefined && it !== ""));
  return element;
}

// An element of the page, and one of a picture. Texts are never read as HTML.
function make(name, attributes, ...children) {
  return fill(document.createElement(name), attributes, children);
}

function draw(name, attributes, ...children) {
  return fill(document.createElementNS(SVG, name), attributes, children);
}

function byId(id) {
  return document.getElementById(id);
}

function plural(count, word) {
  return `${count} ${word}${count === 1 ? "" : "s"}`;
}

// A stamp in brief: with its house, where its node is of one.
function brief(stamp) {
  const [time, node] = stamp.split("@");
  return `${time}@${houseOfNode.get(node) ?? node.replace(/^0+(?=.)/, "")}`;
}

// A stamp that can be chosen.
function stampOf(stamp) {
  return make("button", { type: "button", class: "stamp", title: stamp, onclick: () => choose({ kind: "stamp", stamp }) }, brief(stamp));
}

// A line of the script as a link.
function lineLink(line, words) {
  return make("a", { href: `#line-${line}`, class: "to-line" }, words ?? `line ${line}`);
}

// The line of a place of the replay.
function lineAt(at) {
  return data.lineOf[at];
}

// A message that can be chosen.
function messageLink(message, words) {
  const act = () => choose({ kind: "message", serial: message.serial });
  return make("button", { type: "button", class: `message ${message.kind}`, onclick: act },
    make("span", { class: "dot", "aria-hidden": "true" }), words ?? `${message.kind} ${message.serial}`);
}

// Numbers in brief: 1, 2, 4 to 9.
function ranges(numbers) {
  const found = [];
  for (const it of numbers) {
    const last = found.at(-1);
    if (last && last[1] + 1 === it) {
      last[1] = it;
    } else {
      found.push([it, it]);
    }
  }
  return found.map(([from, to]) => (from === to ? `${from}` : to === from + 1 ? `${from}, ${to}` : `${from} to ${to}`)).join(", ");
}

function housesOf(numbers) {
  return `${numbers.length === 1 ? "house" : "houses"} ${ranges(numbers)}`;
}

// What a value means, after its octets.
function meaningOf(place) {
  const meaning = data.values[place];
  return meaning ? make("span", { class: "meaning" }, ` ${meaning}`) : null;
}

// The words of a fact, whose stamps can be chosen.
function factWords(place, said) {
  const { attribute, value } = keyOf(place);
  const words = data.words[said].split(" ");
  if (value !== undefined) {
    return [`${words[0]} `, stampOf(words[1])];
  }
  if (attribute !== undefined) {
    return words[0] === "none" ? [make("span", { class: "quiet" }, "never cleared")] : ["cleared ", stampOf(words[0])];
  }
  const death = words[2] === "live" ? [", live"] : [", deleted ", stampOf(words[2])];
  return [`${words[0]}, born `, stampOf(words[1]), ...death];
}

// The words of a fact as a text.
function factText(place, said) {
  return factWords(place, said).map((it) => it.textContent ?? it).join("");
}

// The stamps of a fact.
function stampsOf(said) {
  return data.words[said].split(" ").filter((it) => it.includes("@"));
}

// What a change of a fact says, as a text: of which entry, and what became of it.
function changeWords({ key, now, before }) {
  const { entry, attribute, value } = keyOf(key);
  const name = [entry, attribute, value && shortened(value)].filter((it) => it !== undefined).join(" ");
  const [words, old] = [now < 0 ? [] : data.words[now].split(" "), before < 0 ? [] : data.words[before].split(" ")];
  if (now < 0) {
    return attribute === undefined || value !== undefined ? `${name}: ${goneWords(old)}` : null;
  }
  if (value !== undefined) {
    return `${name}: ${words[0] === "present" ? "added" : "removed"} ${brief(words[1])}`;
  }
  if (attribute !== undefined) {
    return words[0] === "none" ? null : `${name}: cleared ${brief(words[0])}`;
  }
  if (words[2] !== "live") {
    return old[1] === words[1] ? `${name}: deleted ${brief(words[2])}` : `${name}: ${words[0]}, born ${brief(words[1])}, deleted ${brief(words[2])}`;
  }
  return `${name}: ${words[0]}, ${old.length ? "born anew" : "born"} ${brief(words[1])}`;
}

// What is not there any more: what was deleted is purged, and of what was not the house took another copy, or it was overtaken.
function goneWords(old) {
  const isDeleted = old[0] === "absent" || (old.length === 3 && old[2] !== "live");
  const was = old.length === 3 ? `${old[0]}, born ${sayWord(old[1])}, ${old[2] === "live" ? "live" : `deleted ${sayWord(old[2])}`}` : old.map(sayWord).join(" ");
  return `${isDeleted ? "purged" : "gone"} (it was ${was})`;
}

function sayWord(word) {
  return word.includes("@") ? brief(word) : word;
}

function shortened(text, most = 24) {
  return text.length <= most ? text : `${text.slice(0, most - 1)}…`;
}

// What a message carries, as texts, at most so many.
function loadWords(message, most) {
  if (message.load < 0) {
    return [];
  }
  const [pairs, count, , members] = data.loads[message.load];
  const found = members ? [`a copy, members ${members}`] : [];
  for (let at = 0; at < pairs.length && found.length < most; at += 2) {
    const words = changeWords({ key: pairs[at], now: pairs[at + 1], before: -1 });
    if (words) {
      found.push(words);
    }
  }
  const left = count - pairs.length / 2;
  return left > 0 || pairs.length / 2 > most ? [...found, `… of ${plural(count, "fact")}`] : found;
}

// Where a message goes.
function wayOf(message) {
  if (message.sender === null) {
    return "from a house that the script does not say";
  }
  return `from house ${message.sender} to house ${message.receiver}`;
}
