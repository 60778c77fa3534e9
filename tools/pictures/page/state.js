// The state after the present line: what it changed, the directories, the messages under way, and the houses.

const MOST_CHANGES = 14;
const MOST_MESSAGES = 40; // that are listed one by one

// The whole pane.
function showState(step) {
  const changes = presentChanges();
  const { at } = step;
  const said = changesSaid(step, changes);
  const coming = comingTo(at);
  const parts = [
    changesPanel(said),
    choicePanel(at),
    stopPanel(step),
    clerkPanel(step),
    isSearch(step) ? namesPanel(step, true) : null,
    tableOptions(),
    ...directoriesKnown(at).map((dir) => directoryTable(dir, at, changes, coming)),
    messagesPanel(at),
    housesPanel(at, changes),
    isSearch(step) ? null : namesPanel(step, false),
  ];
  byId("holds").replaceChildren(...parts.flat().filter((it) => it));
  byId("state-head").textContent = `State after line ${step.line}`;
  return said;
}

// What the present line changed, as texts.
function changesSaid(step, changes) {
  const found = ownWords(step);
  for (const { number, floor, oldFloor, replicas } of changes) {
    const before = found.length;
    for (const { dir, head, oldHead, facts } of replicas) {
      const place = directoriesKnown(step.at).length > 1 ? `house ${number}, directory ${dir}: ` : `house ${number}: `;
      found.push(...headChange(head, oldHead).map((it) => place + it));
      found.push(...facts.map(changeWords).filter((it) => it).map((it) => place + it));
    }
    if (floor !== oldFloor && before === found.length) {
      found.push(`house ${number}: floor ${floor} (it was ${oldFloor})`);
    }
  }
  return [...found, ...postedSaid(step)];
}

// What commands do that no replica shows: houses are made, go down and come up, clocks are set, messages are lost.
function ownWords(step) {
  if (step.outcome.startsWith("stopped")) {
    return [`house ${step.house} loses power, and is down`];
  }
  if (step.outcome !== "ok") {
    return [];
  }
  const time = () => data.clocks.find(([at]) => at === step.at)[2];
  const message = messageOf(step);
  const words = { house: () => `house ${step.house} is made`, crash: () => `house ${step.house} goes down, and its skulks end`,
    start: () => `house ${step.house} is up`, clock: () => `house ${step.house}: clock ${time()}`,
    lose: () => message && `${message.kind} ${message.serial} ${wayOf(message)} is lost${carriedWords(message)}` }[step.command]?.();
  return words ? [words] : [];
}

function carriedWords(message) {
  const carried = loadWords(message, 2);
  return carried.length ? `: ${carried.join("; ")}` : "";
}

// What became of the epoch and the AllUpTo of a replica.
function headChange(head, oldHead) {
  if (head === null) {
    return [];
  }
  const [now, before] = [headOf(head), headOf(oldHead)];
  if (now?.left) {
    return [`leaves, epoch ${now.left}`];
  }
  const found = [];
  if (!before || before.left || now.epoch !== before.epoch) {
    const mates = now.members.map((it) => (it.kind === "s" ? `s${it.house}` : it.house)).join(" ");
    found.push(`is in epoch ${now.epoch} now, master ${now.members.find((it) => it.kind === "m").house}, members ${mates}`);
  }
  if (now.upTo !== (before?.upTo ?? null)) {
    found.push(`AllUpTo ${now.upTo ? brief(now.upTo) : "none"} (it was ${before?.upTo ? brief(before.upTo) : "none"})`);
  }
  return found;
}

// The messages that a step posts, by their kinds.
function postedSaid(step) {
  const kinds = new Map();
  for (const it of messages.values()) {
    if (it.posted === step.at) {
      kinds.set(it.kind, [...(kinds.get(it.kind) ?? []), it]);
    }
  }
  return [...kinds].map(([kind, own]) => {
    const to = own[0].receiver === null ? "" : ` to ${housesOf([...new Set(own.map((it) => it.receiver))].sort((a, b) => a - b))}`;
    const lost = own.every((it) => it.lost === step.at) ? ", lost at once" : "";
    return `posts ${kind} ${ranges(own.map((it) => it.serial))}${to}${lost}`;
  });
}

function changesPanel(said) {
  const shown = said.slice(0, MOST_CHANGES);
  const more = said.length > shown.length ? make("li", {}, `… and ${said.length - shown.length} more`) : null;
  const list = said.length ? make("ul", { class: "changes" }, shown.map((it) => make("li", {}, it)), more) : make("p", { class: "quiet" }, "Nothing.");
  return make("section", { "aria-label": "what this line changed" }, make("h3", {}, "What this line changed"), list);
}

// What the tables show.
function tableOptions() {
  const differing = make("input", { type: "checkbox", id: "differing" });
  differing.checked = options.onlyDiffering;
  differing.addEventListener("change", () => { options.onlyDiffering = differing.checked; show(); });
  const houses = make("input", { id: "houses", placeholder: "all", size: "10", value: options.houses ? [...options.houses].join(" ") : "" });
  houses.addEventListener("change", () => { options.houses = numbersOf(houses.value); show(); });
  return make("p", { class: "options" }, make("label", {}, differing, " only rows that differ"), " ", make("label", {}, "houses ", houses));
}

// Houses by their numbers, as in `1 4-6`, or null for all.
function numbersOf(text) {
  const found = new Set();
  for (const [, from, to] of text.matchAll(/(\d{1,3})(?:\s*-\s*(\d{1,3}))?/g)) {
    for (let it = Number(from); it <= Number(to ?? from); it += 1) {
      found.add(it);
    }
  }
  return found.size ? found : null;
}

// The messages under way, by receiver.
function messagesPanel(at) {
  const found = underWay(at);
  const receivers = new Map();
  found.forEach((it) => receivers.set(it.receiver, [...(receivers.get(it.receiver) ?? []), it]));
  const most = Math.max(1, Math.floor(MOST_MESSAGES / receivers.size));
  const rows = [...receivers].sort(([a], [b]) => a - b).map(([receiver, own]) => {
    const shown = own.slice(0, most);
    const left = own.slice(most).map((it) => it.serial);
    const more = left.length ? make("li", {}, `… and ${left.length} more: ${shortened(ranges(left), 60)}`) : null;
    return [make("dt", {}, receiver === null ? "to a house that the script does not say" : `to house ${receiver}`),
      make("dd", {}, make("ul", {}, shown.map((it) => messageItem(it, at)), more))];
  });
  const body = rows.length ? make("dl", { class: "messages" }, rows) : make("p", { class: "quiet" }, "None.");
  return make("section", { id: "under-way", "aria-label": "messages under way" }, make("h3", {}, `Messages under way (${found.length})`), body);
}

// A message under way: from where, what it carries, and whether it came in vain.
function messageItem(message, at) {
  const vain = message.deliveries.filter((it) => it <= at).map((it) => `line ${lineAt(it)}: ${outcomeAt(it)}`);
  const carried = loadWords(message, 3).join("; ");
  return make("li", {}, messageLink(message), message.sender === null ? "" : ` from ${message.sender}`,
    carried ? make("span", { class: "carried" }, ` ${carried}`) : null,
    vain.length ? make("span", { class: "tag" }, ` came in vain, ${vain.join(", ")}`) : null);
}

// The houses: up or down, their clocks and floors.
function housesPanel(at, changes) {
  const made = Object.keys(data.nodes).map(Number).filter((it) => isMade(it, at));
  const shown = options.houses ? made.filter((it) => options.houses.has(it)) : made;
  const touched = new Set(changes.map((it) => it.number));
  const clocks = clocksAt(at);
  const isJournal = data.form === "journal";
  const rows = shown.map((it) => make("tr", {}, make("th", { scope: "row" }, `house ${it}`), make("td", {}, make("code", {}, data.nodes[it])),
    make("td", { class: isDown(it, at) ? "missed" : null }, isDown(it, at) ? "down" : "up"), make("td", {}, clocks.get(it) ?? "0"),
    make("td", { class: touched.has(it) ? "changed" : null }, `${houseOf(it).floor}`),
    isJournal ? make("td", {}, `${houseOf(it).puts} put, the last of ${houseOf(it).size} octets`) : null));
  const names = ["", "node", "is", "clock", "floor", ...(isJournal ? ["images in its journal"] : [])];
  const head = make("thead", {}, make("tr", {}, names.map((it) => (it ? make("th", { scope: "col" }, it) : make("td", {})))));
  const open = made.length <= 12;
  return make("details", { open }, make("summary", {}, make("h3", {}, plural(made.length, "house"))),
    make("div", { class: "scroll" }, make("table", { class: "houses" }, head, make("tbody", {}, rows))));
}

// The clocks that the script set.
function clocksAt(at) {
  const clocks = new Map();
  for (const [place, house, time] of data.clocks) {
    if (place <= at) {
      clocks.set(house, time);
    }
  }
  return clocks;
}
