// A directory as a table: a column for each house that has to do with it, a row for each fact, as `dump` lists them.

const MOST_COLUMNS = 8; // of single houses; of more those that have the same share one
const MOST_CELLS = 400;
const options = { onlyDiffering: false, houses: null, all: new Set() };

// The directories that there are.
function directoriesKnown(at) {
  return Object.keys(data.names).map(Number).filter((dir) => (data.dir === null || dir === data.dir) && lastEpoch(dir, at));
}

// The houses that have a column: those that hold the directory or left it, and those that its last epoch lists.
function housesWith(dir, at) {
  const found = new Set(lastEpoch(dir, at).members);
  for (const [number, house] of present.houses) {
    if (house.replicas.get(dir)?.head) {
      found.add(number);
    }
  }
  const all = [...found].sort((a, b) => a - b);
  return options.houses ? all.filter((it) => options.houses.has(it)) : all;
}

// All that a house has of a directory, as a text by which houses are compared.
function signatureOf(number, dir, at) {
  const replica = replicaOf(number, dir);
  replica.signature ??= `${replica.head} ${[...replica.facts].sort(([a], [b]) => a - b).join(" ")}`;
  const own = headOf(replica.head)?.members.find((it) => it.house === number);
  const isMaster = lastEpoch(dir, at).master === number;
  return `${isMaster} ${own?.kind} ${own?.since} ${isDown(number, at)} ${runningSkulk(number, dir, at)?.skulk.index ?? "-"} ${replica.signature}`;
}

// The columns of a table: a house each, or of many houses those that have the same.
function columnsOf(dir, at, changed) {
  const houses = housesWith(dir, at);
  if (houses.length <= MOST_COLUMNS) {
    return houses.map((number) => ({ houses: [number], replica: replicaOf(number, dir) }));
  }
  const groups = new Map();
  for (const number of houses) {
    const same = changed.has(number) ? `changed ${number}` : signatureOf(number, dir, at);
    groups.set(same, [...(groups.get(same) ?? []), number]);
  }
  return [...groups.values()].map((found) => ({ houses: found, replica: replicaOf(found[0], dir) }));
}

// The table of a directory.
function directoryTable(dir, at, changes, coming) {
  const changed = new Map();
  for (const { number, replicas } of changes) {
    const own = replicas.find((it) => it.dir === dir);
    if (own) {
      changed.set(number, { ...headChanged(own), facts: new Map(own.facts.map((it) => [it.key, it])) });
    }
  }
  const epoch = lastEpoch(dir, at);
  const columns = columnsOf(dir, at, changed);
  const master = { number: epoch.master, replica: replicaOf(epoch.master, dir) };
  master.head = headOf(master.replica.head);
  const rows = rowsOf(dir, columns, master, changed, coming);
  const members = membersSaid(epoch);
  return make("section", { class: "directory", "aria-label": `directory ${dir}` },
    make("h3", {}, `Directory ${dir} `, make("small", {}, `${data.names[dir]}, ${members}`)),
    make("div", { class: "scroll", tabindex: "0", role: "group", "aria-label": `table of directory ${dir}` },
      make("table", { "data-dir": dir }, headRows(dir, at, columns, epoch, changed), make("tbody", {}, rows.shown))), rows.note);
}

// The members of an epoch, in words.
function membersSaid({ number, master, members, secondary }) {
  const others = members.filter((it) => it !== master && !secondary.includes(it));
  const parts = [[`secondary`, secondary], ["read-only", others]].filter(([, own]) => own.length).map(([words, own]) => `, ${words} ${ranges(own)}`);
  return `epoch ${number}: master ${master}${parts.join("")}`;
}

// Which of the rows above the facts are others than before.
function headChanged({ head, oldHead }) {
  const [now, before] = head === null ? [null, null] : [headOf(head), headOf(oldHead)];
  return { is: head !== null && (now?.epoch !== before?.epoch || now?.left !== before?.left), AllUpTo: (now?.upTo ?? null) !== (before?.upTo ?? null) };
}

// The rows above the facts: the house, what it is, its AllUpTo, and the skulk that it runs.
function headRows(dir, at, columns, epoch, changed) {
  const heads = columns.map(({ replica }) => headOf(replica.head));
  const mark = (it, name) => (columns[it].houses.some((house) => changed.get(house)?.[name]) ? "changed" : null);
  const row = (name, words) => make("tr", {}, make("th", { scope: "row" }, name),
    columns.map((column, it) => make("td", { class: mark(it, name) }, words(column, heads[it], it))));
  const runs = columns.map(({ houses }) => runningSkulk(houses[0], dir, at));
  return make("thead", {},
    make("tr", {}, make("td", {}), columns.map(({ houses }) => make("th", { scope: "col", class: houses.includes(epoch.master) ? "master" : null },
      housesOf(houses), isDown(houses[0], at) ? make("span", { class: "tag down" }, " down") : null))),
    row("is", ({ houses }, head) => roleWords(houses, head, epoch, at)),
    row("AllUpTo", (_, head) => (!head || head.left ? "" : head.upTo ? stampOf(head.upTo) : "none")),
    runs.some((it) => it) ? row("skulk", ({ houses }, head, it) => runs[it] && skulkWords(runs[it], houses[0], head)) : null);
}

// What a house is in a directory.
function roleWords(houses, head, epoch, at) {
  if (!head) {
    const joins = underWay(at).filter((it) => it.kind === "Join" && it.dir === epoch.dir && houses.includes(it.receiver));
    return [make("strong", { class: "tag missed" }, "holds none"),
      joins.length ? make("span", { class: "tag" }, ", on its way: ", joins.slice(0, 3).map((it) => [messageLink(it), " "])) : null];
  }
  if (head.left) {
    return `left, epoch ${head.left}`;
  }
  const kinds = [...new Set(houses.map((house) => head.members.find((it) => it.house === house)?.kind))];
  const words = kinds.map((it) => ({ m: "master", s: "secondary", r: "read-only" })[it] ?? "unlisted").join(", ");
  const since = head.members.find((it) => it.house === houses[0])?.since;
  const late = head.epoch < epoch.number ? make("strong", { class: "tag missed" }, ", earlier than the last") : null;
  return [`${words}, epoch ${head.epoch}`, since !== undefined && since !== 1 ? `, since ${since}` : "", late];
}

// Who has answered in the skulk that a house runs.
function skulkWords({ skulk, round, answered }, house, head) {
  const others = head.members.map((it) => it.house).filter((it) => it !== house);
  const waits = others.filter((it) => !answered.includes(it));
  const words = [stampOf(skulk.stamp), `, round ${round}`];
  words.push(answered.length ? `, answered: ${ranges([...answered].sort((a, b) => a - b))}` : "");
  return [...words, waits.length ? `, waits for ${ranges(waits)}` : ""];
}

// The rows of the facts, those first that matter where there are too many.
function rowsOf(dir, columns, master, changed, coming) {
  const places = new Set(columns.flatMap(({ replica }) => [...replica.facts.keys()]));
  changed.forEach(({ facts }) => facts.forEach((_, key) => places.add(key)));
  const sorted = [...places].map(keyOf).sort((one, other) => (one.text < other.text ? -1 : 1));
  const rows = sorted.map((key) => ({ key, signs: columns.map((column) => signOf(key, column, master)), ...changesOf(key, columns, changed) }));
  const matters = (row) => row.isChanged || row.signs.some((it) => it) || (choice.chosen?.kind === "entry" && choice.chosen.name === row.key.entry);
  const wanted = options.onlyDiffering ? rows.filter(matters) : rows;
  const most = Math.max(16, Math.floor(MOST_CELLS / columns.length));
  const isAll = wanted.length <= most || options.all.has(dir);
  const chosen = isAll ? wanted : wanted.filter((row, at) => matters(row) || at < most / 2).slice(0, most);
  const comes = (key, { houses }) => (coming(houses[0], dir).get(key.place) ?? [])
    .filter(({ said }) => said === master.replica.facts.get(key.place)).map(({ message }) => message);
  return { shown: chosen.map((row) => factRow(dir, row, columns, comes)), note: rowsNote(dir, rows.length, chosen.length, isAll) };
}

function rowsNote(dir, all, shown, isAll) {
  if (all === 0) {
    return make("p", { class: "quiet" }, "No entry is there.");
  }
  if (shown === all) {
    return null;
  }
  const more = isAll ? null : make("button", { type: "button", onclick: () => { options.all.add(dir); show(); } }, "Show all");
  return make("p", { class: "quiet" }, `${shown} of ${plural(all, "row")}${isAll ? ": those that differ or changed" : ""} `, more);
}

// What the present line changed of a fact, by column.
function changesOf(key, columns, changed) {
  const found = columns.map(({ houses }) => changed.get(houses[0])?.facts.get(key.place));
  return { found, isChanged: found.some((it) => it) };
}

// The row of a fact.
function factRow(dir, { key, signs, found }, columns, comes) {
  const { entry, attribute, value } = key;
  const isChosen = choice.chosen?.kind === "entry" && choice.chosen.dir === dir && choice.chosen.name === entry;
  const head = attribute === undefined
    ? make("button", { type: "button", class: "entry", onclick: () => choose({ kind: "entry", dir, name: entry }) }, entry)
    : value === undefined ? attribute : [make("span", { class: "octets", title: value }, value), meaningOf(key.place)];
  const level = attribute === undefined ? "entry" : value === undefined ? "attr" : "value";
  return make("tr", { class: `${level}${isChosen ? " chosen" : ""}`, "data-kind": level },
    make("th", { scope: "row" }, head), columns.map((column, it) =>
      factCell(key, column.replica, signs[it], found[it], signs[it] === "missed" ? comes(key, column) : [])));
}

const SIGNS = { missed: "missed", ahead: "only here", purged: "purged here", kept: "purged at the master" };

// What a house has of a fact: marked where it is not what the master has, and where the present line changed it.
function factCell(key, replica, sign, change, coming) {
  const said = replica.facts.get(key.place);
  const words = said !== undefined ? factWords(key.place, said)
    : change ? [make("del", {}, factText(key.place, change.before)), " gone"] : make("span", { class: "quiet" }, "–");
  const tag = coming.length ? [" on its way: ", coming.slice(0, 3).map((it) => [messageLink(it), " "])] : sign ? ` ${SIGNS[sign]}` : null;
  return make("td", { class: [coming.length ? "coming" : sign, change ? "changed" : ""].filter((it) => it).join(" ") || null },
    change ? make("span", { class: "new", title: "this line changed it" }, "● ") : null, words, tag ? make("span", { class: "tag" }, tag) : null);
}
