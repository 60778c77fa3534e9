// What happened, as the tool packed it, and the state of the cell at the present step.

const data = JSON.parse(document.getElementById("data").textContent);

const steps = data.steps.map(([at, line, command, house, dirs, outcome, changed, serial, answer, label, stop], index) =>
  ({ index, at, line, command, house, dirs, outcome, changed, serial, answer, label, stop }));

const messages = new Map(data.messages.map(
  ([serial, kind, sender, receiver, dir, epoch, stamp, posted, deliveries, taken, lost, load]) =>
    [serial, { serial, kind, sender, receiver, dir, epoch, stamp, posted, deliveries, taken, lost, load }]));

const epochs = data.epochs.map(([dir, number, master, members, secondary, at]) => ({ dir, number, master, members, secondary, at }));

const skulks = data.skulks.map(([dir, house, stamp, start, end, complete], index) =>
  ({ dir, house, stamp, start, end, complete, index, answers: data.answered[index] }));

const stepOfLine = new Map(steps.map((step) => [step.line, step]));
const textOfLine = new Map(data.lines);
const houseOfNode = new Map(Object.entries(data.nodes).map(([house, node]) => [node, house]));

// The present step, by its index, and what each house has then.
const present = { index: -1, houses: new Map() };

// For each step, once it was taken, what takes it back.
const undos = [];

// Each key of a fact as its entry, attribute and value.
const keys = new Map();
function keyOf(place) {
  let key = keys.get(place);
  if (!key) {
    const [entry, attribute, value] = data.words[place].split("\t");
    key = { entry, attribute, value, text: data.words[place], place };
    keys.set(place, key);
  }
  return key;
}

// A house as it is at the present step.
function houseOf(number) {
  let house = present.houses.get(number);
  if (!house) {
    house = { floor: 0, size: 0, puts: 0, replicas: new Map() };
    present.houses.set(number, house);
  }
  return house;
}

// What a house has of a directory: the head of its dump, and its facts by the places of their keys.
function replicaOf(number, dir) {
  const house = houseOf(number);
  let replica = house.replicas.get(dir);
  if (!replica) {
    replica = { head: "", facts: new Map(), signature: null };
    house.replicas.set(dir, replica);
  }
  return replica;
}

// Makes the changes of a house, and returns those that take them back.
function change([number, floor, size, puts, directories]) {
  const house = houseOf(number);
  const before = [number, house.floor, house.size, house.puts, []];
  [house.floor, house.size, house.puts] = [floor, size, puts];
  for (const [dir, head, pairs] of directories) {
    before[4].push(changeReplica(replicaOf(number, dir), dir, head, pairs));
  }
  return before;
}

// Makes the changes of a replica, and returns those that take them back.
function changeReplica(replica, dir, head, pairs) {
  const before = [dir, head === null ? null : replica.head, []];
  if (head !== null) {
    replica.head = head;
  }
  for (let at = 0; at < pairs.length; at += 2) {
    const [key, said] = [pairs[at], pairs[at + 1]];
    before[2].push(key, replica.facts.get(key) ?? -1);
    if (said < 0) {
      replica.facts.delete(key);
    } else {
      replica.facts.set(key, said);
    }
  }
  replica.signature = null;
  return before;
}

// Goes to a step, by way of all between.
function goTo(index) {
  while (present.index < index) {
    present.index += 1;
    undos[present.index] = data.changes[present.index + 1].map(change);
  }
  while (present.index > index) {
    undos[present.index].toReversed().forEach(change);
    present.index -= 1;
  }
}

// Takes each step once, so that it is known what each takes away.
function takeAll() {
  data.changes[0].forEach(change);
  goTo(steps.length - 1);
}

// The changes of the present step: for each house and directory the new and the old head, and for each key the new and the old word.
function presentChanges() {
  return data.changes[present.index + 1].map(([number, floor, size, puts, directories], at) => {
    const [, oldFloor, , oldPuts, olds] = undos[present.index][at];
    const replicas = directories.map(([dir, head, pairs], place) => {
      const [, oldHead, oldPairs] = olds[place];
      const facts = [];
      for (let it = 0; it < pairs.length; it += 2) {
        facts.push({ key: pairs[it], now: pairs[it + 1], before: oldPairs[it + 1] });
      }
      return { dir, head, oldHead, facts };
    });
    return { number, floor, oldFloor, puts, oldPuts, replicas };
  });
}

// The step that is the first one drawn at a place of the replay or after it; places have their own numbers where steps are left out.
function columnOf(at) {
  let [low, high] = [0, steps.length];
  while (low < high) {
    const middle = (low + high) >> 1;
    if (steps[middle].at < at) {
      low = middle + 1;
    } else {
      high = middle;
    }
  }
  return low;
}

// Whether a house is down after a place of the replay.
function isDown(house, at) {
  return (data.downs[house] ?? []).some(([from, to]) => from <= at && (to === null || to > at));
}

// Whether a house was made by a place of the replay.
function isMade(house, at) {
  return data.born[house] !== undefined && data.born[house] <= at;
}

// The last epoch of a directory after a place of the replay, or undefined.
function lastEpoch(dir, at) {
  return epochs.findLast((it) => it.dir === dir && it.at <= at);
}

// The epoch, AllUpTo and members of a head of a dump; or the epoch in which the house left; or null. Many houses have one head.
const heads = new Map();
function headOf(head) {
  if (!heads.has(head)) {
    heads.set(head, readHead(head));
  }
  return heads.get(head);
}

function readHead(head) {
  const words = head.split(" ");
  if (words[0] === "left") {
    return { left: Number(words[1]), members: [] };
  }
  if (words[0] !== "epoch") {
    return null;
  }
  const members = words.slice(5).map((it) => it.split(":"))
    .map(([house, since, kind]) => ({ house: Number(house), since: Number(since), kind }));
  return { epoch: Number(words[1]), upTo: words[3] === "none" ? null : words[3], members };
}

// The skulk that a house runs of a directory after a place of the replay, with who has answered in its round; or null.
function runningSkulk(house, dir, at) {
  const skulk = skulks.findLast((it) => it.house === house && it.dir === dir && it.start <= at && (it.end === null || it.end > at));
  if (!skulk) {
    return null;
  }
  let [round, answered] = [1, []];
  for (const [place, sender, ends] of skulk.answers) {
    if (place <= at) {
      [round, answered] = ends ? [2, []] : [round, [...answered, sender]];
    }
  }
  return { skulk, round, answered };
}

// Stamps by their times and then by their nodes.
function compareStamps(one, other) {
  const [[time, node], [otherTime, otherNode]] = [one.split("@"), other.split("@")];
  const [first, second] = [BigInt(time), BigInt(otherTime)];
  if (first !== second) {
    return first < second ? -1 : 1;
  }
  return node < otherNode ? -1 : node > otherNode ? 1 : 0;
}

// The messages that are under way after a place of the replay: neither lost nor taken.
function underWay(at) {
  const found = [];
  for (const it of messages.values()) {
    if (it.posted <= at && !(it.lost !== null && it.lost <= at) && !(it.taken !== null && it.taken <= at)) {
      found.push(it);
    }
  }
  return found;
}
