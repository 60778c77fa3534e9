// How a fact of a house differs from what the master has: on its way, missed, only here, purged here, or purged at the master.

// The messages under way by receiver and directory, and for each of these, where it is asked, what they bring: by the place of a key
// what the messages say of it.
function comingTo(at) {
  const [waiting, known] = [new Map(), new Map()];
  for (const message of underWay(at)) {
    if (message.load >= 0) {
      const place = `${message.receiver} ${message.dir}`;
      waiting.set(place, [...(waiting.get(place) ?? []), message]);
    }
  }
  return (house, dir) => {
    const place = `${house} ${dir}`;
    if (!known.has(place)) {
      known.set(place, factsOf(waiting.get(place) ?? []));
    }
    return known.get(place);
  };
}

// What messages say of keys.
function factsOf(found) {
  const facts = new Map();
  for (const message of found) {
    const [pairs] = data.loads[message.load];
    for (let at = 0; at < pairs.length; at += 2) {
      facts.set(pairs[at], [...(facts.get(pairs[at]) ?? []), { said: pairs[at + 1], message }]);
    }
  }
  return facts;
}

// The stamp by which a fact wins over another one.
function strength(key, said) {
  const words = data.words[said].split(" ");
  if (key.value !== undefined) {
    return words[1];
  }
  if (key.attribute !== undefined) {
    return words[0] === "none" ? null : words[0];
  }
  return words[1];
}

// Whether a fact says that something is gone, so that it is purged up to AllUpTo.
function isDeletion(key, said) {
  const words = data.words[said].split(" ");
  if (key.value !== undefined) {
    return words[0] === "absent";
  }
  return key.attribute === undefined ? words[2] !== "live" : true;
}

// The stamp of a deletion.
function deletionOf(key, said) {
  const words = data.words[said].split(" ");
  return key.value === undefined && key.attribute === undefined ? words[2] : strength(key, said);
}

// The death of the entry of a fact in a replica, or null.
function deathIn(replica, key) {
  const said = saidOf(replica, key.entry);
  const death = said === undefined ? "live" : data.words[said].split(" ")[2];
  return death === "live" ? null : death;
}

// What a replica says of a key, by its text.
const placeOfWord = new Map();
function saidOf(replica, text) {
  if (placeOfWord.size === 0) {
    data.words.forEach((word, place) => placeOfWord.set(word, place));
  }
  return replica.facts.get(placeOfWord.get(text));
}

// Whether a stamp is not later than the AllUpTo of a head.
function isUpTo(stamp, head) {
  return stamp !== null && Boolean(head?.upTo) && compareStamps(stamp, head.upTo) <= 0;
}

// How what a column has of a fact differs from what the master has, or nothing.
function signOf(key, { houses, replica }, master) {
  const head = headOf(replica.head);
  if (houses.includes(master.number) || !head || head.left || !master.head || master.head.left) {
    return "";
  }
  const [own, due] = [replica.facts.get(key.place), master.replica.facts.get(key.place)];
  if (own === due) {
    return "";
  }
  if (own === undefined) {
    return signOfMissing(key, due, head, replica, master);
  }
  return due === undefined ? signOfOwn(key, own, head, master) : signOfOther(key, own, due, head, master);
}

// A fact that the master alone has: purged here, or overtaken by what is later here, or missed.
function signOfMissing(key, due, head, replica, master) {
  const gone = isDeletion(key, due) ? deletionOf(key, due) : deathIn(master.replica, key);
  if (data.words[due] === "none") {
    return "";
  }
  if (isUpTo(gone, head)) {
    return "purged";
  }
  return isOvertaken(key, strength(key, due), replica) ? "ahead" : "missed";
}

// A fact that the master has not: it purged it, or has something later, or does not know of it.
function signOfOwn(key, own, head, master) {
  const stamp = isDeletion(key, own) ? deletionOf(key, own) : strength(key, own);
  if (stamp === null) {
    return "";
  }
  if (isUpTo(stamp, master.head)) {
    return "kept";
  }
  return isOvertaken(key, stamp, master.replica) ? "missed" : "ahead";
}

// Whether a replica has something later that takes the place of a value or an attribute: a birth, or a clear.
function isOvertaken(key, stamp, replica) {
  if (key.attribute === undefined || stamp === null) {
    return false;
  }
  const entry = saidOf(replica, key.entry);
  const clear = saidOf(replica, `${key.entry}\t${key.attribute}`);
  const later = [entry === undefined ? null : data.words[entry].split(" ")[1], clear === undefined || data.words[clear] === "none" ? null : data.words[clear]];
  return later.some((it) => it !== null && compareStamps(it, stamp) > 0);
}

// A fact that both have, and not the same.
function signOfOther(key, own, due, head, master) {
  const [one, other] = [data.words[own].split(" "), data.words[due].split(" ")];
  if (key.attribute === undefined && one[1] === other[1]) {
    return one[2] === "live" || (other[2] !== "live" && compareStamps(one[2], other[2]) < 0) ? "missed" : "ahead";
  }
  const [first, second] = [strength(key, own), strength(key, due)];
  if (first === null) {
    return isUpTo(second, head) ? "purged" : "missed";
  }
  if (second === null) {
    return isUpTo(first, master.head) ? "kept" : "ahead";
  }
  return compareStamps(first, second) < 0 ? "missed" : "ahead";
}
