// The messages of the time picture as arrows; where one goes on out of the window, its end names the line, and leads there.

const MOST_ARROWS = 8; // of one step that end outside of the window; more are counted

// All arrows of the window.
function arrows() {
  const found = [];
  const hidden = new Map();
  for (const message of messages.values()) {
    if (isInView(message)) {
      const isShown = yOf(message.sender, message.dir) !== undefined && yOf(message.receiver, message.dir) !== undefined;
      const isEnded = [...message.deliveries, message.lost].some((at) => at !== null && isColumn(at));
      if (isShown && message.lost !== message.posted && (isEnded || postedAt(message.posted) <= MOST_ARROWS)) {
        found.push(arrowOf(message));
      } else if (message.posted >= view.from && yOf(message.sender, message.dir) !== undefined) {
        hidden.set(message.posted, [...(hidden.get(message.posted) ?? []), message]);
      }
    }
  }
  return [...found, ...[...hidden].map(([at, own]) => hiddenOf(at, own))];
}

// How many messages a step posts.
let postedCounts = null;
function postedAt(at) {
  if (postedCounts === null) {
    postedCounts = new Map();
    messages.forEach(({ posted }) => postedCounts.set(posted, (postedCounts.get(posted) ?? 0) + 1));
  }
  return postedCounts.get(at) ?? 0;
}

// Whether a message is posted, delivered or lost in the window.
function isInView(message) {
  const isIn = (at) => at !== null && at >= view.from && at <= view.to;
  return message.sender !== null && message.posted <= view.to && (data.dir === null || data.dir === message.dir)
    && (isIn(message.posted) || isIn(message.lost) || message.deliveries.some(isIn));
}

// How many messages go to houses that are not shown.
function hiddenOf(at, own) {
  const [x, y] = [xOf(columnOf(at)), yOf(own[0].sender, own[0].dir)];
  const words = own.every((it) => it.lost === it.posted) ? `${own.length} lost` : `+${own.length}`;
  return draw("g", { class: own[0].kind }, draw("title", {}, `${own[0].kind} ${ranges(own.map((it) => it.serial))} to ${housesOf(own.map((it) => it.receiver))}`),
    draw("text", { x, y: y + MARK / 2 + 11, class: "number more" }, words));
}

// Which way a message goes: 1 down, or -1 up.
function signOfWay(message) {
  return yOf(message.receiver, message.dir) > yOf(message.sender, message.dir) ? 1 : -1;
}

// Where a message is lost: before it comes to its receiver.
function breakOf(message) {
  return yOf(message.receiver, message.dir) - signOfWay(message) * LANE / 2;
}

// A message: from where it was posted to each delivery, to where it was lost, and out of the window.
function arrowOf(message) {
  const isHome = isColumn(message.posted);
  const ends = message.deliveries.filter(isColumn).map((at) => deliveryOf(message, at, isHome));
  if (message.lost !== null && isColumn(message.lost)) {
    ends.push(lossOf(message, isHome));
  }
  const beyond = [...message.deliveries, message.lost].filter((at) => at !== null && at > view.to);
  const isOpen = message.lost === null && message.deliveries.length === 0;
  if (isHome && (beyond.length || isOpen)) {
    ends.push(exitOf(message, beyond[0] ?? null));
  }
  const isSoon = message.posted > steps[present.index].at;
  const isChosen = choice.chosen?.kind === "message" && choice.chosen.serial === message.serial;
  const words = `${message.kind} ${message.serial} ${wayOf(message)}${loadWords(message, 3).map((it) => `\n${it}`).join("")}`;
  const kind = `${message.kind} arrow${isSoon ? " soon" : ""}${isChosen ? " chosen" : ""}`;
  return draw("g", { class: kind, onclick: () => choose({ kind: "message", serial: message.serial }) }, draw("title", {}, words), ends);
}

// Whether a place of the replay has a column in the window.
function isColumn(at) {
  return at >= view.from && at <= view.to && steps[columnOf(at)].at === at;
}

// Where a message leaves its sender.
function startOf(message) {
  const step = steps[columnOf(message.posted)];
  const isMark = step.house === message.sender;
  return [xOf(step.index), yOf(message.sender, message.dir) + signOfWay(message) * (isMark ? MARK / 2 : 0)];
}

// The arrow to a delivery, from where the message was posted, or from a line before the window.
function deliveryOf(message, at, isHome) {
  const [sign, step] = [signOfWay(message), steps[columnOf(at)]];
  const end = [xOf(step.index), yOf(message.receiver, message.dir) - sign * (MARK / 2 + 1)];
  const begin = isHome ? startOf(message) : [end[0] - view.pitch * 0.7, end[1] - sign * 20];
  return [...wayShapes([begin, end]), headShape(begin, end, !step.changed), isHome ? null : stubOf(begin, message.posted, "<", sign)];
}

// The way to the cross where a message was lost.
function lossOf(message, isHome) {
  const x = xOf(columnOf(message.lost)) - view.width / 2 - 6;
  const end = [x, breakOf(message)];
  const begin = isHome ? startOf(message) : [x - view.pitch * 0.6, end[1] - signOfWay(message) * 14];
  const cross = draw("path", { d: `M${end[0]} ${end[1]}m-4.5-4.5l9 9m0-9l-9 9`, class: "cross" });
  return [...wayShapes([begin, end]), cross, isHome ? null : stubOf(begin, message.posted, "<", signOfWay(message))];
}

// The beginning of a way that leads out of the window, or nowhere.
function exitOf(message, at) {
  const [x, y] = startOf(message);
  const end = [x + view.pitch * 0.6, y + signOfWay(message) * 10];
  return [...wayShapes([[x, y], end]), at === null ? draw("circle", { cx: end[0], cy: end[1], r: 2.6, class: "hollow" }) : stubOf(end, at, ">", signOfWay(message))];
}

// A line of the script at which a way goes on, as a link.
function stubOf([x, y], at, sign, way) {
  return draw("a", { href: `#line-${lineAt(at)}`, tabindex: "-1", "aria-label": `goes on in line ${lineAt(at)}` },
    draw("text", { x, y: y + (sign === "<" ? -way * 8 : way * 8) + 4, class: sign === "<" ? "stub end" : "stub" }, sign === "<" ? `<${lineAt(at)}` : `>${lineAt(at)}`));
}

// A way, and a wider one that a pointer finds.
function wayShapes(points) {
  const d = points.map(([x, y], at) => `${at ? "L" : "M"}${x} ${y}`).join("");
  return [draw("path", { d, class: "hit" }), draw("path", { d, class: "line" })];
}

// The head of an arrow, hollow where the message was not taken.
function headShape([fromX, fromY], [x, y], isHollow) {
  const angle = Math.atan2(y - fromY, x - fromX);
  const corner = (turn) => `L${x - 8 * Math.cos(angle + turn)} ${y - 8 * Math.sin(angle + turn)}`;
  return draw("path", { d: `M${x} ${y}${corner(0.4)}${corner(-0.4)}Z`, class: isHollow ? "hollow" : "head" });
}
