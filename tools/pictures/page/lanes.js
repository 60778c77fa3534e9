// The time picture around the present line: a window of columns, houses as lines, steps as marks. Arrows are in arrows.js.

const COLUMNS = 30;
const [LANE, NARROW, SUBLANE, MARK, TOP, HEADS] = [58, 38, 36, 17, 126, 112];
const MOST_LANES = 10; // of all houses; of more houses those alone that act in the window

const view = { first: 0, end: 0, pitch: 36, width: 26, lanes: [], tops: [], places: new Map() };

// The window, so that the present step is in the middle where that can be.
function lookAt(index) {
  view.first = Math.max(0, Math.min(index - COLUMNS / 2, steps.length - COLUMNS));
  view.end = Math.min(steps.length, view.first + COLUMNS);
  view.width = Math.max(24, 9 + 7 * String(steps.at(-1).line).length);
  view.pitch = view.width + 11;
  view.steps = steps.slice(view.first, view.end);
  view.from = steps[view.first].at;
  view.to = steps[view.end - 1].at;
  layLanes();
}

// Which houses have lines: all of a few, and else those that act in the window.
function shownHouses() {
  const made = Object.keys(data.nodes).map(Number).filter((it) => isMade(it, view.to)).sort((a, b) => a - b);
  if (options.houses) {
    return made.filter((it) => options.houses.has(it));
  }
  if (made.length <= MOST_LANES) {
    return made;
  }
  const acting = new Set(view.steps.filter((it) => it.command !== "house").map((it) => it.house));
  const found = made.filter((it) => acting.has(it));
  return found.length ? found : made.slice(-MOST_LANES);
}

// The directories that a house holds at some time in the window.
function dirsHeld(house) {
  const found = new Set();
  const roles = new Map();
  for (const [at, who, dir, role] of data.holdings) {
    if (who === house && at <= view.to && (data.dir === null || dir === data.dir)) {
      const before = roles.get(dir) ?? "none";
      if (at >= view.from && (before !== "none" || role !== "none")) {
        found.add(dir);
      }
      roles.set(dir, role);
    }
  }
  roles.forEach((role, dir) => role !== "none" && found.add(dir));
  return [...found].sort((a, b) => a - b);
}

// Gives each house its lines, one for each directory that it holds.
function layLanes() {
  view.lanes = shownHouses().flatMap((house) => {
    const dirs = dirsHeld(house);
    return (dirs.length ? dirs : [null]).map((dir, at) => ({ house, dir, isFirst: at === 0 }));
  });
  const lane = view.lanes.length > 8 ? NARROW : LANE;
  let y = TOP + LANE / 2 - lane;
  view.places = new Map();
  view.tops = view.lanes.map(({ house, dir, isFirst }, at) => {
    y += isFirst ? lane : SUBLANE;
    if (isFirst) {
      view.places.set(`${house}`, at);
    }
    view.places.set(`${house} ${dir}`, at);
    return y;
  });
  view.isSplit = new Set(view.lanes.map((it) => it.dir).filter((it) => it !== null)).size > 1;
  view.aside = y + LANE;
  view.isAside = view.steps.some((it) => laneOf(it) === null && !isBroken(it));
  view.bottom = (view.tops.at(-1) ?? TOP) + LANE / 2 + (view.isAside ? LANE : 0);
}

// The place of a column, whose mark is in its middle.
function xOf(index) {
  return 14 + (index - view.first + 0.5) * view.pitch;
}

// The line of a directory at a house, or undefined where it is not shown.
function yOf(house, dir) {
  const at = view.places.get(`${house} ${dir}`) ?? view.places.get(`${house}`);
  return at === undefined ? undefined : view.tops[at];
}

// The height of the line that a step is at, or null for none.
function laneOf(step) {
  const known = step.dirs.find((dir) => view.places.has(`${step.house} ${dir}`));
  return step.house === null ? null : yOf(step.house, known) ?? null;
}

// Whether a step loses a message whose way is shown.
function isBroken(step) {
  const message = messageOf(step);
  return step.command === "lose" && step.outcome === "ok" && Boolean(message) && yOf(message.sender, message.dir) !== undefined
    && yOf(message.receiver, message.dir) !== undefined;
}

// The whole picture, with the heads of the houses beside it, which stay.
function showLanes() {
  lookAt(present.index);
  const width = 28 + (view.end - view.first) * view.pitch + 60;
  const height = view.bottom + 54;
  const last = view.steps.at(-1).line;
  byId("time-head").replaceChildren("Time ", make("small", {}, `lines ${view.steps[0].line} to ${last} of ${steps.at(-1).line}`));
  const parts = [...shades(), ...guides(), ...lines(), ...uprights(), ...arrows(), ...rises(), ...marks()];
  const label = `the steps of lines ${view.steps[0].line} to ${last}`;
  const picture = draw("svg", { viewBox: `0 0 ${width} ${height}`, class: "lanes", role: "group", "aria-label": label }, cursor(), parts);
  const heads = draw("svg", { viewBox: `0 0 ${HEADS} ${height}`, class: "heads", "aria-hidden": "true" }, headNames());
  const scale = scaleOf();
  for (const [it, own] of [[picture, width], [heads, HEADS]]) {
    it.setAttribute("width", own * scale);
    it.setAttribute("height", height * scale);
  }
  const box = byId("lanes");
  box.replaceChildren(heads, picture);
  box.scrollLeft = Math.max(0, (xOf(present.index) + HEADS / 2) * scale - box.clientWidth / 2);
  const y = laneOf(steps[present.index]);
  if (y !== null && (y * scale > box.scrollTop + box.clientHeight - 40 || y * scale < box.scrollTop + TOP)) {
    box.scrollTop = y * scale - box.clientHeight / 2;
  }
}

// How great letters are, beside the usual size.
let scaleKnown = null;
function scaleOf() {
  scaleKnown ??= parseFloat(getComputedStyle(document.documentElement).fontSize) / 16;
  return scaleKnown;
}
window.addEventListener("resize", () => { scaleKnown = null; });

// The names of the houses, at their lines.
function headNames() {
  const names = view.lanes.flatMap(({ house, dir, isFirst }, at) => [
    isFirst ? draw("text", { x: 6, y: view.tops[at] + 4, class: "house ink" }, `house ${house}`) : null,
    view.isSplit && dir !== null ? draw("text", { x: HEADS - 6, y: view.tops[at] + 4, class: "dim end" }, `dir ${dir}`) : null]);
  return [...names, view.isAside ? draw("text", { x: 6, y: view.aside + 4, class: "dim" }, "elsewhere") : null];
}

// The band over the present step.
function cursor() {
  return draw("rect", { x: xOf(present.index) - view.pitch / 2, y: 0, width: view.pitch, height: view.bottom + 30, class: "cursor" });
}

// The shades of skulks: yellow where they are complete, dashed where not.
function shades() {
  const found = skulks.filter((it) => it.start <= view.to && (it.end === null || it.end >= view.from) && (data.dir === null || it.dir === data.dir));
  return found.map((skulk) => {
    const [from, to] = [Math.max(columnOf(skulk.start), view.first), skulk.end === null ? view.end : columnOf(skulk.end)];
    const left = skulk.start < view.from ? 0 : xOf(from) - view.width / 2 - 3;
    const right = to >= view.end ? xOf(view.end) - view.pitch / 2 : xOf(to) + view.width / 2 + 3;
    const words = `skulk ${brief(skulk.stamp)}${view.isSplit ? ` of dir ${skulk.dir}` : ""}${skulk.complete ? "" : ", not complete"}`;
    return draw("g", {}, draw("title", {}, `skulk ${skulk.stamp} of directory ${skulk.dir}, at house ${skulk.house}`),
      draw("rect", { x: left, y: TOP - 12, width: Math.max(right - left, 4), height: view.bottom - TOP + 12, rx: 4, class: skulk.complete ? "shade" : "open" }),
      draw("text", { x: left + 4, y: view.bottom + 14, class: "ink" }, words));
  });
}

// The words above the columns, and thin lines from there to the marks.
function guides() {
  return view.steps.map((step) => {
    const x = xOf(step.index);
    return draw("g", {}, draw("path", { d: `M${x} ${TOP - 12}V${heightOf(step)}`, class: "guide" }),
      draw("text", { x: x + 2, y: TOP - 16, class: "dim", transform: `rotate(-45 ${x} ${TOP - 16})` }, shortened(step.label, 22)));
  });
}

// How high the mark of a step is.
function heightOf(step) {
  return isBroken(step) ? breakOf(messageOf(step)) : laneOf(step) ?? view.aside;
}

// The lines of the houses: gone while a house is down, thick while it accepts updates.
function lines() {
  return view.lanes.flatMap(({ house, dir }, at) => {
    const own = data.holdings.filter(([, who, it]) => who === house && it === dir);
    const turns = [data.born[house], ...(data.downs[house] ?? []).flat(), ...own.map(([it]) => it)].filter((it) => it !== null && it > view.from && it <= view.to);
    const cuts = [view.from, ...new Set(turns.sort((a, b) => a - b)), null];
    return cuts.slice(0, -1).map((from, it) => {
      if (!isMade(house, from) || isDown(house, from)) {
        return null;
      }
      const role = own.findLast(([place]) => place <= from)?.[3] ?? "none";
      const style = { master: "lane master", secondary: "lane secondary", member: "lane", none: "lane without" }[role];
      const left = it === 0 && data.born[house] < view.from ? 0 : xOf(columnOf(from));
      const right = cuts[it + 1] === null ? xOf(view.end) - view.pitch / 2 + 10 : xOf(columnOf(cuts[it + 1]));
      return draw("path", { d: `M${left} ${view.tops[at]}H${right}`, class: style });
    });
  });
}

// Where epochs begin: upright lines, with their masters.
function uprights() {
  let [end, level] = [0, 0];
  return epochs.filter((it) => it.at >= view.from && it.at <= view.to && steps[columnOf(it.at)]?.at === it.at).map((epoch) => {
    const x = xOf(columnOf(epoch.at)) - view.pitch / 2;
    const signs = epoch.members.map((house) => [house, yOf(house, epoch.dir)]).filter(([, y]) => y !== undefined).map(([house, y]) => {
      const letter = house === epoch.master ? "M" : epoch.secondary.includes(house) ? "S" : null;
      return letter ? [draw("circle", { cx: x, cy: y, r: 8, class: "ink" }), draw("text", { x, y: y + 4, class: "number onink" }, letter)]
        : draw("circle", { cx: x, cy: y, r: 4, class: "ink" });
    });
    const label = `epoch ${epoch.number}${view.isSplit ? ` of dir ${epoch.dir}` : ""}`;
    level = x < end ? level + 1 : 0;
    end = x + 8 * label.length;
    const words = `epoch ${epoch.number} of directory ${epoch.dir}: master ${epoch.master}, members ${epoch.members.join(" ")}`;
    return draw("g", {}, draw("title", {}, words), draw("path", { d: `M${x} ${TOP - 10}V${view.bottom}`, class: "upright" }), signs,
      draw("text", { x: x + 3, y: view.bottom + 28 + 13 * level, class: "ink" }, label));
  });
}

// The marks of the steps.
function marks() {
  return view.steps.map((step) => {
    const [x, y, message] = [xOf(step.index), heightOf(step), messageOf(step)];
    const isDelivery = step.command === "deliver" && message !== undefined;
    const shape = shapeOf(step, isDelivery);
    const kind = `${isDelivery ? message.kind : "step"}${shape === "full" ? "" : " bare"}`;
    const words = `line ${step.line}: ${(textOfLine.get(step.line) ?? "").trim()}\n${shortened(step.answer, 400)}`;
    const bolt = step.outcome.startsWith("stopped") ? draw("path", { d: `M${x + view.width / 2} ${y - MARK / 2 + 2}m-3 5l1.5-6h-4l5-8l-.5 5h4z`, class: "bolt" }) : null;
    const named = { class: `${kind}${step.index === present.index ? " now" : ""}`, "aria-label": words.replace("\n", ": ") };
    return draw("a", { href: `#line-${step.line}`, tabindex: "-1", ...named }, draw("title", {}, words),
      draw("rect", { x: x - view.width / 2, y: y - MARK / 2, width: view.width, height: MARK, rx: isDelivery ? MARK / 2 : 2, class: shape }),
      draw("text", { x, y: y + 4, class: "number" }, step.line), bolt);
  });
}

const QUESTIONS = ["read", "readlink", "import", "dump", "octets", "decode", "image", "grouplist", "entrylist", "proflist", "lookup"];

// How a mark is filled.
function shapeOf(step, isDelivery) {
  if (step.outcome.startsWith("stopped")) {
    return step.outcome === "stopped after" ? "full" : "hollow";
  }
  if (isDelivery) {
    return step.changed ? "full" : "hollow";
  }
  return !["ok", "taken", "complete"].includes(step.outcome) ? "hollow refused" : QUESTIONS.includes(step.command) ? "asked" : "full";
}

// Where the AllUpTo of a house rises.
function rises() {
  return data.rises.filter(([house, dir, , at]) => at >= view.from && at <= view.to && steps[columnOf(at)]?.at === at && yOf(house, dir) !== undefined)
    .map(([house, dir, stamp, at]) => {
      const [x, y] = [xOf(columnOf(at)) - view.width / 2, yOf(house, dir) + MARK / 2 + 3];
      return draw("g", {}, draw("title", {}, `AllUpTo of house ${house}, directory ${dir}: ${stamp}`),
        draw("rect", { x, y, width: 16 + brief(stamp).length * 7.2, height: 15, rx: 2, class: "tag" }),
        draw("text", { x: x + 3, y: y + 11.5, class: "ink" }, `▲ ${brief(stamp)}`));
    });
}
