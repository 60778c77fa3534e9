"""Draws what happened in a replay as one SVG: houses as lines from left to right, steps as marks on them, messages as
arrows."""

from __future__ import annotations

import math

from .clerks import Clerked
from .facts import plural
from .rows import EDGE, LEAST, MARK, OVERHANG, SLOPE, Row
from cds import records
from .shapes import (
    KINDS,
    badge,
    bolt,
    circle,
    cross,
    dots,
    escaped,
    head,
    line,
    number,
    path,
    rect,
    short,
    styles,
    text,
    width_of,
)
from .cell import Replay
from .choice import Choice

HIGHEST = 32_767  # pixels: more many programs don't show
ROOM = 1_500  # for a heading, and for what is another place where a part begins
# What the legend says, by groups; the messages begin with their kinds.
LEGEND = {
    "messages": {
        **{kind: kind for kind in records.KINDS},
        "lost": "lost",
        "pale": "never delivered",
        "elsewhere": "goes on elsewhere",
    },
    "marks": {
        "full": "command",
        "asked": "question",
        "hollow refused": "refused",
        "stopped": "power lost inside",
        "delivery": "delivery",
        "late": "delivered, and not taken",
        "rise": "AllUpTo rises",
        "kept": "the clerk's kept answer is used",
    },
    "lines": {
        "lane master": "house is the master",
        "lane secondary": "is secondary",
        "lane ": "holds a replica",
        "lane without": "holds none",
        "gap": "is down",
        "epoch": "epoch, its master M",
        "second": "its secondary S",
        "shade": "skulk",
        "open": "skulk, not complete",
    },
}


class Picture(Clerked):
    """The picture of a replay."""

    def draw(self) -> str:
        """The whole picture."""
        self.lay_out(0)
        for row in self.rows:
            self.draw_row(row)
        self.draw_lanes()
        for skulk in self.skulks():
            self.draw_skulk(skulk)
        for epoch in self.epochs():
            self.draw_epoch(epoch)
        for at, column in enumerate(self.columns):
            self.draw_column(at, column)
        for message in self.messages():
            self.draw_message(message)
        self.draw_rises()
        self.draw_clerk()
        return self.whole()

    def end_of_words(self, row: Row) -> float:
        """Where a row ends, with the words above its last columns."""
        ends = [
            row.x(at) + width_of(self.label_of(self.columns[at])) * math.cos(math.radians(SLOPE))
            for at in range(row.first, row.end)
        ]
        return max(row.right + OVERHANG, *ends)

    def whole(self) -> str:
        """The SVG, with its heading and its legend above the rows."""
        width = max(LEAST, *(self.end_of_words(row) for row in self.rows))
        heading, height = self.heading(width)
        inner = "\n".join(shape for shapes in self.layers.values() for shape in shapes)
        self.height = height + self.bottom
        w, h = number(width), number(self.height)
        title = f"{self.name}: a picture of its replay"
        return (
            f'<svg xmlns="http://www.w3.org/2000/svg" width="{w}" height="{h}" viewBox="0 0 {w} {h}" role="img">\n'
            f"<title>{escaped(title)}</title>\n{styles()}\n"
            f'<rect width="{w}" height="{h}" class="ground"/>\n{heading}\n'
            f'<g transform="translate(0 {number(height)})">\n{inner}\n</g>\n</svg>\n'
        )

    def parts(self) -> list[tuple[int, int]]:
        """The first and the last line of each part that is not too high."""
        parts: list[tuple[int, int]] = []
        top = 0.0
        for row in self.rows:
            first, last = self.columns[row.first].first.line, self.columns[row.end - 1].last.line
            bottom = row.bottom()
            if parts and bottom - top <= HIGHEST - ROOM:
                parts[-1] = parts[-1][0], last
            else:
                parts, top = [*parts, (first, last)], row.lanes
        return parts

    def heading(self, width: float) -> tuple[str, float]:
        """The heading, what there is to count, and the legend; and how high they are."""
        first, last = self.steps[0].line, self.steps[-1].line
        lines = f"line {first}" if first == last else f"lines {first} to {last}"
        shapes = [text(EDGE, 24, f"{short(self.name, 60)}: {lines}{self.choice.words()}", "title ink")]
        shapes.append(text(EDGE, 43, self.counts(), "dim"))
        message = next((it for it in records.KINDS if it in self.used), "Update")
        x, y = EDGE + 70.0, 46
        if any(it.command in ("import", "lookup") for it in self.steps):
            shapes.append(text(EDGE, 60, "--names draws the tree of its names", "dim"))
            y += 17
        for group, items in LEGEND.items():
            used = [it for it in items.items() if it[0] in self.used]
            if used:
                x, y = EDGE + 70, y + 20
                shapes.append(text(EDGE, y + 4, group, "ink group"))
            for kind, words in used:
                room = 34 + width_of(words) * 0.93 + 14
                if x + room > width - EDGE and x > EDGE + 70:
                    x, y = EDGE + 70, y + 20
                shapes += [sample(kind, x, y, message), text(x + 34, y + 4, words, "dim")]
                x += room
        return "\n".join(shapes), y + 22

    def counts(self) -> str:
        """What there is to count in the picture."""
        posted = [it for it in self.replay.messages.values() if self.in_view(it.posted) and self.is_drawn(it.dir)]
        took = {it.serial for it in posted if any(self.replay.steps[at].has_changed for at in it.deliveries)}
        left = [it for it in posted if it.serial not in took]
        lost = sum(it.lost is not None for it in left)
        idle = sum(it.lost is None and bool(it.deliveries) for it in left)
        parts = [
            f"{len(took)} taken",
            f"{lost} lost",
            f"{idle} refused or late",
            f"{len(left) - lost - idle} never delivered",
        ]
        said = [plural(len(self.steps), "step"), plural(len(self.houses), "house")]
        if posted:
            said.append(
                plural(len(posted), "message") + ": " + ", ".join(it for it in parts if not it.startswith("0 "))
            )
        skulks = self.skulks()
        if skulks:
            said.append(plural(len(skulks), "skulk") + f", {sum(it.is_complete for it in skulks)} complete")
        return "; ".join(said)


def sample(kind: str, x: float, y: float, message: str) -> str:
    """What the legend shows of a kind, 28 wide; where it may be any message, in the colour of this kind of them."""
    if kind in KINDS:
        points = [(x, y), (x + 28, y)]
        return f'<g class="{kind}">{path(points, "line")}{head(points, False)}</g>'
    if kind == "stopped":
        return f'<g class="step">{rect(x + 3, y - MARK / 2, 22, MARK, "hollow", 2)}{bolt(x + 25, y - MARK / 2 + 2)}</g>'
    if kind in ("full", "asked", "hollow refused", "delivery", "late"):
        fill = {"delivery": "full", "late": "hollow"}.get(kind, kind)
        colour, radius = (message, MARK / 2) if kind in ("delivery", "late") else ("step", 2)
        return f'<g class="{colour}">{rect(x + 3, y - MARK / 2, 22, MARK, fill, radius)}</g>'
    if kind.startswith("lane"):
        return line(x, y, x + 28, y, kind)
    if kind == "gap":
        return line(x, y, x + 8, y, "lane") + line(x + 20, y, x + 28, y, "lane")
    if kind == "epoch":
        return line(x + 14, y - 9, x + 14, y + 9, "upright") + badge(x + 14, y, "M")
    if kind == "second":
        return line(x + 14, y - 9, x + 14, y + 9, "upright") + badge(x + 14, y, "S")
    if kind in ("shade", "open"):
        return rect(x + 1, y - 7, 26, 14, kind, 3)
    if kind == "rise":
        return rect(x + 3, y - 7, 22, 15, "tag", 2) + text(x + 8, y + 4.5, "▲", "ink")
    if kind == "kept":
        return f'<g class="step">{path([(x, y), (x + 28, y)], "line")}{head([(x, y), (x + 28, y)], False)}</g>'
    points = [(x, y), (x + (14 if kind == "elsewhere" else 20), y)]
    ends = {"lost": cross(x + 22, y), "elsewhere": dots(*points)}
    end = ends.get(kind) or circle(x + 22, y, 2.6, "hollow")
    return f'<g class="{message}{" pale" if kind == "pale" else ""}">{path(points, "line")}{end}</g>'


def draw(replay: Replay, name: str, choice: Choice, room: int | None = None) -> list[str]:
    """The SVG of a replay; or several, each of a part of the script, where one is too high for programs that show it.
    `room` is how many answers its clerk keeps, if there is one."""
    picture = Picture(replay, name, choice, room)
    drawn = picture.draw()
    if picture.height <= HIGHEST:
        return [drawn]
    return [Picture(replay, name, choice.part(*lines), room).draw() for lines in picture.parts()]
