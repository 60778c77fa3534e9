"""Draws the tree of names of a cell as one SVG: directories and entries as rows, links and members as arrows beside
them."""

from __future__ import annotations

from collections.abc import Iterator

from .cell import Replay
from .entries import Entry, State
from .facts import plural
from .rows import EDGE, LEAST
from .shapes import Undrawable, circle, escaped, head, number, rect, short, styles, text, titled, width_of

ROW, DETAIL, INDENT, TRACK = 24, 18, 20, 13
COLUMN = EDGE + 26  # where the tree begins, behind the numbers of a search
MOST_ROWS, MOST_VALUES, LONGEST = 4000, 3, 78
# What the legend says: the arrows, in the colours of kinds of messages, and the signs.
ARROWS = {
    "link": ("Update", "a link"),
    "member": ("Spread", "a member of a group"),
    "element": ("Gather", "an element of a profile"),
}
SIGNS = {"directory": "a directory", "object": "an object", "soft": "a link", "order": "order of the search"}
MORE = """.soft{stroke-dasharray:5 3}.tree{fill:none;stroke:#8a939d;stroke-width:1px}\
.arrow{fill:none;stroke:currentColor;stroke-width:1.5px}
.order{fill:#1f2328}.ordered{fill:#fff;font-weight:bold;text-anchor:middle}.ring{stroke:#1f2328;stroke-width:1.6px}
@media (prefers-color-scheme: dark){
.order{fill:#e6edf3}.ordered{fill:#0d1117}.tree{stroke:#77828d}.ring{stroke:#e6edf3}
}"""


def wide(words: str, kind: str) -> float:
    """How wide words of a class are, at most."""
    return width_of(words, 12.4 if kind == "house ink" else 10.6)


class Row:
    """A row: its place, its words in pieces with their classes, and the name that it leads to."""

    def __init__(
        self,
        x: int,
        height: int,
        pieces: list[tuple[str, str]],
        place: tuple[int, str] | None = None,
        lead: str = "",
        kind: str = "",
        sign: str = "",
        title: str = "",
    ) -> None:
        self.x, self.height, self.pieces, self.place = x, height, pieces, place
        self.lead, self.kind, self.sign, self.title, self.y = lead, kind, sign, title, 0.0

    def end(self) -> float:
        """Where its words end."""
        return self.x + (18 if self.sign else 0) + sum(wide(words, kind) + 8 for words, kind in self.pieces)


class Tree:
    """The rows of a tree of names, and its arrows."""

    rows: list[Row]
    branches: list[tuple[Row, Row]]

    def __init__(self, state: State, directory: int) -> None:
        self.state, self.rows, self.branches = state, [], []
        name = "/.:" if directory == 1 else f"directory {directory}"
        self.root = Row(COLUMN, ROW, [(name, "house ink"), *self.about(directory)], sign="directory")
        self.rows.append(self.root)
        self.seen = {directory}
        self.add_directory(directory, COLUMN + INDENT, self.root)

    def about(self, directory: int) -> list[tuple[str, str]]:
        """Where a directory is, in words."""
        epoch = self.state.epochs.get(directory)
        if not epoch:
            return []
        others = [it for it in epoch.members if it != epoch.master]
        also = f", and at {', '.join(map(str, others))}" if others else ""
        return [(f"directory {directory} at house {epoch.master}, its master{also}", "dim")]

    def add_directory(self, directory: int, x: int, parent: Row) -> None:
        """Adds the entries of a directory, below its row."""
        for name in sorted(name for of, name in self.state.entries if of == directory):
            if len(self.rows) > MOST_ROWS:
                raise Undrawable(f"a tree of more than {MOST_ROWS} rows; choose a part with --to and --dir")
            row = self.add_entry(directory, name, x)
            self.branches.append((parent, row))
            entry = self.state.entries[directory, name]
            if entry.kind == "child" and entry.directory not in self.seen:
                self.seen.add(entry.directory)
                self.add_directory(entry.directory, x + INDENT, row)

    def add_entry(self, directory: int, name: str, x: int) -> Row:
        """Adds an entry with what it has."""
        entry = self.state.entries[directory, name]
        pieces, lead, kind = [(short(name, 40), "house ink")], "", ""
        sign = {"child": "directory", "link": "soft"}.get(entry.kind, "object")
        if entry.kind == "child":
            pieces += self.about(entry.directory)
        elif entry.kind == "link":
            pieces, lead, kind = [*pieces, (short(entry.target, LONGEST), "dim")], entry.target, "link"
        else:
            has = {"server": entry.towers or entry.objects, "group": entry.members, "profile": entry.elements}
            roles = [it for it, own in has.items() if own]
            pieces += [(", ".join(roles), "dim")] if roles else []
        row = Row(x, ROW, pieces, (directory, name), lead, kind, sign, f"entry {name} of directory {directory}")
        self.rows.append(row)
        for words, lead, kind in details(entry):
            self.rows.append(Row(x + INDENT, DETAIL, [(short(words, LONGEST), "dim")], None, lead, kind))
        return row


def details(entry: Entry) -> Iterator[tuple[str, str, str]]:
    """What an entry has, a line each, with the name that it leads to."""
    for interface, binding in entry.towers:
        yield f"{binding} · interface {brief(interface)}", "", ""
    if entry.objects:
        yield f"objects {some_of([brief(it) for it in entry.objects], ', ')}", "", ""
    for member in entry.members:
        yield member, member, "member"
    for priority, _, _, _, _, interface, note, member in entry.elements:
        about = "any interface" if interface == "default" else f"interface {brief(interface)}"
        yield f"priority {priority} · {about} · {member}" + (f" · {note}" if note else ""), member, "element"
    for attribute, values in sorted(entry.values.items()):
        if values:
            yield f"{attribute} {some_of([short(it, 16) for it in sorted(values)], ' ')}", "", ""


def some_of(words: list[str], between: str) -> str:
    """The first of some words."""
    return between.join(words[:MOST_VALUES]) + ("…" if len(words) > MOST_VALUES else "")


def brief(uuid: str) -> str:
    """A UUID or an interface in brief: its last eight digits, and its version."""
    digits, _, version = uuid.partition(":")
    return f"…{digits[-8:]}" + (f" {version}" if version else "")


class Picture:
    """The picture of the names of a cell."""

    used: set[str]
    shapes: list[str]

    def __init__(self, replay: Replay, name: str, last: int, directory: int | None) -> None:
        steps = [it for it in replay.steps if it.line <= last]
        imports = [it for it in steps if it.command == "import" and " binding " in it.answer]
        at_last = [it for it in imports if it.line == last]
        chosen = next(iter(imports if last > replay.steps[-1].line else at_last), None)
        self.name, self.search = name, chosen
        self.last = chosen.line if chosen else steps[-1].line if steps else last
        self.state = State(replay, self.last)
        if (directory or 1) not in self.state.epochs:
            raise Undrawable(f"the script makes no {f'directory {directory}' if directory else 'root directory'}")
        self.tree, self.used, self.shapes = Tree(self.state, directory or 1), set(), []
        self.numbers = {place: at for at, place in enumerate(self.searched(), 1)}

    def searched(self) -> list[tuple[int, str]]:
        """The entries that the search of an import comes to, if its answer is in their order; else those of its answer
        alone."""
        if not self.search:
            return []
        bindings = [line.split()[2].split("@")[-1] for line in self.search.answer.split("\n") if " binding " in line]
        order = self.state.order(self.search.words[2], self.search.words[3])
        answered = []
        for binding in bindings:
            found = [it for it in order if binding in [one for _, one in self.state.entries[it].towers]]
            answered += [it for it in found[:1] if it not in answered]
        return order if answered == [it for it in order if it in answered] else answered

    def draw(self) -> str:
        """The whole picture."""
        y = 0.0
        for row in self.tree.rows:
            y += row.height
            row.y = y - row.height / 2
        gutter = max(row.end() for row in self.tree.rows) + 28
        edges = self.edges()
        tracks = self.tracks(edges)
        self.draw_branches()
        for edge, track in zip(edges, tracks):
            self.draw_edge(*edge, gutter + 8 + TRACK * track)
        for row in self.tree.rows:
            self.draw_row(row)
        width = max(LEAST, gutter + TRACK * (max(tracks, default=-1) + 1) + EDGE + 16)
        return self.whole(width, y + 12)

    def edges(self) -> list[tuple[Row, Row]]:
        """The arrows: from a row to the row of the entry that it names."""
        rows = {row.place: row for row in self.tree.rows if row.place}
        found = [(row, self.state.place_of(row.lead)) for row in self.tree.rows if row.lead]
        return [(row, rows[place]) for row, place in found if place in rows]

    def tracks(self, edges: list[tuple[Row, Row]]) -> list[int]:
        """A track for each arrow, on which no other one goes by; short ones are nearer."""
        spans: list[list[tuple[float, float]]] = []
        chosen = {}
        for at in sorted(range(len(edges)), key=lambda it: abs(edges[it][0].y - edges[it][1].y)):
            low, high = sorted((edges[at][0].y, edges[at][1].y))
            track = next(
                (it for it, used in enumerate(spans) if all(high + 6 < one or other + 6 < low for one, other in used)),
                len(spans),
            )
            if track == len(spans):
                spans.append([])
            spans[track].append((low, high))
            chosen[at] = track
        return [chosen[at] for at in range(len(edges))]

    def draw_branches(self) -> None:
        """The lines of the tree."""
        last = {}
        for parent, row in self.tree.branches:
            self.shapes.append(f'<path d="M{number(parent.x + 6)} {number(row.y)}H{number(row.x - 1)}" class="tree"/>')
            last[parent] = row
        for parent, row in last.items():
            self.shapes.append(
                f'<path d="M{number(parent.x + 6)} {number(parent.y + 8)}V{number(row.y)}" class="tree"/>'
            )

    def draw_edge(self, row: Row, target: Row, x: float) -> None:
        """An arrow beside the rows, from behind the words of one to behind those of another."""
        kind = row.kind
        self.used.add(kind)
        # What comes in at a link's row is below what goes out.
        y, to_y, end = (
            row.y - (4 if kind == "link" else 0),
            target.y + (4 if target.lead or target.y < row.y else -4),
            target.end() + 6,
        )
        turn = 6 if to_y > y else -6
        shape = (
            f"M{number(row.end() + 4)} {number(y)}H{number(x - 6)}q6 0 6 {turn}V{number(to_y - turn)}q0 {turn} -6"
            f" {turn}H{number(end)}"
        )
        soft = " soft" if kind == "link" else ""
        arrow = head([(x, to_y), (end, to_y)], False)
        title = f"{row.lead}: {ARROWS[kind][1]}"
        self.shapes.append(titled(ARROWS[kind][0], title, f'<path d="{shape}" class="arrow{soft}"/>', arrow))

    def draw_row(self, row: Row) -> None:
        """The sign and the words of a row, and its number in the search."""
        x = float(row.x)
        if row.sign:
            self.used.add(row.sign)
            self.shapes.append(sign(row.sign, x, row.y))
            x += 18
        for words, kind in row.pieces:
            self.shapes.append(text(x, row.y + 4, words, kind))
            x += wide(words, kind) + 8
        if row.place in self.numbers:
            self.used.add("order")
            self.shapes.append(ordered(EDGE + 9, row.y, self.numbers[row.place]))

    def heading(self, width: float) -> tuple[str, int]:
        """The heading, what was looked for, and the legend; and how high they are."""
        shapes = [text(EDGE, 24, f"{short(self.name, 60)}: names at line {self.last}", "title ink")]
        y = 43
        if self.search:
            shapes.append(text(EDGE, y, short(f"line {self.search.line}: {self.search.text}", 128), "dim"))
            y += 17
        if self.state.untold:
            untold = plural(self.state.untold, "command")
            shapes.append(
                text(EDGE, y, f"{untold} of the name service left out: the script does not tell at which entry", "dim")
            )
            y += 17
        y -= 14
        for group, items in (("entries", SIGNS), ("arrows", {it: words for it, (_, words) in ARROWS.items()})):
            used = [it for it in items.items() if it[0] in self.used]
            x = EDGE + 70.0
            if used:
                y += 20
                shapes.append(text(EDGE, y + 4, group, "ink group"))
            for kind, words in used:
                shapes += [sample(kind, x, y), text(x + 34, y + 4, words, "dim")]
                x += 34 + width_of(words) * 0.93 + 14
        return "\n".join(shapes), y + 18

    def whole(self, width: float, height: float) -> str:
        """The SVG, with its heading and its legend above the tree."""
        heading, top = self.heading(width)
        w, h = number(width), number(top + height)
        inner = "\n".join(self.shapes)
        return (
            f'<svg xmlns="http://www.w3.org/2000/svg" width="{w}" height="{h}" viewBox="0 0 {w} {h}" role="img">\n'
            f"<title>{escaped(self.name)}: a picture of its names</title>\n{styles()}\n<style>{MORE}</style>\n"
            f'<rect width="{w}" height="{h}" class="ground"/>\n{heading}\n'
            f'<g transform="translate(0 {number(top)})">\n{inner}\n</g>\n</svg>\n'
        )


def sign(kind: str, x: float, y: float) -> str:
    """The sign of an entry."""
    if kind == "directory":
        return f'<path d="M{number(x)} {number(y - 5)}h5l2 2h6v8h-13z" class="ink"/>'
    if kind == "soft":
        return circle(x + 6, y, 4.5, "hollow ring")
    return circle(x + 6, y, 4.5, "ink")


def ordered(x: float, y: float, at: int) -> str:
    """A number in the order of a search."""
    return rect(x - 9, y - 9, 18, 18, "order", 9) + text(x, y + 4, str(at), "ordered")


def sample(kind: str, x: float, y: int) -> str:
    """What the legend shows of a kind."""
    if kind == "order":
        return ordered(x + 14, y, 1)
    if kind in SIGNS:
        return sign(kind, x + 8, y)
    points: list[tuple[float, float]] = [(x, y), (x + 28, y)]
    soft = " soft" if kind == "link" else ""
    return (
        f'<g class="{ARROWS[kind][0]}"><path d="M{number(x)} {number(y)}h26"'
        f' class="arrow{soft}"/>{head(points, False)}</g>'
    )


def draw(replay: Replay, name: str, last: int = 2**63, directory: int | None = None) -> str:
    """The SVG of the names of a cell, as they are at a line: at the last one, or at the first import that lists
    bindings."""
    return Picture(replay, name, last, directory).draw()
