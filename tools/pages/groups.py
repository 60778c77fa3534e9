"""The groups of crates, as the headings of crates.txt have them: the page crates/README.md and the picture of the
groups are made from them."""
from __future__ import annotations

import re
from dataclasses import dataclass

from . import sources

# Groups that nothing may use.
UNUSED = ("Laws alone", "Tests alone", "Examples")
PROGRAMS = ("cdsreplay", "cdsmend", "cdshouse", "cdsexplain", "cdsclerk")
# Sizes in the picture, in its units.
WIDE, HIGH, ACROSS, DOWN, EDGE = 150, 44, 34, 46, 16
STYLE = (
    "text{font:13px system-ui,sans-serif;fill:#1f2328;text-anchor:middle}.few{font-size:11px;fill:#57606a}"
    "rect{fill:#fff;stroke:#57606a}path{fill:none;stroke:#8b949e}"
    "@media(prefers-color-scheme:dark){text{fill:#e6edf3}.few{fill:#8b949e}rect{fill:#161b22;stroke:#8b949e}}"
)
Edges = dict[str, set[str]]


@dataclass(frozen=True)
class Group:
    """A heading of crates.txt, `# NAME: PURPOSE` or `# NAME`, and the crates below it."""

    name: str
    purpose: str
    crates: tuple[str, ...]


def read(text: str) -> list[Group]:
    """The groups of a crates.txt, in its order: the highest first."""
    found: list[Group] = []
    for block in re.split(r"(?m)^(?=# \w)", text)[1:]:
        head, _, rest = block.partition("\n")
        crates = tuple(it.split(":")[0].split()[0] for it in rest.splitlines() if ":" in it and not it.startswith("#"))
        if crates:
            name, _, purpose = head[2:].partition(": ")
            found.append(Group(name, purpose, crates))
    return found


def of_tree() -> list[Group]:
    """The groups of this tree."""
    return read(sources.text_of("crates.txt"))


def faults(groups: list[Group], edges: Edges) -> list[str]:
    """What crates use against the order of the groups: a crate of a higher group, or of one that nothing may use."""
    place = {crate: at for at, group in enumerate(groups) for crate in group.crates}
    unused = {crate for group in groups if group.name in UNUSED for crate in group.crates}
    said = []
    for crate, below in edges.items():
        rank = -1 if crate in unused else place[crate]
        said += [f"{crate} uses {it} of a higher group" for it in sorted(below - unused) if place[it] < rank]
        said += [f"{crate} uses {it}, which nothing may use" for it in sorted(below & unused) if crate not in unused]
    return said


def between(groups: list[Group], edges: Edges) -> Edges:
    """Which groups a group uses at once: what another one of these uses already is left out."""
    home = {crate: group.name for group in groups for crate in group.crates}
    used: Edges = {group.name: set() for group in groups}
    for crate, below in edges.items():
        used[home[crate]] |= {home[it] for it in below} - {home[crate]}
    reached: Edges = {}

    def all_under(name: str) -> set[str]:
        if name not in reached:
            reached[name] = used[name].union(*(all_under(it) for it in used[name]))
        return reached[name]

    return {
        name: {it for it in below if not any(it in all_under(one) for one in below - {it})}
        for name, below in used.items()
    }


def levels(arrows: Edges) -> list[list[str]]:
    """The groups by rows: each below all that use it. The first row is the highest."""
    depth: dict[str, int] = {}

    def height(name: str) -> int:
        if name not in depth:
            depth[name] = 1 + max((height(it) for it in arrows[name]), default=-1)
        return depth[name]

    top = max(height(it) for it in arrows)
    return [[it for it in arrows if depth[it] == top - row] for row in range(top + 1)]


def drawn(groups: list[Group], edges: Edges) -> str:
    """The picture of the groups and of which uses which, as SVG."""
    arrows, few = between(groups, edges), {it.name: len(it.crates) for it in groups}
    rows = levels(arrows)
    width = 2 * EDGE + max(len(it) for it in rows) * (WIDE + ACROSS) - ACROSS
    height = 2 * EDGE + len(rows) * (HIGH + DOWN) - DOWN
    at = {
        name: centre(row, place, len(names), width)
        for row, names in enumerate(rows)
        for place, name in enumerate(names)
    }
    lines = [arrow(at[name], at[it]) for name in arrows for it in sorted(arrows[name])]
    lines += [box(name, few[name], *at[name]) for name in arrows]
    head = f'<svg xmlns="http://www.w3.org/2000/svg" width="{width}" height="{height}" viewBox="0 0 {width} {height}">'
    tip = '<defs><marker id="tip" viewBox="0 0 8 8" refX="7" refY="4" markerWidth="7" markerHeight="7" orient="auto">'
    tip += '<path d="M0 0L8 4L0 8z" style="fill:#8b949e;stroke:none"/></marker></defs>'
    return "\n".join([head, f"<style>{STYLE}</style>", tip, *lines, "</svg>"]) + "\n"


def centre(row: int, place: int, of: int, width: int) -> tuple[int, int]:
    """The middle of the upper side of a box: a row of boxes stands in the middle of the picture."""
    left = (width - of * (WIDE + ACROSS) + ACROSS) // 2
    return left + place * (WIDE + ACROSS) + WIDE // 2, EDGE + row * (HIGH + DOWN)


def arrow(begin: tuple[int, int], end: tuple[int, int]) -> str:
    """An arrow from a box to one that it uses."""
    (x, y), (to, down) = begin, end
    return (
        f'<path d="M{x} {y + HIGH}C{x} {y + HIGH + DOWN // 2} {to} {down - DOWN // 2} {to} {down}"'
        ' marker-end="url(#tip)"/>'
    )


def box(name: str, crates: int, x: int, y: int) -> str:
    """A box with the name of a group, and how many crates it has."""
    count = f"{crates} crate{'s' * (crates != 1)}"
    rect = f'<rect x="{x - WIDE // 2}" y="{y}" width="{WIDE}" height="{HIGH}" rx="4"/>'
    return f'{rect}<text x="{x}" y="{y + 19}">{name}</text><text class="few" x="{x}" y="{y + 35}">{count}</text>'


def under(crate: str, edges: Edges) -> set[str]:
    """A crate, and all that it is made of."""
    found, left = set(), {crate}
    while left:
        found |= left
        left = set().union(*(edges[it] for it in left)) - found
    return found


def first_sentence(crate: str) -> str:
    """What the root file of a crate says of it, up to its first end of a sentence."""
    root = next(it for it in (f"crates/{crate}/src/lib.rt", f"crates/{crate}/src/main.rt") if sources.text_of(it))
    said = " ".join(it[3:].strip() for it in sources.text_of(root).splitlines() if it.startswith("//!"))
    return re.split(r"(?<=[.!?])\s", said)[0]


def page(groups: list[Group], edges: Edges) -> str:
    """The text of crates/README.md."""
    made = {program: under(program, edges) for program in PROGRAMS}
    lines = [
        "# The crates",
        "",
        (
            "Made by `tools/map` from the headings of `crates.txt` and from the first sentence of each crate. A group"
            " uses groups below it alone."
        ),
        (
            "[ARCHITECTURE](../docs/ARCHITECTURE.md#the-crates) says of each crate what it owns, what it may not know,"
            " and what it promises;"
        ),
        (
            "[LAWS](LAWS.md) has the laws of all crates, and [BELIEVED](BELIEVED.md) the definitions that have to be"
            " believed, by file."
        ),
        "",
        "![The groups of crates, and which uses which](../docs/crates.svg)",
        "",
        *made_of(made),
    ]
    for group in groups:
        lines += [
            "",
            f"## {group.name}",
            "",
            *([f"{group.purpose[0].upper()}{group.purpose[1:]}.", ""] if group.purpose else []),
        ]
        lines += ["| crate | what it is | in |", "|---|---|---|"]
        lines += [f"| `{it}` | {first_sentence(it)} | {in_programs(it, made)} |" for it in group.crates]
    return "\n".join(lines) + "\n"


def in_programs(crate: str, made: Edges) -> str:
    """The programs that a crate is a part of."""
    programs = [it for it in PROGRAMS if crate in made[it]]
    return "all five" if len(programs) == len(PROGRAMS) else ", ".join(f"`{it}`" for it in programs)


def made_of(made: Edges) -> list[str]:
    """A table of how many crates programs have in common."""
    shared: dict[tuple[str, ...], list[str]] = {}
    for crate in sorted(set().union(*made.values()) - set(PROGRAMS)):
        shared.setdefault(tuple(it for it in PROGRAMS if crate in made[it]), []).append(crate)
    rows = [
        f"| {', '.join(f'`{it}`' for it in programs)} | {len(crates)} |"
        for programs, crates in sorted(shared.items(), key=lambda it: -len(it[0]))
    ]
    return ["| crates that are in | |", "|---|---|", *rows]
