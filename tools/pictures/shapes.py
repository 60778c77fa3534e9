"""Shapes of a picture, as SVG, and its colours."""

from __future__ import annotations

import html
import math

SIZE = 11  # of letters: as great in a column of 830, which is as wide as a narrow picture

# Colours after Okabe and Ito on light ground, some of them darker; those of words on them; and lighter ones on dark
# ground.
KINDS = {
    "Update": ("#0072b2", "#fff", "#5aa9ea"),
    "Gather": ("#d98e00", "#000", "#e69f00"),
    "Gathered": ("#c24e00", "#fff", "#f07a3c"),
    "Spread": ("#00845f", "#fff", "#1dbf91"),
    "SpreadAck": ("#3fa5dd", "#000", "#a3dcfb"),
    "Advance": ("#a8477f", "#fff", "#e39ac6"),
    "Join": ("#1f2328", "#fff", "#f0f3f6"),
    "Leave": ("#7d6b00", "#fff", "#f0e442"),
    "step": ("#6a737d", "#fff", "#9aa4ae"),
}
DASHES = {"Gathered": "6 2.5", "SpreadAck": "6 2.5", "Advance": "10 2.5 2 2.5", "Leave": "2 2.5"}
# What else has a colour: on light ground, and on dark ground.
GROUNDS = {
    ".ground": ("fill:#fff", "fill:#0d1117"),
    ".ink": ("fill:#1f2328", "fill:#e6edf3"),
    ".onink": ("fill:#fff", "fill:#0d1117"),
    ".dim": ("fill:#57606a", "fill:#9aa4ae"),
    ".halo": ("stroke:#fff", "stroke:#0d1117"),
    ".hollow": ("fill:#fff", "fill:#0d1117"),
    ".asked": ("fill:#e1e5ea", "fill:#30363d"),
    ".lane": ("stroke:#57606a", "stroke:#9aa4ae"),
    ".guide": ("stroke:#e4e7eb", "stroke:#262c34"),
    ".upright": ("stroke:#1f2328", "stroke:#e6edf3"),
    ".leader": ("stroke:#8a939d", "stroke:#77828d"),
    ".shade": ("fill:#f0e442;fill-opacity:.3", "fill:#f0e442;fill-opacity:.16"),
    ".open": ("stroke:#948a00", "stroke:#d9cf3f"),
    ".tag": ("fill:#fff;stroke:#a8477f", "fill:#0d1117;stroke:#e39ac6"),
    ".bolt": ("fill:#f0e442;stroke:#1f2328", "fill:#f0e442;stroke:#0d1117"),
}
FIXED = """text{font-family:Helvetica,Arial,'Liberation Sans','DejaVu Sans',sans-serif;font-size:11px}
.number{font-weight:bold;text-anchor:middle}.title{font-size:15px;font-weight:bold}
.house{font-size:12px;font-weight:bold}.group{font-weight:bold}.end{text-anchor:end}
.halo{stroke-width:3px;stroke-linejoin:round;paint-order:stroke}
.line{fill:none;stroke:currentColor;stroke-width:1.5px}.Join .line{stroke-width:2.2px}
.hit{fill:none;stroke:#000;stroke-opacity:0;stroke-width:9px}
.head{fill:currentColor;stroke:currentColor;stroke-linejoin:round}.full{fill:currentColor}
.hollow{stroke:currentColor;stroke-width:1.4px}
.refused{stroke-dasharray:2.5 2}.cross{fill:none;stroke:currentColor;stroke-width:2.4px}\
.lane{fill:none;stroke-width:1.3px}
.master{stroke-width:3.4px}.secondary{stroke-width:3.4px;stroke-dasharray:11 3}.without{stroke-dasharray:1.5 4}\
.guide{stroke-width:1px}
.bar{fill:currentColor;fill-opacity:.16}.stub{font-size:10px;font-weight:bold}svg text.stub{fill:currentColor}
.upright{stroke-width:1.2px;stroke-dasharray:5 3}.leader{stroke-width:1px}
.open{fill:none;stroke-width:1.2px;stroke-dasharray:6 4}.tag{stroke-width:1px}.bolt{stroke-width:.8px}\
.pale{opacity:.42}"""


class Undrawable(Exception):
    """There is nothing to draw, or too much for one picture."""


def number(value: float) -> str:
    """A coordinate, of at most one digit behind the point."""
    return f"{value:.1f}".removesuffix(".0")


def escaped(text: str) -> str:
    """A text as it may stand in an SVG."""
    return html.escape(text, quote=False)


def short(text: str, most: int) -> str:
    """A text, or its front."""
    return text if len(text) <= most else text[: most - 1] + "…"


def width_of(text: str, size: float = SIZE) -> float:
    """How wide a text is, at most, in a font of usual width."""
    return len(text) * size * 0.6


def end_of(text: str, most: int) -> str:
    """A text, or its end."""
    return text if len(text) <= most else "…" + text[2 - most :]


def styles() -> str:
    """The style sheet, with the colours of dark ground for who prefers it."""
    light = [f".{kind}{{color:{colour}}}.{kind} text{{fill:{word}}}" for kind, (colour, word, _) in KINDS.items()]
    dark = [f".{kind}{{color:{colour}}}.{kind} text{{fill:#0d1117}}" for kind, (_, _, colour) in KINDS.items()]
    dashes = [f".{kind} .line{{stroke-dasharray:{dash}}}" for kind, dash in DASHES.items()]
    light += [f"{it}{{{one}}}" for it, (one, _) in GROUNDS.items()] + [".bare text{fill:#1f2328}"]
    dark += [f"{it}{{{other}}}" for it, (_, other) in GROUNDS.items()] + [".bare text{fill:#e6edf3}"]
    media = "@media (prefers-color-scheme: dark){\n" + "\n".join(dark) + "\n}"
    return "\n".join(["<style>", FIXED, *light, *dashes, media, "</style>"])


def titled(kind: str, title: str, *shapes: str, name: str | None = None) -> str:
    """A group of shapes with a hover text, and with a name to which links lead."""
    named = (f' id="{name}"' if name else "") + (f' class="{kind}"' if kind else "")
    return f'<g{named}><title>{escaped(title)}</title>{"".join(shapes)}</g>'


def text(x: float, y: float, words: str, kind: str, extra: str = "") -> str:
    """A text at a place."""
    return f'<text x="{number(x)}" y="{number(y)}" class="{kind}"{extra}>{escaped(words)}</text>'


def rect(x: float, y: float, width: float, height: float, kind: str, radius: float = 0) -> str:
    """A rectangle."""
    size = f'width="{number(width)}" height="{number(height)}"'
    return f'<rect x="{number(x)}" y="{number(y)}" {size} rx="{number(radius)}" class="{kind}"/>'


def circle(x: float, y: float, radius: float, kind: str) -> str:
    """A circle."""
    return f'<circle cx="{number(x)}" cy="{number(y)}" r="{number(radius)}" class="{kind}"/>'


def badge(x: float, y: float, letter: str) -> str:
    """The sign of a master, or of a secondary member."""
    return circle(x, y, 8, "ink") + text(x, y + 4, letter, "number onink")


def line(x: float, y: float, to_x: float, to_y: float, kind: str) -> str:
    """A straight line."""
    return f'<path d="M{number(x)} {number(y)}L{number(to_x)} {number(to_y)}" class="{kind}"/>'


def bolt(x: float, y: float) -> str:
    """The sign of a house that loses its power, with this corner below it."""
    return f'<path d="M{number(x)} {number(y)}m-3 5l1.5-6h-4l5-8l-.5 5h4z" class="bolt"/>'


def toward(point: tuple[float, float], other: tuple[float, float], most: int) -> str:
    """A place on the way from one point to another, not farther than half of it."""
    (x, y), (to_x, to_y) = point, other
    share = min(0.5, most / (math.hypot(to_x - x, to_y - y) or 1))
    return f"{number(x + (to_x - x) * share)} {number(y + (to_y - y) * share)}"


def path(points: list[tuple[float, float]], kind: str) -> str:
    """A line through points, with round corners."""
    shape = f"M{number(points[0][0])} {number(points[0][1])}"
    for before, point, behind in zip(points, points[1:], points[2:]):
        x, y = map(number, point)
        shape += f"L{toward(point, before, 14)}Q{x} {y} {toward(point, behind, 14)}"
    return f'<path d="{shape}L{number(points[-1][0])} {number(points[-1][1])}" class="{kind}"/>'


def head(points: list[tuple[float, float]], is_hollow: bool) -> str:
    """The head of an arrow along points: of a message that is not taken it is hollow."""
    (from_x, from_y), (x, y) = points[-2:]
    angle = math.atan2(y - from_y, x - from_x)
    corners = [(x, y)] + [(x - 8 * math.cos(angle + turn), y - 8 * math.sin(angle + turn)) for turn in (0.4, -0.4)]
    shape = "L".join(f"{number(at_x)} {number(at_y)}" for at_x, at_y in corners)
    return f'<path d="M{shape}Z" class="{"hollow" if is_hollow else "head"}"/>'


def cross(x: float, y: float) -> str:
    """The cross where a message is lost."""
    return f'<path d="M{number(x)} {number(y)}m-4.5-4.5l9 9m0-9l-9 9" class="cross"/>'


def dots(begin: tuple[float, float], end: tuple[float, float]) -> str:
    """Three dots behind the end of a line that goes on elsewhere."""
    (x, y), (to_x, to_y) = begin, end
    length = math.hypot(to_x - x, to_y - y) or 1
    steps = [((to_x - x) / length * it, (to_y - y) / length * it) for it in (4, 7.5, 11)]
    return "".join(circle(to_x + across, to_y + down, 1.1, "full") for across, down in steps)
