"""Rows of a picture in time, and the labels below them."""

from __future__ import annotations

import bisect
from collections.abc import Sequence

from .shapes import width_of

LANE = 60  # between the lines of two houses
NEAR, MANY_LANES = 26, 14  # between lines, where so many or more are in a row
SUBLANE = 40  # between the lines of two directories at a house
MARK = 17  # how high a mark is
LEFT, FARTHER = 84, 122  # room for the names of the houses, and for those of directories, too
EDGE = 16  # room at the other sides
OVERHANG = 76  # room at the right, for the words above the last column
LEVEL = 17  # how high a line of labels below the houses is
EPOCH = 26  # room for an epoch's upright line, before its step
SLOPE = 50  # how steep the words above the columns are, in degrees
LEAST, NARROW, WIDE = 640, 830, 1720  # how wide a picture is at least, and the rows of one of few steps and of many
MANY = 12  # rows that are too many to be narrow
MOST_LEVELS = 8


class Label:
    """A label below the houses: where its line comes down, its words, and the place that was found for it."""

    level: int = 0
    begin: float = 0
    end: float
    is_left: bool

    def __init__(self, x: float, words: str, title: str) -> None:
        self.x, self.words, self.title, self.width = x, words, title, width_of(words)

    def put(self, level: int, right: float) -> None:
        """Puts it at a level, to the right of its line, or to the left of it where it would come out of the picture."""
        self.level, self.is_left = level, self.x + 5 + self.width > right
        self.begin = self.x - 5 - self.width if self.is_left else self.x + 5
        self.end = self.begin + self.width

    def fits(self, other: Label) -> bool:
        """Whether neither its words nor its line run into another label."""
        if self.level == other.level and self.begin < other.end + 8 and other.begin < self.end + 8:
            return False
        upper, lower = sorted((self, other), key=lambda it: it.level)
        return upper.level == lower.level or not upper.begin - 4 < lower.x < upper.end + 4


class Row:
    """A row of the picture: the columns from `first` up to `end`, their places, and where its parts begin: from above
    the words of its columns, the lines of the houses at `tops`, and the labels of skulks and epochs from `strip` on.
    """

    xs: list[float]
    tops: dict[int, float]
    labels: list[Label]
    marks: dict[int | None, list[float]]
    right: float
    height: float
    strip: float
    lanes: float

    def __init__(self, first: int, left: int) -> None:
        self.first, self.end, self.left, self.right = first, first, left, left
        self.xs, self.tops, self.labels, self.marks = [], {}, [], {}
        self.height, self.strip, self.lanes, self.lane = 0, 0, 0, LANE

    def lay(self, lanes: list[tuple[int, int]], shown: Sequence[int]) -> None:
        """Gives the lines that are shown their heights, and last the one of no house. Many lines are nearer to each
        other."""
        is_many = len(shown) > MANY_LANES
        self.lane, sublane = (NEAR, NEAR) if is_many else (LANE, SUBLANE)
        y, before = 0, None
        for lane in shown:
            house = lanes[lane][0]
            y += 0 if before is None else sublane if house == before else self.lane
            before = house
            self.tops[lane] = y + LANE / 2
        self.height = y + LANE
        self.tops[len(lanes)] = self.height + LANE / 2

    def x(self, column: int) -> float:
        """The place of a column, or the nearer side of the row."""
        if column < self.first:
            return self.left
        return self.xs[column - self.first] if column < self.end else self.right

    def y(self, lane: int) -> float:
        """The place of a line that is shown, by its number from above."""
        return self.lanes + self.tops[lane]

    def bottom(self) -> float:
        """Where the lines of the houses end."""
        return self.lanes + self.height

    def is_free(self, lane: int, x: float, margin: float) -> bool:
        """Whether no mark of the line is so near."""
        marks = self.marks.get(lane, [])
        at = bisect.bisect(marks, x - margin)
        return at == len(marks) or marks[at] > x + margin
