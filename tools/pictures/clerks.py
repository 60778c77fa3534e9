"""The clerk of a picture in time: a line below the houses, with the answers that it keeps and the reads that used
them."""

from __future__ import annotations

from .facts import Step
from .folded import Folded
from .rows import LANE, MARK, Row
from .shapes import head, number, path, rect, text, titled
from .titles import said_of, told


class Clerked(Folded):
    """A picture with the line of its clerk, if it has one."""

    def draw_clerk(self) -> None:
        """The answers that are kept, and arrows from them to the reads that used them."""
        shown = {}
        for at, kept in self.used_by_clerk.items():
            if self.in_view(at):
                row = self.row_of(self.column[at])
                if self.is_in(row, kept.at) and (row, kept.at) not in shown:
                    shown[row, kept.at] = self.draw_kept(row, kept)
                self.draw_use(row, self.replay.steps[at], kept, shown.get((row, kept.at)))
        for row in self.rows if self.has_clerk else ():
            self.add(
                "label",
                titled(
                    "",
                    "answers that the clerk of the client keeps",
                    text(16, self.clerk_y(row) + 4, "clerk", "house ink"),
                ),
            )

    def clerk_y(self, row: Row) -> float:
        """The height of the clerk's line in a row."""
        return row.bottom() + LANE / 2 + (LANE if self.is_aside else 0)

    def draw_kept(self, row: Row, kept: Step) -> tuple[float, float]:
        """An answer that is kept, below the read that got it."""
        x, y = row.x(self.column[kept.at]), self.clerk_y(row)
        values = " ".join(map(said_of, kept.answer.split()[3:])) or "none"
        name = f"{kept.words[2].split('/')[-1]} {kept.words[3]} = {values}"
        title = "\n".join([f"the clerk keeps: {name}", *told(kept)])
        way = (
            f'<path d="M{number(x)} {number(row.y(self.line_of(kept)) + MARK / 2)}V{number(y - MARK / 2)}"'
            ' class="leader"/>'
        )
        shapes = rect(x - self.mark_width / 2, y - MARK / 2, self.mark_width, MARK, "asked", 2), text(
            x, y + 4, str(kept.line), "number"
        )
        self.add("guide", way)
        self.add("mark", titled("step bare", title, *shapes))
        return x, y - MARK / 2

    def draw_use(self, row: Row, step: Step, kept: Step, begin: tuple[float, float] | None) -> None:
        """An arrow to a read that a kept answer serves: from that answer, or from another row."""
        x, y = row.x(self.column[step.at]), row.y(self.line_of(step)) + MARK / 2 + 1
        title = "\n".join([f"the clerk gives the answer of line {kept.line} again", *told(step)])
        start = begin or (x - self.pitch * 0.7, y + 22)
        self.used.add("kept")
        stub = "" if begin else self.stub(start, kept.at, "<", -1)
        self.add("arrow", titled("step", title, path([start, (x, y)], "line"), head([start, (x, y)], False), stub))
