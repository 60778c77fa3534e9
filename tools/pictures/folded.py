"""Columns of several steps in a picture in time: their bars, and the few arrows in place of many."""

from __future__ import annotations

from .arrows import Arrows
from .facts import Message
from .folds import Column
from .rows import MARK, Row
from .shapes import cross, head, path, rect, text, titled
from .titles import name_of, told

MOST_ARROWS = 6


class Folded(Arrows):
    """A picture's columns of several steps."""

    def draw_column(self, at: int, column: Column) -> None:
        """The marks of a column, and for a fan or answers what joins them."""
        row = self.row_of(at)
        if column.kind == "answers":
            self.draw_answers(row, at, column)
        elif column.kind == "fan":
            self.draw_fan(row, at, column)
        for step in column.steps if column.kind != "answers" else ():
            if column.kind != "houses" or self.lane_of(step) in row.tops:
                self.draw_step(at, step)

    def draw_fan(self, row: Row, at: int, column: Column) -> None:
        """A bar below the marks of a fan, and an arrow to the nearest mark on each side of the sender."""
        message, x = column.first.way, row.x(at)
        if message.sender not in self.lane or any(it.way.receiver not in self.lane for it in column.steps):
            return
        heights = sorted(self.height_of(row, it) for it in column.steps)
        title = f"{column.label(self.replay.messages)}\n" + "\n".join([*told(column.first), *told(column.last)])
        bar = rect(
            x - self.mark_width / 2 - 4,
            heights[0] - MARK / 2 - 4,
            self.mark_width + 8,
            heights[-1] - heights[0] + MARK + 8,
            "bar",
            8,
        )
        self.add("guide", titled(message.kind, title, bar))
        for step in (it for it in column.steps if it.command == "lose" and it.outcome == "ok"):
            self.used.add("lost")
            lost = cross(x - self.mark_width / 2 - 10, self.height_of(row, step))
            self.add("arrow", titled(message.kind, "\n".join([*told(step), name_of(step.way)]), lost))
        lanes = [self.lane_for(it.way.receiver, message.dir) for it in column.steps]
        own = self.lane_for(message.sender, message.dir)
        nearest = [
            max((it for it in lanes if it < own), default=None),
            min((it for it in lanes if it > own), default=None),
        ]
        for lane in (it for it in nearest if it is not None):
            self.draw_joint(row, message, (x, row.y(lane)), title)

    def draw_joint(self, row: Row, message: Message, end: tuple[float, float], title: str) -> None:
        """An arrow in place of those of a fan, to the edge of its nearest mark."""
        is_home, height = self.is_in(row, message.posted), row.y(self.lane_for(message.sender, message.dir))
        sign = 1 if height < end[1] else -1 if is_home else self.sign(message)
        end = end[0], end[1] - sign * (MARK / 2 + 1)
        if is_home:
            begin = row.x(self.column[message.posted]), height + sign * MARK / 2
        else:
            begin = end[0] - self.pitch, end[1] - sign * 18
        stub = "" if is_home else self.stub(begin, message.posted, "<", sign)
        self.add("arrow", titled(message.kind, title, path([begin, end], "line"), head([begin, end], False), stub))

    def draw_answers(self, row: Row, at: int, column: Column) -> None:
        """One mark for answers that come to one house, and an arrow from each column in which some were posted."""
        message, x = column.first.way, row.x(at)
        y, width = row.y(self.line_of(column.first)), self.mark_width + 10
        title = f"{column.label(self.replay.messages)}\n" + "\n".join([*told(column.first), *told(column.last)])
        shapes = rect(x - width / 2, y - MARK / 2, width, MARK, "full", MARK / 2), text(
            x, y + 4, f"{column.first.line}…", "number"
        )
        self.used.add("delivery")
        self.add("mark", titled(message.kind, title, *shapes, name=f"line-{column.first.line}"))
        froms = {self.column.get(it.way.posted): it.way for it in column.steps}
        for begin, posted in list(froms.items())[:MOST_ARROWS]:
            if begin is not None and self.row_of(begin) is row and posted.sender in self.lane:
                start = row.x(begin), row.y(self.lane_for(posted.sender, posted.dir)) + self.sign(posted) * MARK / 2
                end = x, y - self.sign(posted) * (MARK / 2 + 1)
                self.add("arrow", titled(message.kind, title, path([start, end], "line"), head([start, end], False)))
