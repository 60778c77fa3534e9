"""The messages of a picture in time, as arrows."""

from __future__ import annotations

from .facts import Message
from .marks import Marks
from .rows import LANE, MARK, Row
from .shapes import circle, cross, dots, head, path, text, titled
from .titles import MOST_LINES, name_of, told


class Arrows(Marks):
    """A picture's messages."""

    def draw_message(self, message: Message) -> None:
        """The arrows of a message: to each delivery, to where it was lost, and out of the row where it goes on
        elsewhere."""
        title = self.message_title(message)
        self.used.add(message.kind)
        home = self.row_of(self.column[message.posted]) if self.in_view(message.posted) else None
        if home and self.replay.steps[message.posted].house != message.sender:
            x, y = home.x(self.column[message.posted]), home.y(self.lane_for(message.sender, message.dir))
            self.add("arrow", circle(x, y, 3, "ink"))
        elsewhere = False
        for at in message.deliveries:
            row = self.row_of(self.column[at]) if self.in_view(at) else None
            elsewhere |= row is not home
            if row and not self.is_folded(at):
                self.draw_delivery(message, at, row, row is home, title)
        if message.lost is not None:
            row = self.row_of(self.column[message.lost]) if self.in_view(message.lost) else None
            elsewhere |= row is not home
            if row and not self.is_folded(message.lost):
                self.draw_loss(message, row, row is home, title)
        if home and (elsewhere or not message.deliveries and message.lost is None):
            self.draw_exit(message, home, title, elsewhere)

    def is_folded(self, at: int) -> bool:
        """Whether a step shares its column with others, so that its arrow is that of the column."""
        return self.columns[self.column[at]].kind != "one"

    def gap(self, message: Message) -> int:
        """How far from its end a message from elsewhere comes in, or to elsewhere goes: more where it goes farther."""
        return min(
            18 + 8 * abs(self.lane_for(message.receiver, message.dir) - self.lane_for(message.sender, message.dir)),
            LANE - 14,
        )

    def start(self, message: Message, row: Row) -> tuple[float, float]:
        """The place at which a message leaves its sender."""
        lane, is_mark = (
            self.lane_for(message.sender, message.dir),
            self.replay.steps[message.posted].house == message.sender,
        )
        return row.x(self.column[message.posted]), row.y(lane) + self.sign(message) * (MARK / 2 if is_mark else 0)

    def draw_delivery(self, message: Message, at: int, row: Row, is_home: bool, title: str) -> None:
        """The arrow to a delivery, from where it was posted, or from elsewhere."""
        sign, step = self.sign(message), self.replay.steps[at]
        x, y = row.x(self.column[at]), row.y(self.lane_for(message.receiver, message.dir)) - sign * (MARK / 2 + 1)
        begin = (
            self.start(message, row)
            if is_home
            else (max(row.left - 8, x - self.pitch * 1.1), y - sign * self.gap(message))
        )
        points = self.route(row, begin, (x, y))
        shapes = [path(points, "hit"), path(points, "line"), head(points, not step.has_changed)]
        if not is_home:
            shapes += [dots(points[1], points[0]), self.stub(begin, message.posted, "<", sign)]
            self.used.add("elsewhere")
        self.add("arrow", titled(message.kind, title, *shapes))

    def draw_loss(self, message: Message, row: Row, is_home: bool, title: str) -> None:
        """The way of a message to the cross where it was lost; pale, where it had been taken before."""
        assert message.lost is not None
        x, y = row.x(self.column[message.lost]) - self.mark_width / 2 - 6, self.break_y(row, message)
        near = (max(row.left - 8, x - self.pitch * 0.8), y - self.sign(message) * 14)
        points = self.route(row, self.start(message, row) if is_home else near, (x, y))
        shapes = [path(points, "hit"), path(points, "line"), cross(x, y)]
        if not is_home:
            shapes += [dots(points[1], points[0]), self.stub(near, message.posted, "<", self.sign(message))]
            self.used.add("elsewhere")
        self.used.add("lost")
        was_taken = any(self.replay.steps[it].has_changed for it in message.deliveries)
        self.add("arrow", titled(message.kind + (" pale" if was_taken else ""), title, *shapes))

    def draw_exit(self, message: Message, row: Row, title: str, is_elsewhere: bool) -> None:
        """The beginning of a message's way that ends in no step of its row: elsewhere, or nowhere."""
        x, y = self.start(message, row)
        # It is flat, so that it is not taken for the way to the next column.
        ends = x + self.pitch * 0.85, y + self.sign(message) * (self.gap(message) - 13)
        shapes = [path([(x, y), ends], "hit"), path([(x, y), ends], "line")]
        if is_elsewhere:
            later = [it for it in (*message.deliveries, message.lost) if it is not None and not self.is_in(row, it)]
            shapes += [dots((x, y), ends), self.stub(ends, later[0], ">", self.sign(message))]
        else:
            shapes.append(circle(*ends, 2.6, "hollow"))
        self.used.add("elsewhere" if is_elsewhere else "pale")
        self.add("arrow", titled(message.kind + ("" if is_elsewhere else " pale"), title, *shapes))

    def is_in(self, row: Row, at: int) -> bool:
        """Whether a step is in a row."""
        return self.in_view(at) and self.row_of(self.column[at]) is row

    def stub(self, place: tuple[float, float], at: int, sign: str, way: int) -> str:
        """The line at which a way goes on, as a link to its mark."""
        line = self.replay.steps[at].line
        x, y = place[0] + (4 if sign == ">" else -4), place[1] + (13 if (way > 0) == (sign == ">") else -5)
        words = text(x, y, f"{sign}{line}", "stub" + (" end" if sign == "<" else ""))
        return f'<a href="#line-{line}">{words}</a>' if self.in_view(at) else words

    def route(self, row: Row, begin: tuple[float, float], end: tuple[float, float]) -> list[tuple[float, float]]:
        """The points of a way that passes the marks of the houses between: straight, where that can be."""
        (x, y), (to_x, to_y) = begin, end
        points, sign, slope = [begin], 1 if to_y > y else -1, abs((to_x - x) / (to_y - y)) if to_y != y else 0
        lanes = [it for it in sorted(row.tops)[:-1] if min(y, to_y) + 3 < row.y(it) < max(y, to_y) - 3]
        for lane in lanes if sign > 0 else lanes[::-1]:
            last_x, last_y = points[-1]
            over = last_x + (to_x - last_x) * (row.y(lane) - last_y) / (to_y - last_y)
            if not row.is_free(lane, over, self.mark_width / 2 + 3 + slope * MARK / 2):
                margin = self.mark_width / 2 + 6
                steps = [over + turn * 4 * it for it in range(1, 60) for turn in (1, -1)]
                free = [it for it in steps if last_x + 4 < it < to_x - 4 and row.is_free(lane, it, margin)]
                if free:
                    points += [(free[0] - 3, row.y(lane) - sign * 11), (free[0] + 3, row.y(lane) + sign * 11)]
        return [*points, end]

    def message_title(self, message: Message) -> str:
        """The hover text of a message: where it was posted, and each delivery."""
        lines = [name_of(message), "posted:", *told(self.replay.steps[message.posted])]
        for at in message.deliveries[:MOST_LINES]:
            lines += ["delivered:", *told(self.replay.steps[at])]
        if len(message.deliveries) > MOST_LINES:
            lines.append(f"… and {len(message.deliveries) - MOST_LINES} more times")
        if message.lost is not None:
            lines += ["lost:", *told(self.replay.steps[message.lost])]
        if not message.deliveries and message.lost is None:
            lines.append("never delivered")
        return "\n".join(lines)
