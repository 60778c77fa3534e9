"""What a picture in time has but arrows: houses as lines, steps as marks on them, skulks, epochs, rises of AllUpTo."""

from __future__ import annotations

import sys

from .facts import Epoch, Rise, Skulk, Step
from .layout import Layout
from .rows import EDGE, LANE, LEVEL, MARK, OVERHANG, SLOPE, Row
from .shapes import badge, bolt, circle, line, number, rect, text, titled, width_of
from .titles import epoch_title, name_of, told
from cds import answers, commands


class Marks(Layout):
    """A picture's houses, steps, skulks and epochs."""

    def add(self, layer: str, *shapes: str) -> None:
        """Adds shapes to a layer."""
        self.layers[layer] += shapes

    def draw_row(self, row: Row) -> None:
        """The names of a row's houses, the words above its columns, and its labels."""
        for lane, (house, directory) in enumerate(self.lanes):
            if lane in row.tops and self.replay.born[house] <= self.columns[row.end - 1].last.at:
                title = f"house {house}, node {self.replay.nodes[house]}"
                if not any(it in row.tops for it in range(self.lane[house], lane)):
                    self.add("label", titled("", title, text(EDGE, row.y(lane) + 4, f"house {house}", "house ink")))
                if self.is_split and directory:
                    self.add("label", text(row.left - 6, row.y(lane) + 4, f"dir {directory}", "dim end"))
        if self.is_aside:
            title = "steps of no house: the script names none, or none that was made"
            self.add("label", titled("", title, text(EDGE, row.y(len(self.lanes)) + 4, "no house", "dim")))
        for label in row.labels:
            x, anchor = (label.x - 5, " end") if label.is_left else (label.x + 5, "")
            y = row.strip + LEVEL * label.level + 12 + self.below()
            self.add("upright", line(label.x, row.bottom(), label.x, y + 2, "leader"))
            self.add("label", titled("", label.title, text(x, y, label.words, f"ink{anchor}")))
        for column in range(row.first, row.end):
            x, y = row.x(column), row.lanes
            turned = f' transform="rotate(-{SLOPE} {number(x)} {number(y - 4)})"'
            self.add("label", text(x + 2, y - 4, self.label_of(self.columns[column]), "dim", turned))
            self.add("guide", line(x, y, x, max(self.height_of(row, it) for it in self.columns[column].steps), "guide"))

    def height_of(self, row: Row, step: Step) -> float:
        """How high the mark of a step is."""
        lane = self.lane_of(step)
        if lane is None:
            is_folded, message = self.columns[self.column[step.at]].kind == "fan", step.way
            return row.y(self.lane_for(message.receiver, message.dir)) if is_folded else self.break_y(row, message)
        return row.y(lane) if lane in row.tops else row.bottom() - LANE / 2

    def draw_lanes(self) -> None:
        """The lines of the houses: gone while a house is down, and thick while it accepts updates."""
        for lane, (house, directory) in enumerate(self.lanes):
            changes = self.lane_changes(house, directory)
            # (the end of the picture ends the last one)
            for (at, style), (until, _) in zip(changes, [*changes[1:], (sys.maxsize, None)]):
                if style is None or until <= self.ats[0] or at > self.steps[-1].at:
                    continue
                begin, stop = self.column_of(at), self.column_of(until)
                for row in (it for it in self.rows if lane in it.tops):
                    left, right = row.left if at < self.ats[0] else row.x(begin), row.x(stop)
                    if begin < row.end and stop >= row.first and left < right:
                        self.used.add(f"lane {style}")
                        self.add("lane", line(left, row.y(lane), right, row.y(lane), f"lane {style}"))

    def lane_changes(self, house: int, directory: int) -> list[tuple[int, str | None]]:
        """From which step on a line has which style: none, while its house is down or was not made."""
        events = [(self.replay.born[house], "up", "")]
        for down, up in self.replay.downs.get(house, ()):
            events.append((down, "down", ""))
            events += [(up, "up", "")] if up is not None else []
        events += [(at, "role", role) for at, who, it, role in self.replay.holdings if (who, it) == (house, directory)]
        role, is_up = "none", False
        changes: list[tuple[int, str | None]] = []
        for at, what, now in sorted(events, key=lambda it: it[0]):
            if what == "role":
                role = now
            else:
                is_up = what == "up"
            style = {"master": "master", "secondary": "secondary", "member": "", "none": "without"}[role]
            changes.append((at, style if is_up else None))
        if any(it is None for _, it in changes):
            self.used.add("gap")
        return changes

    def draw_skulk(self, skulk: Skulk) -> None:
        """The shade of a skulk, from its start to the step that completes or ends it."""
        title, kind = self.skulk_title(skulk), "shade" if skulk.is_complete else "open"
        self.used.add(kind)
        for row, left, right in self.spans(skulk.start, skulk.end):
            top, bottom = row.lanes, row.bottom()
            self.add("shade", titled("", title, rect(left, top, right - left, bottom - top, kind, 4)))

    def draw_epoch(self, epoch: Epoch) -> None:
        """The upright line of an epoch, with its master and its other members."""
        column = self.column[epoch.step]
        row = self.row_of(column)
        x, shapes = self.upright_x(row, column), []
        self.used.add("epoch")
        shapes.append(line(x, row.lanes + 2, x, row.bottom(), "upright"))
        for house in epoch.members:
            lane = self.lane_for(house, epoch.dir) if house in self.lane else None
            lane = lane if lane in row.tops else None
            letter = {"master": "M", "secondary": "S"}.get(epoch.role(house))
            if lane is not None and letter:
                shapes.append(badge(x, row.y(lane), letter))
                self.used |= {"second"} if letter == "S" else set()
            elif lane is not None:
                shapes.append(circle(x, row.y(lane), 4, "ink"))
        self.add("upright", titled("", "\n".join([epoch_title(epoch), *told(self.replay.steps[epoch.step])]), *shapes))

    def draw_step(self, column: int, step: Step) -> None:
        """The mark of a step, with its line's number."""
        row = self.row_of(column)
        x, y = row.x(column), self.height_of(row, step)
        left, top, width = x - self.mark_width / 2, y - MARK / 2, self.mark_width
        is_delivery = step.command == "deliver" and step.message is not None
        kind = step.way.kind if is_delivery else "step"
        radius = MARK / 2 if is_delivery else 2
        fill = "full"
        is_stopped = step.outcome in answers.STOPS.values()
        if is_stopped:
            fill = "full" if step.is_done() else "hollow"
        elif is_delivery and not step.has_changed:
            fill = "hollow"
        elif step.outcome not in ("ok", "taken", "complete"):
            fill = "hollow refused"
        elif step.command in commands.QUESTIONS:
            fill = "asked"
        self.used.add(
            "stopped" if is_stopped else fill if not is_delivery else "delivery" if fill == "full" else "late"
        )
        title = "\n".join([*told(step), *([name_of(step.message)] if step.message else [])])
        shapes = [rect(left, top, width, MARK, fill, radius), text(x, y + 4, str(step.line), "number")]
        shapes += [bolt(left + width, top + 2)] if is_stopped else []
        self.add("mark", titled(kind if fill == "full" else f"{kind} bare", title, *shapes, name=f"line-{step.line}"))

    # AllUpTo.

    def draw_rises(self) -> None:
        """A tag at each step at which the AllUpTo of its house rises."""
        ends: dict[tuple[int, int, bool], float] = {}
        for rise in self.replay.rises:
            if self.in_view(rise.step) and self.is_drawn(rise.dir) and rise.house in self.lane:
                self.draw_rise(rise, ends)

    def draw_rise(self, rise: Rise, ends: dict[tuple[int, int, bool], float]) -> None:
        """The tag of a rise: on the side of the house's line on which no message comes in."""
        column, lane = self.column[rise.step], self.lane_for(rise.house, rise.dir)
        row, message = self.row_of(column), self.replay.steps[rise.step].message
        is_above = message is None or message.sender in self.lane and self.sign(message) < 0
        words = f"▲ {self.brief(rise.stamp)}{self.of_dir(rise.dir)}"
        width = width_of(words) + 14
        x = row.x(column) - self.mark_width / 2
        key = row.first, lane, is_above
        if x < ends.get(key, 0) or x + width > row.right + OVERHANG - 10:
            words, width = "▲", 18
        ends[key] = x + width + 2
        top = row.y(lane) - MARK / 2 - 18 if is_above else row.y(lane) + MARK / 2 + 3
        before = rise.before or "none"
        title = f"AllUpTo of house {rise.house}, directory {rise.dir}: {rise.stamp}\nbefore it was {before}"
        title = "\n".join([title, *told(self.replay.steps[rise.step])])
        self.used.add("rise")
        self.add("tag", titled("", title, rect(x, top, width, 15, "tag", 2), text(x + 3, top + 11.5, words, "ink")))
