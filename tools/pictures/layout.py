"""Where things are in a picture in time: which steps and houses it has, its rows, columns and lines."""

from __future__ import annotations

import bisect
import math
from collections.abc import Iterator, Sequence

from .cell import Replay
from .choice import Choice
from .facts import Epoch, Message, Skulk, Step
from .folds import Column, fold
from .kept import used_answers
from .rows import EPOCH, FARTHER, LANE, LEFT, LEVEL, MANY, MOST_LEVELS, NARROW, OVERHANG, SLOPE, WIDE, Label, Row
from .shapes import end_of, width_of
from .titles import epoch_title, label_of, told

MOST_SHOWN = 10  # lines of houses; of more a row has those alone that have to do with it


class Layout:
    """The steps, houses, rows and lines of a picture, between two lines of the script, of one directory or of all."""

    layers: dict[str, list[str]]
    used: set[str]
    # (the first line of each house, and the line of each directory at a house)
    lane: dict[int, int]
    lane_at: dict[tuple[int, int], int]
    posted: dict[int, list[Message]]
    rows: list[Row]
    bottom: float

    def __init__(self, replay: Replay, name: str, choice: Choice, room: int | None = None) -> None:
        self.replay, self.name, self.choice, self.dir = replay, name, choice, choice.dir
        self.steps = choice.steps(replay)
        self.dirs = [choice.dir] if choice.dir else sorted(replay.epochs)
        self.is_dir_told = len(replay.epochs) > 1
        self.houses_of = {node: house for house, node in replay.nodes.items()}
        self.layers = {it: [] for it in ("shade", "guide", "lane", "upright", "arrow", "tag", "mark", "label")}
        self.used = set()
        digits = len(str(self.steps[-1].line))
        self.mark_width = max(22, 9 + 7 * digits)
        self.used_by_clerk = used_answers(replay, room) if room else {}
        self.choose()

    # What is drawn.

    def choose(self) -> None:
        """Folds the steps into columns, and chooses the houses."""
        replay, directory = self.replay, self.dir
        members = {house for epoch in replay.epochs.get(directory or 0, ()) for house in epoch.members}
        self.columns = fold(self.steps)
        self.ats = [it.first.at for it in self.columns]
        self.column = {step.at: at for at, it in enumerate(self.columns) for step in it.steps}
        made = {house for house, at in replay.born.items() if at <= self.steps[-1].at}
        acting = {it.house for it in self.steps if it.house}
        if self.choice.houses:
            acting, made = acting & self.choice.houses, made & self.choice.houses
        elif self.choice.entry is not None or self.choice.message is not None:
            made = acting | {it.message.sender for it in self.steps if it.message and it.message.sender}
        self.houses = sorted(acting | (made & members if directory else made))
        self.make_lanes()
        self.posted = {}
        for message in replay.messages.values():
            self.posted.setdefault(message.posted, []).append(message)
        self.has_clerk = any(it in self.column for it in self.used_by_clerk)
        self.is_aside = any(self.lane_of(it) == len(self.lanes) for it in self.steps)

    def make_lanes(self) -> None:
        """Gives each house a line for each directory that it holds at some time, or one line where it holds none."""
        held: dict[int, set[int]] = {}
        for _, house, directory, role in self.replay.holdings:
            if role != "none" and self.is_drawn(directory):
                held.setdefault(house, set()).add(directory)
        self.lanes = [(house, it) for house in self.houses for it in sorted(held.get(house, ())) or [0]]
        self.is_split = len({it for _, it in self.lanes} - {0}) > 1
        self.lane, self.lane_at = {}, {}
        for lane, (house, directory) in enumerate(self.lanes):
            self.lane.setdefault(house, lane)
            self.lane_at[house, directory] = lane

    def brief(self, stamp: str) -> str:
        """A stamp in a label: with its house, where its node is of one, and of a long time or node the last digits."""
        time, _, node = stamp.partition("@")
        return f"{end_of(time, 8)}@{self.houses_of.get(node) or end_of(node.lstrip('0') or '0', 6)}"

    def lane_for(self, house: int, directory: int) -> int:
        """The line of a directory at a house, or the first of the house."""
        return self.lane_at.get((house, directory), self.lane[house])

    def is_broken(self, step: Step) -> bool:
        """Whether a step loses a message whose way is known."""
        message = step.message
        return (
            message is not None
            and step.command == "lose"
            and step.outcome == "ok"
            and message.sender in self.lane
            and message.receiver in self.lane
        )

    def lane_of(self, step: Step) -> int | None:
        """The line that a step is at, or None if it is on the way of a message."""
        if self.is_broken(step):
            return None
        if step.house not in self.lane:
            return len(self.lanes)
        known = [self.lane_at[step.house, it] for it in step.dirs if (step.house, it) in self.lane_at]
        return known[0] if known else self.lane[step.house]

    def line_of(self, step: Step) -> int:
        """The line of a step that is at one."""
        lane = self.lane_of(step)
        assert lane is not None
        return lane

    def is_drawn(self, directory: int) -> bool:
        """Whether a directory is chosen."""
        return self.dir in (None, directory)

    def in_view(self, at: int | None) -> bool:
        """Whether a step is in the picture."""
        return at in self.column

    def column_of(self, at: int) -> int:
        """The column of a step, or that of the next one drawn."""
        return self.column[at] if at in self.column else bisect.bisect_left(self.ats, at)

    def of_dir(self, directory: int) -> str:
        """How a label says the directory, if there are several."""
        return f" of dir {directory}" if self.is_dir_told and not self.dir else ""

    def messages(self) -> Iterator[Message]:
        """The messages that are drawn: those of known houses that are posted, delivered or lost in the picture."""
        for message in self.replay.messages.values():
            if message.posted > self.steps[-1].at:
                break
            # (what is lost in the step that posted it has no way)
            is_known = message.sender in self.lane and message.receiver in self.lane and message.lost != message.posted
            if is_known and self.is_drawn(message.dir):
                if any(map(self.in_view, (message.posted, *message.deliveries, message.lost))):
                    yield message

    def sign(self, message: Message) -> int:
        """Which way a message goes: 1 down, or -1 up."""
        return 1 if self.lane_for(message.receiver, message.dir) > self.lane_for(message.sender, message.dir) else -1

    def break_y(self, row: Row, message: Message) -> float:
        """Where a message is lost: before it comes to its receiver."""
        return row.y(self.lane_for(message.receiver, message.dir)) - self.sign(message) * LANE / 2

    def skulk_title(self, skulk: Skulk) -> str:
        """The hover text of a skulk."""
        lines = [
            f"skulk {skulk.stamp} of directory {skulk.dir}, at house {skulk.house}",
            *told(self.replay.steps[skulk.start]),
        ]
        if skulk.end is None:
            return "\n".join([*lines, "it is not complete at the end of the script"])
        what = "complete" if skulk.is_complete else "ended, and never complete"
        return "\n".join([*lines, f"{what}:", *told(self.replay.steps[skulk.end])])

    # Rows.

    def lay_out(self, top: float) -> None:
        """Cuts the steps into rows, and gives each its place."""
        epochs = {epoch.step for directory in self.dirs for epoch in self.replay.epochs[directory]}
        left, begun = FARTHER if self.is_split else LEFT, sum(it in epochs for it in self.ats)
        room = NARROW - OVERHANG - left
        # Steps are a little nearer to each other if one row is enough then.
        gaps = [it for it in (9, 8, 7, 6) if (self.mark_width + it) * len(self.columns) + EPOCH * begun <= room]
        self.pitch = self.mark_width + (gaps or [9])[0]
        rooms = [self.pitch + (EPOCH if it in epochs else 0) for it in self.ats]
        width = NARROW if sum(rooms) <= MANY * room else WIDE
        self.rows = []
        for begin, end in self.cuts(rooms, width - OVERHANG - left):
            row = Row(begin, left)
            for column in range(begin, end):
                row.xs.append(row.right + rooms[column] - self.pitch / 2)
                row.right, row.end = row.right + rooms[column], column + 1
            self.rows.append(row)
        self.starts = [it.first for it in self.rows]
        self.gather_labels()
        for row in self.rows:
            row.lay(self.lanes, self.shown(row))
            top = self.place(row, top)
        self.bottom = top

    def shown(self, row: Row) -> Sequence[int]:
        """The lines of houses that a row shows: all of a few, and else those that have to do with its steps."""
        if len(self.lanes) <= MOST_SHOWN:
            return range(len(self.lanes))
        found: set[int] = set()
        for column in self.columns[row.first : row.end]:
            steps = column.steps if column.kind != "houses" else [column.first, column.last]
            for step in steps:
                found |= set(self.lanes_of(step))
        return sorted(found) or [0]

    def lanes_of(self, step: Step) -> list[int]:
        """The lines that have to do with a step: its own, and where messages that it posts or loses come from or go."""
        lane = self.lane_of(step)
        if lane is None:
            return [self.lane_for(it, step.way.dir) for it in (step.way.sender, step.way.receiver)]
        senders = {it.sender for it in self.posted.get(step.at, ()) if it.sender in self.lane}
        lanes = [self.lane_for(it, step.dirs[0]) for it in senders if step.dirs]
        return [it for it in (lane, *lanes) if it < len(self.lanes)]

    def cuts(self, rooms: list[int], width: int) -> list[tuple[int, int]]:
        """Where rows begin and end, of which none is wider: in the last third of what has room, where the least goes on
        in the next one. What is left for the last two rows is cut into more equal ones."""
        spans = self.open_spans()
        begin, cuts = 0, []
        while begin < len(rooms):
            most = max(self.filled(rooms, begin, width), begin + 1)
            end = most
            if most < len(rooms):
                least, best = begin + max(1, (most - begin) * 2 // 3), most
                if self.filled(rooms, most, width) == len(rooms):
                    least, best = begin + max(1, (len(rooms) - begin) // 3), (begin + len(rooms)) // 2
                    least = next(it for it in range(least, most + 1) if self.filled(rooms, it, width) == len(rooms))
                end = min(range(most, least - 1, -1), key=lambda it: (spans[it], abs(it - best)))
            cuts.append((begin, end))
            begin = end
        return cuts

    def filled(self, rooms: list[int], begin: int, width: int) -> int:
        """The first column after a row that begins with one."""
        used = 0
        for end in range(begin, len(rooms)):
            used += rooms[end]
            if used > width:
                return end
        return len(rooms)

    def open_spans(self) -> list[int]:
        """For each column how much is open before it: messages on their way, and skulks, which count more."""
        changes = [0] * (len(self.columns) + 1)
        spans = [(it.posted, at, 1) for it in self.messages() for at in (*it.deliveries, it.lost) if at is not None]
        spans += [(it.start, it.end, 6) for it in self.skulks() if it.end is not None]
        for begin, end, weight in spans:
            first, last = self.column_of(begin) + 1, self.column_of(end)
            if first <= last:
                changes[first] += weight
                changes[min(last + 1, len(self.columns))] -= weight
        for at in range(len(self.columns)):
            changes[at + 1] += changes[at]
        return changes

    def row_of(self, column: int) -> Row:
        """The row of a column."""
        return self.rows[bisect.bisect(self.starts, column) - 1]

    def place(self, row: Row, top: float) -> float:
        """Gives the parts of a row their places from above, and returns its end."""
        columns = self.columns[row.first : row.end]
        longest = max(width_of(self.label_of(it)) for it in columns)
        row.lanes = top + longest * math.sin(math.radians(SLOPE)) + 14
        row.strip = row.bottom() + 4
        placed: list[Label] = []
        for label in sorted(row.labels, key=lambda it: -it.x):
            for level in range(MOST_LEVELS):
                label.put(level, row.right + OVERHANG - 8)
                if all(map(label.fits, placed)):
                    placed.append(label)
                    break
        row.labels = placed
        for at, column in enumerate(columns, row.first):
            for step in column.steps:
                row.marks.setdefault(self.lane_of(step), []).append(row.x(at))
        levels = max((it.level + 1 for it in placed), default=0)
        return row.strip + LEVEL * levels + self.below() + 12

    def below(self) -> int:
        """The room of the lines below the houses: for steps of no house, and for the clerk."""
        return LANE * (self.is_aside + self.has_clerk)

    def label_of(self, column: Column) -> str:
        """The words above a column."""
        return label_of(column.first, self.replay) if column.kind == "one" else column.label(self.replay.messages)

    def gather_labels(self) -> None:
        """Gives each row the labels of its skulks and epochs."""
        for epoch in self.epochs():
            column = self.column[epoch.step]
            row = self.row_of(column)
            words = f"epoch {epoch.number}{self.of_dir(epoch.dir)}"
            row.labels.append(Label(self.upright_x(row, column), words, epoch_title(epoch)))
        for skulk in self.skulks():
            for row, left, _ in self.spans(skulk.start, skulk.end):
                ending = "" if skulk.is_complete else ", not complete"
                words = f"skulk {self.brief(skulk.stamp)}{self.of_dir(skulk.dir)}{ending}"
                row.labels.append(Label(left, words, self.skulk_title(skulk)))

    def epochs(self) -> list[Epoch]:
        """The epochs that begin in the picture."""
        return [it for directory in self.dirs for it in self.replay.epochs[directory] if self.in_view(it.step)]

    def skulks(self) -> list[Skulk]:
        """The skulks that run in the picture."""
        first, last = self.steps[0].at, self.steps[-1].at
        chosen = (it for it in self.replay.skulks if self.is_drawn(it.dir))
        return [it for it in chosen if it.start <= last and (it.end is None or it.end >= first)]

    def spans(self, start: int, end: int | None) -> Iterator[tuple[Row, float, float]]:
        """The rows between two steps, each with the places of the shade in it."""
        begin = self.column_of(start)
        stop = self.column_of(end) if end is not None else len(self.columns)
        half = self.mark_width / 2 + 3
        for row in self.rows:
            if begin < row.end and stop >= row.first and (stop > row.first or self.in_view(end)):
                left = row.x(begin) - half if begin >= row.first and self.in_view(start) else row.left
                right = row.x(stop) + half if stop < row.end and self.in_view(end) else row.right
                yield row, left, right

    def upright_x(self, row: Row, column: int) -> float:
        """The place of an epoch's line."""
        return row.x(column) - self.pitch / 2 - EPOCH / 2 + 3
