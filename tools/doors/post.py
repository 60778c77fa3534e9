"""The messages of a cell on their way: a queue for each house, in memory. None is kept over the door's end: a house
says those of its last turn again at its start, a skulk brings the updates that the others said, and another epoch the
Joins."""
from __future__ import annotations

import collections
from collections.abc import Callable, Mapping

from doors.houses import Answer, House

# So many wait for one house at most. Then the oldest go.
MOST_WAITING = 100_000


class Post:
    """Gives each house what waits for it, one message after the other. What is not answered stays first. `mark` gets
    the octets of each message that is posted or taken here."""

    def __init__(
        self,
        houses: Mapping[int, House],
        counts: collections.Counter[str],
        note: Callable[[str], None],
        mark: Callable[[str], None],
    ) -> None:
        self.houses, self.counts, self.note, self.mark = houses, counts, note, mark
        self.waiting: dict[int, collections.deque[str]] = collections.defaultdict(collections.deque)
        self.carrying: set[int] = set()

    def post(self, to: int, octets: str) -> None:
        self.counts["posted"] += 1
        self.mark(octets)
        queue = self.waiting[to]
        queue.append(octets)
        if len(queue) > MOST_WAITING:
            queue.popleft()
            self.counts["dropped"] += 1
        self.deliver(to)

    def deliver(self, to: int) -> None:
        """Gives a house the next message, if it is reached and none is under way."""
        house, queue = self.houses.get(to), self.waiting[to]
        if not house or not queue or to in self.carrying or not house.is_reached:
            return
        self.carrying.add(to)
        octets = queue[0]

        def taken(told: Answer) -> None:
            self.carrying.discard(to)
            if told is None:
                return
            # (it may have been dropped while it was under way)
            if queue and queue[0] is octets:
                queue.popleft()
            self.took(to, octets, told[-1])
            self.deliver(to)

        house.ask(f"take {octets}", taken)

    def took(self, to: int, octets: str, answer: str) -> None:
        self.counts["-".join(answer.split(" ")[:2])] += 1
        self.mark(octets)
        if not answer.startswith("ok"):
            self.note(f"house {to} took no message: {answer}: {octets[:80]}")

    def deliver_all(self) -> None:
        for to in list(self.waiting):
            self.deliver(to)
