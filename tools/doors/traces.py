"""A trace of what houses answered, with where in their journals that was, and of the commands that asked for it: what
a trial compares with the explained journals (tools/door-trial)."""
from __future__ import annotations

import json
import os
import time

from doors.clerks import Job
from doors.houses import Here, House, There
from doors.lines import is_turn


class Trace:
    def __init__(self, path: str) -> None:
        self.file = open(path, "a", buffering=1, encoding="ascii")

    def follow(self, house: Here) -> None:
        """Writes down what a house of this door answers that is no turn."""

        def up() -> None:
            house.segment = max(int(name) for name in os.listdir(house.folder) if name.isdigit())
            before()

        def answered(line: str, told: list[str]) -> None:
            if is_turn(line, told):
                house.turns += 1
            elif not line.startswith(("clock", "more", "start")):
                self.write([time.time(), house.number, house.segment, house.turns, line, told])

        before, house.on_up, house.on_answer = house.on_up, up, answered

    def ended(self, job: Job) -> None:
        began = time.time() - (time.monotonic() - job.since)
        self.write(["command", began, time.time(), job.line, job.asked, job.said])

    def write(self, record: list[object]) -> None:
        self.file.write(json.dumps(record) + "\n")


def place(house: House) -> tuple[int, int]:
    """Where in its journal the last answer of a house is: the segment that its process began with, and the turns
    since."""
    if isinstance(house, Here):
        return house.segment, house.turns
    return house.at if isinstance(house, There) else (0, 0)
