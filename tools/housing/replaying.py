"""Replays a script, and compares the answers with those that the journals have."""

from __future__ import annotations

import dataclasses

from cds.answers import answers_of
from cds.programs import ran
from housing.explaining import Script


@dataclasses.dataclass(frozen=True)
class Difference:
    """A line that the replay answers otherwise, and its place, from 0 on."""

    place: int
    line: str
    answer: str
    due: str


def differences(program: str, script: Script) -> list[Difference]:
    """What `PROGRAM run` answers otherwise than the script; last its status, if that is not 0."""
    status, output = ran([program, "run"], "".join(f"{line}\n" for line, _ in script).encode())
    answers, found = answers_of(output), list[Difference]()
    for place, (line, due) in enumerate(script):
        answer = answers.get(place + 1, [])
        if answer != due if due is not None else not answer or not answer[-1].startswith("ok"):
            found.append(Difference(place, line, "; ".join(answer)[:300], "; ".join(due or ["ok"])[:300]))
    return found + [Difference(len(script), "status", str(status), "0")] * (status != 0)
