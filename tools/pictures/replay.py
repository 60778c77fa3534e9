"""Reads what happened in a replay from a script and its answers. Nothing is replayed here: `cell` follows what the
words tell."""

from __future__ import annotations

import re
from collections.abc import Iterator

from .cell import STEPS, Replay
from .facts import Fault, Step, numbers
from cds.answers import ANSWERS, FAULT, LONG, REASONS, REFUSED, STOPS
from cds.commands import COMMANDS, LINES, NEED_NO_HOUSE, PLACES, QUESTIONS, SERVICES, STOP, STOPPED

# The number of a line, its command, its groups of words, its text, and the house that is stopped inside it.
Command = tuple[int, str, tuple[str, ...], str, int | None]


def lines_of(source: str, octets: bytes) -> list[str]:
    """The lines of an input, which are all ended and have no octets but those from 20 to 7E."""
    strange = re.search(rb"[^\n\x20-\x7e]", octets)
    if strange:
        line = octets.count(b"\n", 0, strange.start()) + 1
        raise Fault(source, line, f"the octet {strange.group()[0]:02X} stands in no line")
    lines = octets.decode("ascii").split("\n")
    if lines.pop():
        raise Fault(source, len(lines) + 1, "it is not ended")
    return lines


def steps_of(script: list[str], first: int = 1) -> Iterator[Command]:
    """The commands of a script's lines, of which the first has this number, with their groups of words."""
    for number, line in enumerate(script, first):
        front = line.split(None, 1)
        if front and not front[0].startswith("#"):
            stop, text = None, line
            if front[0] == "stop":
                found = STOP.fullmatch(line)
                if not found or found.group(2).split()[0] not in STOPPED:
                    raise Fault("script", number, "it has not the form `stop H K W COMMAND`")
                stop, line = int(found.group(1)), found.group(2)
            command = line.split(None, 1)[0]
            if command not in COMMANDS:
                raise Fault("script", number, f"there is no command `{command[:40]}`")
            # Most lines have one space between words, and no other.
            found = LINES[command].fullmatch(line) or LINES[command].fullmatch(" ".join(line.split()))
            if not found:
                raise Fault("script", number, f"it has not the form `{command} {COMMANDS[command]}`")
            yield number, command, found.groups(), found.string if stop is None else " ".join(text.split()), stop


def place(replay: Replay, step: Step) -> None:
    """Where a step stands, as its words say: its house, its directory and its message."""
    command, words = step.command, step.words
    if command in ("deliver", "lose"):
        message = step.message = replay.messages.get(int(words[0]))
        if message:
            step.house = message.receiver if command == "deliver" else 0
            step.dirs = (message.dir,)
    elif words[0] == "house":
        step.house = known(replay, words[1])
    else:
        house, directory = PLACES[command]
        if house is not None:
            step.house = known(replay, words[house])
        if directory is not None:
            step.dirs = (int(words[directory]),)
        elif command == "root":
            step.dirs = (1,)


def known(replay: Replay, word: str) -> int:
    """The house of this number, or 0 where it was not made."""
    return int(word) if int(word) in replay.nodes else 0


def answer(replay: Replay, step: Step, said: str) -> None:
    """Takes the answer of a step, without its line's number."""
    command = step.command
    if " posted " in said:
        step.posted = numbers(said.partition(" posted ")[2])
    found = ANSWERS[command].fullmatch(said)
    if not found:
        refuse(replay, step, said)
    elif not step.house and command not in NEED_NO_HOUSE:
        raise replay.fault("its house was not made")
    else:
        step.has_changed = command not in QUESTIONS
        STEPS[command](replay, step, found.groups())
    if step.posted:
        raise replay.fault("it posts more messages than its command does")


def refuse(replay: Replay, step: Step, said: str) -> None:
    """Takes a refusal. Some updates of a command of the name service may have been made before it."""
    found = REFUSED.fullmatch(said)
    if not found or found.group(1) not in REASONS:
        raise replay.fault(f"`{said[:60]}` is no answer to `{step.text[:60]}`")
    step.outcome, count = found.group(1, 2)
    if step.command in SERVICES and step.outcome == "StampsSpent":
        if not count:
            raise replay.fault("it does not say how many updates were made")
        replay.do_service(step, [count.split()[0]])
    elif step.command == "deliver" and step.message and step.outcome == "Down":
        step.message.deliveries += (step.at,)


def long_answer(replay: Replay, step: Step, said: str, answers: list[str]) -> None:
    """Takes an answer of several lines, of which `said` is the first."""
    middle, last = LONG[step.command]
    while not last.fullmatch(said):
        if not middle.fullmatch(said):
            raise replay.fault(f"`{said[:60]}` is no answer to `{step.text[:60]}`")
        said = next_answer(replay, step, answers)


def tell_fault(text: str, last: int) -> None:
    """Tells the fault of the script that an answer tells, in a line of it up to the last."""
    told = FAULT.fullmatch(text)
    if told and int(told.group(1)) <= last:
        raise Fault("script", told.group(1), f"the program found the fault {told.group(2)} {told.group(3)}")


def next_answer(replay: Replay, step: Step, answers: list[str]) -> str:
    """The next line of the answer to a step, without its line's number."""
    if replay.line == len(answers):
        replay.line += 1
        raise replay.fault(f"the answer to line {step.line} of the script is missing, or its end")
    text, front = answers[replay.line], f"{step.line} "
    replay.line += 1
    if not text.startswith(front) or text.startswith("fault ", len(front)):
        tell_fault(text, step.line)
        raise replay.fault(f"`{text[:60]}` stands where line {step.line} of the script is answered")
    step.answer = f"{step.answer}\n{text}" if step.answer else text
    return text[len(front) :]


class Reader:
    """What happened so far, as the lines of a script and the program's answers to them come."""

    answers: list[str]

    def __init__(self) -> None:
        self.replay, self.count, self.answers = Replay(), 0, []

    def take(self, script: list[str], answers: list[str]) -> None:
        """Takes more lines, and the answers to them."""
        self.answers += answers
        for line, command, words, text, stop in steps_of(script, self.count + 1):
            step = Step(len(self.replay.steps), line, command, words, text, stop)
            place(self.replay, step)
            said = next_answer(self.replay, step, self.answers)
            if stop is not None and said in STOPS:
                self.replay.stop(step, STOPS[said])
            elif command in LONG and not said.startswith("refused"):
                if not step.house:
                    raise self.replay.fault("its house was not made")
                long_answer(self.replay, step, said, self.answers)
            else:
                answer(self.replay, step, said)
            self.replay.steps.append(step)
        self.count += len(script)
        if self.replay.line < len(self.answers):
            tell_fault(self.answers[self.replay.line], self.count)
            self.replay.line += 1
            raise self.replay.fault("no command of the script is left for it")


def read(script: bytes, answers: bytes) -> Replay:
    """What happened, from the octets of a script and of the program's answers."""
    reader = Reader()
    reader.take(lines_of("script", script), lines_of("answers", answers))
    return reader.replay
