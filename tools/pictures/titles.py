"""The words of a picture: hover texts, and what is above the columns."""

from __future__ import annotations

from .cell import Replay
from .facts import Epoch, Message, Step
from .shapes import end_of, short
from cds import commands

LONGEST_LABEL, LONGEST_READ, LONGEST_LINE, MOST_LINES = 24, 36, 160, 12


def cut(lines: list[str]) -> list[str]:
    """Lines of a hover text, of which long ones and many are cut."""
    kept = [short(it, LONGEST_LINE) for it in lines[:MOST_LINES]]
    return kept + ([f"… and {len(lines) - MOST_LINES} more lines"] if len(lines) > MOST_LINES else [])


def told(step: Step) -> list[str]:
    """A step in a hover text: its line of the script, and its answer."""
    return [
        short(f"line {step.line}: {step.text}", LONGEST_LINE),
        *(f"    {it}" for it in cut(step.answer.split("\n"))),
    ]


def name_of(message: Message) -> str:
    """A message in a hover text."""
    if not message.sender:
        return f"message {message.serial}: {message.kind}; the script does not tell from which house"
    stamp = f" of the skulk {message.stamp}" if message.stamp else ""
    way = f"from house {message.sender} to house {message.receiver}"
    return f"message {message.serial}: {message.kind}{stamp}, {way}, directory {message.dir}, epoch {message.epoch}"


def said_of(digits: str) -> str:
    """A value in a label: as a text, if it is one."""
    octets = bytes.fromhex(digits)
    return short(f'"{octets.decode("ascii")}"' if all(0x20 <= it <= 0x7E for it in octets) else digits, 16)


def label_of_read(step: Step) -> str:
    """A read in brief: of which entry and attribute, at which confidence, and the values."""
    words, answer = step.words, step.answer.split()[3:]
    label = f"read {words[2].split('/')[-1]} {words[3]} {words[1]}"
    if step.outcome != "ok":
        return short(label, LONGEST_READ - len(step.outcome)) + f": {step.outcome}"
    return short(f"{label} = {' '.join(map(said_of, answer)) or 'none'}", LONGEST_READ)


SIGNS = {
    "create": "+{0}",
    "link": "+{0}",
    "delete": "-{0}",
    "mkdir": "+{0}",
    "repoint": "{0} anew",
    "add": "+{0}.{1}",
    "remove": "-{0}.{1}",
    "put": "={0}.{1}",
    "clear": "-{0}.{1}",
}


def effect_of(message: Message, replay: Replay) -> str:
    """What an Update brings, if the step that posted it says that."""
    step = replay.steps[message.posted]
    if message.kind != "Update" or step.command not in SIGNS:
        return ""
    return " " + SIGNS[step.command].format(*(it or "" for it in (*step.words[2:4], "")))


def label_of(step: Step, replay: Replay) -> str:
    """The words above a step's column: the command in brief, or the message that is delivered; and why it came to
    nothing."""
    words, command = step.words, step.command
    if command == "read":
        return label_of_read(step)
    if command == "deliver" and step.message:
        label = f"{step.message.kind} {words[0]}{effect_of(step.message, replay)}"
    elif command in ("deliver", "lose", "decode"):
        label = f"{command} {words[0]}"
    elif command == "epoch":
        label = f"epoch {step.answer.split()[2]}" if step.outcome == "ok" else "epoch"
    elif command == "clock":
        label = f"clock {end_of(words[1], 8)}"
    elif command in ("house", "root", "crash", "start", "skulk", "dump", "octets", "image"):
        label = command
    else:
        name = (
            words[2]
            if command in commands.UPDATES or command == "mkdir"
            else next(it for it in words if it.startswith("/.:"))
        )
        label = f"{command} {name.split('/')[-1]}"
    outcome = "" if step.outcome in ("ok", "taken", "complete") else f": {step.outcome}"
    return short(label, max(12, LONGEST_LABEL - len(outcome))) + outcome


def epoch_title(epoch: Epoch) -> str:
    """The hover text of an epoch."""
    members = " ".join("s" * (it in epoch.secondary) + str(it) for it in epoch.members)
    return f"epoch {epoch.number} of directory {epoch.dir}: master {epoch.master}, members {members}"
