"""Why a command was refused at its line: what the replay up to it says of its houses, directories and messages.

Each answers sentences. Where nothing certain can be said, the general help of `refusals` is all.
"""

from __future__ import annotations

import difflib
from collections.abc import Callable, Iterable, Iterator

from cds.commands import COMMANDS
from pictures import facts, replay as replays
from pictures.cell import Replay
from pictures.facts import Epoch, Message, Step
from speaking import refusals


def since(replay: Replay, house: int) -> int:
    """Since which line a house is down."""
    return replay.steps[replay.downs[house][-1][0]].line


def houses_of(step: Step) -> list[int]:
    """The houses that the words of a command name, its acting ones first."""
    kinds = COMMANDS[step.command].split()
    named = []
    for kind, word in zip(kinds, step.words):
        if kind in ("H", "M", "R..", "H.."):
            named += [int(it.lstrip("s")) for it in (word or "").split()]
    return named


def list_of(things: Iterable[object]) -> str:
    """Things in words."""
    *front, last = [str(it) for it in things] or ["none"]
    return f"{', '.join(front)} and {last}" if front else last


def down(replay: Replay, step: Step, _: list[int]) -> Iterator[str]:
    """A house is down."""
    named = [step.message.receiver] if step.command == "deliver" and step.message else houses_of(step)
    for house in named:
        if house in replay.nodes and replay.is_down(house):
            more = (
                f" The message waits: deliver it after that, or `lose {step.words[0]}`."
                if step.command == "deliver"
                else ""
            )
            helps = "" if step.command == "crash" else f" `start {house}` brings it up.{more}"
            yield f"House {house} is down since line {since(replay, house)}.{helps}"
            return


def no_house(replay: Replay, step: Step, _: list[int]) -> Iterator[str]:
    """A house was not made."""
    for house in houses_of(step):
        if house not in replay.nodes:
            made = list_of(sorted(replay.nodes)) if replay.nodes else "none yet"
            yield f"House {house} was not made (there are: {made}). `house {house} NODE` makes it."
            return


def house_exists(replay: Replay, step: Step, _: list[int]) -> Iterator[str]:
    """A house of this number or node is there."""
    house, node = int(step.words[0]), step.words[1].lower()
    if house in replay.nodes:
        yield f"House {house} was made in line {replay.steps[replay.born[house]].line}."
    else:
        for other, its in replay.nodes.items():
            if its == node:
                yield (
                    f"This is the node of house {other}, which was made in line"
                    f" {replay.steps[replay.born[other]].line}."
                )


def no_directory(replay: Replay, step: Step, _: list[int]) -> Iterator[str]:
    """A directory was not made."""
    made = list_of(sorted(replay.epochs)) if replay.epochs else "none yet"
    yield f"The directories so far: {made}. " + (
        "`root M R..` makes the root." if not replay.epochs else refusals.HELP["NoDirectory"]
    )


def bad_members(replay: Replay, step: Step, _: list[int]) -> Iterator[str]:
    """A house is named twice."""
    named = houses_of(step)[1 if step.command in ("mkdir", "repoint") else 0 :]
    twice = sorted({it for it in named if named.count(it) > 1})
    yield f"House {list_of(twice)} is named twice." if twice else f"{len(named)} houses are named, and 64 are the most."


def directory_of(step: Step) -> int:
    """The directory that a command names."""
    kinds = COMMANDS[step.command].split()
    return int(step.words[kinds.index("D")]) if "D" in kinds else 1


def joins(replay: Replay, house: int, directory: int) -> list[Message]:
    """The Joins of a directory that were posted to a house, the last first."""
    return [
        it
        for it in reversed(replay.messages.values())
        if it.kind == "Join" and it.receiver == house and it.dir == directory
    ]


def members_words(epoch: Epoch, more: Iterable[int] = ()) -> str:
    """The master and the others of an epoch, as `epoch` takes them."""
    others = [("s" if it in epoch.secondary else "") + str(it) for it in epoch.others(epoch.master)]
    return " ".join([str(epoch.master), *others, *map(str, more)])


def no_replica(replay: Replay, step: Step, _: list[int]) -> Iterator[str]:
    """A house holds no replica."""
    directory, named = directory_of(step), houses_of(step)
    house = next((it for it in named if replay.held.get((it, directory)) is None), 0)
    epochs = replay.epochs.get(directory)
    if not house or not epochs:
        return
    last, posted = epochs[-1], joins(replay, house, directory)
    if house not in last.members:
        again = f"`epoch {directory} {members_words(last, [house])}`"
        yield f"House {house} is no member of directory {directory}, which has the houses {list_of(last.members)}."
        yield f"{again} adds it; then deliver its Join."
    elif not posted:
        return
    elif (lost := posted[0].lost) is None:
        yield f"House {house} is a member, and has not got its Join yet: `deliver {posted[0].serial}`."
    else:
        line = replay.steps[lost].line
        yield f"The Join for house {house}, message {posted[0].serial}, was lost in line {line}."
        yield f"`epoch {directory} {members_words(last)}` posts another one."


def not_master(replay: Replay, step: Step, _: list[int]) -> Iterator[str]:
    """A house is not the master."""
    directory, house = directory_of(step), houses_of(step)[0]
    held, last = replay.held.get((house, directory)), replay.epochs[directory][-1]
    if held is None:
        return
    role = {"member": "read-only", "secondary": "secondary, and may not skulk"}.get(held.role(house), held.role(house))
    words = step.text.split()
    places = {"skulk": 1}.get(step.command, 1)
    words[places] = str(last.master)
    yield (
        f"House {house} is {role} in the epoch {held.number} that it holds. The master is house {last.master}:"
        f" `{' '.join(words)}`."
    )


def not_member(replay: Replay, step: Step, _: list[int]) -> Iterator[str]:
    """The new master is no member."""
    directory, last = directory_of(step), replay.epochs[directory_of(step)][-1]
    house = houses_of(step)[0]
    again = f"`epoch {directory} {members_words(last, [house])}`"
    yield f"The members are {list_of(last.members)}. First {again}, and deliver its Join to house {house}."


def not_joined(replay: Replay, step: Step, _: list[int]) -> Iterator[str]:
    """The new master has not heard of its term."""
    directory, house = directory_of(step), houses_of(step)[0]
    waiting = [it for it in joins(replay, house, directory) if it.lost is None]
    if waiting:
        yield f"The Join that house {house} lacks is message {waiting[0].serial}: `deliver {waiting[0].serial}`."
    else:
        last = replay.epochs[directory][-1]
        yield f"Its Join was lost. `epoch {directory} {members_words(last)}` posts another one; deliver that first."


def no_message(replay: Replay, step: Step, _: list[int]) -> Iterator[str]:
    """A message was not posted, or lost."""
    serial = next((int(word) for word in reversed(step.words) if word.isdecimal()), 0)
    message = replay.messages.get(serial)
    if message and message.lost is not None:
        lost = replay.steps[message.lost]
        how = "was lost" if lost.command == "lose" else "was lost with the power of its sender"
        yield f"Message {serial} {how} in line {lost.line}."
    else:
        last = f"the last one is {len(replay.messages)}" if replay.messages else "there is none yet"
        yield f"Message {serial} was not posted: {last}."


def no_entry(replay: Replay, step: Step, _: list[int]) -> Iterator[str]:
    """An entry is not there."""
    directory, name = int(step.words[1]), step.words[2]
    known = sorted({it for at, it in replay.entries if at == directory and replay.entries[at, it].kind})
    yield f"House {step.house} shows no `{name}` in directory {directory}." + near(name, known)


def near(name: str, known: list[str]) -> str:
    """Names like one that is not there."""
    others = [it for it in known if it != name]
    like = [it for it in others if it.lower() == name.lower()] or difflib.get_close_matches(name, others, 2, 0.7)
    return f" Is `{list_of(like)}` meant?" if like else ""


def entry_exists(replay: Replay, step: Step, _: list[int]) -> Iterator[str]:
    """An entry is there."""
    directory, name = int(step.words[1]), step.words[2]
    for before in reversed(replay.steps):
        made = before.command in ("create", "link", "mkdir") and before.is_done()
        if made and (int(before.words[1]), before.words[2]) == (directory, name):
            yield f"`{name}` was made in line {before.line}."
            return


def asked_name(step: Step) -> str:
    """The full name that a command walks."""
    kinds = COMMANDS[step.command].split()
    return step.words[kinds.index("NAME")]


def no_name(replay: Replay, step: Step, numbers: list[int]) -> Iterator[str]:
    """A component is not there."""
    parts, count = asked_name(step).split("/")[2:], numbers[0]
    linked = any(entry.kind == "link" for entry in replay.entries.values())
    if count < len(parts) and not linked:
        above = "/".join(["/.:", *parts[:count]])
        known = sorted({name for (_, name), entry in replay.entries.items() if entry.kind})
        yield f"In {above} there is no `{parts[count]}` at the house that was asked." + near(parts[count], known)
    elif linked:
        yield (
            f"The name that the walk came to, by links, has {count or 'no'} component{'' if count == 1 else 's'} before"
            " the missing one."
        )


def not_directory(replay: Replay, step: Step, numbers: list[int]) -> Iterator[str]:
    """An object is in the middle of a name."""
    parts = asked_name(step).split("/")[2:]
    if numbers[0] <= len(parts) and not any(entry.kind == "link" for entry in replay.entries.values()):
        yield f"`{parts[numbers[0] - 1]}` is an object, and has nothing in it."


def unreachable(replay: Replay, step: Step, numbers: list[int]) -> Iterator[str]:
    """No house of a directory answers."""
    directory, epochs = numbers[0], replay.epochs.get(numbers[0])
    if not epochs:
        yield f"Directory {directory} was not made yet."
        return
    for house in epochs[-1].members:
        if replay.is_down(house):
            yield f"House {house} is down since line {since(replay, house)}."
        elif (held := replay.held.get((house, directory))) is None:
            yield f"House {house} has no replica yet."
        elif "high" in step.words and held.master != house:
            yield f"House {house} is up, and not the master: `low` asks it."


def up(replay: Replay, step: Step, _: list[int]) -> Iterator[str]:
    """A house is up."""
    yield f"House {step.words[0]} is up" + ("." if replay.downs.get(int(step.words[0])) else ", and was never down.")


def not_acting(replay: Replay, step: Step, _: list[int]) -> Iterator[str]:
    """Another house acts."""
    if step.command == "deliver" and step.message and step.message.receiver:
        yield f"Message {step.message.serial} goes to house {step.message.receiver}, which acts here."


WHY: dict[str, Callable[[Replay, Step, list[int]], Iterator[str]]] = {
    "Down": down, "NoHouse": no_house, "HouseExists": house_exists, "NoDirectory": no_directory,
    "BadMembers": bad_members, "NoReplica": no_replica, "NotMaster": not_master, "NotMember": not_member,
    "NotJoined": not_joined, "NoMessage": no_message, "NoSuchEntry": no_entry, "EntryExists": entry_exists,
    "NoSuchName": no_name, "NotDirectory": not_directory, "Unreachable": unreachable, "Up": up, "NotActing": not_acting,
}  # fmt: skip


def before(script: bytes, answers: list[str], line: int) -> tuple[Replay, Step] | None:
    """The replay up to a line of a script, without its answer, and the step of the line; or None where it can't be
    read."""
    lines = script.split(b"\n")
    said = [it for it in answers if int(it.split(" ", 1)[0]) < line]
    try:
        happened = replays.read(b"\n".join([*lines[: line - 1], b""]), "".join(f"{it}\n" for it in said).encode())
        number, command, words, text, stop = next(replays.steps_of([""] * (line - 1) + [lines[line - 1].decode()]))
    except (facts.Fault, StopIteration, UnicodeDecodeError):
        return None
    step = Step(len(happened.steps), number, command, words, text, stop)
    try:
        replays.place(happened, step)
    except (TypeError, ValueError):
        return None
    return happened, step


def why(script: bytes, answers: list[str], line: int, reason: str, numbers: list[int]) -> list[str]:
    """Sentences on the refusal of a line, as far as the replay before it knows."""
    known = before(script, answers, line) if reason in WHY else None
    if not known:
        return []
    try:
        return list(WHY[reason](*known, numbers))
    except (KeyError, IndexError, TypeError, AttributeError, ValueError):
        # The pictures' reader does not know all that the program does.
        return []
