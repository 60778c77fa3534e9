"""Which answers a script can get, by command, and how often each was met."""

from __future__ import annotations

import collections
import re
from collections.abc import Iterator, Sequence

from cds.answers import REFUSALS, serials_of

# What each command is answered if it is not refused: its first word.
DONE = {
    "skulk": "ok complete",
    "deliver": "",
    "import": "binding end",
    "dump": "dump",
    # (by whether the step was done, was answered as it is without a stop, or was refused)
    "stop": "before after done refused",
    "grouplist": "member end",
    "entrylist": "interface object end",
    "proflist": "element end",
    "lookup": "batch binding end",
}
# The answers of each command: `ok`, or why it is refused.
ANSWERS = {
    **{command: f"{DONE.get(command, 'ok')} {reasons}" for command, reasons in REFUSALS.items()},
    # A delivery by the kind of its message. An Update and a Gather alone can be early, since all else comes after an
    # answer of its receiver in that epoch, and a house goes back to no earlier one.
    "deliver Update": "taken late early noreplica",
    "deliver Gather": "taken late early noreplica",
    "deliver Gathered": "taken late stale noreplica",
    "deliver Spread": "taken late noreplica",
    "deliver SpreadAck": "taken complete late stale noreplica",
    "deliver Advance": "taken late noreplica",
    "deliver Join": "taken late",
    "deliver Leave": "taken late",
    # The faults of a line, and how the other forms end. (A fault TooManyLines or TooManyTowers takes 16,777,216 of
    # them, and TooLong as many octets.)
    "run": "LineTooLong NotAscii NoLineEnd UnknownCommand WrongCount BadWord",
    "check": "ok fault",
    "load": "load",
    "towers": "- floors ShortCount ShortLength EmptyLeft ShortPart TooLong",
    "untowers": "ok fault",
    "migrate": "ok fault",
    "audit": "agree none birth value NoReplica Short BadTag BadLength BadName OutOfOrder BadFlag BadHeld Trailing",
}

# The forms that alone have a command; all that replay a script have each other one.
SCRIPTS = ("run", "journal", "clerk", "inquire")
FORMS_OF: dict[str, tuple[str, ...]] = {
    **dict.fromkeys(["image", "stop"], ("journal",)),
    "read by clerk": ("clerk",),
    **dict.fromkeys(["grouplist", "entrylist", "proflist", "lookup"], ("inquire",)),
    **{it: (it,) for it in ("check", "load", "towers", "untowers", "migrate", "audit")},
}


# What an audit says.
AUDITED = re.compile(r"^agree(?= \d+ \d)|none|birth|value|(?<=refused )\w+|(?<=fault )\w+")


class Kinds:
    """What kind of message each serial number is, from the answers of a script in their order."""

    def __init__(self) -> None:
        self.kinds: dict[int, str] = {}

    def learn(self, words: list[str], answer: str) -> None:
        """Takes a command and its answer, which may post messages."""
        serials = serials_of(f" {answer}")
        self.kinds.update(zip(serials, self.posts(words, len(serials))))

    def posts(self, words: list[str], count: int) -> list[str]:
        """The kinds of the messages that a command posts."""
        command = words[0]
        if command == "root":
            return ["Join"] * count
        if command == "mkdir":
            joins = min(len(words) - 6, count)
            return ["Update"] * (count - joins) + ["Join"] * joins
        if command == "epoch":
            joins = min(len(words) - 3, count)
            return ["Join"] * joins + ["Leave"] * (count - joins)
        if command == "skulk":
            return ["Gather"] * count
        if command == "deliver":
            after = {"Gather": "Gathered", "Gathered": "Spread", "Spread": "SpreadAck", "SpreadAck": "Advance"}
            return [after.get(self.kind(words[1]), "Update")] * count
        return ["Update"] * count

    def kind(self, number: str) -> str:
        """The kind of a message, or nothing if it is not known."""
        return self.kinds.get(int(number), "")


class Met:
    """How often each command met each of its answers."""

    def __init__(self) -> None:
        self.counts = {it: collections.Counter[str]() for it in ANSWERS}

    def see(self, words: list[str], octets: bytes, status: int, output: bytes) -> None:
        """Counts the answers of a run of the program."""
        text, form = output.decode(errors="replace"), words[0]
        if form in SCRIPTS:
            self.see_script(form, octets, text)
        elif form == "towers":
            self.see_towers(text)
        elif form == "load":
            self.add("load", text.partition(" ")[0])
        elif form == "audit":
            found = AUDITED.search(text)
            self.add("audit", found[0] if found else text)
        else:
            self.add(form, "ok" if status == 0 else "fault")

    def add(self, command: str, answer: str) -> None:
        """Counts an answer."""
        self.counts.setdefault(command, collections.Counter())[answer] += 1

    def see_script(self, form: str, octets: bytes, text: str) -> None:
        """Counts the answers of a script."""
        lines, kinds = octets.split(b"\n"), Kinds()
        for number, answer in re.findall(r"^(\d+) (.*)$", text, re.M):
            words = lines[int(number) - 1].decode(errors="replace").split()
            first, _, rest = answer.partition(" ")
            if first == "fault":
                self.add("run", rest.partition(" ")[0])
            elif words[0] == "stop":
                self.see_stop(words[4:], first, rest, kinds)
            elif first == "refused":
                self.add(self.name_of(form, words), rest.partition(" ")[0])
                # (some updates of a command may have been made)
                kinds.learn(words, answer)
            elif words[0] == "deliver":
                self.add(f"deliver {kinds.kind(words[1])}", rest.partition(" ")[0])
                kinds.learn(words, answer)
            elif words[0] == "dump":
                # (one answer, of several lines)
                if first == "dump":
                    self.add("dump", "dump")
            elif first != "ok":
                self.add(words[0], first)
            else:
                is_complete = words[0] == "skulk" and rest.startswith("complete")
                self.add(self.name_of(form, words), "complete" if is_complete else "ok")
                kinds.learn(words, answer)

    def name_of(self, form: str, words: list[str]) -> str:
        """What a command is called in the table."""
        return "read by clerk" if form == "clerk" and words[0] == "read" and words[2] == "low" else words[0]

    def see_stop(self, words: list[str], first: str, rest: str, kinds: Kinds) -> None:
        """Counts the answer of a line that stops this command."""
        if first == "refused":
            reason = rest.partition(" ")[0]
            self.add("stop", reason if reason in ANSWERS["stop"].split() else "refused")
        elif rest in ("stopped before", "stopped after"):
            self.add("stop", rest.partition(" ")[2])
        else:
            self.add("stop", "done")
            kinds.learn(words, rest)

    def see_towers(self, text: str) -> None:
        """Counts the lines of towers."""
        for line in text.splitlines():
            _, is_fault, fault = line.partition(" fault ")
            self.add("towers", fault.partition(" ")[0] if is_fault else "-" if line == "-" else "floors")

    def lacking(self, forms: Sequence[str]) -> list[str]:
        """The answers of these forms that were never met, each after its command."""
        due = {it: answers.split() for it, answers in ANSWERS.items() if set(FORMS_OF.get(it, SCRIPTS)) & set(forms)}
        return [
            f"{command}: {answer}"
            for command, answers in due.items()
            for answer in answers
            if not self.counts[command][answer]
        ]

    def unknown(self) -> list[str]:
        """The answers that were met and that no table has."""
        known = {command: answers.split() for command, answers in ANSWERS.items()}
        rows = [(command, answer) for command, counts in self.counts.items() for answer in counts]
        return [
            f"{command}: {answer}"
            for command, answer in rows
            if answer not in known.get(command, []) and not answer.isdigit()
        ]

    def rows(self) -> Iterator[str]:
        """The table, a line for each command."""
        for command, answers in ANSWERS.items():
            yield f"{command:<18}" + "  ".join(f"{answer} {self.counts[command][answer]}" for answer in answers.split())
