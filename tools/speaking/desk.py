"""A cell at hand: lines of an operator become lines of a script, and the program answers them."""

from __future__ import annotations

import copy
import re
from collections.abc import Iterable, Sequence

from cds.commands import FORMS, QUESTIONS, SERVICES
from pictures import facts, replay as replays
from pictures.cell import Replay
from speaking import explain, findings, naming, post, program, refusals, talk, tokens
from speaking.tokens import Fault

CLAUSE = re.compile(r"(?:all|to(?: \S+)+?)(?: but to(?: \S+)+?)?(?: lose to(?: \S+)+)?")


class Done:
    """What came of a line: the script's lines that it became, their answers, what there is to say beside, and to
    refused questions."""

    lines: list[str]
    answers: list[str]
    notes: list[str]
    hints: list[str]

    def __init__(self) -> None:
        self.lines, self.answers, self.notes, self.hints = [], [], [], []


class Net:
    """What the net does of itself after each command: which houses it reaches, and of which it loses the messages."""

    but: set[int]
    lost: set[int]

    def __init__(self, but: Iterable[int] = (), lost: Iterable[int] = ()) -> None:
        self.but, self.lost = set(but), set(lost)


# What there was before a line of the operator: how many lines and answers, the names and the net; and that line.
Kept = tuple[int, int, naming.Names, Net | None, str]


class Desk:
    """A script and its answers. Where `has_comments`, the lines of the operator are comments of the script."""

    lines: list[str]
    answers: list[str]
    net: Net | None
    before: list[Kept]
    reader: replays.Reader | None

    def __init__(self, asked: program.Program, has_comments: bool = False) -> None:
        self.program, self.has_comments = asked, has_comments
        self.lines, self.answers, self.names, self.net, self.before = [], [], naming.Names(), None, []
        self.talk, self.reader, self.post = talk.Talk(asked.path, asked.form), None, post.Post()

    # The script.

    def script(self, more: Sequence[str] = ()) -> bytes:
        """The octets of the script, and of more lines."""
        return "".join(f"{line}\n" for line in [*self.lines, *more]).encode()

    def happened(self) -> Replay:
        """What happened so far."""
        if self.reader is None:
            self.reader = replays.Reader()
        if self.reader.count < len(self.lines):
            self.reader.take(self.lines[self.reader.count :], self.answers[len(self.reader.answers) :])
        return self.reader.replay

    def ask(self, *lines: str) -> list[str]:
        """The answers to lines that are not kept."""
        if all(line.split(" ", 1)[0] in QUESTIONS for line in lines):
            said = self.talk.ask(self.lines, lines, False)
            if said is not None:
                return said
        return self.asked_anew(lines)

    def asked_anew(self, lines: tuple[str, ...]) -> list[str]:
        """The answers to lines, by a process that reads the whole script."""
        return self.program.run(self.script(lines))[len(self.answers) :]

    def under_way(self) -> list[post.Way]:
        """The messages that are under way."""
        return self.post.under_way(
            self.happened(), lambda serial: bytes.fromhex(self.ask(f"octets msg {serial}")[0].split()[-1])
        )

    def add(self, done: Done, *lines: str) -> list[str]:
        """Adds lines to the script, and answers what the program says of them."""
        said = self.talk.ask(self.lines, lines, True)
        if said is None:
            said = self.asked_anew(lines)
        found = re.fullmatch(r"(\d+) fault ([A-Za-z]+) (\d+)", said[-1]) if said else None
        if found:
            line = lines[int(found.group(1)) - len(self.lines) - 1]
            it = explain.explain(
                line.encode(), int(found.group(1)), found.group(2), int(found.group(3)), self.program.form[0]
            )
            raise Fault("\n".join(it.lines()))
        self.lines += lines
        self.answers += said
        done.lines += lines
        done.answers += said
        return said

    def remark(self, done: Done, text: str) -> None:
        """Adds a comment."""
        if self.has_comments:
            plain = re.sub("[^ -~]", "?", text.replace("\t", " "))[:4000]
            self.lines.append(plain if plain.startswith("#") else f"# {plain}")
            done.lines.append(self.lines[-1])

    # Lines of the operator.

    def do(self, line: str) -> Done:
        """Does a line of the operator, whole or not at all."""
        kept = (len(self.lines), len(self.answers), copy.deepcopy(self.names), copy.copy(self.net), line)
        done = Done()
        try:
            self.take(done, line.strip())
        except (Fault, program.Failed, facts.Fault):
            self.back(kept)
            raise
        if done.lines or self.net != kept[3]:
            self.before.append(kept)
        return done

    def back(self, kept: Kept) -> None:
        """Goes back to what was."""
        self.lines, self.answers = self.lines[: kept[0]], self.answers[: kept[1]]
        self.names, self.net, self.reader, self.post = kept[2], kept[3], None, post.Post()
        self.talk.close()

    def undo(self) -> str | None:
        """Takes the last line of the operator back, and answers it, or None where there is none."""
        if not self.before:
            return None
        kept = self.before.pop()
        self.back(kept)
        return kept[4]

    def take_script(self, lines: list[str]) -> int:
        """Takes the lines of a script up to the first one that is faulty, at once, and answers how many these are."""
        if any(not re.fullmatch("[ -~]{0,4096}", line) for line in lines):
            return 0
        said = self.ask(*lines)
        found = re.fullmatch(r"(\d+) fault .*", said[-1]) if said else None
        count = int(found.group(1)) - len(self.lines) - 1 if found else len(lines)
        kept = (
            len(self.lines),
            len(self.answers),
            copy.deepcopy(self.names),
            copy.copy(self.net),
            f"{count} lines of a file",
        )
        if count:
            self.lines += lines[:count]
            self.answers += said[:-1] if found else said
            self.before.append(kept)
            self.learn_script()
        return count

    def learn_script(self) -> None:
        """Learns which houses and directories there are."""
        for house, node in self.happened().nodes.items():
            self.names.nodes[house] = node
        for step in self.happened().steps:
            if step.command == "mkdir" and step.is_done():
                self.names.made(step.dirs[1], step.words[1], step.words[2])

    def take(self, done: Done, line: str) -> None:
        """Takes a line of the operator."""
        date, seconds, words = tokens.timed(tokens.words_of(line))
        if not words:
            if line.startswith("#") and self.has_comments:
                self.remark(done, line)
            return
        house = None
        if len(words) > 1 and words[0].rstrip(":") in self.names.houses:
            house, words = words[0].rstrip(":"), words[1:]
        time, is_back = self.names.time(date, seconds) if seconds is not None else (None, False)
        if is_back:
            done.notes.append(
                f"{line.split()[0]} is earlier than the line before. Is it the next day? Then write its date in front."
            )
        it = tokens.Line(line, [tokens.command_of(words[0]), *words[1:]], house, time)
        if not any(take(done, it) for take in (self.from_here, self.deliver_some, self.lose_some, self.skulk_through)):
            self.plain_line(done, it)

    def plain_line(self, done: Done, line: tokens.Line) -> None:
        """Takes a line that is one command, or several houses."""
        words = line.words
        if words[0] not in FORMS[self.program.form[0]]:
            raise Fault(self.unknown(words))
        if words[0] == "house":
            plain = self.names.add_houses(words[1:])
        else:
            plain = self.names.lines(line.turned())
            plain = [*self.clock(line, plain[0].split()), *plain]
        if plain != [line.text]:
            self.remark(done, line.text)
        said = self.add(done, *plain)
        self.learn(done, plain[-1].split(), said)
        self.explain_refusal(said, done.hints if words[0] in QUESTIONS else done.notes)
        self.settle(done)

    def unknown(self, words: list[str]) -> str:
        """What to say of a line whose command is not known."""
        if words[0] in self.names.houses:
            return f"What did `{words[0]}` do? A command goes after its name, as `{words[0]} create /.:/lpr`."
        it = explain.explain(
            " ".join(words).encode("ascii", "replace"), len(self.lines) + 1, "UnknownCommand", 1, self.program.form[0]
        )
        return "\n".join(it.lines())

    def clock(self, line: tokens.Line, plain: list[str]) -> list[str]:
        """The line that sets the clock of the house that gives a stamp, if one has to be set."""
        if line.time is None or plain[0] not in (*naming.STAMPED, *SERVICES):
            return []
        if plain[0] in naming.STAMPED:
            number = plain[1]
        else:
            number = self.names.house(line.house) if line.house else self.master_of(plain[1])
        if not number or self.names.clocks.get(number) == line.time:
            return []
        self.names.clocks[number] = line.time
        return [f"clock {number} {line.time}"]

    def master_of(self, name: str) -> str:
        """The master of the directory that an entry is in, or nothing where the names do not say."""
        above = name
        while above not in self.names.directories and "/" in above[1:]:
            above = above.rpartition("/")[0]
        epochs = self.happened().epochs.get(self.names.directories.get(above, 0))
        return str(epochs[-1].master) if epochs else ""

    def learn(self, done: Done, plain: list[str], said: list[str]) -> None:
        """Learns the names that a line made."""
        if plain[0] == "house":
            nodes = self.names.nodes
            new = {name: it for name, it in self.names.houses.items() if f"house {it} {nodes.get(it)}" in done.lines}
            if new:
                self.remark(done, "# " + ", ".join(f"house {number} is {name}" for name, number in new.items()))
        found = re.match(r"\d+ ok (\d+) ", said[-1]) if plain[0] == "mkdir" and said else None
        if found:
            self.names.made(int(found.group(1)), plain[2], plain[3])
            self.remark(done, f"# directory {found.group(1)} is {self.names.path(int(found.group(1)))}")

    def explain_refusal(self, said: list[str], notes: list[str]) -> None:
        """Explains what was refused, and what was in vain."""
        for number, reason, numbers, _ in findings.refused(said):
            notes += findings.explained(self.script(), self.answers, number, reason, numbers, False)
        vain = re.fullmatch(r"\d+ ok (late|early|stale|noreplica)\b.*", said[-1]) if said else None
        if vain:
            notes.append(refusals.VAIN[vain.group(1)])

    # The net.

    def from_here(self, done: Done, line: tokens.Line) -> bool:
        """`from here deliver ..`: what the net does of itself."""
        words = line.words
        if words[:2] != ["from", "here"]:
            return False
        rest = [tokens.command_of(words[2]), *words[3:]] if len(words) > 2 else []
        if rest == ["deliver", "nothing"]:
            self.net = None
        elif rest[:2] == ["deliver", "all"]:
            _, but, lost = self.clauses(rest[1:])
            self.net = Net(but | lost, lost)
        else:
            raise Fault(
                "Write `from here deliver all`, `.. all but to HOUSE..`, `.. all lose to HOUSE..`, or `from here"
                " deliver nothing`."
            )
        self.remark(done, line.text)
        self.settle(done)
        return True

    def clauses(self, words: list[str]) -> tuple[set[int] | None, set[int], set[int]]:
        """The houses of `all`, `to HOUSE..`, `but to HOUSE..` and `lose to HOUSE..`; the first is None for all."""
        if not CLAUSE.fullmatch(" ".join(words)):
            raise Fault(
                f"`{' '.join(words)}` is not understood here: write `all`, `all but to HOUSE..`, or `to HOUSE..`."
            )
        parts: dict[str, set[int]] = {"to": set(), "but": set(), "lose": set()}
        at, is_all = "to", True
        for word in words:
            if word in ("but", "lose"):
                at = word
            elif word == "to":
                is_all = is_all and at != "to"
            elif word not in ("all", "and"):
                parts[at].add(int(self.names.house(word)))
        return None if is_all else parts["to"], parts["but"], parts["lose"]

    def deliver_some(self, done: Done, line: tokens.Line) -> bool:
        """`deliver all`, `deliver all but to HOUSE..`, `deliver to HOUSE..`."""
        words = line.words
        if words[0] != "deliver" or words[1:2] not in (["all"], ["to"]):
            return False
        to, but, lost = self.clauses(words[1:])
        self.remark(done, line.text)
        if not self.waves(done, to, but | lost):
            done.notes.append(self.idle(to, but))
        self.lose(done, lost)
        return True

    def idle(self, to: set[int] | None, but: set[int]) -> str:
        """What to say where nothing was delivered."""
        waiting = [it for it in self.under_way() if (to is None or it.receiver in to) and it.receiver not in but]
        if not waiting:
            return "No message is under way there."
        down = sorted({self.names.called(it.receiver) for it in waiting if self.happened().is_down(it.receiver)})
        if down:
            return f"Nothing was delivered: {', '.join(down)} {'is' if len(down) == 1 else 'are'} down."
        return "What was delivered changed nothing: the answers above say why."

    def lose_some(self, done: Done, line: tokens.Line) -> bool:
        """`lose all`, `lose to HOUSE..`."""
        words = line.words
        if words[0] != "lose" or words[1:2] not in (["all"], ["to"]):
            return False
        to, but, _ = self.clauses(words[1:])
        self.remark(done, line.text)
        if not self.lose(done, to, but):
            done.notes.append("No message is under way there.")
        return True

    def lose(self, done: Done, to: set[int] | None, but: Iterable[int] = ()) -> bool:
        """Loses the messages that are under way to some houses, or all."""
        lost = [it for it in self.under_way() if (to is None or it.receiver in to) and it.receiver not in but]
        if lost:
            self.name_messages(done, lost)
            self.add(done, *(f"lose {it.serial}" for it in lost))
        return bool(lost)

    def skulk_through(self, done: Done, line: tokens.Line) -> bool:
        """`skulk HOUSE [DIRECTORY] through [but to HOUSE..]`."""
        if line.words[0] != "skulk" or "through" not in line.words:
            return False
        at = line.words.index("through")
        _, but, lost = self.clauses(["all", *line.words[at + 1 :]])
        line.words = line.words[:at]
        plain = self.names.plain(line.turned())
        self.remark(done, line.text)
        last = len(self.happened().messages)
        said = self.add(done, *self.clock(line, plain), " ".join(plain))
        self.explain_refusal(said, done.notes)
        if " ok " in said[-1] and " complete" not in said[-1]:
            self.waves(done, None, but | lost, last)
            self.lose(done, lost)
            if not any(re.match(r"\d+ ok complete", it) for it in done.answers):
                done.notes.append("The skulk is not complete: " + self.idle(None, but))
        self.settle(done)
        return True

    def waves(self, done: Done, to: set[int] | None, but: set[int], after: int = 0) -> bool:
        """Delivers what is under way, and what comes of that, up to the end. `after` leaves out earlier messages."""
        tried: set[int] = set()
        while True:
            due = [
                it for it in self.under_way() if it.serial > after and it.serial not in tried and it.receiver not in but
            ]
            due = [it for it in due if (to is None or it.receiver in to) and not self.happened().is_down(it.receiver)]
            if not due:
                return bool(tried)
            tried |= {it.serial for it in due}
            self.name_messages(done, due)
            self.add(done, *(f"deliver {it.serial}" for it in due))

    def name_messages(self, done: Done, messages: list[post.Way]) -> None:
        """Says in a comment where messages go."""
        self.remark(
            done, "# " + ", ".join(f"{it.kind} {it.serial} to {self.names.called(it.receiver)}" for it in messages)
        )

    def settle(self, done: Done) -> None:
        """The net does what it does of itself."""
        if self.net:
            self.waves(done, None, self.net.but)
            if self.net.lost:
                self.lose(done, self.net.lost)
