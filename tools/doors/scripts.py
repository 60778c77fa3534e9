"""Scripts on live houses: each step of a script is done by a house process, and each command of the name service by a
clerk that asks these houses. The answers have to be those of a replay."""
from __future__ import annotations

import collections
import glob
import os
import random
import re
import subprocess
import tempfile
import time
from collections.abc import Callable, Iterable, Iterator

from building.sources import ROOT
from cds.answers import answers_of
from cds.processes import ENDS, Process, take_lines
from cds.console import Console
from doors.lines import ASKS, PLANS
from fuzzing.scripts import script
from running.case_files import all_cases

# What a house does by itself: the words after the house are those of its own line.
OF_HOUSE = ("repoint", "create", "link", "delete", "add", "remove", "put", "clear", "skulk", "dump")
# The most octets of a script.
LONGEST = 300_000


class Unlike(Exception):
    """A step that no live cell has, so the rest of its script is left."""


class Clerk:
    """A clerk with one command. (It keeps where the root directory is, and the console of a script has moved it
    since.)"""

    def __init__(self, program: str, near: int, houses: list[int]) -> None:
        words = [program, str(near), *map(str, houses)]
        self.child = subprocess.Popen(
            words, stdin=subprocess.PIPE, stdout=subprocess.PIPE, text=True, encoding="ascii", bufsize=1
        )

    def answer(self, command: str, ask: Callable[[int, str], list[str] | None]) -> list[str]:
        """The answer to a command. What the clerk asks a house goes to `ask`, which knows no answer of a house that
        is down."""
        assert self.child.stdin and self.child.stdout
        self.child.stdin.write(f"do 1 {command}\n")
        found: list[str] = []
        for line in self.child.stdout:
            word, number, rest = line.rstrip("\n").split(" ", 2)
            if word == "say":
                found.append(rest)
                if rest.split(" ")[0] in ENDS:
                    break
                continue
            _, house, question = rest.split(" ", 2)
            said = ask(int(house), question)
            self.child.stdin.write("".join(f"hear {number} {part}\n" for part in said) if said else f"down {number}\n")
        self.child.stdin.close()
        self.child.stdout.close()
        self.child.wait()
        return found


class Live:
    """A cell of house processes that does the steps of a script. With `by_console` a clerk is told where the root
    directory is as the console of the script has it; else houses say so."""

    def __init__(self, folder: str, house: str, clerk: str, by_console: bool) -> None:
        self.folder, self.house, self.clerk, self.by_console = folder, house, clerk, by_console
        self.up: dict[int, Process] = {}
        self.made: set[int] = set()
        self.clocks: dict[int, str] = {}
        self.bag: dict[int, tuple[int, str]] = {}
        self.serial = self.asked = 0
        self.console = Console()

    def close(self) -> None:
        for process in self.up.values():
            process.close()

    # ---- houses

    def ask(self, house: int, lines: list[str]) -> list[str]:
        process = self.up[house]
        process.send(lines)
        for _ in lines:
            answer = process.answer()
        if answer is None:
            raise Unlike(f"a house ended with status {process.status}")
        for message in process.fetched():
            self.serial += 1
            self.bag[self.serial] = message
        return answer

    def start(self, house: int) -> None:
        path = f"{self.folder}/h{house}"
        os.makedirs(path, exist_ok=True)
        process = Process(self.house, path)
        process.answer()
        process.fetched()  # (a start of a script posts nothing)
        self.up[house] = process
        if self.clocks.get(house):
            self.ask(house, [f"clock {self.clocks[house]}"])

    def numbered(self, house: int, line: str) -> list[str]:
        answer = self.ask(house, [line])
        if answer[-1].startswith("ok"):
            self.console.done(house, line)
        return answer

    def step(self, words: list[str]) -> list[str] | None:
        """Does what a step of a script does. Its answer, or None where no house is asked."""
        match words:
            case ["house", number, node]:
                self.start(int(number))
                self.made.add(int(number))
                return self.ask(int(number), [f"house {number} {node}"])
            case ["clock", number, time]:
                self.clocks[int(number)] = time
                return self.ask(int(number), [f"clock {time}"]) if int(number) in self.up else ["ok"]
            case ["crash", number]:
                process = self.up.pop(int(number))
                process.kill()
                process.drained()
                return ["ok"]
            case ["start", number]:
                self.start(int(number))
                return ["ok"]
            case ["lose", serial]:
                del self.bag[int(serial)]
                return ["ok"]
            case ["deliver", serial]:
                to, octets = self.bag[int(serial)]
                return self.ask(to, take_lines(octets))
            case ["root", master, *others]:
                return self.numbered(int(master), " ".join(["root", *others]))
            case ["mkdir", house, _, _, master, *_] if house != master:
                raise Unlike("a mkdir whose master is another house")
            case ["mkdir", house, directory, name, _, *others]:
                return self.numbered(int(house), self.console.mkdir_line(directory, name, others))
            case ["epoch", directory, master, *others]:
                return self.numbered(int(master), self.console.epoch_line(int(directory), int(master), others))
            case [word, house, *rest] if word in OF_HOUSE:
                return self.ask(int(house), [" ".join([word, *rest])])
        return None

    # ---- the clerk

    def root_by_console(self) -> list[str]:
        if 1 not in self.console.directories:
            return ["refused NoReplica"]
        epoch, members = self.console.directories[1]
        words = " ".join(f"{house}:{since}:{kind}" for house, (since, kind) in members.items())
        return [f"ok epoch {epoch} allupto none skulk none entries 0 members {words}"]

    def question(self, house: int, line: str) -> list[str] | None:
        self.asked += 1
        if self.by_console and line == "status 1":
            return self.root_by_console()
        return self.ask(house, [line]) if house in self.up else None

    def command(self, near: int, line: str) -> list[str]:
        return Clerk(self.clerk, near, sorted(self.made)).answer(line, self.question)


class Comparison:
    """Scripts that are done by live houses, and compared."""

    def __init__(self, house: str, clerk: str, plain: str, by_console: bool, say: Callable[[str], None]) -> None:
        self.house, self.clerk, self.plain, self.by_console, self.say = house, clerk, plain, by_console, say
        self.counts: collections.Counter[str] = collections.Counter()

    def due(self, script: bytes) -> dict[int, list[str]]:
        """What the replay answers, by line."""
        form = "inquire" if re.search(rb"(?m)^ *(grouplist|entrylist|proflist|lookup) ", script) else "run"
        ran = subprocess.run([self.plain, form], input=script, capture_output=True, check=False)
        return answers_of(ran.stdout)

    def run(self, name: str, script: bytes) -> None:
        """Does a script, up to its end, a fault, or a step that no live cell has."""
        if len(script) > LONGEST or not script.isascii():
            self.counts["scripts that were left out"] += 1
            return
        self.counts["scripts"] += 1
        with tempfile.TemporaryDirectory() as folder:
            live = Live(folder, self.house, self.clerk, self.by_console)
            try:
                for line, want in self.steps(script):
                    self.compare(name, live, line, want)
            except Unlike as reason:
                self.counts[f"scripts left at {reason}"] += 1
            finally:
                self.counts["questions"] += live.asked
                live.close()

    def steps(self, script: bytes) -> Iterator[tuple[str, list[str]]]:
        """The lines that a replay answers without a fault, and their answers without the numbers of messages."""
        due = self.due(script)
        for number, line in enumerate(script.decode("ascii").split("\n"), 1):
            want = [re.sub(r" posted.*", "", text) for text in due.get(number, [])]
            if want and want[-1].startswith("fault"):
                return
            if line.split() and not line.split()[0].startswith("#") and want:
                yield line, want

    def compare(self, name: str, live: Live, line: str, want: list[str]) -> None:
        words = line.split()
        if words[0] in ASKS:
            if want == ["refused NoHouse"]:
                return
            got = live.command(int(words[1]), " ".join([words[0], *words[2:]]))
        elif words[0] in PLANS:
            got = live.command(min(live.made, default=1), line)
        else:
            self.compare_step(name, live, words, want)
            return
        self.counts["commands"] += 1
        # (a script is silent of what an import did not reach)
        told = [text for text in got if not text.startswith("unreached")]
        self.counts["that say unreached"] += told != got
        if told != want:
            self.counts["differences"] += 1
            self.say(f"{name}: {line}: {told[:4]}, due is {want[:4]}")

    def compare_step(self, name: str, live: Live, words: list[str], want: list[str]) -> None:
        """A step has to end as in the replay; a refused one is left out, since some refusals are the console's."""
        if want[-1].startswith("refused"):
            return
        got = live.step(words)
        if got is None:
            return
        self.counts["steps"] += 1
        if (got if words[0] == "dump" else got[-1:]) != want:
            self.counts["differences"] += 1
            self.say(f"{name}: {' '.join(words)}: {got[:3]}, due is {want[:3]}")
            raise Unlike("a step with another answer")

    def summed(self) -> str:
        """All counts in one line, with the differences last."""
        counts = dict(self.counts)
        found = counts.pop("differences", 0)
        return ", ".join([*(f"{count:,} {what}" for what, count in sorted(counts.items())), f"{found} differences"])


# ---- the scripts

Script = tuple[str, bytes]


def files(paths: list[str]) -> Iterator[Script]:
    for path in paths:
        with open(path, "rb") as file:
            yield os.path.basename(path), file.read()


def cases() -> Iterator[Script]:
    """The scripts of all cases, and the examples. (No live house loses its power inside a step.)"""
    for name, run in all_cases()[0]:
        if run.words in (["run"], ["inquire"]) and b"stop" not in run.octets:
            yield f"{name}: {run.name}", run.octets
    yield from files(sorted(glob.glob(f"{ROOT}/examples/*.cds")))


def random_scripts(seed: int, plain: str, seconds: float) -> Iterator[Script]:
    """Scripts as `tools/fuzz` makes them, from this seed on, for so many seconds."""
    until = time.monotonic() + seconds
    while time.monotonic() < until:
        yield f"seed {seed}", script(random.Random(seed), plain, ["inquire"])
        seed += 1


def tried(comparison: Comparison, scripts: Iterable[Script]) -> bool:
    """Does all scripts, and prints the sum. Whether none differs."""
    for name, it in scripts:
        comparison.run(name, it)
    print(comparison.summed())
    return not comparison.counts["differences"]
