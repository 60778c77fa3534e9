"""One run of houses: they work while the net and the disk are awful and the processes die; then all heals, and all is
compared."""

from __future__ import annotations

import collections
import os
import random
import shutil
import subprocess
import time
from argparse import Namespace

from cds import journals
from cds.console import Console
from cds.processes import Silent
from housing import explaining, replaying
from housing.lives import ENDS, Difference, House
from housing.net import Message, Net
from housing.programs import Programs
from housing.workload import Job, Workload, take_job

# The present values of entries, by entry and attribute.
Values = dict[str, dict[str, list[str]]]
# The refusals that a script gives, too.
REFUSED = ("NoReplica", "NotMaster", "EntryExists", "NoSuchEntry", "WrongKind")


class Plan:
    """How awful a run is, by its seed."""

    def __init__(self, seed: int, args: Namespace) -> None:
        chance = random.Random(seed)
        self.houses = args.houses or chance.choice([2, 3, 3, 4, 5])
        self.lines = args.lines or chance.choice([150, 300, 450])
        self.kill = chance.choice([0, 0.1, 0.3])
        self.late = chance.choice([0.0005, 0.002, 0.004])
        self.loss = chance.choice([0, 5, 15, 30])
        self.repeats = chance.choice([0, 12, 30])
        self.power = chance.choice([0, 30, 60, 120])
        self.fail = chance.choice([0, 0, 150])
        # Some houses have a full disk: so many octets at first.
        self.room = chance.choice([0, 0, 0, 60_000])
        # After so many octets, and so many times those that it begins with, a segment is changed, where the program
        # takes that.
        self.segment = chance.choice([None, 1, 5_000, 20_000]) if args.small else None
        self.times = chance.choice([1, 2, 3])
        if args.steady:
            self.kill = self.power = self.fail = self.room = 0


class Trial:
    """Houses at work, their console, the net between them, and what they answered."""

    def __init__(self, seed: int, plan: Plan, programs: Programs, folder: str) -> None:
        self.plan, self.programs = plan, programs
        self.random = random.Random(seed)
        self.folder = os.path.join(folder, f"run-{seed}")
        shutil.rmtree(self.folder, ignore_errors=True)
        self.count: collections.Counter[str] = collections.Counter()
        self.calm = False
        # The octets that a disk has left, by house; 0 if it is never full.
        self.rooms: dict[int, int] = {}
        self.console = Console()
        self.net = Net(self.random, plan.loss, plan.repeats, kept=10)
        numbers = list(range(1, plan.houses + 1))
        self.houses = {number: self.house(number) for number in numbers}
        self.workload = Workload(self.random, self.console, self.net, numbers)
        # What houses answered without a turn, by house and entry; and what the dump before a line said, by house.
        self.asked: dict[tuple[int, int], list[explaining.Asked]] = collections.defaultdict(list)
        self.dumped: dict[int, tuple[str, Values, bool]] = {}

    def house(self, number: int) -> House:
        """A house with a folder and a disk of its own."""
        folder = f"{self.folder}/h{number}"
        os.makedirs(f"{self.folder}/disk{number}")
        self.rooms[number] = self.plan.room * self.random.randrange(2)
        return House(self.programs.house, folder, number, self.disk, self.hurry, self.count)

    def disk(self, number: int) -> dict[str, str]:
        """The environment of a house's next life: its disk."""
        plan, folder = self.plan, f"{self.folder}/h{number}"
        power, fail, room = (0, 0, 0) if self.calm else (plan.power, plan.fail, self.rooms[number])
        seed = self.random.getrandbits(60)
        if room and self.random.random() < 0.2:
            # somebody makes room
            self.rooms[number] += 40_000
        disk = f"{folder} {self.folder}/disk{number} {seed} {power} {fail} {room}"
        words = {"HOUSE_DISK": disk, "LD_PRELOAD": self.programs.disk}
        return words | ({"HOUSE_SEGMENT": str(plan.segment), "HOUSE_TIMES": str(plan.times)} if plan.segment else {})

    def hurry(self, house: House) -> None:
        """Kills a house that starts, now and then."""
        if not self.calm and self.random.random() < self.plan.kill / 3:
            time.sleep(self.random.random() * self.plan.late)
            house.process.kill()

    def run(self) -> None:
        """Lets the houses work, heals all, and compares all."""
        try:
            for house in self.houses.values():
                self.start(house)
            done = 0
            while done < self.plan.lines:
                done += self.round()
            self.heal()
            self.compare()
        finally:
            for house in self.houses.values():
                house.kill()

    def round(self) -> int:
        """Some houses get some lines each; one of them may be killed; all answers are read. Returns how many lines it
        was."""
        chosen = self.random.sample(list(self.houses.values()), self.random.randrange(1, len(self.houses) + 1))
        has_number = False
        for house in chosen:
            jobs = [job for _ in range(self.random.choice([1, 1, 1, 2, 4])) for job in self.workload.jobs(house.number)]
            wanted = not has_number and self.random.random() < (0.04 if self.console.directories else 1)
            numbered = self.workload.numbered(house.number) if wanted else None
            has_number |= numbered is not None
            house.send([numbered] if numbered else jobs)
        if self.random.random() < self.plan.kill:
            if self.random.random() < 0.8:
                time.sleep(self.random.random() * self.plan.late)
            # (one of them, or the machine stops)
            for house in chosen if self.random.random() < 0.1 else [self.random.choice(chosen)]:
                house.process.kill()
        return sum(map(self.work_off, chosen))

    def work_off(self, house: House) -> int:
        """Reads the answers of a house; one that died is started again."""
        lines = len(house.jobs)
        while house.jobs:
            found = house.next_answer()
            if found is None:
                self.take_up(house, *house.died())
                return lines
            self.note(house, *found)
        return lines

    def start(self, house: House) -> None:
        """Starts a house until it lives."""
        self.take_up(house, *house.start())

    def take_up(self, house: House, posts: list[Message], done: list[Job]) -> None:
        """What a house posts after a start, and what it did and never answered."""
        self.net.post(posts)
        for job in done:
            self.count["turns that only a start said"] += 1
            if job.numbered:
                self.console.done(house.number, job.line)

    def note(self, house: House, job: Job, answer: list[str], posts: list[Message]) -> None:
        """Notes an answer, and what it posted."""
        self.count["answers"] += 1
        self.net.post(posts)
        if job.numbered and answer[-1].startswith("ok"):
            self.console.done(house.number, job.line)
        if answer[-1].startswith("ok complete"):
            self.count["complete skulks"] += 1
        self.compare_look(house, job, answer)
        if is_replayed(job.line.split(" ")[0], answer[-1].split(" ")):
            self.asked[house.number, house.entry].append(explaining.Asked(job.line, answer))

    def compare_look(self, house: House, job: Job, answer: list[str]) -> None:
        """A look, or a show, that comes just after a dump shows its present values."""
        words = job.line.split(" ")
        if words[0] == "dump" and answer[-1] == "end":
            self.dumped[house.number] = (words[1], values_of(answer), is_master(house.number, answer))
            return
        directory, values, is_here = self.dumped.pop(house.number, ("", {}, False))
        if words[0] in ("look", "show") and directory in words[1:3]:
            shown = shown_by(words, values) if is_here or words[:2] != ["show", "high"] else ["refused NotMaster"]
            if answer != shown:
                raise Difference(f"house {house.number}: {job.line} is {answer}, the dump before has {shown}")
            self.count["looks compared"] += 1

    def ask(self, house: House, job: Job) -> list[str]:
        """The answer of a house that nothing disturbs."""
        house.send([job])
        found = house.next_answer()
        if found is None:
            raise Difference(f"house {house.number}: died at the end")
        self.note(house, *found)
        return found[1]

    def heal(self) -> None:
        """All houses end and start; each directory gets an epoch and a skulk that nothing disturbs; then the dumps
        agree."""
        for house in self.houses.values():
            status = house.close()
            if status != 0 and status not in ENDS:
                raise Difference(f"house {house.number}: status {status} at the end of its input")
        self.calm, self.net.loss, self.net.repeats, self.net.kept = True, 0, 0, 0
        self.net.messages = []
        for house in self.houses.values():
            self.start(house)
        for directory in sorted(self.console.directories):
            self.complete(directory)
        for house in self.houses.values():
            if house.close() != 0:
                raise Difference(f"house {house.number}: status {house.process.status} at the end")

    def complete(self, directory: int) -> None:
        """A directory gets an epoch and a skulk, and its members agree."""
        number = self.console.master(directory)
        master = self.houses[number]
        line = self.console.epoch_line(directory, number, self.console.others(directory))
        answer = self.ask(master, Job([line], numbered=True))
        if answer[-1].split(" ")[0] != "ok":
            raise Difference(f"{line}: {answer}")
        self.deliver_all()
        answers = [self.ask(master, Job([f"skulk {directory}"])), *self.deliver_all()]
        if not any(answer[-1].startswith("ok complete") for answer in answers):
            raise Difference(f"directory {directory}: its skulk is not complete")
        members = self.console.directories[directory][1]
        dumps = {tuple(self.ask(self.houses[number], Job([f"dump {directory}"]))) for number in members}
        if len(dumps) != 1:
            raise Difference(f"directory {directory}: {len(dumps)} dumps of {len(members)} houses")
        self.count["directories"] += 1

    def deliver_all(self) -> list[list[str]]:
        """Delivers all messages, and those that these post."""
        answers: list[list[str]] = []
        while self.net.messages:
            to, octets = self.net.messages.pop(0)
            answers.append(self.ask(self.houses[to], take_job(octets)))
        return answers

    def compare(self) -> None:
        """The journals have each turn, and a script that explains them answers as they do."""
        entries = {number: journals.entries(house.folder) for number, house in self.houses.items()}
        for number, house in self.houses.items():
            turns = sum(entry.kind != "start" for entry in entries[number])
            if turns != house.turns + len(house.answered):
                raise Difference(
                    f"house {number}: {turns} turns in its journal, {house.turns + len(house.answered)} known"
                )
            self.count["turns"] += turns
            self.count["segments"] += len(journals.numbers(house.folder))
        explainer = explaining.explained(entries, self.asked)
        self.replay(explainer)
        if self.programs.explainer:
            self.compare_scripts(entries)
        self.count["messages"] += explainer.messages
        self.count["messages taken"] += explainer.taken
        self.count["images compared"] += explainer.images
        self.count["questions and refusals"] += sum(map(len, self.asked.values()))
        if self.random.random() < 0.25:
            explainer = explaining.Explainer(entries, self.asked)
            explainer.run_in_any_order(self.random)
            self.replay(explainer)
            self.explain_beginnings(entries)

    def compare_scripts(self, entries: explaining.Houses) -> None:
        """`cdsexplain` writes the script that explains the journals."""
        folders = [house.folder for house in self.houses.values()]
        ran = subprocess.run([str(self.programs.explainer), *folders], capture_output=True, text=True, check=False)
        due, lines = explaining.script_of(entries), ran.stdout.splitlines()
        if ran.returncode or lines != due:
            at = next((at for at, line in enumerate(due) if lines[at : at + 1] != [line]), len(due))
            found = f"line {at + 1} of its script: {lines[at : at + 1]}, due is {due[at : at + 1]}"
            raise Difference(f"cdsexplain ends with {ran.returncode}; {found}")
        self.count["lines of cdsexplain"] += len(lines)

    def explain_beginnings(self, entries: explaining.Houses) -> None:
        """The beginnings of all journals are explained, too, as far as no house took what only an entry left out
        posted."""
        begun = {number: own[: self.random.randrange(1, len(own) + 1)] for number, own in entries.items()}
        explainer = explaining.Explainer(begun)
        try:
            explainer.run()
        except explaining.Unexplained as reason:
            if not reason.waits:
                raise
        self.replay(explainer)

    def replay(self, explainer: explaining.Explainer) -> None:
        """A script is answered as the journals have it."""
        found = replaying.differences(self.programs.plain, explainer.script)
        self.count["lines compared"] += len(explainer.script)
        if found:
            one = found[0]
            raise Difference(f"{len(found)} lines differ: {one.line[:200]}: replay {one.answer}: journal {one.due}")


def is_replayed(word: str, end: list[str]) -> bool:
    """Whether a replay answers a line that begins and ends so, and that was no turn."""
    if end[1:2] in (["Trailing"], ["TooLong"]):
        return False
    if end[0] == "refused":
        return word in ("dump", *explaining.UPDATES) and end[1] in REFUSED or word == "take"
    if word == "take":
        return end[0] == "ok" and end[1] not in ("taken", "complete", "foreign")
    return word in ("dump", "image") and end[0] == "end"


def shown_by(words: list[str], values: Values) -> list[str]:
    """What a house answers to these words by the values of a dump."""
    name = words[2] if words[0] == "look" else words[3]
    if name not in values:
        return ["refused NoSuchEntry"]
    if words[0] == "look":
        due = values[name].get(words[3], [])
        return [*(f"value {value}" for value in due), f"end {len(due)}"]
    lines = [
        [f"attr {attribute}", *(f"value {value}" for value in due)] for attribute, due in values[name].items() if due
    ]
    return ["object", *(line for own in lines for line in own), "end"]


def is_master(house: int, dump: list[str]) -> bool:
    """Whether a house is the master by its own list, as a dump has it."""
    return any(word.startswith(f"{house}:") and word.endswith(":m") for word in dump[0].split(" "))


def values_of(dump: list[str]) -> Values:
    """The present values of a dump's live entries. (Where a link or a child leads is left to the replay.)"""
    found: Values = {}
    entry: dict[str, list[str]] = {}
    attribute: list[str] = []
    for words in (line.split(" ") for line in dump[1:-1]):
        if words[0] == "entry":
            entry = found.setdefault(words[1], {}) if words[4] == "live" and words[2] == "object" else {}
        elif words[0] == "attr":
            attribute = entry.setdefault(words[1], [])
        elif words[2] == "present":
            attribute.append(words[1])
    return found


FAULTS = (Difference, Silent, explaining.Unexplained, journals.Damaged)


def tried(seed: int, plan: Plan, programs: Programs, folder: str) -> tuple[collections.Counter[str], str | None]:
    """Runs a trial. Returns its counts, and what was found to differ, or None."""
    trial = Trial(seed, plan, programs, folder)
    trial.count["runs"] = 1
    try:
        trial.run()
    except FAULTS as fault:
        return trial.count, f"{type(fault).__name__}: {fault}"
    shutil.rmtree(trial.folder)
    return trial.count, None
