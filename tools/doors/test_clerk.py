"""Tests of a clerk by its lines: what it asks which house, and what it says. The test plays the houses. The clerk is
the plain one of bench/; `tools/clerk-tests` tries another one."""
from __future__ import annotations

import shutil
import subprocess
import threading
import unittest
from typing import NamedTuple

from cds import programs
from doors.trials import nonsense

# So long a test may wait for the clerk, in seconds.
LONGEST = 60.0

WANTED = "a0000000-0000-0000-0000-000000000001:1.0 - ncacn_ip_tcp"
BINDING = "ncacn_ip_tcp:10.0.0.1[1025]"
TOWER = (
    "050013000d000000a000000000000000000000000101000200000013000d045d888aeb1cc9119fe808002b10486002000200000001000b02"
    "0000000100070200040101000904000a000001"
)
SERVER = ["object", "attr CDS_Towers", f"value {TOWER}", "end"]
ROOT = "ok epoch 1 allupto none skulk none entries 0 members 1:1:m 2:1:r"


def group(*members: str) -> list[str]:
    return ["object", "attr RPC_Group", *(f"value {member.encode().hex()}" for member in sorted(members)), "end"]


class Ask(NamedTuple):
    """A question: its number, the command, the house and the line."""

    number: int
    job: int
    house: int
    line: str


class Talk(unittest.TestCase):
    """A clerk that prefers house 2, and may ask houses 1, 2 and 3."""

    program = ""

    def setUp(self) -> None:
        if not self.program and not shutil.which("rustc"):
            self.skipTest("rustc is not there")
        self.path = self.program or programs.plain_clerk()
        words, pipe = [self.path, "2", "1", "2", "3"], subprocess.PIPE
        self.child = subprocess.Popen(words, stdin=pipe, stdout=pipe, text=True, encoding="ascii", bufsize=1)
        assert self.child.stdin and self.child.stdout
        self.sink, self.source = self.child.stdin, self.child.stdout
        # (a clerk that says too little ends the test)
        self.watch = threading.Timer(LONGEST, self.child.kill)
        self.watch.start()

    def tearDown(self) -> None:
        if hasattr(self, "child"):
            self.sink.close()
            self.source.close()
            self.child.wait()
            self.watch.cancel()

    def give(self, line: str) -> None:
        self.sink.write(f"{line}\n")

    def ask(self) -> Ask:
        """The next line, which is a question."""
        text = self.source.readline().rstrip("\n")
        self.assertRegex(text, r"^ask \d+ \d+ \d+ .")
        _, number, job, house, line = text.split(" ", 4)
        return Ask(int(number), int(job), int(house), line)

    def asked(self, house: int, line: str, *answer: str) -> None:
        """The next line has to be this question, which is answered; no answer is a house that is down."""
        ask = self.ask()
        self.assertEqual((ask.house, ask.line), (house, line))
        self.hear(ask, *answer)

    def hear(self, ask: Ask, *answer: str) -> None:
        for text in answer:
            self.give(f"hear {ask.number} {text}")
        if not answer:
            self.give(f"down {ask.number}")

    def said(self, *lines: str, job: int = 1) -> None:
        """The next lines are this answer."""
        for line in lines:
            self.assertEqual(self.source.readline(), f"say {job} {line}\n")

    def root_at_high(self) -> None:
        for ask in [self.ask() for _ in range(3)]:
            self.hear(ask, ROOT)


class ClerkTest(Talk):
    """What each clerk does."""

    def test_a_near_house_is_asked_first_and_then_the_others(self) -> None:
        self.give("do 1 read low /.:/a A")
        self.asked(2, "status 1", "refused NoReplica")
        self.asked(1, "status 1", ROOT)
        self.asked(2, "show low 1 a", "refused NoReplica")
        self.asked(1, "show low 1 a", "object", "attr A", "value 00", "value 01", "end")
        self.said("ok 2 00 01")
        # (where the root directory is is kept)
        self.give("do 2 read low /.:/b A")
        self.asked(2, "show low 1 b", "refused NoSuchEntry")
        self.said("refused NoSuchName 0", job=2)

    def test_at_high_confidence_all_are_asked_at_once_and_the_latest_list_counts(self) -> None:
        self.give("do 1 read high /.:/a A")
        asks = [self.ask() for _ in range(3)]
        self.assertEqual(sorted(ask.house for ask in asks), [1, 2, 3])
        later = "ok epoch 2 allupto none skulk none entries 0 members 1:1:r 3:2:m"
        for ask in asks:
            self.hear(ask, *([ROOT] if ask.house == 1 else [later] if ask.house == 3 else []))
        self.asked(3, "show high 1 a", "refused NotMaster")
        self.asked(1, "show high 1 a", "refused NotMaster")
        self.said("refused Unreachable 1")

    def test_a_search_asks_for_all_that_it_lacks_at_once_and_says_what_it_did_not_reach(self) -> None:
        self.give("do 1 import low /.:/all " + WANTED)
        self.asked(2, "status 1", ROOT)
        self.asked(2, "show low 1 all", *group("/.:/a", "/.:/sub/b", "/.:/c"))
        asks = {ask.line: ask for ask in [self.ask() for _ in range(3)]}
        self.hear(asks["show low 1 a"], *SERVER)
        self.hear(asks["show low 1 c"], "refused NoSuchEntry")
        self.hear(asks["show low 1 sub"], "child 7 3", "end")
        self.asked(3, "show low 7 b")
        self.said(f"binding {BINDING}", "unreached 7", "end 1")

    def test_a_plan_is_one_line_after_the_other(self) -> None:
        self.give(f"do 1 export /.:/a {WANTED.split(' ')[0]} {BINDING} -")
        self.root_at_high()
        self.asked(1, "show high 1 a", "refused NoSuchEntry")
        self.asked(1, "create 1 a", "ok 1@00000000000a")
        self.asked(1, f"add 1 a CDS_Towers {TOWER}", "ok 2@00000000000a")
        self.said("ok 2")

    def test_a_plan_is_worked_out_again_and_in_doubt(self) -> None:
        self.give("do 1 groupadd /.:/g /.:/a")
        self.root_at_high()
        self.asked(1, "show high 1 g", "refused NoSuchEntry")
        self.asked(1, "create 1 g", "refused EntryExists")
        self.root_at_high()
        self.asked(1, "show high 1 g", "object", "end")
        self.asked(1, f"add 1 g RPC_Group {b'/.:/a'.hex()}")
        for ask in [self.ask() for _ in range(3)]:
            self.hear(ask)
        self.said("refused Unreachable 1 doubt")

    def test_an_update_by_name_is_answered_as_its_house_does(self) -> None:
        for number, answer in enumerate(("ok 5@00000000000a", "refused WrongKind", "refused StampsSpent"), 1):
            self.give(f"do {number} add /.:/a A 00")
            self.root_at_high()
            self.asked(1, "show high 1 a", "link /.:/b", "end")
            self.asked(1, "add 1 a A 00", answer)
            self.said(answer, job=number)

    def test_what_could_take_away_anothers_value_is_not_sent_again(self) -> None:
        for number, line in enumerate(("delete 1 a", "put 1 a A 00", "clear 1 a A"), 1):
            word, _, *rest = line.split(" ")
            self.give(f"do {number} {word} /.:/{' '.join(rest)}")
            self.root_at_high()
            self.asked(1, "show high 1 a", "object", "end")
            self.asked(1, line)
            self.said("refused Down doubt", job=number)

    def test_stamps_that_are_spent_in_a_plan(self) -> None:
        self.give("do 1 groupadd /.:/g /.:/a")
        self.root_at_high()
        self.asked(1, "show high 1 g", "refused NoSuchEntry")
        self.asked(1, "create 1 g", "ok 1@00000000000a")
        self.asked(1, f"add 1 g RPC_Group {b'/.:/a'.hex()}", "refused StampsSpent")
        self.said("refused StampsSpent 1")

    def test_what_is_forbidden_is_not_tried_again(self) -> None:
        self.give("do 1 groupadd /.:/g /.:/a")
        self.root_at_high()
        self.asked(1, "show high 1 g", "refused NoSuchEntry")
        self.asked(1, "create 1 g", "refused Forbidden")
        self.said("refused Forbidden")

    def test_a_plan_has_an_end(self) -> None:
        self.give("do 1 create /.:/a")
        for _ in range(8):
            self.root_at_high()
            self.asked(1, "show high 1 a", "refused NoSuchEntry")
            self.asked(1, "create 1 a", "refused NotMaster")
        self.said("refused NotMaster")

    def test_faults_have_the_places_of_the_line(self) -> None:
        lines = {"read lowly /.:/a A": "BadWord 2", "read low a A": "BadWord 3", "read low /.:/a": "WrongCount 3"}
        lines |= {"create": "WrongCount 1", "link /.:/a b": "BadWord 3", "export /.:/a x": "WrongCount 3"}
        lines |= {"hop": "UnknownCommand 1", "house 1 a": "UnknownCommand 1"}
        for number, (line, fault) in enumerate(lines.items(), 1):
            self.give(f"do {number} {line}")
            self.said(f"fault {fault}", job=number)

    def test_lines_that_are_none_are_passed_over(self) -> None:
        for line in ("", "do", "do x read", "hear 9 ok", "down 9", "what 1 2", "down 1 2", "hear"):
            self.give(line)
        self.give("do 1 hop")
        self.said("fault UnknownCommand 1")

    def test_nonsense(self) -> None:
        counts = nonsense.tried(self.path, 2.0, 7)
        self.assertGreater(counts["questions"], 100)


class OlderHouses(Talk):
    """What the plain clerk alone does: it asks `dump` of a house that knows neither `show` nor `status`."""

    def test_an_older_house_is_asked_for_all_at_once(self) -> None:
        self.give("do 1 import low /.:/all " + WANTED)
        self.asked(2, "status 1", "fault UnknownCommand 1")
        self.asked(2, "dump 1", "dump epoch 1 allupto none members 1:1:m 2:1:r", "end")
        members = "".join(f"value {name.encode().hex()} present 1@a\n" for name in ("/.:/a", "/.:/b")).splitlines()
        other = ["entry b object 1@a 2@a", "attr CDS_Towers none", f"value {TOWER} present 1@a"]
        towers = ["attr CDS_Towers none", f"value {TOWER} present 1@a", f"value {TOWER[:-2]}02 absent 1@a"]
        all_of_group = ["entry all object 1@a live", "attr RPC_Group none", *members]
        lines = ["entry a object 1@a live", *towers, *all_of_group, *other]
        self.asked(2, "dump 1", "dump epoch 1 allupto none members 1:1:m 2:1:r", *lines, "end")
        self.said(f"binding {BINDING}", "end 1")

    def test_an_older_house_tells_at_high_confidence_if_it_is_the_master(self) -> None:
        first = "dump epoch 1 allupto none members 1:1:m 2:1:r"
        self.give("do 1 read high /.:/a A")
        for ask in [self.ask() for _ in range(3)]:
            self.hear(ask, "fault UnknownCommand 1")
            # (house 2 is the master by the lists of houses 1 and 2)
            told = ["refused NoReplica"] if ask.house == 3 else [first.replace("1:1:m 2:1:r", "1:1:r 2:1:m"), "end"]
            self.asked(ask.house, "dump 1", *told)
        self.asked(2, "dump 1", first, "end")
        self.asked(1, "dump 1", first, "entry a object 1@a live", "attr A none", "value 00 present 1@a", "end")
        self.said("ok 1 00")


if __name__ == "__main__":
    unittest.main()
