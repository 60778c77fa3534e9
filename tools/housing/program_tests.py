"""Tests of a house as a program: how it ends, and what it answers, also after its death."""

from __future__ import annotations

import collections
import os
import shutil
import signal
import subprocess

from cds import journals, memory
from cds.processes import Process, take_lines
from housing import cases
from housing.tests import MADE, HouseTest, contents

# A message at its longest, and the octets of a line of `more`.
LONGEST_MESSAGE, PIECE = 16_777_216, 2037
CREATED = (["0 last create 1 a", "0 ok 1@00000000000a"], 0)


class OfPrograms(HouseTest):
    """A house that is given lines."""

    def test_cases(self) -> None:
        for title, lives in [*cases.of_file(), *cases.of_page()]:
            with self.subTest(title):
                self.assertIsNone(cases.failure(self.kit.house, lives))

    def test_arguments(self) -> None:
        folder = self.made()
        before = contents(folder)
        for arguments in ((), (folder, folder), (folder, ""), ("",)):
            done = subprocess.run([self.kit.house, *arguments], input=b"create 1 b\n", capture_output=True, check=False)
            assert (done.returncode, done.stdout) == (2, b""), arguments
        assert contents(folder) == before

    def test_faults_of_octets(self) -> None:
        folder = self.made()
        for tail, fault in [
            (b"create 1 c", "2 fault NoLineEnd 11"),
            (b"create 1 \tc\n", "2 fault NotAscii 10"),
            (b"# \xc3\xa9\n", "2 fault NotAscii 3"),
            (b"create 1 c\r\n", "2 fault NotAscii 11"),
            (b"#" * 4081 + b"\n", "2 fault LineTooLong 4081"),
            (b"#" * 4080, "2 fault NoLineEnd 4081"),
            (b"#" * 9000, "2 fault LineTooLong 4081"),
            (b"#" * 4080 + b"\xff\n", "2 fault LineTooLong 4081"),
        ]:
            said, status = self.ran(folder, b"delete 1 x\n" + tail)
            assert (said[-2:], status) == (["1 refused NoSuchEntry", fault], 3), (tail, said)
        said, status = self.ran(folder, b"#" * 4080 + b"\ncreate 1 c\nclock\xc3\n")
        assert (said[-2:], status) == (["2 ok 2@00000000000a", "3 fault NotAscii 6"], 3), said
        assert self.last_said(folder) == (["0 last create 1 c", "0 ok 2@00000000000a"], 0)

    def test_reading_fails(self) -> None:
        folder = self.made()
        # (a folder opens as a file, and no read of it succeeds)
        source = os.open(self.room, os.O_RDONLY)
        said, status = self.ran(folder, stdin=source)
        os.close(source)
        assert (said[1:], status) == (CREATED[0], 4), (said, status)

    def test_writing_fails(self) -> None:
        folder = self.made()
        with open("/dev/full", "wb") as sink:
            assert self.ran(folder, sink=sink) == ([], 5)
        process = Process(self.kit.house, folder)
        assert process.answer()
        process.source.close()
        process.send(["create 1 b"])
        process.child.wait(30)
        assert process.status == 5, process.status
        assert self.last_said(folder) == (["0 last create 1 b", "0 ok 2@00000000000a"], 0)

    def test_answers_come_line_by_line(self) -> None:
        process = Process(self.kit.house, self.made())
        process.answer()
        for number in range(50):
            process.send([f"create 1 e{number}"])
            assert process.due()[-1].startswith("ok ")
        process.send([f"delete 1 e{number}" for number in range(50)])
        assert all(process.due()[-1].startswith("ok ") for _ in range(50))
        process.close()
        assert process.status == 0

    def test_refused_memory(self) -> None:
        """If any one of its allocations is refused, it ends with status 6 and its first answers, or does without. Its
        entries are the first ones of the whole run, and the next process goes on from them."""
        if not shutil.which("cc"):
            return
        for name, runs in memory.lives_of(self.kit.house, memory.compiled(self.room), self.room):
            status, whole = runs.ran(0)
            count, turns = runs.calls(), [record.turn for record in journals.entries(runs.folder)]
            assert status == 0 and count > 100, (name, status, count)
            for at in range(1, count + 1):
                status, said = runs.ran(at)
                assert not memory.fault(status, said, whole), (name, at, memory.fault(status, said, whole))
                answered = len(journals.entries(runs.folder))
                assert self.ran(runs.folder)[1] == 0, (name, at)
                assert [record.turn for record in journals.entries(runs.folder)][:answered] == turns[:answered], (
                    name,
                    at,
                )

    def test_second_process(self) -> None:
        folder = self.made()
        process = Process(self.kit.house, folder)
        process.answer()
        before = contents(folder)
        assert self.ran(folder, MADE) == ([], 10)
        assert contents(folder) == before
        process.close()
        assert self.last_said(folder) == CREATED

    def test_many_processes_at_once(self) -> None:
        folder = self.made()
        processes = [Process(self.kit.house, folder) for _ in range(6)]
        said = [process.next_line() for process in processes]
        assert sorted(map(str, said)) == ["0 house 1 00000000000a"] + ["None"] * 5, said
        statuses = collections.Counter[int | None]()
        for process in processes:
            process.close()
            statuses[process.status] += 1
        assert statuses == {0: 1, 10: 5}, statuses
        assert journals.numbers(folder) == [1, 2]

    def test_killed(self) -> None:
        folder = self.made()
        process = Process(self.kit.house, folder)
        process.answer()
        process.send(["create 1 b"])
        process.answer()
        process.kill()
        process.drained()
        assert process.status == -signal.SIGKILL
        assert self.last_said(folder) == (["0 last create 1 b", "0 ok 2@00000000000a"], 0)

    def test_long_messages_come_in_pieces(self) -> None:
        folder, other = self.made(), self.folder("other")
        values = [f"add 1 a A {number:02x}{'00' * 1023}" for number in range(9)]
        octets = "".join(f"{line}\n" for line in [*values, "epoch 1 2 1:1:m 2:1:r"]).encode()
        done = subprocess.run([self.kit.house, folder], input=octets, capture_output=True, check=True)
        said = done.stdout.decode().splitlines()
        assert max(map(len, said)) <= 4096
        pieces = [line.split(" ") for line in said if line.startswith("10 ")]
        assert [words[1] for words in pieces] == ["more"] * 4 + ["post", "ok"], [words[1] for words in pieces]
        assert [len(words[3]) for words in pieces[:4]] == [4000] * 4
        message = "".join(words[3] for words in pieces[:-1])
        said, status = self.ran(other, ["house 2 00000000000b", *take_lines(message), "look 1 a A"])
        assert (said[-1].split(" ")[1:], status) == (["end", "9"], 0), said
        turns = [record for record in journals.entries(other) if record.kind == "take"]
        assert [turn.line for turn in turns] == [f"take {message}"]

    def test_messages_that_are_too_long(self) -> None:
        folder = self.made()
        count = LONGEST_MESSAGE // PIECE
        rest = LONGEST_MESSAGE - count * PIECE
        more = f"more {'00' * PIECE}\n".encode() * count
        longest, longer = f"take {'00' * rest}\ntake 00\n", f"more {'00' * (rest + 1)}\ntake 00\n"
        said, status = self.ran(folder, more + longest.encode() + more + longer.encode())
        at = len(CREATED[0]) + 1 + count
        assert said[at] == f"{count + 1} refused BadTag 1" and said[at + 1] == f"{count + 2} refused BadTag 1", said[
            at : at + 2
        ]
        assert said[-2:] == [f"{2 * count + 3} refused TooLong", f"{2 * count + 4} refused BadTag 1"], said[-2:]
        assert status == 0

    def test_lines_are_done_again(self) -> None:
        """After a kill the next process has the house of before, with the clocks of its turns, and a clock of 0."""
        folder = self.made()
        lines = ["clock 500", "put 1 a A 01", "skulk 1", "clock 7", "more 0202", "create 1 b", "image"]
        process = Process(self.kit.house, folder)
        process.answer()
        process.send(lines)
        image = [process.answer() for _ in lines][-1]
        process.kill()
        process.drained()
        said, status = self.ran(folder, ["image", "create 1 c"])
        assert (said[1:3], said[-1], status) == (
            ["0 last create 1 b", "0 ok 502@00000000000a"],
            f"2 ok {503}@00000000000a",
            0,
        ), said
        assert [line.split(" ", 1)[1] for line in said[3:-1]] == image, said
        assert [record.clock for record in journals.entries(folder)] == [0, 0, 0, 0, 500, 500, 7, 0, 0]

    def test_a_start_of_each_folder_gives_the_same_octets_twice(self) -> None:
        """Whoever does the lines of a folder again gets one answer and one segment, and so does whoever does those of
        the copy."""
        for number, (title, lives) in enumerate([*cases.of_file(), *cases.of_page()]):
            folder = self.folder(str(number))
            for life, (read, due) in enumerate(lives):
                cases.said_in_a_life(self.kit.house, folder, read, len(due))
                copies = [shutil.copytree(folder, f"{folder}-{life}-{copy}") for copy in (1, 2)]
                one, two = [(self.ran(copy), contents(copy)) for copy in copies]
                assert one == two and one[0][1] == 0, title
