"""Tests of the tools of houses: the cell at a prompt, the reader of folders, the explanations of journals, and the disk
of the trials."""

from __future__ import annotations

import os
import shutil
import signal
import subprocess

from cds import journals
from cds.processes import take_lines
from doors.ledger import Ledger
from housing import explaining, replaying
from housing.altered import other, other_octets
from housing.tests import HOUSES, MADE_UP, TWO, HouseTest


def heed_interrupts() -> None:
    """A test that runs in the background of a shell ignores interrupts, and would hand that on."""
    signal.signal(signal.SIGINT, signal.SIG_DFL)


class OfCells(HouseTest):
    """A cell at a prompt."""

    def test_cell(self) -> None:
        lines = ["create 1 1 lpr", "put 1 1 lpr CDS_Class 5072", "look 2 1 lpr CDS_Class", "skulk 1 1"]
        said = self.session(f"{self.room}/cell", [*TWO, *lines])
        assert said == [
            "house 1: new",
            "ok",
            "house 2: new",
            "ok",
            "ok posted 1",
            "  1 to 2: ok taken",
            "ok 1@00000000000a posted 2",
            "  2 to 2: ok taken",
            "ok 2@00000000000a posted 3",
            "  3 to 2: ok taken",
            "value 5072",
            "end 1",
            "ok 3@00000000000a posted 4",
            "  4 to 2: ok taken posted 5",
            "  5 to 1: ok taken posted 6",
            "  6 to 2: ok taken posted 7",
            "  7 to 1: ok complete 3@00000000000a posted 8",
            "  8 to 2: ok taken",
        ]
        lines = ["mkdir 1 1 sub 1 s2", "epoch 2 2 s1", "root 1", "epoch 3 1", "epoch 2 7", "dump 7 1", "hop 1"]
        said = self.session(f"{self.room}/cell", lines)
        assert said[:3] == [
            "house 1: last take, ok complete 3@00000000000a posted 1",
            "house 2: last take, ok taken",
            "  1 to 2: ok taken",
        ], said[:3]
        assert said[3].startswith("ok 2 4@00000000000a") and said[6].startswith("ok 2 posted 4"), said[3:]
        assert said[8:] == [
            "refused DirectoryExists",
            "refused NoDirectory",
            "refused NotMember",
            "refused NoHouse",
            "no such command, or too few words: help lists them",
        ], said[8:]

    def test_cell_holds_and_loses(self) -> None:
        lines = [*TWO, "messages", "create 1 1 a", "deliver 2", "lose 1", "deliver 1", "deliver", "dump 2 1"]
        said = self.session(f"{self.room}/cell", lines, "--hold")
        held = ["  1 to 2: 53 octets", "ok 1@00000000000a posted 2"]
        assert said[5:] == [*held, "  2 to 2: ok noreplica", "ok", "refused NoMessage", "refused NoReplica"], said[5:]
        said = self.session(f"{self.room}/other", [*TWO, "create 1 1 a", "dump 2 1"], "--lose", "100")
        assert said[4:] == ["ok posted 1", "ok 1@00000000000a posted 2", "refused NoReplica"], said[4:]
        said = self.session(f"{self.room}/third", [*TWO, "messages", "skulk 1 1"], "--delay", "100")
        assert said[4:] == ["ok posted 1", "  1 to 2: 53 octets", "ok 1@00000000000a posted 2"], said[4:]

    def test_cell_of_houses_that_die(self) -> None:
        lines = [
            *TWO,
            "crash 2",
            "create 1 1 a",
            "dump 2 1",
            "crash 2",
            "start 1",
            "start 3",
            "start 2",
            "look 2 1 a A",
        ]
        lines += ["crash 1 create 2 1 b"]
        said = self.session(f"{self.room}/cell", lines)
        assert said[6:8] == ["house 2 is killed", "ok 1@00000000000a posted 2"], said[6:8]
        assert said[8:] == [
            "refused Down",
            "refused Down",
            "house 1 is up",
            "no such command, or too few words: help lists them",
            "house 2: last take, ok taken",
            "  2 to 2: ok taken",
            "end 0",
            "house 2 would do that",
        ], said[8:]
        said = self.session(
            f"{self.room}/cell", ["crash 1 epoch 1 1 2", "epoch 1 1 2", "start 1", "epoch 1 1 2", "look 2 1 a A"]
        )
        done = [line for line in said if "last epoch 1 2 1:1:m 2:1:r" in line]
        due = "ok 3" if done else "ok 2"
        assert "start 1 first: whether it did epoch 1 2 1:1:m 2:1:r is not known" in said, said
        assert any(line.startswith(due) for line in said) and said[-1] == "end 0", said

    def test_cell_ends_with_an_interrupt(self) -> None:
        command = [*self.cell(), f"{self.room}/cell"]
        cell = subprocess.Popen(
            command, stdin=subprocess.PIPE, stdout=subprocess.PIPE, text=True, bufsize=1, preexec_fn=heed_interrupts
        )
        assert cell.stdin and cell.stdout
        cell.stdin.write("house 1 00000000000a\nroot 1\ncreate 1 1 a\n")
        cell.stdin.flush()
        said = [cell.stdout.readline() for _ in range(4)]
        cell.send_signal(signal.SIGINT)
        cell.wait(30)
        assert (said[-1], cell.returncode) == ("ok 1@00000000000a\n", 0), (said, cell.returncode)
        assert self.session(f"{self.room}/cell", []) == ["house 1: last create 1 a, ok 1@00000000000a"]

    def test_ledger(self) -> None:
        ledger = Ledger(f"{self.room}/console")
        ledger.begin(1, "root s2")
        ledger.settle(True)
        ledger.begin(1, "epoch 1 2 1:1:m")
        ledger.settle(False)
        ledger.begin(2, "mkdir 1 a 2")
        again = Ledger(ledger.path)
        assert (again.pending, again.console.directories) == ((2, "mkdir 1 a 2"), {1: (1, {1: (1, "m"), 2: (1, "s")})})
        with open(ledger.path, "a", encoding="ascii") as file:
            file.write("do")
        ledger = Ledger(ledger.path)
        assert ledger.pending == (2, "mkdir 1 a 2")
        ledger.settle(True)
        assert (Ledger(ledger.path).pending, Ledger(ledger.path).console.next_directory) == (None, 3)


class OfOldCopies(HouseTest):
    """A house whose folder was put back from an old copy, or that has the node of another."""

    def put_back(self, house: int, lines: list[str], *options: str) -> list[str]:
        """What a cell says of lines after the folder of a house was put back. The house made two entries since, which a
        skulk brought to both."""
        cell = f"{self.room}/{house}{''.join(options)}"
        made = ["house 1 00000000000a", "house 2 00000000000b", "root 1 s2", "create 1 1 a"]
        self.session(cell, made, *options)
        shutil.copytree(f"{cell}/h{house}", f"{cell}/copy")
        more = [f"create {house} 1 b", f"create {house} 1 c", "skulk 1 1", "audit 1"]
        said = self.session(cell, more, *options)
        assert said[-1].startswith("1 2: agree 1 ") and "ok complete" in said[-3], said
        shutil.rmtree(f"{cell}/h{house}")
        os.rename(f"{cell}/copy", f"{cell}/h{house}")
        return self.session(cell, lines, *options)

    def test_a_house_that_was_put_back_from_an_old_copy(self) -> None:
        said = self.put_back(1, ["create 1 1 d", "skulk 1 1"])
        # (the other house tells of the skulk that this one forgot)
        assert said[-1] == "  4 to 1: refused Restored 4@00000000000a", said
        assert not any("complete" in line for line in said), said

    def test_a_house_that_was_put_back_and_does_not_notice(self) -> None:
        rows: list[tuple[int, list[str], str]] = [
            (1, ["--clock"], "1 2: differ 1 2 birth b "),
            (2, [], "1 2: differ 1 1 birth b 2@00000000000b"),
        ]
        for house, options, fault in rows:
            said = self.put_back(house, ["skulk 1 1", "audit 1", "audit x", "audit 2"], *options)
            assert "ok complete" in said[-5] and not any("Restored" in line for line in said), said
            assert said[-3].startswith(fault) and said[-2:] == ["audit D", "1 2: refused NoReplica 1"], said

    def test_a_house_with_the_node_of_another(self) -> None:
        join = "0207" + "00000001" + "01" + f"{1:016x}" + f"{9:016x}"
        join += "02" + f"01{1:016x}01" + f"02{1:016x}03" + "00" * 9
        update = "0201" + "00000001" + "01" + f"{1:016x}" + f"{9:016x}" + "0161" + "01" + f"{9:016x}" + "00000000000a"
        update += "00" * 9
        lines = ["house 2 00000000000a", *take_lines(update), *take_lines(join), *take_lines(update), "look 1 a A"]
        said = [answer[-1] for answer in self.given(self.folder("h"), lines)]
        # (a floor that another house raised hides it)
        assert said == ["ok", "refused Restored 9@00000000000a", "ok taken", "ok taken", "end 0"], said


class OfExplanations(HouseTest):
    """The reader of folders, and the explanation of journals."""

    def difference(self, folders: list[str]) -> list[replaying.Difference] | str:
        """What a script says otherwise than the journals of folders; or why there is none."""
        try:
            return self.differences(journals.houses_of(folders))
        except (explaining.Unexplained, journals.Damaged) as fault:
            return str(fault).split(": ", 1)[1]

    def differences(self, houses: explaining.Houses) -> list[replaying.Difference]:
        """What the script that explains houses says otherwise than they do."""
        return replaying.differences(self.kit.plain, explaining.explained(houses).script)

    def test_explanation(self) -> None:
        folders = self.worked()
        done = subprocess.run([HOUSES, "--explain", *folders], capture_output=True, text=True, check=False)
        assert done.returncode == 0 and done.stdout.endswith(", 0 differences\n"), done
        assert self.difference(folders) == []
        assert str(self.difference(folders[:1])).startswith("took a")
        done = subprocess.run([HOUSES, "--read", folders[1]], capture_output=True, text=True, check=True)
        assert done.stdout.splitlines()[:6] == [
            f"segment 1 after {'0' * 64}",
            "0 clock 0 no image",
            "  new",
            "1 clock 0 no image",
            "  house 2 00000000000b",
            "  ok",
        ], done

    def test_what_is_read_of_a_damaged_folder(self) -> None:
        """All records up to the first one that is not good are shown, and then what is wrong."""
        folder = self.worked()[1]
        whole = subprocess.run(
            [HOUSES, "--read", folder], capture_output=True, text=True, check=True
        ).stdout.splitlines()
        path = f"{folder}/{journals.numbers(folder)[-1]}"
        with open(path, "r+b") as file:
            octets = file.read()
            records, _ = journals.listed(octets)
            file.seek(sum(len(record) + 9 for record in records[:-1]) + 9 + 40)
            file.write(b"?")
        done = subprocess.run([HOUSES, "--read", folder], capture_output=True, text=True, check=False)
        said = done.stdout.splitlines()
        assert (done.returncode, done.stderr) == (
            1,
            f"houses: {path} record {len(records) - 1}: the sum is another\n",
        ), done
        assert len(said) > 20 and said == whole[: len(said)] and whole[len(said)].split(" ")[1] == "clock", said[-3:]

    def test_explanation_of_what_no_console_did(self) -> None:
        folders = self.worked()
        self.given(folders[1], ["mkdir 2 x 4"])
        assert self.difference(folders) == "directory 4 where the next one is 3"
        self.given(folders[1], ["mkdir 2 y 3"])
        assert self.difference(folders) == "directory 4 where the next one is 3"
        folders = self.worked("more")
        self.given(folders[1], ["epoch 2 5 2:1:m"])
        assert self.difference(folders) == "epoch 5 where the last one is 2"

    def test_explanation_of_a_message_that_is_made_up(self) -> None:
        folders = self.worked()
        assert self.given(folders[0], take_lines(MADE_UP)) == [["ok taken"]]
        assert self.difference(folders) == "took a message that no house posted"

    def test_explanation_of_an_old_copy(self) -> None:
        folders = self.worked()
        shutil.copytree(folders[0], f"{self.room}/copy")
        lines = ["put 1 1 a A 11"]
        self.session(f"{self.room}/cell", lines)
        shutil.rmtree(folders[0])
        os.rename(f"{self.room}/copy", folders[0])
        self.session(f"{self.room}/cell", ["put 1 1 a A 12"])
        assert self.difference(folders) == "took a message that no house posted"

    def test_explanation_of_lost_segments(self) -> None:
        folders = self.worked()
        self.given(folders[0], ["create 1 c"])
        self.given(folders[0], ["create 1 d"])
        os.rename(f"{folders[0]}/2", f"{self.room}/2")
        assert self.difference(folders) == "segment 2 is missing"
        os.rename(f"{self.room}/2", f"{folders[0]}/2")
        os.remove(f"{folders[0]}/1")
        assert self.difference(folders) == "does not begin with a house"

    def test_explanation_of_altered_entries(self) -> None:
        houses = journals.houses_of(self.worked())
        every = [entry for own in houses.values() for entry in own]
        for entry, at in [
            (entry, at)
            for entry in every
            if entry.number > 1 and entry.kind != "start"
            for at in range(len(entry.lines))
        ]:
            line, entry.lines[at] = entry.lines[at], other(entry.lines[at])
            try:
                assert self.differences(houses), (entry.place, line)
            except explaining.Unexplained:
                pass
            entry.lines[at] = line
        for entry in every:
            if entry.image is not None:
                image, entry.image = entry.image, other_octets(entry.image, len(entry.image) - 1)
                assert len(self.differences(houses)) == 1, entry.place
                entry.image = image

    def test_disk_is_a_disk(self) -> None:
        """What a loss of power leaves of a folder is a house's folder."""
        folder, lives = self.folder("h"), 0
        for seed in range(1, 200):
            variables = self.on_disk(folder, f"{seed * 7919} 12 0 0")
            said, status = self.ran(folder, ["house 1 00000000000a", "root", "skulk 1"], env=variables)
            assert status in (0, -signal.SIGABRT), (seed, said, status)
            assert all(segment.records for segment in journals.segments(folder))
            lives += status == 0
        assert 0 < lives < 199, lives
