"""Tests of `cdsexplain`: its scripts, its statuses, and what it says of journals that no cell has. (With the plain
house of bench/.)"""

from __future__ import annotations

import itertools
import os
import re
import shutil
import subprocess
from collections.abc import Iterator, Sequence

from building.sources import ROOT
from cds import journals, memory
from cds.journals import bodies_of, sealed
from cds.processes import Process, take_lines
from cds.programs import ran
from housing import explaining
from housing.tests import MADE_UP, PATIENCE, HouseTest, octets_of, write

# The most lines of a script.
MOST_LINES = 1 << 24
EXAMPLE = f"{ROOT}/examples/killed"
UNEXPLAINED = "# unexplained: "


def script_of(folders: Sequence[str]) -> list[str]:
    """The script of tools/houses for the same folders, without its questions."""
    return explaining.script_of(journals.houses_of(folders))


def parted(lines: list[str]) -> tuple[list[str], list[str]]:
    """The lines of a script, and what is said after them of entries and folders."""
    script = [*itertools.takewhile(lambda line: not line.startswith("#"), lines)]
    said = lines[len(script) :]
    assert all(line.startswith(UNEXPLAINED) for line in said), said
    return script, [line.removeprefix(UNEXPLAINED) for line in said]


def spoiled(path: str) -> int:
    """Changes an octet of the last record of a segment. Its place there."""
    octets = octets_of(path)
    records, gate = journals.listed(octets)
    place = gate - len(records[-1]) + 20
    write(path, octets[:place] + bytes([octets[place] ^ 1]) + octets[place + 1 :])
    return len(records)


def altered(body: bytes) -> Iterator[tuple[int, bytes]]:
    """A record with one octet changed: its clock, its image if it has one, and of a turn the last one of each line."""
    size = int.from_bytes(body[17 : journals.FIELDS], "big")
    text = body[journals.FIELDS : journals.FIELDS + size]
    places = [15, len(body) - 1] if body[16] else [15]
    if not text.startswith((b"start", b"segment", b"new")):
        places += [journals.FIELDS + at - 1 for at, octet in enumerate(text) if octet == 10]
    for place in places:
        changed = b"1" if body[place : place + 1] != b"1" else b"2"
        yield place, body[:place] + changed + body[place + 1 :]


class OfExplainers(HouseTest):
    """`cdsexplain` over the folders of a cell."""

    def explained(self, folders: Sequence[str]) -> tuple[int, list[str]]:
        """The status of `cdsexplain` on folders, and its lines."""
        command = [str(self.kit.explainer), *folders]
        done = subprocess.run(command, capture_output=True, text=True, timeout=PATIENCE, check=False)
        assert not done.stderr, done
        return done.returncode, done.stdout.splitlines()

    def why(self, folders: Sequence[str]) -> str:
        """Why `cdsexplain` does not explain folders: what it says last. (An entry comes before the folders.)"""
        status, lines = self.explained(folders)
        _, said = parted(lines)
        assert status == 3 and said, (status, lines[-1:])
        return said[-1]

    def test_scripts(self) -> None:
        folders = self.worked()
        assert self.explained(folders) == (0, script_of(folders))
        assert self.explained(folders[::-1]) == (0, script_of(folders))
        assert self.why(folders[1:]) == "house 2 entry 2: took a message that no house posted"

    def test_example(self) -> None:
        """The journals of examples/killed give examples/killed.cds, and that has the answers beside it."""
        folders = [f"{EXAMPLE}/h{house}" for house in (3, 1, 2)]
        script, answers = octets_of(f"{EXAMPLE}.cds"), octets_of(f"{EXAMPLE}.out")
        assert ran([str(self.kit.explainer), *folders]) == (0, script)
        assert ran([self.kit.plain, "run"], script) == (0, answers)
        assert self.explained(folders) == (0, script_of(folders))

    def test_refused_memory(self) -> None:
        """If any one of its allocations is refused, it ends with status 6 and the first lines of the script, or does
        without."""
        folders = [f"{EXAMPLE}/h{house}" for house in (1, 2, 3)]
        if not shutil.which("cc"):
            return
        runs = memory.Runs(str(self.kit.explainer), folders, memory.compiled(self.room), b"", self.room)
        status, whole = runs.ran(0)
        count = runs.calls()
        assert status == 0 and count > 100, (status, count)
        faults = {at: memory.fault(*runs.ran(at), whole) for at in range(1, count + 1)}
        assert not any(faults.values()), [it for it in faults.items() if it[1]][:5]

    def test_statuses(self) -> None:
        none = self.folder("none")
        assert self.explained([]) == (2, [])
        assert self.explained([none]) == (0, [])
        assert self.explained([f"{self.room}/missing"]) == (4, [])
        self.given(none, ["clock 7"])
        assert self.explained([none]) == (0, [])
        with open("/dev/full", "wb") as full:
            folders = self.worked()
            assert subprocess.run([str(self.kit.explainer), *folders], stdout=full, check=False).returncode == 5

    def test_what_else_is_in_a_folder(self) -> None:
        """Names that are no number are passed over. What has a number, and is no file, is not read: nobody knows
        whether that would end."""
        folders = self.worked()
        for name in [b"0", b"01", b"18446744073709551616", b"lpr", b"\xff\xfe"]:
            write(os.path.join(os.fsencode(folders[0]), name), b"")
        assert self.explained(folders) == (0, script_of(folders))
        os.mkfifo(f"{folders[0]}/77")
        assert self.explained(folders) == (4, [])
        os.remove(f"{folders[0]}/77")
        os.makedirs(f"{folders[0]}/77")
        assert self.explained(folders) == (4, [])

    def test_one_house_twice(self) -> None:
        folders = self.worked()
        assert self.why([*folders, folders[0]]) == "house 1 entry 1: the house of another journal"
        other = self.folder("other")
        self.given(other, ["house 3 00000000000a"])
        assert self.why([*folders, other]) == "house 3 entry 1: the node of house 1"

    def test_what_no_console_did(self) -> None:
        folders = self.worked()
        self.given(folders[1], ["mkdir 2 x 4"])
        assert self.why(folders).endswith(": directory 4 where the next one is 3")
        self.given(folders[1], ["mkdir 2 y 3"])
        assert self.why(folders).endswith(": directory 4 where the next one is 3")
        folders = self.worked("more")
        self.given(folders[1], ["epoch 2 5 2:1:m"])
        assert self.why(folders).endswith(": epoch 5 where the last one is 2")

    def test_a_message_that_is_made_up(self) -> None:
        folders = self.worked()
        assert self.given(folders[0], take_lines(MADE_UP)) == [["ok taken"]]
        number = len(journals.entries(folders[0]))
        assert self.why(folders) == f"house 1 entry {number}: took a message that no house posted"

    def test_an_old_copy(self) -> None:
        folders = self.worked()
        shutil.copytree(folders[0], f"{self.room}/copy")
        self.session(f"{self.room}/cell", ["put 1 1 a A 11"])
        shutil.rmtree(folders[0])
        os.rename(f"{self.room}/copy", folders[0])
        self.session(f"{self.room}/cell", ["put 1 1 a A 12"])
        assert self.why(folders).startswith("house 2 entry ")

    def test_folders_that_are_damaged(self) -> None:
        folders = self.worked()
        self.given(folders[0], ["create 1 c"])
        self.given(folders[0], ["create 1 d"])
        assert self.explained(folders)[0] == 0
        os.rename(f"{folders[0]}/2", f"{self.room}/2")
        assert self.why(folders) == "folder 1: segment 2 is missing"
        shutil.copy(f"{folders[0]}/1", f"{folders[0]}/2")
        assert self.why(folders) == "folder 1: segment 2 record 1 is damaged"
        os.rename(f"{self.room}/2", f"{folders[0]}/2")
        write(f"{folders[1]}/1", sealed(1, bodies_of(f"{folders[1]}/1")[:-1]))
        assert self.why(folders) == "folder 2: segment 2 does not follow the segment before"

    def test_what_is_explained_of_a_damaged_folder(self) -> None:
        """The records before a damaged one are explained, and the other folders."""
        folders = self.worked()
        self.given(folders[0], ["create 1 c"])
        self.given(folders[0], ["create 1 d"])
        whole, number = script_of(folders), journals.numbers(folders[0])[-1]
        place = spoiled(f"{folders[0]}/{number}")
        status, lines = self.explained(folders)
        script, said = parted(lines)
        assert (status, said) == (3, [f"folder 1: segment {number} record {place} is damaged"]), (status, said)
        assert "create 1 1 c" in script and script == [line for line in whole if line != "create 1 1 d"], script[-3:]
        spoiled(f"{folders[1]}/1")
        said = [line.split(":")[0] for line in parted(self.explained(folders)[1])[1]]
        assert said[-2:] == ["folder 1", "folder 2"], said

    def test_a_turn_with_an_image(self) -> None:
        """No house writes one."""
        folders = self.worked()
        bodies = bodies_of(f"{folders[1]}/1")
        at = next(at for at, body in enumerate(bodies) if at > 1 and body[16] == 0)
        bodies[at] = bodies[at][:16] + b"\1" + bodies[at][17:] + b"image"
        write(f"{folders[1]}/1", sealed(1, bodies))
        for number in journals.numbers(folders[1])[1:]:
            os.remove(f"{folders[1]}/{number}")
        assert self.why(folders) == f"folder 2: segment 1 record {at + 2} does not follow the record before"

    def test_a_live_house(self) -> None:
        folders = self.worked()
        process = Process(self.kit.house, folders[0])
        process.answer()
        process.send(["create 1 z"])
        process.answer()
        assert self.explained(folders) == (0, script_of(folders))
        process.close()

    def test_a_house_that_writes(self) -> None:
        """A house is looked at while it writes: what is explained are its first entries."""
        folder, looks = self.folder("h"), list[tuple[int, list[str]]]()
        lines = ["house 1 00000000000a", "root", "create 1 a", *(f"put 1 a A {turn:08x}" for turn in range(4000))]
        write(f"{self.room}/lines", "".join(f"{line}\n" for line in lines).encode())
        with open(f"{self.room}/lines", "rb") as source:
            house = subprocess.Popen([self.kit.house, folder], stdin=source, stdout=subprocess.DEVNULL)
            while house.poll() is None:
                looks.append(self.explained([folder]))
        looks.append(self.explained([folder]))
        assert house.returncode == 0 and looks[-1] == (0, script_of([folder])), (house.returncode, looks[-1][0])
        for status, lines in looks:
            script, said = parted(lines)
            assert status == (3 if said else 0) and script == looks[-1][1][: len(script)], (status, lines[-1:])
            assert all(re.fullmatch("folder 1: segment 1 record [0-9]+ is damaged", line) for line in said), said

    def test_all_houses(self) -> None:
        """A cell of 255 houses, as many as there can be."""
        lines = [f"house {house} {house:012x}" for house in range(1, 256)]
        lines += ["root 1 " + " ".join(str(house) for house in range(2, 65)), "create 1 1 a", "epoch 1 1 254 s255"]
        self.session(
            f"{self.room}/cell", [*lines, "mkdir 255 1 sub 255 200 s100", "skulk 1 1", "create 100 2 b", "skulk 255 2"]
        )
        folders = [f"{self.room}/cell/h{house}" for house in range(1, 256)]
        status, script = self.explained(folders)
        assert (status, script) == (0, script_of(folders)) and len(script) > 450, (status, len(script), script[-1])

    def large_script_with_too_many_lines(self) -> None:
        """A house that started so often that a script would have one line too many. (It takes 3 GB, and some
        minutes.)"""
        folder = self.folder("h")
        self.given(folder, ["house 1 00000000000a"])
        self.given(folder, [])
        bodies, start = bodies_of(f"{folder}/1"), bodies_of(f"{folder}/2")[0][8:]
        starts = (number.to_bytes(8, "big") + start for number in range(2, MOST_LINES // 2 + 2))
        os.remove(f"{folder}/2")
        with open(f"{folder}/1", "wb") as file:
            file.writelines(journals.chained(1, journals.NO_SUM, itertools.chain(bodies, starts)))
        with open(f"{self.room}/script", "w+b") as script:
            done = subprocess.run([str(self.kit.explainer), folder], stdout=script, check=False)
            script.seek(0)
            assert (done.returncode, sum(1 for _ in script)) == (7, MOST_LINES), done

    def test_altered_entries(self) -> None:
        """One octet of a record is another, and all sums are right: that is reported, unless it is a clock that no
        stamp shows."""
        for house in (1, 2):
            folders = self.worked(str(house))
            path = f"{folders[house - 1]}/1"
            bodies = bodies_of(path)
            for segment in journals.numbers(folders[house - 1])[1:]:
                os.remove(f"{folders[house - 1]}/{segment}")
            for at, body in enumerate(bodies[1:], 1):
                for place, changed in altered(body):
                    write(path, sealed(1, [*bodies[:at], changed, *bodies[at + 1 :]]))
                    status, lines = self.explained(folders)
                    assert status in (0, 3), (status, lines)
                    if status == 0:
                        assert lines == script_of(folders), (at, place)
                        assert place < journals.FIELDS, (house, at, place, body)
                    elif lines[-1].startswith("# unexplained: house "):
                        assert int(lines[-1].split(" ")[3]) in (1, 2), lines[-1]
                    else:
                        assert lines[-1].startswith(f"# unexplained: folder {house}: segment 1 "), lines[-1]
