"""Tests of how crates are proved, with a toolchain that is made up: nothing is proved."""

from __future__ import annotations

import io
import os
import tempfile
import threading
import unittest
from typing import Any
from unittest import mock

from building import proving, sources
from building.proving import ByGate, ByProver, Pool, Speaker, tasks_of

VERDICT = (
    "logic=proved functions=1 sum=0 native=nat,char,string logic-built=trusted libraries-built=trusted"
    " statements=trusted"
)
# Says what the file `says` has, makes what it is asked for, and notes its words.
RATTLE = """#!/bin/sh
echo "$@" >>"{kit}/words"
while [ "$#" -gt 1 ]; do
    [ "$1" != -o ] || case "$2" in *.o) : >"$2" ;; *) mkdir -p "$2" ;; esac
    shift
done
cat "{kit}/says"
"""
RT = """#!/bin/sh
echo "$@; $(sed -n 's/^Cpus_allowed_list:[[:space:]]*//p' /proc/self/status)" >>"{kit}/words"
[ "$2" != bad ] && [ ! -e "{kit}/fails" ]
"""
ROWS = {"low": "low: std_io", "middle": "middle: low hex", "cdsmend": "cdsmend: middle"}


def write(path: str, text: str, mode: int = 0o644) -> None:
    """Writes a file, with its folders."""
    os.makedirs(os.path.dirname(path), exist_ok=True)
    with open(path, "w", encoding="utf-8") as it:
        it.write(text)
    os.chmod(path, mode)


class WithKit(unittest.TestCase):
    """A folder with a toolchain, and a copy of three crates."""

    def setUp(self) -> None:
        place = tempfile.TemporaryDirectory()
        self.addCleanup(place.cleanup)
        self.kit, self.room, libraries = f"{place.name}/kit", f"{place.name}/room", f"{place.name}/libraries"
        for name, text in (("bin/rattle", RATTLE), ("bin/rattle-link", RATTLE), ("rt", RT)):
            write(f"{self.kit}/{name}", text.format(kit=self.kit), 0o755)
        write(f"{self.kit}/KIT-ID", "kit-1 logic 2\n")
        self.says(VERDICT)
        write(f"{self.room}/crates.txt", "".join(f"{row}\n" for row in ROWS.values()))
        for name in ROWS:
            write(f"{self.room}/crates/{name}/src/{'main' if name == 'cdsmend' else 'lib'}.rt", "fn f() {}\n" * 1000)
        self.speaker, self.installed = Speaker(io.StringIO()), list[tuple[str, str]]()
        patches: tuple[Any, ...] = (
            mock.patch.object(proving, "LIBRARIES", libraries),
            mock.patch.object(sources, "install", lambda room, name: self.installed.append((room, name))),
            mock.patch.dict(os.environ, {"PATH": f"{self.kit}:{os.environ['PATH']}"}),
        )
        for patch in patches:
            patch.start()
            self.addCleanup(patch.stop)

    def says(self, text: str) -> None:
        """What the prover says from now on."""
        write(f"{self.kit}/says", f"{text}\n")

    def words(self) -> list[str]:
        """What the toolchain was asked since the last look."""
        path = f"{self.kit}/words"
        if not os.path.exists(path):
            return []
        with open(path, encoding="utf-8") as it:
            found = it.read().splitlines()
        os.remove(path)
        return found

    def prover(self) -> ByProver:
        """A prover, which has looked at no source yet."""
        return ByProver(self.room, ROWS, self.kit, self.speaker)


class OfTheProver(WithKit):
    """Libraries that the prover builds."""

    def test_a_library_is_built_over_those_below(self) -> None:
        self.assertTrue(self.prover().prove("middle", 3))
        (said,) = self.words()
        for part in (
            "build --crate-name middle src/lib.rt",
            "/libraries/low.rlib",
            "/rlibs/hex.rlib",
            "--jobs 3",
            "--statements",
        ):
            self.assertIn(part, said)

    def test_what_has_not_changed_is_not_proved_again(self) -> None:
        self.assertTrue(self.prover().prove("low", 1) and self.prover().prove("middle", 1))
        self.words()
        self.assertTrue(self.prover().prove("low", 1) and self.prover().prove("middle", 1))
        self.assertEqual(self.words(), [])

    def test_what_has_changed_is_proved_with_all_above(self) -> None:
        self.assertTrue(self.prover().prove("low", 1) and self.prover().prove("middle", 1))
        write(f"{self.room}/crates/low/proofs/a.antt", "another proof\n")
        self.words()
        self.assertTrue(self.prover().prove("low", 1) and self.prover().prove("middle", 1))
        self.assertEqual(len(self.words()), 2)

    def test_another_toolchain_proves_all_again(self) -> None:
        self.assertTrue(self.prover().prove("low", 1))
        write(f"{self.kit}/KIT-ID", "kit-1 logic 3\n")
        self.words()
        self.assertTrue(self.prover().prove("low", 1))
        self.assertEqual(len(self.words()), 1)

    def test_no_other_line_is_a_verdict(self) -> None:
        for text in (
            "logic=not-proved",
            VERDICT.replace("functions=1", "functions=1 bugs=1"),
            VERDICT.replace("sum=0", "may-abort=1 sum=0"),
            f"{VERDICT} incremental=trusted",
            f"{VERDICT} pinned=no",
            f"{VERDICT}\nrattle: stopped",
            "holes=1",
        ):
            self.says(text)
            self.assertFalse(self.prover().prove("low", 1), text)
            self.assertFalse(os.path.exists(f"{proving.LIBRARIES}/low.rlib"))

    def test_a_program_is_proved_compiled_linked_and_installed(self) -> None:
        self.says(VERDICT)
        self.assertTrue(self.prover().prove("cdsmend", 2))
        self.assertEqual([it.split()[0] for it in self.words()], ["check", "build", "--target"])
        self.assertEqual(self.installed, [(self.room, "cdsmend")])

    def test_a_program_that_is_not_proved_is_not_installed(self) -> None:
        self.says("logic=not-proved")
        self.assertFalse(self.prover().prove("cdsmend", 2))
        self.assertEqual(self.installed, [])


class OfTheGate(WithKit):
    """Crates that the gate proves by name."""

    def test_a_library_is_proved_by_name(self) -> None:
        gate = ByGate(self.room, 1, self.speaker)
        self.assertTrue(gate.prove("low", 1))
        self.assertFalse(gate.prove("bad", 1))
        processor = min(os.sched_getaffinity(0))
        self.assertEqual(self.words(), [f"ci low; {processor}", f"ci bad; {processor}"])

    def test_a_program_is_proved_in_a_copy_of_its_own(self) -> None:
        with mock.patch.object(sources, "copy_to", lambda room, names: None):
            self.assertTrue(ByGate(self.room, 1, self.speaker).prove("cdsmend", 1))
        ((room, name),) = self.installed
        self.assertEqual((name, room == self.room), ("cdsmend", False))

    def test_a_program_that_did_not_pass_is_not_installed(self) -> None:
        write(f"{self.kit}/fails", "")
        with mock.patch.object(sources, "copy_to", lambda room, names: None):
            self.assertFalse(ByGate(self.room, 1, self.speaker).prove("cdsmend", 1))
        self.assertEqual(self.installed, [])

    def test_no_processor_is_given_twice(self) -> None:
        with mock.patch.object(os, "sched_getaffinity", lambda _: {0, 1, 2, 3}):
            pool = Pool(4)
        with pool.taken(3) as one, pool.taken(1) as other:
            self.assertEqual(sorted([*one, *other]), [0, 1, 2, 3])
        self.assertEqual(pool.free, [0, 1, 2, 3])


class OfTasks(WithKit):
    """What a proof takes."""

    def test_a_task_waits_for_the_crates_of_the_repository(self) -> None:
        found = {it.name: it for it in tasks_of(self.room, ROWS)}
        self.assertEqual(
            {name: it.after for name, it in found.items()}, {"low": (), "middle": ("low",), "cdsmend": ("middle",)}
        )
        self.assertTrue(found["low"].minutes < found["middle"].minutes < found["cdsmend"].minutes)


class OfChildren(WithKit):
    """Commands that are stopped."""

    def test_what_runs_ends(self) -> None:
        thread = threading.Thread(target=lambda: self.speaker.said(["sh", "-c", "sleep 60; sleep 60"], self.room))
        thread.start()
        while not self.speaker.children.running:
            pass
        self.speaker.children.stop()
        thread.join(20)
        self.assertFalse(thread.is_alive())
        with self.assertRaises(OSError):
            self.speaker.said(["true"], self.room)


if __name__ == "__main__":
    unittest.main()
