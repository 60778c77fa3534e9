"""Tests of what tools/build does."""

from __future__ import annotations

import fcntl
import os
import subprocess
import tempfile
import threading
import unittest
from typing import Any
from unittest import mock

from building import command, machine, sources, unproved
from building.proving import ByGate
from building.schedule import Task
from cds.programs import SAID

BUILD = f"{sources.ROOT}/tools/build"


class Speaking(command.Builder):
    """A builder that keeps what it says."""

    def __init__(self, named: str | None = None, words: list[str] | None = None) -> None:
        super().__init__(named, words or [])
        self.said: list[str] = []

    def say(self, text: str) -> None:
        self.said.append(text)


class Patched(unittest.TestCase):
    """Tests that put things in the place of others."""

    def put(self, place: object, name: str, thing: Any) -> None:
        """Puts a thing in the place of another."""
        patch = mock.patch.object(place, name, thing)
        patch.start()
        self.addCleanup(patch.stop)

    def room(self) -> str:
        """A folder."""
        folder = tempfile.TemporaryDirectory()
        self.addCleanup(folder.cleanup)
        return folder.name


class Words(Patched):
    """What is made, and how long that takes."""

    def test_programs_are_made_by_groups(self) -> None:
        self.assertEqual(command.Builder("cdsmend", []).made, ("cdsreplay", "cdsmend"))
        self.assertEqual(command.Builder("cdshouse", []).made, ("cdshouse",))
        self.assertEqual(command.Builder(None, []).made, sources.PROGRAMS)

    def test_minutes_are_said_in_tens(self) -> None:
        self.assertEqual(
            [command.about(it) for it in (4, 18, 47.6)], ["0 to 10 minutes", "10 to 30 minutes", "40 to 80 minutes"]
        )

    def test_the_logic_of_a_toolchain_is_found(self) -> None:
        self.assertEqual(command.logic_in("rattle-kit-13f logic dac8208d650f15bf, or"), "dac8208d650f15bf")
        self.assertEqual(command.logic_in("rattle-kit-13f"), "")

    def test_another_logic_than_that_of_readme_is_said(self) -> None:
        builder = Speaking()
        self.put(command, "said", lambda *words: "kit logic 0000000000000000")
        builder.say_logic()
        self.assertIn("this one has 0000000000000000", builder.said[0])

    def test_a_build_is_begun_ahead_where_processors_are_left(self) -> None:
        builder = Speaking()
        self.put(command, "takes_names", lambda: True)
        self.put(builder, "work_and_chain", lambda: (100.0, 60.0))
        for processors, environment, is_ahead in ((4, "", True), (2, "", False), (4, "true", False)):
            with mock.patch.object(machine, "processors", lambda: processors):
                with mock.patch.dict(os.environ, {"CI": environment}):
                    self.assertEqual(builder.is_ahead(), is_ahead)

    def test_wrong_words_are_told(self) -> None:
        for words in (["--small"], ["cdsmend", "--small"], ["cdsmend", "--library"], ["cdsfind"], ["--find", "--sum"]):
            ran = subprocess.run([BUILD, *words], stdin=subprocess.DEVNULL, capture_output=True, text=True, check=False)
            self.assertEqual((ran.returncode, ran.stdout, ran.stderr[:6]), (2, "", "usage:"), words)


class Finding(Patched):
    """Which program is found."""

    def setUp(self) -> None:
        self.builder = Speaking("cdshouse")
        self.put(unproved, "make", lambda name, say, is_small: f"{name}, {'small' if is_small else 'unproved'}")
        self.put(self.builder, "minutes", lambda: "10 minutes")
        self.put(command, "is_proved", lambda name: False)

    def test_the_proved_one_comes_first(self) -> None:
        self.put(command, "is_proved", lambda name: True)
        path = sources.program_at(sources.ROOT, "cdshouse")
        found = [self.builder.find(it) for it in (command.FIND, command.PROVED, command.UNPROVED, command.SMALL)]
        self.assertEqual(found, [path, path, "cdshouse, unproved", "cdshouse, small"])
        self.assertEqual(self.builder.said, [])

    def test_that_answers_are_unproved_is_said_once(self) -> None:
        with mock.patch.dict(os.environ, clear=True):
            self.assertEqual(self.builder.find(command.FIND), "cdshouse, unproved")
        self.assertIn("these answers are unproved", self.builder.said[0])
        with mock.patch.dict(os.environ, {SAID: "1"}):
            self.builder.find(command.FIND)
        self.builder.find(command.UNPROVED)
        self.assertEqual(len(self.builder.said), 1)

    def test_no_proved_program_is_made(self) -> None:
        self.assertIsNone(self.builder.find(command.PROVED))
        self.assertIn("10 minutes", self.builder.said[0])

    def test_a_program_that_cannot_be_made_is_none(self) -> None:
        self.put(unproved, "make", mock.Mock(side_effect=unproved.NotMade("no rt")))
        self.assertIsNone(self.builder.find(command.FIND))
        self.assertIn("no rt", self.builder.said[0])


class Noting(Patched):
    """A program of a `rt ci` that passed."""

    def setUp(self) -> None:
        self.folder, self.noted = self.room(), mock.Mock()
        for name in ("crates.txt", "source", "began", "program"):
            with open(f"{self.folder}/{name}", "w", encoding="utf-8") as it:
                it.write(name)
            # (so that times differ)
            threading.Event().wait(0.02)
        self.put(command, "ROOT", self.folder)
        self.put(sources, "sources_of", lambda root, name: [f"{root}/source"])
        self.put(sources, "program_at", lambda root, name: f"{root}/program")
        self.put(command, "sum_of_sources", lambda root, name: "sum")
        self.put(sources, "note", self.noted)

    def passed(self, found: str = "sum") -> bool:
        return Speaking("cdsmend").note_passed(found, f"{self.folder}/began")

    def test_what_passed_is_noted(self) -> None:
        self.assertTrue(self.passed())
        self.noted.assert_called_once_with("cdsmend", self.folder)

    def test_what_has_changed_since_is_not(self) -> None:
        self.assertFalse(self.passed("other"))
        os.utime(f"{self.folder}/source")
        self.assertFalse(self.passed())
        self.noted.assert_not_called()

    def test_a_program_of_before_is_not(self) -> None:
        os.replace(f"{self.folder}/program", f"{self.folder}/kept")
        threading.Event().wait(0.02)
        with open(f"{self.folder}/began", "w", encoding="utf-8") as it:
            it.write("again")
        self.put(sources, "program_at", lambda root, name: f"{root}/crates.txt")
        self.assertFalse(self.passed())


class Locking(Patched):
    """One build at a time."""

    def test_who_builds_is_in_the_lock(self) -> None:
        folder = self.room()
        self.put(command, "ROOT", folder)
        self.put(command, "LOCK", f"{folder}/out/build.lock")
        builder = Speaking("cdsmend", ["cdsmend", "--find"])
        said = []

        def call() -> bool:
            with open(f"{folder}/out/build.lock", encoding="utf-8") as lock:
                said.append(lock.read())
                with self.assertRaises(BlockingIOError):
                    fcntl.flock(lock, fcntl.LOCK_EX | fcntl.LOCK_NB)
            return True

        self.assertTrue(builder.locked(call))
        self.assertEqual(said, [f"process {os.getpid()} (tools/build cdsmend --find)\n"])


class Telling(unittest.TestCase):
    """How far a proof is."""

    def test_each_crate_is_told(self) -> None:
        said: list[str] = []
        prover = mock.create_autospec(ByGate, instance=True)
        prover.prove.side_effect = lambda name, jobs: name != "bad"
        progress = command.Progress(prover, 3, said.append)
        found = [progress.start(Task(it, (), 1.0), 1 + (it == "bad")) for it in ("low", "bad", "cdsmend")]
        progress.lose("high")
        self.assertEqual(found, [True, False, True])
        self.assertEqual((progress.done, progress.running), (2, []))
        self.assertRegex(said[0], r"low is proved in 0\.0 minutes with 1 job: 1 of 3 crates, 0\.0 minutes so far$")
        self.assertRegex(said[1], r"bad is NOT PROVED in 0\.0 minutes with 2 jobs")
        self.assertEqual(
            said[3:],
            ["./cdsmend answers at once from now on", "high is not begun, since a crate below it is not proved"],
        )


if __name__ == "__main__":
    unittest.main()
