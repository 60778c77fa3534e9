"""Copies of crates, in which bugs are planted and tried. The checkout is not touched."""

from __future__ import annotations

import glob
import os
import re
import shutil
import subprocess
import tempfile
from collections.abc import Sequence

from building.sources import ROOT, lines_of_crates
from planting.plants import BAD, PASSED, UNTRIED, Plant
from planting.verdicts import fallen_in, has_ended, is_named, is_of, is_proved, last_words, verdicts_in

# How long a check of functions may take, and how much longer with each of them, in seconds: some wrong bodies set a
# proof searching with no end in sight.
LONGEST, LONGER = 180, 60


def plants_of(crate: str, folders: list[str]) -> list[Plant]:
    """The planted bugs of a crate."""
    paths = [it for folder in folders for it in sorted(glob.glob(f"{ROOT}/crates/{crate}/{folder}/*.edit"))]
    return [Plant(crate, os.path.basename(it).removesuffix(".edit"), text_of(it)) for it in paths]


def text_of(path: str) -> str:
    """The text of a file."""
    with open(path, encoding="utf-8") as it:
        return it.read()


def link_or_copy(one: str, other: str) -> None:
    """Has a file of a built library in both places. It is never written again."""
    try:
        os.link(one, other)
    except OSError:
        shutil.copy2(one, other)


def copy_to(room: str, crate: str) -> None:
    """Copies a crate and those below it, with what was kept of them, to a repository of their own."""
    os.makedirs(f"{room}/.git")
    if os.path.exists(f"{ROOT}/HANDLES"):
        shutil.copy2(f"{ROOT}/HANDLES", room)
    lines = lines_of_crates(ROOT, [crate])
    with open(f"{room}/crates.txt", "w", encoding="utf-8") as rows:
        rows.writelines(f"{it}\n" for it in lines.values())
    for name in lines:
        one, other = f"{ROOT}/crates/{name}", f"{room}/crates/{name}"
        shutil.copytree(one, other, ignore=shutil.ignore_patterns("out", "must-fail", "plants"))
        if os.path.isdir(f"{one}/out/rlib") and name != crate:
            shutil.copytree(f"{one}/out/rlib", f"{other}/out/rlib", copy_function=link_or_copy)
    if os.path.isdir(f"{ROOT}/crates/{crate}/out/incremental"):
        shutil.copytree(f"{ROOT}/crates/{crate}/out/incremental", f"{room}/crates/{crate}/out/incremental")


class Copy:
    """A copy of a crate, in which its bugs are planted and tried."""

    def __init__(self, room: str, crate: str) -> None:
        self.crate, self.folder = crate, f"{room}/crates/{crate}"
        # The files that bugs change, as they are in the checkout, and the names of the functions.
        self.texts: dict[str, str] = {}
        self.names: list[str] = []
        self.said, self.was_long = "", False

    def text(self, file: str) -> str:
        """A file's text as it is in the checkout."""
        if file not in self.texts:
            self.texts[file] = text_of(f"{ROOT}/crates/{self.crate}/{file}")
        return self.texts[file]

    def written(self, plants: list[Plant]) -> None:
        """Writes the files with these bugs."""
        texts = dict(self.texts)
        for it in plants:
            texts[it.file] = it.changed(texts[it.file]) or texts[it.file]
        for file, text in texts.items():
            with open(f"{self.folder}/{file}", "w", encoding="utf-8") as sink:
                sink.write(text)

    def check(self, plants: list[Plant], names: Sequence[str] = ()) -> str | None:
        """Checks the crate with these bugs, or only functions of these names, and returns what the check says if it
        came to an end."""
        self.written(plants)
        words = ["rt", "check", "--jobs", "1", *(word for name in names for word in ("--only", name))]
        with subprocess.Popen(
            words,
            cwd=self.folder,
            stdin=subprocess.DEVNULL,
            stdout=subprocess.PIPE,
            stderr=subprocess.STDOUT,
            text=True,
            errors="replace",
        ) as rt:
            try:
                self.said, _ = rt.communicate(timeout=LONGEST + LONGER * len(names) if names else None)
                self.was_long = False
            except subprocess.TimeoutExpired:
                rt.terminate()
                self.said, _ = rt.communicate()
                self.was_long = True
        return self.said if has_ended(self.said) and not self.was_long else None

    def is_proved(self) -> bool:
        """Whether the crate as it is is proved. It notes the names of its functions."""
        said = self.check([]) or ""
        self.names = [name for name, _, _ in verdicts_in(said)]
        return is_proved(said)

    def place(self, plant: Plant) -> None:
        """Finds the functions that a bug changes."""
        try:
            text = self.text(plant.file)
        except OSError:
            plant.end(BAD, f"there is no file {plant.file}")
            return
        if plant.changed(text) is None:
            plant.end(BAD, "a text that it changes is not in the file once")
            return
        module = [] if plant.file == "src/lib.rt" else re.sub(r"(/mod)?\.rt$", "", plant.file).split("/")[1:]
        start = "::".join([self.crate, *module, ""])
        heads = plant.heads(text)
        plant.functions = tuple(it for it in self.names if any(is_named(it, head, start) for head in heads))

    def try_alone(self, plant: Plant) -> None:
        """Tries a bug that is in no function."""
        said = self.check([plant])
        if said is None:
            plant.end(BAD, last_words(self.said))
        elif is_proved(said):
            plant.end(PASSED, "the crate is still proved")
        else:
            plant.fall(fallen_in(said, verdicts_in(said))[1] or [last_words(said)])

    def try_together(self, plants: list[Plant]) -> list[Plant]:
        """Tries bugs of different functions in one check, and returns those that have to be tried again."""
        said = self.check(plants, [name for it in plants for name in it.functions])
        if said is None and len(plants) == 1:
            kind, why = (UNTRIED, "its check takes too long") if self.was_long else (BAD, last_words(self.said))
            plants[0].end(kind, why)
            return []
        if said is None:
            half = len(plants) // 2
            return self.try_together(plants[:half]) + self.try_together(plants[half:])
        told, again = verdicts_in(said), list[Plant]()
        for it in plants:
            own = [(name, word, rest) for name, word, rest in told if is_of(name, it.functions)]
            fallen, reasons = fallen_in(said, own)
            if reasons:
                it.fall(reasons)
            elif fallen and len(plants) > 1:
                again.append(it)
            elif not own or any(word == "could not tell" for _, word, _ in own) or fallen:
                it.end(UNTRIED, last_words(said))
            else:
                it.end(PASSED, f"{', '.join(it.functions)} is still proved")
        return again

    def try_all(self, plants: list[Plant]) -> None:
        """Tries the bugs of the crate."""
        if not self.is_proved():
            for it in plants:
                it.end(UNTRIED, f"the crate itself is not proved: {last_words(self.said)}")
            return
        for it in plants:
            self.place(it)
        left = [it for it in plants if it.kind != BAD]
        for it in [it for it in left if not it.functions]:
            self.try_alone(it)
        left = [it for it in left if it.functions]
        while left:
            now, later = self.apart(left)
            # (of bugs whose functions call one another, the lowest is decided, so each turn has fewer)
            left = self.try_together(now) + later

    def apart(self, plants: list[Plant]) -> tuple[list[Plant], list[Plant]]:
        """Bugs that can be planted together, no two in one function or in one another's way, and the rest."""
        now, later, taken, texts = list[Plant](), list[Plant](), set[str](), dict(self.texts)
        for it in plants:
            text = it.changed(texts[it.file])
            if text is None or taken & {*it.functions}:
                later.append(it)
            else:
                now.append(it)
                taken.update(it.functions)
                texts[it.file] = text
        return now, later


def try_crate(crate: str, plants: list[Plant]) -> None:
    """Tries the planted bugs of a crate on a copy."""
    room = tempfile.mkdtemp(prefix="plants-")
    try:
        copy_to(room, crate)
        Copy(room, crate).try_all(plants)
    finally:
        shutil.rmtree(room, ignore_errors=True)
