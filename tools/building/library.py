"""Makes the library for C: proves the crate `cds_c` and all below it, and lays the archive, a shared object, the header
and the code of other languages into out/library/, and into a tar of these."""

from __future__ import annotations

import glob
import hashlib
import os
import re
import shutil
import subprocess
import tarfile
import tempfile
from collections.abc import Callable

from building.sources import ROOT, copy_to, sum_of, sum_of_sources
from building.unproved import kit

CRATE = "cds_c"
FOLDER = f"{ROOT}/out/library"
LOG = f"{ROOT}/out/library.log"
# All that the library may ask of a program: the heap and four functions over octets.
MAY_CALL = {"malloc", "realloc", "free", "memcpy", "memmove", "memset", "memcmp"}
# What is copied beside it, by its place there.
BESIDE = {
    "include": "include",
    "python/cds": "python/cds",
    "rust/cds": "rust/cds",
    "examples/embedded": "examples/embedded",
}
LEFT_OUT = {"__pycache__", "target", "Cargo.lock", ".mypy_cache"}
PACKAGE_CONFIG = """prefix=${{pcfiledir}}/../..
Name: cds
Description: The forms of cdsreplay as a call
Version: {abi}
Libs: -L${{prefix}}/lib -lcds
Cflags: -I${{prefix}}/include
"""


class NotMade(Exception):
    """Why there is no library."""


def header() -> str:
    """The text of the header."""
    with open(f"{ROOT}/include/cds.h", encoding="utf-8") as it:
        return it.read()


def abi() -> str:
    """The number of the calls."""
    return str(re.findall(r"^#define CDS_ABI (\d+)$", header(), re.M)[0])


def calls() -> list[str]:
    """The names of the calls."""
    return re.findall(r"^uint32_t (cds_\w+)\(", header(), re.M)


def run(words: list[str], room: str, why: str) -> str:
    """Runs a command, and returns what it prints."""
    ran = subprocess.run(
        words,
        cwd=room,
        stdin=subprocess.DEVNULL,
        stdout=subprocess.PIPE,
        stderr=subprocess.STDOUT,
        text=True,
        check=False,
    )
    if ran.returncode:
        raise NotMade(f"{why}: {ran.stdout.strip()[-500:]}")
    return ran.stdout


def symbols(file: str, *flags: str) -> set[str]:
    """The names that `nm` finds in a file with these flags, or none where it is not there."""
    if not shutil.which("nm"):
        return set()
    lines = run(["nm", *flags, file], ROOT, f"nm reads no {file}").splitlines()
    return {line.split()[-1].partition("@")[0] for line in lines if " " in line.strip()}


def prove(room: str) -> str:
    """Proves the copy of the sources, and returns the archive that was built of it."""
    copy_to(room, [CRATE])
    os.makedirs(os.path.dirname(LOG), exist_ok=True)
    with open(LOG, "w", encoding="utf-8") as log:
        ran = subprocess.run(
            ["rt", "lib"], cwd=f"{room}/crates/{CRATE}", stdin=subprocess.DEVNULL, stdout=log, stderr=log, check=False
        )
    archive = f"{room}/crates/{CRATE}/out/lib{CRATE}.a"
    if ran.returncode or not os.path.isfile(archive):
        raise NotMade(f"it could not be proved and built. {LOG} has what rt said")
    return archive


def link(archive: str, heap: str, folder: str, linker: str, archiver: str) -> None:
    """Makes libcds.a and libcds.so of the archive and the functions of the heap."""
    os.makedirs(f"{folder}/lib")
    with tempfile.TemporaryDirectory(prefix="cds-") as room:
        for it in (archive, heap):
            run([archiver, "x", it], room, f"{it} is no archive")
        members = sorted(glob.glob(f"{room}/*"))
        with open(f"{room}/names", "w", encoding="utf-8") as names:
            names.write(f"{{ global: {'; '.join(calls())}; local: *; }};\n")
        run([archiver, "rcs", f"{folder}/lib/libcds.a", *members], room, "no archive could be made")
        flags = [
            "-shared",
            "--gc-sections",
            "-z",
            "relro",
            "-z",
            "now",
            "-z",
            "noexecstack",
            "-z",
            "text",
            "--version-script",
            "names",
        ]
        wanted = [word for name in calls() for word in ("-u", name)]
        shared = ["-soname", f"libcds.so.{abi()}", "-o", f"{folder}/lib/libcds.so.{abi()}"]
        run([linker, *flags, *wanted, *shared, *members], room, "no shared object could be linked")
    os.symlink(f"libcds.so.{abi()}", f"{folder}/lib/libcds.so")


def check(folder: str) -> None:
    """Looks at what was made: only the calls are visible, and nothing else is asked of a program."""
    shared = f"{folder}/lib/libcds.so"
    asked, shown = symbols(shared, "-D", "--undefined-only"), symbols(shared, "-D", "--defined-only")
    if asked - MAY_CALL:
        raise NotMade(f"it asks a program for {', '.join(sorted(asked - MAY_CALL))}")
    if shown and shown != {*calls()}:
        raise NotMade(f"it shows {', '.join(sorted(shown))}, and not {', '.join(calls())} alone")


def sum_of_beside() -> str:
    """A sum of all that is copied beside the library."""
    found = []
    for top in BESIDE:
        for at, folders, files in os.walk(f"{ROOT}/{top}"):
            folders[:] = [it for it in folders if it not in LEFT_OUT]
            found += [f"{os.path.relpath(at, ROOT)}/{it} {sum_of(f'{at}/{it}')}" for it in files if it not in LEFT_OUT]
    return hashlib.sha256("\n".join(sorted(found)).encode()).hexdigest()


def lay_beside(folder: str, proved: bool) -> None:
    """Lays the header and the code of other languages beside the library, notes of what it was made, and makes a tar of
    all."""
    for it, to in BESIDE.items():
        shutil.copytree(f"{ROOT}/{it}", f"{folder}/{to}", ignore=shutil.ignore_patterns(*LEFT_OUT))
    os.makedirs(f"{folder}/lib/pkgconfig")
    with open(f"{folder}/lib/pkgconfig/cds.pc", "w", encoding="utf-8") as config:
        config.write(PACKAGE_CONFIG.format(abi=abi()))
    with open(f"{folder}/BUILT", "w", encoding="utf-8") as note:
        note.write(
            f"{sum_of_sources(ROOT, CRATE)} {sum_of(f'{folder}/lib/libcds.a')} {sum_of_beside()}"
            f" {'proved' if proved else 'not-proved'}\n"
        )
    name = f"cds-{abi()}-x86_64-linux"
    with tarfile.open(f"{folder}/{name}.tar.gz", "w:gz") as tar:
        for part in sorted(os.listdir(folder)):
            if not part.endswith(".tar.gz"):
                tar.add(f"{folder}/{part}", f"{name}/{part}")


def install(archive: str, proved: bool = True) -> None:
    """Puts the library that is made of an archive in the place of the one that is there."""
    tools, heap = f"{kit()}/toolchain/bin", f"{kit()}/c/liblibc_c.a"
    os.makedirs(f"{ROOT}/out", exist_ok=True)
    with tempfile.TemporaryDirectory(prefix="library-", dir=f"{ROOT}/out") as room:
        link(archive, heap, f"{room}/library", f"{tools}/ld.lld", f"{tools}/llvm-ar")
        check(f"{room}/library")
        lay_beside(f"{room}/library", proved)
        shutil.rmtree(FOLDER, ignore_errors=True)
        os.rename(f"{room}/library", FOLDER)


def is_current() -> bool:
    """Whether the library was proved and built of the sources as they are, with all that is beside it."""
    try:
        with open(f"{FOLDER}/BUILT", encoding="utf-8") as it:
            found = it.read().split()
        return found == [sum_of_sources(ROOT, CRATE), sum_of(f"{FOLDER}/lib/libcds.a"), sum_of_beside(), "proved"]
    except OSError:
        return False


def make(say: Callable[[str], None]) -> bool:
    """Proves and makes the library if that was not done of these sources, and returns whether it is there."""
    if is_current():
        say(f"{FOLDER} has the library of these sources, proved")
        return True
    say("proves and builds the library for C now")
    try:
        with tempfile.TemporaryDirectory(prefix="cds-") as room:
            install(prove(room))
    except NotMade as why:
        say(str(why))
        return False
    say(f"{FOLDER} has the library, proved")
    return True
