"""The programs that tools run. If the user names none it is the proved one of these sources, or one that is not proved:
nothing is proved unasked. The plain programs of bench/, and the disk under a house, are compiled with `rustc`."""

from __future__ import annotations

import fcntl
import glob
import os
import subprocess
from collections.abc import Mapping, Sequence

from building.sources import ROOT

# Set in what a user's command runs, once it was said that answers are unproved.
SAID = "CDS_SAID_UNPROVED"
# How long a run may take, in seconds.
LONGEST = 60


class NoProgram(Exception):
    """There is no program to run, and standard error says why."""


def built(name: str) -> None:
    """Proves and builds a program, if that was not done of these sources."""
    if subprocess.run([f"{ROOT}/tools/build", name], stdin=subprocess.DEVNULL, check=False).returncode:
        raise NoProgram(name)


def found(name: str, kind: str) -> str:
    """The path that `tools/build` prints."""
    ran = subprocess.run(
        [f"{ROOT}/tools/build", name, kind], stdin=subprocess.DEVNULL, stdout=subprocess.PIPE, text=True, check=False
    )
    if ran.returncode:
        raise NoProgram(name)
    return ran.stdout.strip()


def chosen(name: str, given: str | None = None, is_to_be_proved: bool = False) -> str:
    """The path of a program: the one that is given, or the one that `tools/build` finds, or proves first if that is
    asked for."""
    if given:
        return os.path.abspath(given)
    if is_to_be_proved:
        built(name)
    path = found(name, "--find")
    # (it is said once)
    os.environ[SAID] = "1"
    return path


def proved(name: str, is_to_be_proved: bool) -> str:
    """The path of the proved program, which is made first if that is asked for."""
    if is_to_be_proved:
        built(name)
    return found(name, "--proved")


def compiled(source: str, target: str, *options: str, root: str = ROOT) -> str:
    """The path of what a source is compiled to; it is compiled if it is not there, or older than the sources beside
    it."""
    source, target = f"{root}/{source}", f"{root}/{target}"
    sources = [source, *glob.glob(f"{os.path.dirname(source)}/**/*.rs", recursive=True)]
    os.makedirs(os.path.dirname(target), exist_ok=True)
    with open(f"{target}.lock", "w", encoding="utf-8") as lock:
        # (one at a time: rustc gives its own files names that do not differ)
        fcntl.flock(lock, fcntl.LOCK_EX)
        if not os.path.exists(target) or os.path.getmtime(target) < max(map(os.path.getmtime, sources)):
            # (in two steps: another trial may run what was compiled before)
            subprocess.run(
                ["rustc", "--edition", "2021", "-O", *options, "-o", f"{target}.{os.getpid()}", source], check=True
            )
            os.replace(f"{target}.{os.getpid()}", target)
    return target


def plain(given: str | None = None) -> str:
    """The plain program that replays scripts, or the one that is given."""
    return os.path.abspath(given) if given else compiled("bench/plain.rs", "out/plain")


def plain_house(given: str | None = None) -> str:
    """The plain house, or the one that is given."""
    return os.path.abspath(given) if given else compiled("bench/house.rs", "out/plain-house")


def plain_clerk(given: str | None = None) -> str:
    """The plain clerk, or the one that is given."""
    return os.path.abspath(given) if given else compiled("bench/clerk.rs", "out/plain-clerk")


def ran(
    words: Sequence[str], octets: bytes = b"", seconds: float = LONGEST, environment: Mapping[str, str] | None = None
) -> tuple[int, bytes]:
    """The status and the output of a program, by its path and its words, that reads these octets."""
    done = subprocess.run(words, input=octets, capture_output=True, timeout=seconds, env=environment, check=False)
    return done.returncode, done.stdout
