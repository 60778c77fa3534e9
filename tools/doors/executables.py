"""The programs that a door runs: a house, and a clerk."""
from __future__ import annotations

import os
import shutil
import sys

from building.sources import ROOT
from cds import programs


class NoProgram(Exception):
    """There is no program, and none can be made here."""


def built(name: str) -> str | None:
    """The proved program, if it is built."""
    path = f"{ROOT}/crates/{name}/out/{name}"
    return path if os.access(path, os.X_OK) else None


def compiled(source: str, target: str) -> str:
    if shutil.which("rustc"):
        return programs.compiled(source, target)
    if os.access(f"{ROOT}/{target}", os.X_OK):
        return f"{ROOT}/{target}"
    raise NoProgram(f"rustc is not there, which compiles {source}")


def chosen(name: str, source: str, target: str) -> str:
    """The proved program; else the one of the same sources that is not proved, if the toolchain is there; else the
    plain one of bench/."""
    if shutil.which("rt"):
        try:
            return programs.chosen(name)
        except programs.NoProgram as reason:
            raise NoProgram(f"{reason} cannot be made") from None
    if path := built(name):
        return path
    print(f"the proved {name} is not built, so {source} is in its place", file=sys.stderr)
    return compiled(source, target)


def house() -> str:
    """A house."""
    return chosen("cdshouse", "bench/house.rs", "out/plain-house")


def clerk() -> str:
    """A clerk, which answers the commands of the name service."""
    return chosen("cdsclerk", "bench/clerk.rs", "out/plain-clerk")


def replayer() -> str:
    """The proved `cdsreplay`, if it is built; else the plain one of bench/."""
    return built("cdsreplay") or compiled("bench/plain.rs", "out/plain")
