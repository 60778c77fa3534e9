"""Which functions are the dearest to prove, for tools/gate-times: `rattle check --progress` says as it ends with each
one, and the processor time that the check has taken until then is looked at."""

from __future__ import annotations

import os
import re
import subprocess
import sys

from building.sources import ROOT, lines_of_crates, uses_of
from building.unproved import kit

TICKS = os.sysconf("SC_CLK_TCK")
DEAREST = 30
CHECKED = re.compile(r"checked (.+), (\d+) of \d+$")
START = "(all before the first function ends)"


def seconds_of(process: int) -> float:
    """The processor time of a process and of its children that have ended."""
    with open(f"/proc/{process}/stat", encoding="utf-8") as it:
        fields = it.read().rsplit(") ", 1)[1].split()
    return sum(int(fields[at]) for at in range(11, 15)) / TICKS


def words_of(crate: str, rows: dict[str, str]) -> list[str]:
    """The command that checks a crate over the libraries below it, as they were built, and keeps nothing."""
    kit_folder, below = kit(), [it for it in rows if it != crate]
    is_program = os.path.isfile(f"{ROOT}/crates/{crate}/src/main.rt")
    words = [f"{kit_folder}/bin/rattle", "check", "--crate-name", crate, "src/main.rt" if is_program else "src/lib.rt"]
    for name in dict.fromkeys(["std", *uses_of(rows[crate])]):
        folder = f"{ROOT}/crates/{name}/out/rlib" if name in rows else f"{kit_folder}/rlibs"
        words += ["--extern", f"{name}={folder}/{name}.rlib"]
    for name in below:
        words += ["-L", f"dependency={ROOT}/crates/{name}/out/rlib"]
    words += ["-L", f"dependency={kit_folder}/rlibs", "--antt-project", f"{kit_folder}/rattle/logic/antt-project.json"]
    return [*words, "--logic-built", f"{kit_folder}/logic_built", "--jobs", "1", "--progress"]


def functions_of(crate: str, rows: dict[str, str]) -> list[tuple[float, str]]:
    """Checks a crate, and returns each of its functions with the seconds that its proof took. The first one's also has
    all before it."""
    found: list[tuple[float, str]] = []
    before, tail = 0.0, ""
    with subprocess.Popen(
        words_of(crate, rows),
        cwd=f"{ROOT}/crates/{crate}",
        stdin=subprocess.DEVNULL,
        stdout=subprocess.PIPE,
        stderr=subprocess.STDOUT,
        text=True,
    ) as check:
        for line in check.stdout or ():
            tail, said = line, CHECKED.match(line.rstrip("\n"))
            if said:
                now = seconds_of(check.pid)
                found.append((now - before, said[1] if said[2] != "1" else f"{said[1]} {START}"))
                before = now
    if check.returncode:
        print(f"gate-times: {crate} is not proved: {tail.strip()}", file=sys.stderr)
    return found


def build_below(crate: str, rows: dict[str, str]) -> bool:
    """Builds the libraries below a crate, if they are not there, and returns whether that went well."""
    for name in rows:
        if name != crate and not os.path.isdir(f"{ROOT}/crates/{name}/out/rlib/{name}.rlib"):
            ran = subprocess.run(
                ["rt", "lib"], cwd=f"{ROOT}/crates/{name}", stdin=subprocess.DEVNULL, stdout=sys.stderr, check=False
            )
            if ran.returncode:
                print(f"gate-times: {name} was not built, so {crate} is left out", file=sys.stderr)
                return False
    return True


def table(found: list[tuple[float, str]]) -> str:
    """The table of the dearest functions, and what drops take in all."""
    whole, drops = sum(it[0] for it in found), [it for it in found if "Destruct" in it[1]]
    lines = ["| crate | function | seconds |", "|---|---|---|"]
    for seconds, name in sorted(found, reverse=True)[:DEAREST]:
        crate, _, function = name.partition("::")
        lines.append(f"| `{crate}` | `{function}` | {seconds:.1f} |")
    lines.append(
        f"\n{len(found)} functions took {whole / 60:.1f} processor minutes, of which {len(drops)} drops took"
        f" {sum(it[0] for it in drops) / 60:.1f}."
    )
    return "\n".join(lines)


def profile(crates: list[str]) -> int:
    """Prints the dearest functions of these crates, or of all, and returns the exit status. Checks one at a time, from
    nothing."""
    with open(f"{ROOT}/crates.txt", encoding="utf-8") as file:
        every = [line.partition(":")[0] for line in file.read().splitlines() if line.partition("#")[0].strip()]
    found: list[tuple[float, str]] = []
    is_well = True
    for crate in crates or every:
        rows = lines_of_crates(ROOT, [crate])
        functions = functions_of(crate, rows) if crate in rows and build_below(crate, rows) else []
        is_well = is_well and bool(functions)
        found += functions
        print(
            f"{crate}: {len(functions)} functions, {sum(it[0] for it in functions):.0f} seconds",
            file=sys.stderr,
            flush=True,
        )
    print(table(found))
    return 0 if is_well else 1
