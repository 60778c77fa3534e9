#!/usr/bin/env python3
"""Measures programs over inputs of generate.py:

    measure.py [--runs K] [--divide D] [--instructions E] [--growth] [--kinds KIND,KIND] NAME=PROGRAM [NAME=PROGRAM ..]

Each PROGRAM is run as `PROGRAM FORM`, with the input on its standard input, K times (3); one run at a time. The form is
`run`, or that of the kind, as `towers`; of `loads` it is `load N`, which reads nothing; of `mends` it is `1` for a
program whose file is named `cdsmend`, which mends directory 1, and whose answers are not compared with those of others.
For each input and each program one line tells the number of lines or towers of the input, the seconds of the fastest
run, the lines or towers and the MB that it took in one second, the processor time of that run, and the greatest peak of
memory of its runs in KiB. The programs have to give the same answers and status 0; if not, it says so and ends with
status 1. D divides the sizes of the inputs.

With --instructions the instructions are counted too, by valgrind, which a busy machine does not change. That is slow,
so the inputs are E times smaller for it (20, say). At the end a table has the ratios of the first program to the last.

With --growth each kind is measured at an eighth, a quarter, a half and the whole of its size. A line of a table has the
processor times and the peaks of memory of a program at these four sizes, and how many times as long the last one takes
as the third: 2 where time grows as the input does, and 4 where it grows as its square.

With both, instructions are counted at these four sizes, each E times smaller. A line of the table has how many times as
many a program takes at each size as at the one before, for the first program and the last, and the ratios of the first
to the last at the four sizes. It says `faster` where the first program grows faster: where the instructions that the
last doubling adds, the first program's to the last one's, are more than a tenth above those of the doubling before.
"""

from __future__ import annotations

import filecmp
import itertools
import os
import re
import resource
import shutil
import subprocess
import sys
import tempfile
import time

sys.dont_write_bytecode = True
import generate
from cds import tool

SIZES = {
    "comments": 10_000_000,
    "adds": 1_000_000,
    "values": 60_000,
    "creates": 100_000,
    "check": 300_000,
    "towers": 700_000,
    "untowers": 700_000,
    "bag": 100_000,
    "two_masters": 100_000,
    "skulks": 200,
    "quiet": 1_000,
    "crashes": 1_000,
    "purges": 100_000,
    "deaths": 100_000,
    "exports": 100_000,
    "imports": 200,
    "lookups": 200,
    "inquiries": 1_000,
    "cached": 200_000,
    "crowded": 200_000,
    "journals": 20_000,
    "idle": 10_000,
    "resumed": 20_000,
    "wide": 2_000,
    "deep": 2_000,
    "linked": 10_000,
    "told": 2_000,
    "last": 100_000,
    "epochs": 20_000,
    "chained": 2_000,
    "fanned": 200,
    "elements": 1_000,
    "listed": 1_000,
    "small": 1,
    "mends": 1_000,
    "migrate": 115_000,
    "audits": 57_500,
    "differing": 57_500,
    "script": 20_000,
    "loads": 20_000,
}
FORMS = {
    **{it: [it] for it in ("check", "towers", "untowers", "migrate")},
    **dict.fromkeys(["lookups", "inquiries", "listed"], ["inquire"]),
    **dict.fromkeys(["cached", "crowded"], ["clerk", "1000"]),
    **dict.fromkeys(["journals", "idle", "resumed"], ["journal"]),
    **dict.fromkeys(["audits", "differing"], ["audit", "1"]),
}
# GNU time has a small peak of its own; this process would lend its children a greater one.
TIME = shutil.which("time")


def form_of(kind: str, size: int, program: str) -> list[str]:
    """The words behind the program's name."""
    if kind == "mends" and os.path.basename(program) == "cdsmend":
        return ["1"]
    return ["load", str(size)] if kind == "loads" else FORMS.get(kind, ["run"])


def run_once(program: str, form: list[str], script: str, answers: str) -> tuple[float, float, int, int]:
    """Seconds, processor seconds and peak KiB of one run, and its status."""
    with tempfile.NamedTemporaryFile("r") as peak, open(script, "rb") as source, open(answers, "wb") as sink:
        command = [program, *form]
        if TIME:
            command = [TIME, "-q", "-f", "%M", "-o", peak.name] + command
        before, start = resource.getrusage(resource.RUSAGE_CHILDREN), time.perf_counter()
        status = subprocess.run(command, stdin=source, stdout=sink).returncode
        seconds, after = time.perf_counter() - start, resource.getrusage(resource.RUSAGE_CHILDREN)
        processor = after.ru_utime + after.ru_stime - before.ru_utime - before.ru_stime
        return seconds, processor, int(peak.read()) if TIME else after.ru_maxrss, status


def instructions(program: str, form: list[str], script: str) -> int:
    """How many instructions a run takes."""
    command = ["valgrind", "--tool=callgrind", "--callgrind-out-file=/dev/null", program, *form]
    with open(script, "rb") as source:
        ran = subprocess.run(command, stdin=source, stdout=subprocess.DEVNULL, stderr=subprocess.PIPE, text=True)
    return int(re.findall(r"Collected : (\d+)", ran.stderr)[0])


def generated(kind: str, size: int, folder: str) -> tuple[str, int]:
    """The input's file, and how many items it has."""
    script = os.path.join(folder, "input")
    with open(script, "wb") as out:
        return script, generate.write(kind, size, out)


def measure(kind: str, size: int, programs: list[tuple[str, str]], runs: int, folder: str) -> tuple[list[float], bool]:
    """Prints the line of each program; the processor time of each, and whether they agree."""
    script, items = generated(kind, size, folder)
    megabytes = os.path.getsize(script) / 1e6
    agreed, first, times = True, None, []
    for name, program in programs:
        answers = os.path.join(folder, f"answers-{name}")
        results = [run_once(program, form_of(kind, size, program), script, answers) for _ in range(runs)]
        seconds = min(results)[0]
        processor = min(result[1] for result in results)
        peak = max(result[2] for result in results)
        times.append(processor)
        print(
            f"{kind:<10}{name:<12}{items:>12,}{seconds:>10.2f}{items / seconds:>14,.0f}"
            f"{megabytes / seconds:>8,.0f}{processor:>11.2f}{peak:>11,}",
            flush=True,
        )
        if any(result[3] != 0 for result in results):
            print(f"{name} ended with a status other than 0")
            agreed = False
        if first and kind != "mends" and not filecmp.cmp(first, answers, shallow=False):
            print(f"{name} answers otherwise than {programs[0][0]}")
            agreed = False
        first = first or answers
    return times, agreed


def count(kind: str, size: int, programs: list[tuple[str, str]], folder: str) -> list[int]:
    """Prints the instructions of each program, and gives them."""
    script, items = generated(kind, size, folder)
    counts = [instructions(program, form_of(kind, size, program), script) for _, program in programs]
    for (name, _), it in zip(programs, counts):
        print(f"{kind:<10}{name:<12}{items:>12,}{it:>16,} instructions{it / items:>10,.0f} each", flush=True)
    return counts


def grow(kind: str, size: int, programs: list[tuple[str, str]], runs: int, folder: str) -> bool:
    """Prints how each program's time and memory grow from an eighth of an input to all of it, and whether the runs
    ended well."""
    sizes, well = [size // it for it in (8, 4, 2, 1)], True
    found: dict[str, list[tuple[float, int]]] = {name: [] for name, _ in programs}
    for it in sizes:
        script, _ = generated(kind, it, folder)
        for name, program in programs:
            results = [run_once(program, form_of(kind, it, program), script, os.devnull) for _ in range(runs)]
            found[name].append((min(result[1] for result in results), max(result[2] for result in results)))
            well &= all(result[3] == 0 for result in results)
    for name, points in found.items():
        times, peaks = (f"{points[i][0]:.2f}" for i in range(4)), (f"{points[i][1] / 1000:,.1f}" for i in range(4))
        ratio = points[3][0] / max(points[2][0], 0.001)
        print(
            f"| `{kind}` | {name} | {size:,} | {', '.join(times)} | {', '.join(peaks)} |"
            f" {ratio:.1f} |{'' if well else ' a run failed'}",
            flush=True,
        )
    return well


def steps(counts: list[int]) -> list[float]:
    """How many times as many there are at each size as at the one before."""
    return [after / before for before, after in itertools.pairwise(counts)]


def grows_faster(first: list[int], last: list[int]) -> bool:
    """Whether the instructions that the last doubling of the size adds, the first program's to the last one's, are more
    than a tenth above those of the doubling before."""
    of_first, of_last = ((it[3] - it[2]) / max(it[2] - it[1], 1) for it in (first, last))
    return of_first > of_last * 1.1


def growth_row(kind: str, size: int, counts: list[list[int]]) -> str:
    """The line of a kind, by each program's instructions at the four sizes."""
    first, last = counts[0], counts[-1]
    of_first, of_last = (", ".join(f"{it:.2f}" for it in steps(each)) for each in (first, last))
    ratios = ", ".join(f"{a / b:.2f}" for a, b in zip(first, last))
    mark = " faster" if grows_faster(first, last) else ""
    return f"| `{kind}` | {size:,} | {of_first} | {of_last} | {ratios} |{mark}"


def count_growth(kinds: list[str], divide: int, programs: list[tuple[str, str]]) -> None:
    """Prints the table of how instructions grow, of all kinds that have a size."""
    first, last = programs[0][0], programs[-1][0]
    print(f"| kind | N | {first}: N/4, N/2, N to the one before | {last} | {first} to {last} |\n|---|---|---|---|---|")
    sizes = {kind: SIZES[kind] // divide for kind in kinds}
    with tempfile.TemporaryDirectory() as folder:
        for kind, size in sizes.items():
            if size >= 8:
                counts: list[list[int]] = [[] for _ in programs]
                for it in (size // 8, size // 4, size // 2, size):
                    script, _ = generated(kind, it, folder)
                    for place, (_, program) in enumerate(programs):
                        counts[place].append(instructions(program, form_of(kind, it, program), script))
                print(growth_row(kind, size, counts), flush=True)


def grow_all(kinds: list[str], divide: int, programs: list[tuple[str, str]], runs: int) -> bool:
    """Prints the table of all kinds that have a size, and returns whether all runs ended well."""
    print(
        "| kind | program | N | seconds at N/8, N/4, N/2, N | MB | the last to the third |\n|---|---|---|---|---|---|"
    )
    sizes = {kind: SIZES[kind] // divide for kind in kinds}
    with tempfile.TemporaryDirectory() as folder:
        return all([grow(kind, size, programs, runs, folder) for kind, size in sizes.items() if size >= 8])


def main() -> None:
    parser = tool.Words(__doc__)
    parser.add_argument("--runs", type=int, default=3)
    parser.add_argument("--divide", type=int, default=1)
    parser.add_argument("--instructions", type=int, default=0)
    parser.add_argument("--growth", action="store_true")
    parser.add_argument("--kinds", default=",".join(SIZES))
    parser.add_argument("programs", nargs="+", metavar="NAME=PROGRAM")
    args = parser.parse_args()
    programs = []
    for word in args.programs:
        name, mark, path = word.partition("=")
        if not mark:
            name, path = os.path.basename(word), word
        programs.append((name, os.path.abspath(path)))
    if args.growth and args.instructions:
        count_growth(args.kinds.split(","), args.divide * args.instructions, programs)
        return
    if args.growth:
        sys.exit(0 if grow_all(args.kinds.split(","), args.divide, programs, args.runs) else 1)
    print(
        f"{'input':<10}{'program':<12}{'items':>12}{'seconds':>10}{'items/second':>14}"
        f"{'MB/s':>8}{'processor':>11}{'peak KiB':>11}"
    )
    all_agreed, rows = True, []
    with tempfile.TemporaryDirectory() as folder:
        for kind in args.kinds.split(","):
            size = max(1, SIZES[kind] // args.divide)
            times, agreed = measure(kind, size, programs, args.runs, folder)
            all_agreed &= agreed
            counts = count(kind, max(size // args.instructions, 1), programs, folder) if args.instructions else []
            rows.append((kind, times, counts))
    print(f"\n| workload | processor time, {programs[0][0]} to {programs[-1][0]} | instructions |\n|---|---|---|")
    for kind, times, counts in rows:
        print(
            f"| `{kind}` | {times[0] / max(times[-1], 0.001):.2f} |"
            f" {f'{counts[0] / counts[-1]:.2f}' if counts else ''} |"
        )
    sys.exit(0 if all_agreed else 1)


if __name__ == "__main__":
    main()
