#!/usr/bin/env python3
"""Counts the instructions of clerks (docs/LIVE.md), over houses that this script plays:

    clerks.py [--commands N] NAME=PROGRAM [NAME=PROGRAM ..]

Each program is a clerk of three houses that hold the root directory, with ten servers and a group of them. It gets N
commands (200) of each kind, one after the other, and what the houses say to its questions; all programs have to say the
same. Then valgrind counts the instructions of a run that reads these lines at once, without those of a run that reads
none. A row has the instructions of each program for a command, and the ratio of the first program to the last.
"""
from __future__ import annotations

import os
import re
import shutil
import subprocess
import sys
import tempfile

ROOT = os.path.dirname(os.path.dirname(os.path.realpath(__file__)))
sys.dont_write_bytecode = True
sys.path.insert(0, f"{ROOT}/tools")
from cds import tool
from cds.processes import ENDS

INTERFACE = "a0000000-0000-0000-0000-000000000001:1.0"
WANTED = f"{INTERFACE} - ncacn_ip_tcp"
# The tower of port 1025 at the host 10.0.0.N, without the octet N.
TOWER = (
    "050013000d000000a000000000000000000000000101000200000013000d045d888aeb1cc9119fe808002b10486002000200000001000b02"
    "0000000100070200040101000904000a0000"
)
HOUSES = ("2", "1", "2", "3")
STATUS = "ok epoch 3 allupto none skulk none entries 11 members 1:1:m 2:1:r 3:2:r"
SERVERS = range(10)
KINDS = {
    "`read low`": "read low /.:/s1 CDS_Towers",
    "`import low` of one entry": f"import low /.:/s1 {WANTED}",
    "`import low` of a group of ten": f"import low /.:/all {WANTED}",
    "`import high` of the same": f"import high /.:/all {WANTED}",
    "`add`": "add /.:/s1 Note 00",
    "`export` of one binding": f"export /.:/s1 {INTERFACE} ncacn_ip_tcp:10.0.0.1[1025] -",
}


def shown(name: str) -> list[str]:
    """What a house shows of a name."""
    if name == "all":
        members = sorted(f"/.:/s{number}".encode().hex() for number in SERVERS)
        return ["object", "attr RPC_Group", *(f"value {member}" for member in members), "end"]
    return ["object", "attr CDS_Towers", f"value {TOWER}{int(name[1:]):02x}", "end"]


def told(line: str) -> list[str]:
    """What a house says to a line."""
    words = line.split(" ")
    if words[0] == "status":
        return [STATUS]
    return shown(words[3]) if words[0] == "show" else ["ok 7@00000000000a"]


def played(program: str, command: str, count: int) -> tuple[str, list[str]]:
    """The lines that a clerk reads, which is given a command so often, and what it says."""
    pipe = subprocess.PIPE
    read, said = list[str](), list[str]()
    with subprocess.Popen([program, *HOUSES], stdin=pipe, stdout=pipe, text=True, bufsize=1) as child:
        assert child.stdin and child.stdout

        def give(lines: list[str]) -> None:
            assert child.stdin
            text = "".join(f"{line}\n" for line in lines)
            read.append(text)
            child.stdin.write(text)

        for job in range(1, count + 1):
            give([f"do {job} {command}"])
            for line in child.stdout:
                word, number, rest = line.rstrip("\n").split(" ", 2)
                if word == "ask":
                    give([f"hear {number} {text}" for text in told(rest.split(" ", 2)[2])])
                    continue
                said.append(rest)
                if rest.split(" ")[0] in ENDS:
                    break
        child.stdin.close()
    return "".join(read), said


def instructions(program: str, text: str) -> int:
    """The instructions of a clerk that reads a text."""
    command = ["valgrind", "--tool=callgrind", "--callgrind-out-file=/dev/null", program, *HOUSES]
    with tempfile.TemporaryFile("w+") as source:
        source.write(text)
        source.seek(0)
        done = subprocess.run(
            command, stdin=source, stdout=subprocess.DEVNULL, stderr=subprocess.PIPE, text=True, check=False
        )
    return int(re.findall(r"Collected : (\d+)", done.stderr)[0])


def main(words: list[str]) -> int:
    """Prints a row for each kind, and returns the exit status."""
    parser = tool.Words(__doc__)
    parser.add_argument("--commands", type=int, default=200)
    parser.add_argument("programs", nargs="+", metavar="NAME=PROGRAM")
    given = parser.parse_args(words)
    programs = {
        name: shutil.which(path) or os.path.abspath(path)
        for name, _, path in (word.partition("=") for word in given.programs)
    }
    print(f"| command | {' | '.join(programs)} | ratio |\n|---|{'---|' * len(programs)}---|")
    starts = {name: instructions(program, "") for name, program in programs.items()}
    for kind, command in KINDS.items():
        runs = {name: played(program, command, given.commands) for name, program in programs.items()}
        if any(said != next(iter(runs.values()))[1] for _, said in runs.values()):
            return tool.fail("clerks.py", f"{kind}: they say {[said[:3] for _, said in runs.values()]}")
        counts = [
            (instructions(programs[name], text) - starts[name]) / given.commands for name, (text, _) in runs.items()
        ]
        figures = " | ".join(f"{count:,.0f}" for count in counts)
        print(f"| {kind} | {figures} | {counts[0] / counts[-1]:.2f} |", flush=True)
    return 0


if __name__ == "__main__":
    tool.run(main)
