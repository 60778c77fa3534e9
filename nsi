#!/usr/bin/env python3
"""One command of the name service, to the door of this machine (docs/LIVE.md):

    nsi export /.:/lpr a0000000-0000-0000-0000-000000000001:1.0 'ncacn_ip_tcp:10.0.0.1[1025]' -
    nsi --json import low /.:/lpr a0000000-0000-0000-0000-000000000001:1.0 - ncacn_ip_tcp
    nsi status

The answer is printed as the door gives it, or with --json as one object: `status` is the first word of its last line,
`words` are the other words of that, and `items` are the words of the lines before it. The door is at --socket, else
at the path in CDS_DOOR, else at /run/cds/door.

Exit status: 0 after `ok` and `end`, 1 after `refused` and `fault`, 2 if the door is not there or goes away before it
answers, so that nobody knows whether the command is done. 3: this is no command. 4, of `status` alone: the door
answered, and the clerk or a house is down.
"""
from __future__ import annotations

import argparse
import json
import os
import socket
import sys

ENDS = ("ok", "refused", "fault", "end")


def ask(path: str, line: str) -> list[str]:
    """The lines of the answer, as far as they come."""
    lines: list[str] = []
    with socket.socket(socket.AF_UNIX) as door:
        door.connect(path)
        with door.makefile("rw", encoding="latin-1", newline="\n") as file:
            file.write(f"{line}\n")
            file.flush()
            for text in file:
                lines.append(text.rstrip("\n"))
                if lines[-1].split(" ")[0] in ENDS:
                    break
    return lines


def is_down(line: str) -> bool:
    """Whether a line of `status` says that the clerk or a house is down."""
    words = line.split(" ")
    return words[:2] == ["clerk", "down"] or words[0] == "house" and words[3:4] == ["down"]


def main() -> int:
    parser = argparse.ArgumentParser(description=__doc__, formatter_class=argparse.RawDescriptionHelpFormatter)
    parser.add_argument("--socket", default=os.environ.get("CDS_DOOR", "/run/cds/door"))
    parser.add_argument("--json", action="store_true")
    parser.add_argument("words", nargs=argparse.REMAINDER, metavar="COMMAND")
    args = parser.parse_args()
    line = " ".join(args.words)
    if not line.strip() or not line.isprintable() or not line.isascii() or line.lstrip().startswith("#"):
        print("nsi: a command is needed, of visible letters of ASCII: nsi --help", file=sys.stderr)
        return 3
    try:
        lines = ask(args.socket, line)
    except OSError as error:
        print(f"nsi: {args.socket}: {error.strerror}", file=sys.stderr)
        return 2
    word, *rest = lines[-1].split(" ") if lines else [""]
    if word not in ENDS:
        print(f"nsi: {args.socket}: the door went away before it answered", file=sys.stderr)
        return 2
    if args.json:
        print(json.dumps({"status": word, "words": rest, "items": [text.split(" ") for text in lines[:-1]]}))
    else:
        print("\n".join(lines))
    if line.split() == ["status"] and any(map(is_down, lines)):
        return 4
    return 0 if word in ("ok", "end") else 1


sys.exit(main())
