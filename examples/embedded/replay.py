#!/usr/bin/env python3
"""replay.py WORD.. <INPUT >TEXT: `cdsreplay` again, as a program in Python over the library."""

from __future__ import annotations

import os
import sys

sys.path.insert(0, os.path.join(os.path.dirname(os.path.realpath(__file__)), "../../python"))
import cds  # noqa: E402


def main() -> int:
    """Writes what the form says, and returns the status."""
    octets = sys.stdin.buffer.read()
    try:
        status, text = 0, cds.run(" ".join(sys.argv[1:]), octets)
    except cds.Failed as failed:
        status, text = failed.status, failed.text
    sys.stdout.buffer.write(text)
    return status


if __name__ == "__main__":
    sys.exit(main())
