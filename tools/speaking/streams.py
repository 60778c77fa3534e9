"""How the tools end where an input can't be read, an output can't be written, or the program fails."""

from __future__ import annotations

import os
import sys
from collections.abc import Callable

from speaking import program


def octets_of(name: str) -> bytes:
    """The octets of a file, or of standard input."""
    if name == "-":
        if sys.stdin is None:
            raise OSError(0, "it is closed", "standard input")
        return sys.stdin.buffer.read()
    with open(name, "rb") as it:
        return it.read()


def guarded(tool: str, work: Callable[[], int], *faults: type[Exception]) -> int:
    """What work returns, an exit status; or 1 where it fails, which is said on standard error."""
    try:
        status = work()
        sys.stdout.flush()
        return status
    except BrokenPipeError:
        raise
    except OSError as error:
        print(f"{tool}: {error.filename or 'standard input or output'}: {error.strerror}", file=sys.stderr)
        # What could not be written is not tried again at the end.
        if sys.stdout is not None:
            os.dup2(os.open(os.devnull, os.O_WRONLY), 1)
    except Exception as error:
        if not isinstance(error, (program.Failed, *faults)):
            raise
        print(f"{tool}: {error}", file=sys.stderr)
    return 1
