"""What the machine has: processors, memory, and how many checks it can run side by side."""

from __future__ import annotations

import os
import re

# The memory of the largest check, with some to spare, in octets.
MEMORY = 4_000_000_000
GROUP = "/sys/fs/cgroup"
# The files of a control group that have its limit of memory and what it uses, in the second version and in the first.
LIMITS = (("memory.max", "memory.current"), ("memory/memory.limit_in_bytes", "memory/memory.usage_in_bytes"))


def number_in(file: str) -> int | None:
    """The number that a file has, or None."""
    try:
        with open(file, encoding="utf-8") as it:
            return int(it.read())
    except (OSError, ValueError):
        return None


def processors() -> int:
    """How many processors there are to use: those that this process may run on, or fewer where its control group has a
    quota."""
    found = len(os.sched_getaffinity(0))
    try:
        with open(f"{GROUP}/cpu.max", encoding="utf-8") as it:
            quota, period = it.read().split()
        return min(found, max(int(quota) // int(period), 1))
    except (OSError, ValueError):
        # (no such file, or no limit)
        return found


def free_memory() -> int:
    """The memory that is free, in octets: that of the machine, or less where the control group has a limit."""
    with open("/proc/meminfo", encoding="utf-8") as it:
        found = int(re.findall(r"MemAvailable:\s*(\d+) kB", it.read())[0]) * 1024
    for names in LIMITS:
        limit, used = (number_in(f"{GROUP}/{name}") for name in names)
        if limit is not None and used is not None:
            found = min(found, limit - used)
    return found


def lanes() -> int:
    """How many checks run side by side: one a processor, if there is memory for each.

    By itself `rt ci` takes checks to need two to five times the memory that they do, and starts none beyond that."""
    return max(1, min(processors(), free_memory() // MEMORY))
