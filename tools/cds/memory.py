"""Programs of which one allocation is refused, each in turn: a library in front of the C library's allocator refuses
it."""

from __future__ import annotations

import os
import shutil
import subprocess
from collections.abc import Iterator, Sequence

from cds.programs import ran

NO_MEMORY = 6
# What a house reads in its first life, and in its second one.
MADE = [
    "house 1 00000000000a",
    "root 2",
    "clock 100",
    "create 1 lpr",
    "add 1 lpr A 5072",
    "put 1 lpr B 00",
    "link 1 l /.:/lpr",
]
MADE += ["mkdir 1 sub 2", "repoint 1 sub 1 2", "skulk 1", "delete 1 l"]
ASKED = [
    "clear 1 lpr B",
    "remove 1 lpr A 5072",
    "epoch 1 2 1:1:m 2:1:s 3:2:r",
    "more 02",
    "take 01",
    "image",
    "bogus",
    "create 1 lpr",
]
ASKED += ["dump 1", "look 1 lpr A", "show low 1 lpr", "show high 1 sub", "status 1", "directories", "add 2 x A 00"]
LIVES = {"a house": MADE, "a house that does its lines again": ASKED}

# Refuses the call whose number is in REFUSED, and writes to the file COUNTED how many there were.
LIBRARY = r"""
#define _GNU_SOURCE
#include <dlfcn.h>
#include <errno.h>
#include <stdio.h>
#include <stdlib.h>

static long calls;

static int refuses(void) {
    const char *refused = getenv("REFUSED");
    calls++;
    return refused && calls == atol(refused);
}

#define NEXT(name) \
    ({ static __typeof__(&name) next; if (!next) next = (__typeof__(&name))dlsym(RTLD_NEXT, #name); next; })

void *malloc(size_t size) { return refuses() ? NULL : NEXT(malloc)(size); }
void *realloc(void *old, size_t size) { return refuses() ? NULL : NEXT(realloc)(old, size); }
void *aligned_alloc(size_t to, size_t size) { return refuses() ? NULL : NEXT(aligned_alloc)(to, size); }
int posix_memalign(void **found, size_t to, size_t size) {
    return refuses() ? ENOMEM : NEXT(posix_memalign)(found, to, size);
}

__attribute__((destructor)) static void tell(void) {
    const char *name = getenv("COUNTED");
    long counted = calls;
    FILE *file = name ? fopen(name, "w") : NULL;
    if (file) {
        fprintf(file, "%ld\n", counted);
        fclose(file);
    }
}
"""


def compiled(room: str) -> str:
    """Compiles the library, and returns its path."""
    with open(f"{room}/refuse.c", "w", encoding="utf-8") as it:
        it.write(LIBRARY)
    subprocess.run(["cc", "-O2", "-shared", "-fPIC", "-o", f"{room}/refuse.so", f"{room}/refuse.c", "-ldl"], check=True)
    return f"{room}/refuse.so"


class Runs:
    """Runs of a program over one input, by the words of a form."""

    def __init__(self, program: str, words: Sequence[str], library: str, octets: bytes, room: str) -> None:
        self.words, self.library, self.octets, self.counted = [program, *words], library, octets, f"{room}/counted"

    def ran(self, refused: int) -> tuple[int, bytes]:
        """The status and the answers if this call is refused; 0 for none."""
        there = {**os.environ, "LD_PRELOAD": self.library, "REFUSED": str(refused), "COUNTED": self.counted}
        return ran(self.words, self.octets, environment=there)

    def calls(self) -> int:
        """How many allocations the last run made."""
        with open(self.counted, encoding="utf-8") as it:
            return int(it.read())


class Lives(Runs):
    """Runs of a house, each over a copy of the folder as it was before."""

    def __init__(self, program: str, library: str, lines: Sequence[str], before: str, room: str) -> None:
        self.folder, self.before = f"{room}/house", before
        super().__init__(program, [self.folder], library, "".join(f"{line}\n" for line in lines).encode(), room)

    def ran(self, refused: int) -> tuple[int, bytes]:
        shutil.rmtree(self.folder, ignore_errors=True)
        shutil.copytree(self.before, self.folder)
        return super().ran(refused)


def lives_of(program: str, library: str, room: str) -> Iterator[tuple[str, Lives]]:
    """The runs of a house, one life after the other, each with its name. (The next one begins with the folder that the
    last run left.)"""
    before = f"{room}/before"
    os.makedirs(before)
    for name, lines in LIVES.items():
        runs = Lives(program, library, lines, before, room)
        yield name, runs
        runs.ran(0)
        shutil.rmtree(before)
        shutil.copytree(runs.folder, before)


def fault(status: int, output: bytes, whole: bytes) -> str | None:
    """What is wrong with such an end of a run, or None."""
    if status == 0 and output == whole or status == NO_MEMORY and whole.startswith(output):
        return None
    return f"status {status}, and {len(output)} of {len(whole)} octets" + (
        "" if whole.startswith(output) else ", which differ"
    )
