"""The parts of the tests: what each tries, over which programs, and what it takes.

`./test` runs them over programs that are not proved, `./prove` over the proved ones.
"""

from __future__ import annotations

import dataclasses
import os
import re

from building.sources import PROGRAMS, ROOT, lines_of_crates

# Which programs a part is for.
UNPROVED, PROVED = "unproved", "proved"
BOTH = (UNPROVED, PROVED)
TEST = re.compile(r"#\s*\[[^]]*\btest\b")
# Minutes of a processor that it takes to make an unproved program, and to try the tests of a crate.
MAKING, TRYING = 1.1, 0.9


@dataclasses.dataclass(frozen=True)
class Part:
    """A part: its command, whose words may have `{PROGRAM}` for the path of one; the programs that it runs; minutes of
    a processor of 2.5 GHz; the command without which it is passed over; the folder that it runs in."""

    name: str
    what: str
    words: tuple[str, ...]
    programs: tuple[str, ...] = ()
    minutes: float = 0.1
    needs: str = ""
    folder: str = "."
    kinds: tuple[str, ...] = BOTH


REPLAYER, MENDER, HOUSE, EXPLAINER, CLERK = "cdsreplay", "cdsmend", "cdshouse", "cdsexplain", "cdsclerk"
# The unproved house whose segments are small.
SMALL_HOUSE = "cdshouse-small"
MADE = (*PROGRAMS, SMALL_HOUSE)
REPLAYERS = ("{cdsreplay}", "--mender", "{cdsmend}")
# What is left out.
SMALL = (
    "runs with little memory (the cases `starved`, `test_refused_memory`): an unproved program cannot begin in so"
    " little"
)
LARGE = (
    "runs with large inputs (the cases `large`, `load 20000`, more than a million octets, tests that say so), for which"
    " it is too slow"
)
SOME = "three of four altered journals"
LEFT_OUT: dict[str, tuple[str, ...]] = {
    UNPROVED: (SMALL, LARGE, SOME, "`./prove` or `./test --proved` tests these, too"),
    PROVED: (),
}
# In the name of the longest test of the explanation.
CUT = "cut after each octet"
EXPLAINING = ("tools/house-tests", "--explainer", "{cdsexplain}")
# An unproved program needs an eighth of a second for each of these journals, a proved one a hundredth.
FOURTH = ("--every", "4")
OVER_PROGRAMS = (
    Part(
        "cases",
        "the cases, the examples of the pages, the wrappers",
        ("tools/cases", *REPLAYERS),
        (REPLAYER, MENDER),
        0.7,
    ),
    Part(
        "commands",
        "the commands of the pages, each page in a fresh copy",
        ("tools/testing/page-commands", *(f"{{{it}}}" for it in PROGRAMS)),
        PROGRAMS,
        0.5,
        "rustc",
    ),
    Part(
        "tools",
        "tools/why, tools/write and tools/console, as a user runs them",
        ("tools/try-tools", "--program", "{cdsreplay}"),
        (REPLAYER,),
        0.6,
    ),
    Part("pages", "the pages of tools/picture in a browser", ("tools/try-page", "{cdsreplay}"), (REPLAYER,), 2.1),
    Part(
        "random",
        "random scripts, octets and mended cells against the plain program, for 20 seconds",
        ("tools/fuzz", "20", "--seed", "1", "--program", *REPLAYERS),
        (REPLAYER, MENDER),
        0.4,
        "rustc",
    ),
    Part("plain-house", "the tools of houses, and the plain house of bench/", ("tools/house-tests",), (), 0.4, "rustc"),
    Part("house", "the house, as a process", ("tools/house-tests", "--program", "{cdshouse}"), (HOUSE,), 0.4, "rustc"),
    Part(
        "explanation",
        "the explanation of journals, also of altered ones",
        (*EXPLAINING, "--without", CUT),
        (EXPLAINER,),
        1.0,
        "rustc",
        kinds=(PROVED,),
    ),
    Part(
        "cuts",
        "the explanation of journals that end at any octet",
        (*EXPLAINING, CUT),
        (EXPLAINER,),
        0.5,
        "rustc",
        kinds=(PROVED,),
    ),
    Part(
        "explanation",
        "the explanation of journals, also of each fourth altered one",
        (*EXPLAINING, *FOURTH, "--without", CUT),
        (EXPLAINER,),
        1.3,
        "rustc",
        kinds=(UNPROVED,),
    ),
    Part(
        "cuts",
        "the explanation of journals that end at each fourth octet",
        (*EXPLAINING, *FOURTH, CUT),
        (EXPLAINER,),
        0.7,
        "rustc",
        kinds=(UNPROVED,),
    ),
    # (the two run side by side: each keeps its folders by their seeds)
    Part(
        "plain-houses",
        "plain houses through kills and losses of power, for 20 seconds",
        ("tools/houses", "20", "--seed", "1"),
        (),
        0.1,
        "rustc",
    ),
    Part(
        "houses",
        "houses through kills and losses of power, and their explanation, for 20 seconds",
        ("tools/houses", "20", "--seed", "1001", "--program", "{cdshouse}", "--explainer", "{cdsexplain}"),
        (HOUSE, EXPLAINER),
        0.2,
        "rustc",
    ),
    Part(
        "small-houses",
        "the same, 20 seconds, of houses that change their segments often",
        ("tools/houses", "20", "--seed", "2001", "--program", "{cdshouse-small}", "--explainer", "{cdsexplain}"),
        (SMALL_HOUSE, EXPLAINER),
        0.2,
        "rustc",
        kinds=(UNPROVED,),
    ),
    Part(
        "clerk",
        "the clerk by its lines, and by nonsense beside the plain one",
        ("tools/clerk-tests", "--program", "{cdsclerk}"),
        (CLERK,),
        0.2,
        "rustc",
    ),
    Part(
        "scripts",
        "scripts on live plain houses, and the clerk, against the replay: all cases, and random ones for 10 seconds",
        ("tools/houses", "10", "--scripts", "--seed", "1", "--clerk", "{cdsclerk}"),
        (CLERK,),
        1.0,
        "rustc",
    ),
    Part(
        "doors",
        "doors of three machines that are harmed, for 20 seconds",
        ("tools/door-trial", "20", "--round", "20", "--local", "--house", "{cdshouse}", "--clerk", "{cdsclerk}"),
        (HOUSE, CLERK),
        0.5,
        "rustc",
    ),
)
OF_SOURCES = (
    Part("rules", "whether docs/RULES.md is true and whole", ("tools/check-rules",)),
    Part("map", "whether the pages that are made of the sources are theirs", ("tools/map", "--check")),
    Part("style", "wide lines, words to avoid, copies", ("tools/check-style",)),
    Part("python", "the unit tests of the tools", ("tools/testing/units",), minutes=0.5),
    Part(
        "linters",
        "shellcheck, ruff (or pyflakes and pycodestyle) and mypy, those that are there",
        ("tools/testing/linters",),
        minutes=0.4,
    ),
)


def has_tests(crate: str) -> bool:
    """Whether a crate has test functions."""
    for at, _, files in os.walk(f"{ROOT}/crates/{crate}/src"):
        for file in files:
            with open(f"{at}/{file}", encoding="utf-8") as it:
                if TEST.search(it.read()):
                    return True
    return False


def all_crates() -> list[str]:
    """The crates of the repository."""
    with open(f"{ROOT}/crates.txt", encoding="utf-8") as file:
        names = [line.partition("#")[0].partition(":")[0].split() for line in file.read().splitlines()]
    return [*lines_of_crates(ROOT, [words[0] for words in names if words])]


def parts(kind: str) -> list[Part]:
    """The parts for programs of this kind: what makes or looks for the programs comes first."""
    found = [
        Part(
            name,
            f"finds the {kind} program",
            ("tools/build", name, f"--{kind}"),
            (),
            MAKING if kind == UNPROVED else 0.1,
        )
        for name in PROGRAMS
    ]
    if kind == UNPROVED:
        found.append(
            Part(
                SMALL_HOUSE,
                "makes an unproved house whose segments are small",
                ("tools/build", HOUSE, "--small"),
                (),
                MAKING,
            )
        )
        crates = [it for it in all_crates() if has_tests(it)]
        found += [
            Part(it, "the tests of a crate, without proof", ("tools/testing/crate-tests", it), (), TRYING, "rt")
            for it in crates
        ]
    return [it for it in (*found, *OVER_PROGRAMS, *OF_SOURCES) if kind in it.kinds]
