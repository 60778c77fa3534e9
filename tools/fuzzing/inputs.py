"""Random inputs: what is run, by its form, and on which octets."""

from __future__ import annotations

import re
from random import Random

from cds.programs import ran
from fuzzing.records import Record, damaged, image, rarely, towers
from fuzzing.scripts import HOUSES, script

# How often each form has its turn.
FORMS = {
    "run": 10,
    "journal": 6,
    "clerk": 3,
    "inquire": 4,
    "check": 1,
    "towers": 4,
    "untowers": 4,
    "migrate": 2,
    "audit": 4,
    "load": 1,
}
# The forms whose input is a script.
OF_SCRIPTS = ["run", "journal", "clerk", "inquire", "check"]
# The forms whose input is no text.
OF_OCTETS = ["towers", "migrate", "audit"]
ROOMS = [1, 2, 8, 1000]


def images(random_source: Random, plain: str) -> bytes:
    """The octets of two images: of two houses of one script, or made field by field, mostly with the same beginning.
    Now and then they are damaged, cut short, or followed by more."""
    kind = random_source.randrange(4)
    if kind == 0:
        lines = script(random_source, plain, ["run"]) + b"".join(b"octets house %d\n" % house for house in HOUSES)
        told = re.findall(
            r"ok \d+ (02090[1-5][0-9a-f]+)$", ran([plain, "run"], lines)[1].decode(errors="replace"), re.M
        )
        octets = b"".join(bytes.fromhex(it) for it in random_source.choices(told, k=2)) if told else b""
    elif kind == 1:
        octets = bytes(Record(random_source).image() + Record(random_source).image())
    else:
        breaks, same, begin = rarely(random_source, 6), random_source.randint(8, 60), random_source.getstate()
        first = Record(random_source, breaks, is_full=True).image()
        random_source.setstate(begin)
        octets = bytes(first + Record(random_source, breaks, same, is_full=True).image())
    if rarely(random_source, 6):
        octets = bytes(damaged(random_source, octets))
    if rarely(random_source, 40):
        octets += random_source.choice([b"\0", octets[:9]])
    return octets[: random_source.randint(0, len(octets))] if rarely(random_source, 12) else octets


def script_input(random_source: Random, plain: str, words: list[str]) -> bytes:
    """A script for a form, of which each third is damaged."""
    octets = script(random_source, plain, ["run"] if words == ["check"] else words)
    for _ in range(random_source.randint(1, 3) if rarely(random_source, 3) else 0):
        octets = bytes(damaged(random_source, octets))
    if rarely(random_source):
        octets += random_source.choice([b"#" * 4097 + b"\n", b"lose 1"])
    return octets


def words_of(random_source: Random, plain: str, forms: list[str]) -> tuple[list[str], bytes]:
    """What to run: the words, and the octets of an input for them."""
    form = random_source.choices(forms, [FORMS[it] for it in forms])[0]
    if form == "load":
        return ["load", str(random_source.randint(1, 99))], b""
    if form in OF_SCRIPTS:
        words = [form, *([str(random_source.choice(ROOMS))] if form == "clerk" else [])]
        return words, script_input(random_source, plain, words)
    if form == "migrate":
        return ["migrate"], image(random_source)
    if form == "audit":
        return ["audit", str(random_source.choice([1, 1, 1, 2, 3]))], images(random_source, plain)
    octets = towers(random_source)
    if form == "untowers":
        octets = ran([plain, "towers"], octets)[1]
    for _ in range(random_source.randint(0, 2)):
        octets = bytes(damaged(random_source, octets))
    return [form], octets
