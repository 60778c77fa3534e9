"""What commands are answered (docs/SCRIPT.md): the form of each answer, and why each command may be refused."""

from __future__ import annotations

import re

from cds.commands import HEXADECIMAL, NUMBER, PLAIN, SERVICES, STAMP, UPDATES, WORDS
from cds.records import KINDS

# Why the walk of a name ends early; why a house that has to act does not; and why it changes no entry.
WALK = "RootName Unreachable NoSuchName NotDirectory TooManyLinks NameTooLong LinkCycle"
ACTS = "NoDirectory NoHouse Down NoReplica NotMaster"
CHANGES = f"{ACTS} StampsSpent"
SERVES = f"{WALK} NotObject StampsSpent"
LISTED = f"NoHouse {WALK} NotObject"

# Why each command may be refused. (`read by clerk` is a `read` at low confidence in the form `clerk`; of `stop` these
# are its own.)
REFUSALS = {
    "house": "HouseExists",
    "clock": "NoHouse",
    "root": "DirectoryExists NoHouse BadMembers Down",
    "mkdir": f"{CHANGES} BadMembers EntryExists",
    "repoint": f"{CHANGES} BadMembers NoSuchEntry WrongKind",
    "create": f"{CHANGES} EntryExists",
    "link": f"{CHANGES} EntryExists",
    "delete": f"{CHANGES} NoSuchEntry WrongKind",
    "add": f"{CHANGES} NoSuchEntry WrongKind",
    "remove": f"{CHANGES} NoSuchEntry WrongKind",
    "put": f"{CHANGES} NoSuchEntry WrongKind",
    "clear": f"{CHANGES} NoSuchEntry WrongKind",
    "epoch": "NoDirectory NoHouse BadMembers NotMember Down NoReplica NotJoined",
    "skulk": f"{ACTS} StampsSpent",
    "deliver": "NoMessage Down",
    "lose": "NoMessage",
    "crash": "NoHouse Down",
    "start": "NoHouse Up",
    "read": f"NoHouse {WALK}",
    "read by clerk": f"NoHouse {WALK} Vanished",
    "readlink": f"NoHouse {WALK} NotLink",
    "export": f"{SERVES} NothingToExport",
    "unexport": f"{SERVES} NothingToUnexport",
    "groupadd": SERVES,
    "groupdel": f"{SERVES} NoSuchMember",
    "profadd": f"{SERVES} BadPriority ElementTooLong",
    "profdel": f"{SERVES} NoSuchElement",
    "import": LISTED,
    "dump": "NoDirectory NoHouse Down NoReplica",
    "octets": "NoMessage NoHouse",
    "decode": "Short BadTag BadLength BadName OutOfOrder BadFlag NotAbove",
    "image": "NoHouse",
    "stop": "NoHouse NoMessage NotActing",
    "grouplist": LISTED,
    "entrylist": LISTED,
    "proflist": LISTED,
    "lookup": LISTED,
}
REASONS = {reason for reasons in REFUSALS.values() for reason in reasons.split()}
# Why octets are none of a message.
OF_OCTETS = tuple(REFUSALS["decode"].split())
# What a delivery is answered that changes nothing; `foreign` is of houses alone.
NOT_TAKEN = ("late", "early", "stale", "noreplica", "foreign")
IN_VAIN = re.compile(rf"(?:\d+ )?(?:refused|ok (?:{'|'.join(NOT_TAKEN)}))\b")

POSTED = r"(?: posted(?P<posted>(?: [1-9]\d*)+))?"
STOPS = {"ok stopped before": "stopped before", "ok stopped after": "stopped after"}
REFUSED = re.compile(rf"refused ([A-Za-z]+)((?: {NUMBER}){{0,2}}){POSTED}")
FAULT = re.compile(r"([1-9]\d*) fault ([A-Za-z]+) (\d+)")
COUNT = re.compile(r"end \d+")
# Answers of several lines: those before the last, and the last.
LONG = {
    "dump": (
        re.compile(rf"dump epoch {NUMBER} allupto (?:{STAMP}|none) members .*|(?:entry|attr|value) .*"),
        re.compile("end"),
    ),
    "import": (re.compile("binding .*"), COUNT),
    "grouplist": (re.compile("member .*"), COUNT),
    "entrylist": (re.compile("(?:interface|object) .*"), COUNT),
    "proflist": (re.compile("element .*"), COUNT),
    "lookup": (re.compile("(?:batch|binding) .*"), COUNT),
}


def form_of(command: str) -> re.Pattern[str]:
    """The form of what a command's answer says after its line's number, if it is not refused."""
    if command in UPDATES:
        return re.compile(f"ok ({STAMP}){POSTED}")
    if command in SERVICES:
        return re.compile(rf"ok (\d+){POSTED}")
    delivered = f"taken|(?:late|early) {NUMBER} {NUMBER}|stale {STAMP} (?:{STAMP}|none)|noreplica|complete {STAMP}"
    forms = {
        "root": f"ok{POSTED}",
        "mkdir": rf"ok (\d+) ({STAMP}){POSTED}",
        "epoch": rf"ok (\d+){POSTED}",
        "skulk": f"ok (complete )?({STAMP}){POSTED}",
        "deliver": f"ok ({delivered}){POSTED}",
        "read": rf"ok \d+(?: {HEXADECIMAL})*",
        "readlink": f"ok {WORDS['NAME']}",
        "octets": rf"ok \d+ {HEXADECIMAL}",
        "image": rf"ok \d+ {HEXADECIMAL}",
        "decode": rf"ok (?:{'|'.join(KINDS)}) \d+",
    }
    return re.compile(forms.get(command, "ok"))


ANSWERS = {it: form_of(it) for it in PLAIN}


def answers_of(output: bytes) -> dict[int, list[str]]:
    """The answers of an output: the lines of each number without it."""
    found: dict[int, list[str]] = {}
    for line in output.decode("ascii").splitlines():
        number, _, text = line.partition(" ")
        found.setdefault(int(number), []).append(text)
    return found


def serials_of(answer: str) -> list[int]:
    """The numbers of the messages that an answer says were posted."""
    return [int(it) for it in answer.partition(" posted ")[2].split()]
