"""The commands of scripts, by form: which words each takes, and the form of its line. `docs/SCRIPT.md` says what the
words are."""

from __future__ import annotations

import re

# What each command takes. `R..` and `H..` are any number of words, `COMMAND` is a command with its words.
RUN = {
    "house": "H NODE",
    "clock": "H TIME",
    "root": "M R..",
    "mkdir": "H D S M R..",
    "repoint": "H D S M H..",
    "create": "H D S",
    "link": "H D S NAME",
    "delete": "H D S",
    "add": "H D S ATTR VALUE",
    "remove": "H D S ATTR VALUE",
    "put": "H D S ATTR VALUE",
    "clear": "H D S ATTR",
    "epoch": "D M R..",
    "skulk": "H D",
    "deliver": "N",
    "lose": "N",
    "crash": "H",
    "start": "H",
    "read": "H C NAME ATTR",
    "readlink": "H C NAME",
    "export": "NAME IF BS OS",
    "unexport": "NAME IFN OS",
    "groupadd": "NAME NAME",
    "groupdel": "NAME NAME",
    "profadd": "NAME IFD NAME PRI NOTE",
    "profdel": "NAME IFD NAME",
    "import": "H C NAME IF OBJ PS",
    "dump": "H D",
    "octets": "WHAT N",
    "decode": "OCTETS",
}
JOURNAL = {"image": "H", "stop": "H K W COMMAND"}
INQUIRE = {
    "grouplist": "H C NAME",
    "entrylist": "H C NAME",
    "proflist": "H C NAME KIND IFN VERS MBR",
    "lookup": "H C NAME IF OBJ PS MAX",
}
COMMANDS = RUN | JOURNAL | INQUIRE
# The forms that replay a script, with the commands that each knows.
FORMS = {"run": RUN, "clerk": RUN, "journal": RUN | JOURNAL, "inquire": RUN | INQUIRE}
LISTS = ("R..", "H..")
# What one update of an entry is; what is many of them, by a full name; and what changes nothing.
UPDATES = ("create", "link", "delete", "add", "remove", "put", "clear", "repoint")
SERVICES = ("export", "unexport", "groupadd", "groupdel", "profadd", "profdel")
QUESTIONS = ("read", "readlink", "import", "dump", "octets", "decode", "image", *INQUIRE)
# The commands inside which a house can lose its power, after the words `stop H K W`.
STOPPED = ("root", *UPDATES, "epoch", "skulk", "deliver")
NEED_NO_HOUSE = ("house", "deliver", "lose", "octets", "decode", *SERVICES)
OF_HOUSES = ("house", "clock", "crash", "start")

HOUSE = r"(?:25[0-5]|2[0-4]\d|1\d\d|[1-9]\d?)"
NUMBER = r"(?:0|[1-9]\d{0,19})"
HEXADECIMAL = r"(?:[0-9A-Fa-f]{2})+"
STAMP = r"(?:0|[1-9]\d{0,19})@[0-9a-f]{12}"
# The forms of words. Those of the name service are not looked at, and the program tells their faults.
WORDS = {
    "H": f"({HOUSE})",
    "M": f"({HOUSE})",
    "H..": f"((?: {HOUSE})*)",
    "D": r"([1-9]\d{0,9})",
    "N": r"([1-9]\d{0,19})",
    "TIME": f"({NUMBER})",
    "NODE": r"([0-9A-Fa-f]{12})",
    "S": r"([^ /]{1,254})",
    "NAME": r"(/\.:(?:/[^ /]{1,254})*)",
    "ATTR": r"([A-Za-z0-9_]{1,31})",
    "VALUE": f"({HEXADECIMAL})",
    "OCTETS": f"({HEXADECIMAL})",
    "C": "(low|high)",
    "WHAT": "(msg|house)",
    "R..": f"((?: s?{HOUSE})*)",
}
STOP = re.compile(f" *stop +({HOUSE}) +[1-4] +(?:keep|drop|torn) +([^ ].*)")
# The walk of a name follows so many links.
MOST_LINKS = 64
# The comment on a script's first line that names its form, and the commands that one form alone has.
NAMED = re.compile(rb"# \./cdsreplay ([^<\n]+) <")
OF_ONE_FORM = re.compile(rb"^ *(%s) " % b"|".join(it.encode() for it in JOURNAL | INQUIRE), re.M)


def line_of(command: str) -> re.Pattern[str]:
    """The form of a command's line."""
    words = COMMANDS[command].split()
    return re.compile(command + "".join(("" if it in LISTS else " ") + WORDS.get(it, r"([^ ]+)") for it in words))


def place_of(command: str) -> tuple[int | None, int | None]:
    """The places of the house and of the directory among a command's words."""
    forms = COMMANDS[command].split()
    house, directory = (next((at for at, it in enumerate(forms) if it in wanted), None) for wanted in ("HM", "D"))
    return house, directory


# Those that can be a line of their own, or stand in one after `stop`.
PLAIN = [it for it in COMMANDS if it != "stop"]
PLACES = {it: place_of(it) for it in PLAIN}
LINES = {it: line_of(it) for it in PLAIN}


def words_of(script: bytes) -> list[str]:
    """The words of the form that answers a script: its first line names them, or a command that one form alone has."""
    if named := NAMED.match(script):
        return named[1].decode().split()
    found = OF_ONE_FORM.search(script)
    return ["run"] if not found else ["journal"] if found[1].decode() in JOURNAL else ["inquire"]
