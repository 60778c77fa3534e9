"""The usual slips at each kind of word. Each answers what to do, and the word to write, or None where that is not
known."""

from __future__ import annotations

import difflib
import re
from collections.abc import Callable

from cds.commands import STOPPED
from speaking import numbers, texts
from speaking.language import GREATEST
from speaking.numbers import Slip
from speaking.texts import UUID

PROTOCOLS = {
    "tcp": "ncacn_ip_tcp",
    "udp": "ncadg_ip_udp",
    "ncacn_ip_udp": "ncadg_ip_udp",
    "ncadg_ip_tcp": "ncacn_ip_tcp",
}
CHOICES = {
    "C": ("low", "high"), "WHAT": ("msg", "house"), "W": ("keep", "drop", "torn"),
    "KIND": ("all", "default", "byif", "bymbr", "byboth"), "VERS": ("all", "compatible", "exact", "major_only", "upto"),
    "COMMAND": STOPPED,
}  # fmt: skip
LIKE = {
    "message": "msg",
    "messages": "msg",
    "image": "house",
    "medium": "high",
    "any": "low",
    "all": "low",
    "major": "major_only",
}


def node(word: str, words: list[str]) -> Slip:
    """A node identifier."""
    digits = texts.node(word)
    if digits:
        return "A node is 12 digits, without colons, dashes or dots.", digits
    if not words[1].isdecimal() and texts.node(words[1]):
        return "The number of the house comes first, and its node after it.", None
    if re.fullmatch(r"\d+\.\d+\.\d+\.\d+", word):
        return "A node is the address of the network card (MAC), 12 hexadecimal digits, and not an IP address.", None
    if texts.is_hex(word) and len(word) < 12:
        return f"A node has 12 digits, and here are {len(word)}; zeros in front count.", word.zfill(12).lower()
    if texts.is_hex(word):
        return f"A node has 12 digits, and here are {len(word)}.", None
    said = "Write the address of the host's network card (MAC) in 12 hexadecimal digits; any 12 will do"
    return f"{said}, if each house has its own.", None


def simple(word: str, words: list[str]) -> Slip:
    """A simple name."""
    name = texts.full_name(word)
    if len(word) > 254:
        return "A simple name has at most 254 letters.", None
    parts = name.split("/")[2:] if name and "/" in word else []
    if len(parts) == 1:
        return "Here goes the entry's own name, without the path; its directory is the number before it.", parts[0]
    if len(parts) > 1:
        above = "/".join(["/.:", *parts[:-1]])
        return (
            f"Here goes the entry's own name, `{parts[-1]}`. The number before it is that of its directory,"
            f" {above[:80]}.",
            None,
        )
    return "A simple name has no `/`.", None


def name(word: str, words: list[str]) -> Slip:
    """A full name."""
    better = texts.full_name(word)
    if len(word) > 1023:
        return "A full name has at most 1,023 letters.", None
    if any(len(part) > 254 for part in word.split("/")):
        return "Each simple name of a full name has at most 254 letters.", None
    if not better:
        return "A full name is `/.:` and simple names, each after a `/`.", None
    if word.startswith("/..."):
        return "A script has one cell: its names begin with `/.:`, and have no cell name.", better
    if word.startswith("/.:"):
        return "A full name has a simple name after each `/`, and does not end in one.", better
    return "Here goes a full name, which begins with `/.:/`.", better


def attribute(word: str, words: list[str]) -> Slip:
    """The name of an attribute."""
    if re.fullmatch(r"[\d.]+", word):
        return "Write the attribute's name, as CDS_Class, and not its object identifier.", None
    if len(word) > 31:
        return f"The name of an attribute has at most 31 letters, and here are {len(word)}.", None
    if texts.full_name(word) and "/" in word:
        return "Here goes the name of an attribute, as CDS_Class.", None
    better = re.sub("[^A-Za-z0-9_]", "_", word.strip("\"',"))
    return "The name of an attribute has letters, digits and `_` alone.", better if better.strip("_") else None


def value(word: str, words: list[str]) -> Slip:
    """A value."""
    if len(word) > 2048:
        return "A value has at most 1,024 octets, which are 2,048 digits.", None
    bare = word.strip("\"'")
    if bare != word:
        said = (
            "A value is hexadecimal in a script, two digits an octet. tools/write and tools/console take text in"
            " quotes."
        )
        return said, texts.value(bare)
    if re.fullmatch(r"0[xX]([0-9A-Fa-f]{2})+", word):
        return "Hexadecimal digits have no `0x` in front.", word[2:].lower()
    if re.fullmatch(r"[0-9A-Fa-f]{2}([:-][0-9A-Fa-f]{2})+", word):
        return "Octets have nothing between them.", re.sub("[:-]", "", word)
    if texts.is_hex(word):
        return f"Each octet has two digits, and here are {len(word)}.", "0" + word if len(word) == 1 else None
    if not bare:
        return "A value has at least one octet.", None
    return (
        f"A value is hexadecimal, two digits an octet. If the text {bare[:40]} is meant (`printf {bare[:40]} | xxd"
        " -p`):",
        texts.value(bare),
    )


def octets(word: str, words: list[str]) -> Slip:
    """Octets of a message."""
    if re.fullmatch(r"0[xX]([0-9A-Fa-f]{2})+", word):
        return "Hexadecimal digits have no `0x` in front.", word[2:].lower()
    if texts.is_hex(word):
        return f"Each octet has two digits, and here are {len(word)}: one is missing, or one too many.", None
    return "Octets are hexadecimal digits, two an octet, as `octets msg N` prints them.", None


def chosen(kind: str) -> Callable[[str, list[str]], Slip]:
    """The slips at a word out of a few."""

    def choice(word: str, words: list[str]) -> Slip:
        few = CHOICES[kind]
        said = "Write " + ", ".join(few[:-1]) + f" or {few[-1]} here, in small letters."
        if kind == "C" and word.startswith("/"):
            return "The confidence comes before the name: `low` asks the house, `high` the master.", f"low {word}"
        bare = word.lower().strip("\"',")
        better = bare if bare in few else LIKE.get(bare) if LIKE.get(bare) in few else None
        near = difflib.get_close_matches(word.lower(), few, 1, 0.7)
        return said, better or (near[0] if near and kind != "COMMAND" else None)

    return choice


def interface(word: str, words: list[str]) -> Slip:
    """An interface."""
    found = re.fullmatch(rf"\{{?({UUID})\}}?(?:[:,vV ]+[vV]?(\d+)(?:[.,](\d+))?)?", word)
    if found and found.group(2) is None:
        return "An interface has its version too, after a colon, as `:1.0`.", f"{found.group(1)}:1.0"
    if found and max(int(found.group(2)), int(found.group(3) or 0)) > 65535:
        return "The greatest number of a version is 65,535.", None
    if found:
        said = "An interface is UUID:MAJOR.MINOR, with a colon and a point, and numbers without leading zeros."
        return said, f"{found.group(1)}:{int(found.group(2))}.{int(found.group(3) or 0)}"
    if word in ("-", "default", "all", "*"):
        return f"`{words[0]}` wants an interface here, as 00000000-0000-0000-0000-000000000000:1.0.", None
    if re.fullmatch(r"[0-9A-Fa-f]{32}", word.partition(":")[0]):
        digits, _, version = word.partition(":")
        cut = [digits[at:to] for at, to in ((0, 8), (8, 12), (12, 16), (16, 20), (20, 32))]
        return "A UUID has hyphens.", "-".join(cut) + ":" + (version or "1.0")
    return "An interface is its UUID with hyphens, a colon, and its version, as `:1.0`.", None


def bindings(word: str, words: list[str]) -> Slip:
    """String bindings."""
    if re.match(rf"{UUID}@", word):
        return "A binding has no object here: objects go into the next word.", word.partition("@")[2]
    if word.endswith(",") or ",," in word or word.startswith(","):
        return "Commas go between two bindings, and nowhere else.", ",".join(part for part in word.split(",") if part)
    parts = word.split(",")
    known = [part.partition(":") for part in parts]
    better = ",".join(
        PROTOCOLS.get(sequence.lower(), sequence.lower()) + colon + rest for sequence, colon, rest in known
    )
    if any(not re.fullmatch(r"ncacn_ip_tcp|ncadg_ip_udp", it[0]) for it in known) and re.match("ncac|ncad", better):
        return "The protocol sequences are `ncacn_ip_tcp` and `ncadg_ip_udp`, in small letters.", (
            better if ":" in better else None
        )
    if any(not rest for _, _, rest in known):
        return (
            "A binding is the protocol sequence, a colon and the host's address, as `ncacn_ip_tcp:10.0.0.1[1025]`.",
            None,
        )
    return (
        "A binding is as `ncacn_ip_tcp:10.0.0.1[1025]`: an IP address in four numbers, and a port in brackets, or"
        " none.",
        None,
    )


def objects(word: str, words: list[str]) -> Slip:
    """UUIDs of objects."""
    if re.fullmatch("[0-]+", word):
        return "The nil UUID is no object; `-` means none.", "-"
    if word.endswith(",") or word.startswith(",") or ",," in word:
        return "Commas go between two UUIDs, and nowhere else.", ",".join(part for part in word.split(",") if part)
    if "-" in word.split(","):
        return "`-` goes alone, for no object.", "-"
    if word.lower() in ("none", "nil", "null", "0"):
        return "`-` means no object.", "-"
    return "An object is a UUID with hyphens; `-` means none.", None


def protocols(word: str, words: list[str]) -> Slip:
    """Protocol sequences."""
    parts = [PROTOCOLS.get(part.lower(), part.lower()) for part in word.split(",") if part]
    good = [part for at, part in enumerate(parts) if part in PROTOCOLS.values() and part not in parts[:at]]
    said = "Write `ncacn_ip_tcp`, `ncadg_ip_udp`, or both with a comma between them, each once."
    return said, ",".join(good) or "ncacn_ip_tcp,ncadg_ip_udp"


def member(word: str, words: list[str]) -> Slip:
    """The member of the elements that `proflist` lists."""
    if words[4] in ("bymbr", "byboth"):
        return f"With `{words[4]}` the full name of the member goes here.", (
            texts.full_name(word) if word != "-" else None
        )
    return f"With `{words[4]}` no member is named: write `-`.", "-"


def interface_or_none(word: str, words: list[str]) -> Slip:
    """IFN, of `unexport` and `proflist`."""
    if words[0] == "proflist" and words[4] not in ("byif", "byboth"):
        return f"With `{words[4]}` no interface is named: write `-`.", "-"
    if words[0] == "proflist" and word in ("-", "default"):
        return f"With `{words[4]}` an interface goes here.", None
    if word in ("default", "none", "all"):
        return "`-` means no interface.", "-"
    return interface(word, words)


def versions(word: str, words: list[str]) -> Slip:
    """VERS of `proflist`."""
    if words[4] not in ("byif", "byboth"):
        return f"With `{words[4]}` no versions are compared: write `all`.", "all"
    return chosen("VERS")(word, words)


KINDS = {
    "NODE": node, "S": simple, "NAME": name, "ATTR": attribute, "VALUE": value, "OCTETS": octets, "IF": interface,
    "IFD": interface, "IFN": interface_or_none, "BS": bindings, "OS": objects, "OBJ": objects, "PS": protocols,
    "MBR": member, "VERS": versions,
}  # fmt: skip


def word_slip(kind: str, at: int, words: list[str]) -> tuple[str, list[str] | None]:
    """What to do about the word at a place, counted from 0, where a kind is wanted; and the words of the line, mended,
    or None."""
    word = words[at]
    if word.startswith("#"):
        said = "A remark needs a line of its own: a `#` further on begins no comment."
        return said, words[:at] if at > 1 or len(words[:at]) > 1 else None
    if word.startswith("=>"):
        return "What follows `=>` on the pages is the answer, and no part of the line.", words[:at]
    if kind in GREATEST:
        said, better = numbers.slip(kind, word, words)
    else:
        said, better = (KINDS[kind] if kind in KINDS else chosen(kind))(word, words)
    return said, None if better is None else [*words[:at], *better.split(" "), *words[at + 1 :]]
