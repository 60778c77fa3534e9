"""An answer line as an object of JSON, and back: of a script (docs/SCRIPT.md, docs/FORMS.md) and of a house
(docs/LINES.md)."""

from __future__ import annotations

import dataclasses
import re
from collections.abc import Callable
from typing import Any

from cds.commands import HEXADECIMAL, NUMBER, STAMP
from cds.records import KINDS

# Each form of an answer after its line's number: its kind, and then words as they are, or `{FIELD:TYPE}`. A type with
# `..` is any number of words, and one with `|` is one of these words. After `ok` and `refused` the messages may follow
# that were posted.
FORMS = (
    "ok",
    "ok stopped {stopped:before|after}",
    "ok {result:complete} {stamp:STAMP}",
    "ok {result:taken|noreplica|foreign}",
    "ok {result:late|early} {epoch:NUMBER} {held:NUMBER}",
    "ok {result:stale} {stamp:STAMP} {running:STAMP-}",
    "ok epoch {epoch:NUMBER} allupto {allupto:STAMP-} skulk {skulk:STAMP-} entries {entries:NUMBER}"
    " members{members:MEMBER..}",
    "ok {stamp:STAMP}",
    "ok {number:NUMBER} {stamp:STAMP}",
    "ok {number:NUMBER}{values:HEX..}",
    "ok {name:NAME}",
    f"ok {{message:{'|'.join(KINDS)}}} {{length:NUMBER}}",
    "refused {reason:WORD}{numbers:NUMBER..}",
    "refused {reason:Restored} {stamp:STAMP}",
    "fault {reason:WORD} {place:NUMBER}",
    "end",
    "end {number:NUMBER}",
    "binding {binding:WORD}",
    "batch {number:NUMBER}",
    "member {name:NAME}",
    "interface {interface:WORD}",
    "object {object:WORD}",
    "element {priority:NUMBER} {interface:WORD} {name:NAME} {note:HEX-}",
    "dump epoch {epoch:NUMBER} allupto {allupto:STAMP-} members{members:MEMBER..}",
    "entry {name:WORD} {entry:object|link|child} {birth:STAMP} {death:STAMP-}",
    "attr {attribute:WORD} {cleared:STAMP-}",
    "value {value:HEX} {state:present|absent} {since:STAMP}",
    # those of a house alone
    "new",
    "house {house:NUMBER} {node:WORD}",
    "last {command:TEXT}",
    "more {house:NUMBER} {octets:HEX}",
    "post {house:NUMBER} {octets:HEX}",
    "object",
    "link {name:NAME}",
    "child {directory:NUMBER} {master:NUMBER}{others:NUMBER..}",
    "attr {attribute:WORD}",
    "value {value:HEX}",
    "directory {directory:NUMBER} {state:held|gone} {epoch:NUMBER}",
    "octets {octets:HEX}",
)
FIELD = re.compile(r"\{(\w+):([^}]+)\}")
Object = dict[str, Any]


class NoAnswer(Exception):
    """A line is no answer, or an object is none of one."""


@dataclasses.dataclass(frozen=True)
class Type:
    """A type of word: its form, what it is in an object, and how that is written."""

    form: str
    read: Callable[[str], Any] = str
    write: Callable[[Any], str] = str


def stamp(text: str) -> Object:
    """A stamp as a text, and its parts."""
    time, _, node = text.partition("@")
    return {"text": text, "time": int(time), "node": node}


def stamp_text(found: Object) -> str:
    """A stamp as an answer has it."""
    return f"{found['time']}@{found['node']}"


def member(text: str) -> Object:
    """A member of a list of houses: since which epoch it is one, and whether it is the master, secondary or
    read-only."""
    house, since, role = text.split(":")
    return {"house": int(house), "since": int(since), "role": role}


def member_text(found: Object) -> str:
    """A member as an answer has it."""
    return f"{found['house']}:{found['since']}:{found['role']}"


TYPES = {
    "NUMBER": Type(NUMBER, int),
    "STAMP": Type(STAMP, stamp, stamp_text),
    "HEX": Type(HEXADECIMAL),
    "MEMBER": Type(rf"{NUMBER}:{NUMBER}:[msr]", member, member_text),
    "NAME": Type(r"/\.:\S*"),
    "WORD": Type(r"\S+"),
    "TEXT": Type(r".+"),
}
# What is written if there is none, and is null in an object.
NOTHING = {"running": "none", "allupto": "none", "skulk": "none", "cleared": "none", "death": "live", "note": "-"}
POSTED = "{posted:NUMBER..}"


def parts(name: str, kind: str) -> tuple[str, Callable[[str], Any], Callable[[Any], str]]:
    """The form of a field, how it is read, and how it is written."""
    if kind.endswith(".."):
        of = TYPES[kind[:-2]]
        form = rf"(?P<{name}>(?: (?:{of.form}))*)"
        return (
            form,
            lambda text: [of.read(it) for it in text.split()],
            lambda found: "".join(f" {of.write(it)}" for it in found),
        )
    if kind.endswith("-"):
        of, nothing = TYPES[kind[:-1]], NOTHING[name]
        return (
            rf"(?P<{name}>{nothing}|{of.form})",
            lambda text: None if text == nothing else of.read(text),
            lambda it: nothing if it is None else of.write(it),
        )
    of = TYPES.get(kind) or Type(kind)
    return rf"(?P<{name}>{of.form})", of.read, of.write


class Form:
    """A form of an answer: it reads a line, and writes one."""

    def __init__(self, text: str) -> None:
        self.kind, self.text = text.split()[0], text
        self.fields = {name: parts(name, kind) for name, kind in FIELD.findall(text)}
        posts = rf"(?: posted{parts('posted', 'NUMBER..')[0]})?" if self.kind in ("ok", "refused") else ""
        self.line = re.compile(FIELD.sub(lambda it: self.fields[it[1]][0], text) + posts)

    def read(self, text: str) -> Object | None:
        """The fields of an answer without its line's number, or None if it has another form."""
        found = self.line.fullmatch(text)
        if not found:
            return None
        fields = {name: read(found[name]) for name, (_, read, _) in self.fields.items()}
        posted = found.groupdict().get("posted")
        return {"kind": self.kind, **fields, **({"posted": [int(it) for it in posted.split()]} if posted else {})}

    def is_of(self, answer: Object) -> bool:
        """Whether an object has these fields, and words that the form has."""
        if answer.get("kind") != self.kind or set(answer) - {"line", "kind", "posted"} != set(self.fields):
            return False
        return all(re.fullmatch(form, write(answer[name])) for name, (form, _, write) in self.fields.items())

    def write(self, answer: Object) -> str:
        """The answer of an object."""
        posted = answer.get("posted")
        text = FIELD.sub(lambda it: self.fields[it[1]][2](answer[it[1]]), self.text)
        return text + (" posted " + " ".join(map(str, posted)) if posted else "")


READERS = tuple(Form(it) for it in FORMS)


def object_of(line: str) -> Object:
    """What an answer line says."""
    number, _, text = line.partition(" ")
    for form in READERS if re.fullmatch(NUMBER, number) else ():
        if (found := form.read(text)) is not None:
            return {"line": int(number), **found}
    raise NoAnswer(line)


def line_of(answer: Object) -> str:
    """The answer line that says this."""
    for form in READERS:
        if form.is_of(answer):
            return f"{answer['line']} {form.write(answer)}"
    raise NoAnswer(str(answer))
