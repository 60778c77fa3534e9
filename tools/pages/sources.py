"""What the sources of the crates say, read as text: functions and whom they call by name, planted bugs, tests,
definitions."""

from __future__ import annotations

import functools
import glob
import os
import re

ROOT = os.path.dirname(os.path.dirname(os.path.dirname(os.path.realpath(__file__))))
CASES = ("crates/cdsreplay/cases", "crates/cdsmend/cases")
# Crates whose code is no part of the program: its tests.
TESTS = ("disk_tests", "service_tests", "house_tests", "line_tests", "net_tests", "session_tests", "run_tests")
# Programs that show how crates are used; no rule is theirs.
EXAMPLES = ("two_houses",)


@functools.cache
def text_of(file: str) -> str:
    """The text of a file, given from the root on; empty where there is none."""
    path = f"{ROOT}/{file}"
    if not os.path.isfile(path):
        return ""
    with open(path, encoding="utf-8") as it:
        return it.read()


@functools.cache
def stood_on() -> dict[str, set[str]]:
    """The crates of crates.txt, each with those of the repository that it stands on, itself included."""
    lines = [it.split(":") for it in text_of("crates.txt").splitlines() if it.strip() and not it.startswith("#")]
    names = {first.split()[0] for first, _ in lines}
    return {first.split()[0]: {first.split()[0], *(names & set(rest.split()))} for first, rest in lines}


def files_of(crate: str, folder: str, ending: str) -> list[str]:
    """The files of a crate's folder, from the root on."""
    found = glob.glob(f"{ROOT}/crates/{crate}/{folder}/**/*.{ending}", recursive=True)
    return sorted(os.path.relpath(it, ROOT) for it in found)


class Function:
    """A function: its crate, file, owner (the type of its `impl`, or its trait), name, parameters and body."""

    def __init__(
        self, crate: str, file: str, owner: str, trait: str, head: str, body: str, line: int, is_test: bool
    ) -> None:
        self.crate, self.file, self.owner, self.trait, self.line, self.is_test = (
            crate,
            file,
            owner,
            trait,
            line,
            is_test,
        )
        self.name = re.findall(r"\bfn (\w+)", head)[0]
        self.head, self.body = head, body
        inner = inside(head, head.index("(", head.index(f"fn {self.name}")))
        parameters = [it.strip() for it in split_at_commas(inner) if it.strip()]
        self.is_method = (
            bool(parameters) and re.fullmatch(r"&?(?:'\w+ )?(?:mut )?self(?:: .*)?", parameters[0]) is not None
        )
        self.arity = len(parameters) - self.is_method
        self.types = {
            it.split(":")[0].removeprefix("mut ").strip(): set(re.findall(r"\b[A-Z]\w*", it))
            for it in parameters
            if ":" in it
        }


def inside(text: str, at: int) -> str:
    """What stands between the bracket at a place and its partner."""
    depth, begin = 0, at + 1
    for place in range(at, len(text)):
        depth += (text[place] in "([{") - (text[place] in ")]}")
        if depth == 0:
            return text[begin:place]
    return text[begin:]


def split_at_commas(text: str) -> list[str]:
    """The parts of a text between commas that no bracket encloses."""
    parts, depth, last = [], 0, 0
    for at, letter in enumerate(text):
        depth += (letter in "([{<") - (letter in ")]}" or letter == ">" and text[at - 1] not in "-=")
        if letter == "," and depth == 0:
            parts.append(text[last:at])
            last = at + 1
    return [*parts, text[last:]]


def bare(text: str) -> str:
    """A source without comments and without what its strings say, each in as many lines as it had."""
    text = re.sub(r"//[^\n]*", "", text)
    return re.sub(r'b?"(?:[^"\\]|\\.)*"', lambda it: '""' + "\n" * it.group().count("\n"), text, flags=re.S)


def functions_of(crate: str, file: str) -> list[Function]:
    """The functions of a file. The layout of `rt fmt` is taken for granted: a body ends at the indentation of its
    head."""
    lines = bare(text_of(file)).split("\n")
    found, owner, trait, is_test, at = [], "", "", False, 0
    while at < len(lines):
        line = lines[at].strip()
        if re.match(r"(?:pub(?:\([^)]*\))? )?(?:impl|trait)\b", lines[at]):
            said = lines[at]
            while "{" not in said and at + 1 < len(lines):
                at += 1
                said += " " + lines[at].strip()
            owner, trait = owner_of(said)
        elif lines[at] == "}":
            owner, trait = "", ""
        head = re.match(r"( *)(?:pub(?:\([^)]*\))? )?(?:const )?(?:extern \S+ )?fn \w+", lines[at])
        if head:
            end = end_of(lines, at, head.group(1))
            signature, body = parted(lines[at : end + 1], head.group(1))
            found.append(Function(crate, file, owner, trait, signature, body, at + 1, is_test))
            is_test, at = False, end
        elif line:
            is_test = line.startswith("#[") and (is_test or line == "#[test]")
        at += 1
    return found


def parted(lines: list[str], indent: str) -> tuple[str, str]:
    """The head of a function, and its body. Behind clauses the body begins at a bracket of its own."""
    own = [at for at, text in enumerate(lines) if text == indent + "{"]
    if own:
        return "\n".join(lines[: own[0]]), "\n".join(lines[own[0] :])
    last = next((at for at, text in enumerate(lines) if text.endswith(("{", "}", ";"))), 0)
    return "\n".join(lines[: last + 1]), "\n".join(lines[last + 1 :] or lines[:1])


def owner_of(said: str) -> tuple[str, str]:
    """The type of an `impl`, or the trait, and the trait that is implemented, if any."""
    said = said.split("{")[0].split(" where ")[0]
    said = re.sub(r"<[^<>]*(?:<[^<>]*>[^<>]*)*>", "", said)
    if re.match(r"(?:pub(?:\([^)]*\))? )?trait\b", said):
        return re.findall(r"trait (\w+)", said)[0], ""
    said = said.split("impl", 1)[1]
    first, mark, second = said.partition(" for ")
    words = re.findall(r"\w+", (second if mark else first))
    return (words[-1] if words else ""), (re.findall(r"\w+", first)[-1] if mark else "")


def end_of(lines: list[str], at: int, indent: str) -> int:
    """The last line of the function whose head begins at a line."""
    for place in range(at, len(lines)):
        text = lines[place]
        is_whole = place == at and (text.endswith(";") or re.search(r"\{.*\}$", text))
        if text == indent + "}" or is_whole or place > at and text.startswith(indent + ")") and text.endswith(";"):
            return place
        if place > at and re.match(rf"{indent}(?:pub |fn |impl |\}})", text):
            return place - 1
    return len(lines) - 1


@functools.cache
def functions() -> list[Function]:
    """All functions of all crates."""
    return [it for crate in stood_on() for file in files_of(crate, "src", "rt") for it in functions_of(crate, file)]


@functools.cache
def fields() -> dict[str, set[str]]:
    """Of each name of a field the types that such fields have, in any crate."""
    found: dict[str, set[str]] = {}
    for crate in stood_on():
        for file in files_of(crate, "src", "rt"):
            for name, kind in re.findall(r"(?m)^    (?:pub(?:\([^)]*\))? )?(\w+): ([^,\n{]+),", bare(text_of(file))):
                found.setdefault(name, set()).update(re.findall(r"\b[A-Z]\w*", kind))
    return found


@functools.cache
def traits() -> set[str]:
    """The traits of the repository, by their names."""
    return {it.owner for it in functions() if re.search(rf"trait {it.owner}\b", text_of(it.file))} - {""}


class Calls:
    """Which functions a body can call, by names, numbers of arguments, and types where the text tells them."""

    by_name: dict[str, list[Function]]

    def __init__(self) -> None:
        self.by_name = {}
        for it in functions():
            self.by_name.setdefault(it.name, []).append(it)

    def of(self, caller: Function) -> set[Function]:
        """The functions that a function can call."""
        found, below = set(), stood_on()[caller.crate]
        for match in re.finditer(r"(\w+)(?=\s*(?:::<[^;(]*?>)?\()|(?<=::)(\w+)\b|\b([a-z_]\w*)\b", caller.body):
            name = match.group(1) or match.group(2) or match.group(3)
            if name in self.by_name:
                found.update(self.chosen(caller, below, name, match))
        return found

    def chosen(self, caller: Function, below: set[str], name: str, match: re.Match[str]) -> list[Function]:
        """The functions of a name that may be meant where it stands."""
        body, at = caller.body, match.start()
        behind = body[match.end() :].lstrip()
        is_call = behind.startswith(("(", "::<"))
        arity = (
            len([it for it in split_at_commas(inside(behind, behind.index("("))) if it.strip()])
            if is_call and "(" in behind
            else None
        )
        front = body[:at].rstrip()
        several = [it for it in self.by_name[name] if it.crate in below or it.trait in traits()]
        if front.endswith("."):
            several = [it for it in several if it.is_method and arity in (None, it.arity)]
            owners = self.receivers(caller, front[:-1].rstrip())
            return self.narrowed(several, owners)
        if front.endswith("::"):
            named = re.search(r"(\w+)(?:::<[^;]*>)?::$", front)
            owner = named.group(1) if named else ""
            owner = caller.owner if owner == "Self" else owner
            if len(owner) == 1:
                return [it for it in several if it.owner in traits()]
            fit = [it for it in several if it.owner == owner or it.trait == owner]
            return fit or ([it for it in several if not it.owner] if owner[:1].islower() else [])
        if not is_call and not re.search(r"[(,]$", front):
            return []
        same = [it for it in several if not it.owner and arity in (None, it.arity)]
        return [it for it in same if it.file == caller.file] or same

    def receivers(self, caller: Function, front: str) -> set[str]:
        """The types that the receiver of a call may have, or none where the text does not tell."""
        if re.search(r"(?<![\w.])self$", front):
            return {caller.owner}
        last = re.search(r"(?<![\w.])(\w+)$", front)
        if last and last.group(1) in caller.types:
            return caller.types[last.group(1)]
        if last and len(set(re.findall(rf"::(\w+)\({last.group(1)}\) =>", caller.body))) > 1:
            return set()
        if last:
            made = re.search(rf"\b{last.group(1)}(?:: ([A-Z]\w*))?\)? = (?:\w+::)*([A-Z]\w*)?", caller.body)
            named = last.group(1).replace("_", "").capitalize()
            return {it for it in (made.groups() if made else ()) if it} | {named}
        field = re.search(r"\.(\w+)(?:\[[^\]]*\])?$", front)
        return fields().get(field.group(1), set()) if field else set()

    def narrowed(self, several: list[Function], owners: set[str]) -> list[Function]:
        """Of several methods those of these types, or all where none is."""
        fit = [it for it in several if it.owner in owners or it.trait in owners]
        return fit or several


@functools.cache
def reached() -> set[Function]:
    """The functions that `run` of cell_replay and of mend_program, and `main` of a program, can come to. What
    implements a trait of the standard library is called in ways that no name tells, so of a crate of the program it
    counts as reached."""
    calls, known = Calls(), set()
    theirs = [it for it in functions() if it.crate not in TESTS]
    roots = (
        ("cell_replay", "run"),
        ("cdsreplay", "main"),
        ("mend_program", "run"),
        ("cdsmend", "main"),
        ("house_program", "run"),
        ("cdshouse", "main"),
        ("cdsexplain", "main"),
        ("cdsclerk", "main"),
        ("cds_c", "cds_run"),
        ("cds_c", "cds_abi"),
    )
    begin = [it for it in theirs if (it.crate, it.name) in roots]
    begin += [it for it in theirs if it.trait and it.trait not in traits()]
    while begin:
        it = begin.pop()
        if it in known or it.crate in TESTS or it.is_test:
            continue
        known.add(it)
        begin += calls.of(it)
        if it.owner in traits():
            begin += [other for other in calls.by_name[it.name] if other.trait == it.owner]
    return known


@functools.cache
def bugs() -> dict[tuple[str, str], tuple[list[str], list[str]]]:
    """The planted bugs, each with its file and the texts that it changes."""
    found = {}
    for crate in stood_on():
        for folder in ("must-fail", "plants"):
            for file in files_of(crate, folder, "edit"):
                text = text_of(file)
                found[crate, os.path.basename(file)[:-5]] = (
                    re.findall(r"(?m)^file: (\S+)", text),
                    re.findall(r"(?m)^old: (.*)", text),
                )
    return found


@functools.cache
def cases() -> list[str]:
    """The names of the cases."""
    return sorted(os.path.basename(it)[:-5] for folder in CASES for it in glob.glob(f"{ROOT}/{folder}/*.case"))


@functools.cache
def house_tests() -> set[str]:
    """The names of the tests of houses, and of the file of their cases."""
    texts = (text_of(os.path.relpath(it, ROOT)) for it in glob.glob(f"{ROOT}/tools/housing/*.py"))
    return {"house.case", *(name for text in texts for name in re.findall(r"(?m)^ +def (test_\w+)", text))}


@functools.cache
def tests() -> set[str]:
    """The names of the test functions."""
    return {it.name for it in functions() if it.is_test}
