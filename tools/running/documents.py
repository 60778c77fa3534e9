"""The examples of the documents: blocks and tables, whose forms the head of tools/cases has."""

from __future__ import annotations

import os
import re
from collections.abc import Iterator

from running.case_files import of_hex
from running.runs import ROOT, Mending, Run, open_octets, status_of

DOCUMENTS = ["README.md", "docs/GUIDE.md", "docs/SCRIPT.md", "docs/FORMS.md", "docs/FORMATS.md"]


class Excerpt:
    """Lines of a script of examples/ with their answers, which a document has in their order."""

    def __init__(self, name: str, file: str, pairs: list[tuple[str, str]]) -> None:
        self.name, self.file, self.pairs = name, file, pairs

    def fault(self, _: str) -> str | None:
        """Returns what differs, or None."""
        script, answers = (
            open_octets(f"{ROOT}/{self.file}").decode(),
            open_octets(f"{ROOT}/{self.file[:-4]}.out").decode(),
        )
        said: dict[int, str] = {}
        for line in answers.splitlines(keepends=True):
            number = int(line.split()[0])
            said[number] = said.get(number, "") + line
        known = iter([(line, said.get(number, "")) for number, line in enumerate(script.split("\n"), 1)])
        for line, answer in self.pairs:
            if not any(it == (line, answer) for it in known):
                return f"{self.file} has no such line there: {line!r}, with the answer {answer!r}"
        return None


def pairs_of(text: str) -> list[tuple[str, str]]:
    """Returns the lines of a script, each with the answer beside it."""
    pairs = []
    for line in text.split("\n")[:-1]:
        script, mark, answer = line.rpartition("=> ")
        if not mark:
            pairs.append((line, ""))
        elif script.strip():
            pairs.append((script.rstrip(), f"{answer}\n"))
        else:
            pairs[-1] = (pairs[-1][0], f"{pairs[-1][1]}{answer}\n")
    return pairs


def code(cell: str) -> list[str] | None:
    """Returns the words in a table's cell that are code, or None where it has other words between them."""
    found = re.findall(r"`([^`]*)`", cell)
    return found if found and not re.sub(r"`[^`]*`", "", cell).strip(" ,") else None


class Document:
    """The examples of a document, from its lines."""

    blocks: list[tuple[int, int, str, str]]
    tables: list[tuple[int, list[str], list[list[str]]]]

    def __init__(self, path: str) -> None:
        self.name = os.path.basename(path)[: -len(".md")]
        with open(f"{ROOT}/{path}", encoding="utf-8") as it:
            self.lines = it.read().split("\n")
        self.blocks, self.tables = [], []
        at = 0
        while at < len(self.lines):
            at = (
                self.block(at)
                if self.lines[at].startswith("```")
                else self.table(at)
                if self.lines[at].startswith("|")
                else at + 1
            )

    def block(self, at: int) -> int:
        end = self.lines.index("```", at + 1)
        self.blocks.append(
            (at + 1, end + 1, self.lines[at][3:], "".join(f"{line}\n" for line in self.lines[at + 1 : end]))
        )
        return end + 1

    def table(self, at: int) -> int:
        end = at
        while end < len(self.lines) and self.lines[end].startswith("|"):
            end += 1
        rows = [[cell.strip() for cell in line.strip("|").split("|")] for line in self.lines[at:end]]
        self.tables.append((at + 1, rows[0], rows[2:]))
        return end

    def runs(self) -> list[Run | Mending | Excerpt]:
        """Returns all examples, each script once."""
        return [*self.of_blocks(), *self.of_tables()]

    def place(self, line: int) -> str:
        return f"{self.name}, line {line}"

    def of_blocks(self) -> Iterator[Excerpt | Run | Mending]:
        for begin, _, kind, text in self.blocks:
            if kind.split()[:1] == ["replay"]:
                yield self.of_pairs(begin, kind.split()[1:], pairs_of(text))
        for (begin, end, kind, script), (other, _, _, answers) in zip(self.blocks, self.blocks[1:]):
            if other == end + 1 and kind == "script":
                yield Run(self.place(begin), ["run"], script.encode(), answers.encode(), status_of(answers.encode()))
            if other == end + 1 and kind.split()[:1] == ["mend"]:
                yield Mending(
                    self.place(begin), kind.split()[1:], script.encode(), answers.encode(), status_of(answers.encode())
                )
            asked = re.match(r"\./cdsreplay (\w+) <(examples/\S+)\n\Z", script)
            if asked and not answers.startswith("./") and self.is_next(end, other):
                with open(f"{ROOT}/{asked.group(2)}", "rb") as it:
                    yield Run(
                        self.place(begin), [asked.group(1)], it.read(), answers.encode(), status_of(answers.encode())
                    )

    def of_pairs(self, at: int, names: list[str], pairs: list[tuple[str, str]]) -> Excerpt | Run:
        """Returns a script with the answers beside its lines, or looks for them in the script of that name."""
        if names and names[0] != "as":
            return Excerpt(self.place(at), names[0], pairs)
        script, answers = "".join(f"{line}\n" for line, _ in pairs), "".join(answers for _, answers in pairs).encode()
        return Run(self.place(at), names[1:] or ["run"], script.encode(), answers, status_of(answers))

    def is_next(self, line: int, other: int) -> bool:
        """Whether no table is between these lines."""
        return not any(line <= at < other for at, _, _ in self.tables)

    def of_tables(self) -> Iterator[Run]:
        for at, head, rows in self.tables:
            if head == ["line", "script", "answer"]:
                yield self.of_script(at, rows)
            elif head[0] == "line" and head[1].startswith("fault"):
                for row in rows:
                    yield from self.of_faults(
                        at, code(row[0]) or [], code(row[1]), code(head[1].removeprefix("fault").removeprefix(" in"))
                    )
            elif head == ["fault", "comes where", "place", "examples"]:
                for row in rows:
                    for example in row[3].split(";"):
                        lines, _, fault = example.rpartition(":")
                        yield from self.of_faults(
                            at, code(lines.replace("and", ",").replace("alone", "")) or [], code(fault)
                        )
            elif head == ["script", "output"]:
                yield from self.of_checks(at, rows)
            elif head == ["words", "output"]:
                for words, output in rows:
                    yield Run(
                        f"{self.place(at)}, {words}",
                        words.strip("`").split(),
                        b"",
                        f"{output.strip('`')}\n".encode(),
                        0,
                    )
            elif head == ["octets", "output"]:
                yield from self.of_towers(at, rows)
            elif head[0] == "octets" and head[1].startswith("output of "):
                yield from self.of_octets(at, (code(head[1][len("output of ") :]) or [""])[0].split(), rows)
            elif head == ["lines", "octets, and the status"]:
                yield from self.of_texts(at, rows)

    def of_script(self, at: int, rows: list[list[str]]) -> Run:
        """Returns a script whose lines have their numbers beside them; one that is left out is a comment."""
        lines, answers = {}, []
        for number, line, answer in rows:
            lines[int(number)] = line.strip("`")
            answers += [answer.strip("`")] if answer else []
        script = "".join(f"{lines.get(number, '#')}\n" for number in range(1, max(lines) + 1))
        output = "".join(f"{it}\n" for it in answers).encode()
        return Run(self.place(at), ["run"], script.encode(), output, status_of(output))

    def of_faults(
        self, at: int, lines: list[str], fault: list[str] | None, form: list[str] | None = None
    ) -> Iterator[Run]:
        for line in lines if fault else []:
            yield Run(
                f"{self.place(at)}, `{line}`",
                (form or ["run"])[0].split(),
                f"{line}\n".encode(),
                f"{fault[0]}\n".encode() if fault else b"",
                3,
            )

    def of_checks(self, at: int, rows: list[list[str]]) -> Iterator[Run]:
        """Returns what `check` makes of scripts: of a file of examples/, or of lines."""
        for script, output in rows:
            lines, said = code(script), f"{output.strip('`')}\n".encode()
            if lines and lines[0].startswith("examples/"):
                yield Run(
                    f"{self.place(at)}, {script}",
                    ["check"],
                    open_octets(f"{ROOT}/{lines[0]}"),
                    said,
                    status_of(said),
                )
            elif lines or script == "nothing":
                text = "".join(f"{line}\n" for line in lines or [])
                yield Run(f"{self.place(at)}, {script}", ["check"], text.encode(), said, status_of(said))

    def of_towers(self, at: int, rows: list[list[str]]) -> Iterator[Run]:
        for one, other in rows:
            octets, output = code(one), code(other.replace("then", ""))
            if octets and output:
                text = "".join(f"{line}\n" for line in output).encode()
                yield Run(
                    f"{self.place(at)}, `{octets[0]}`", ["towers"], of_hex(" ".join(octets)), text, status_of(text)
                )

    def of_octets(self, at: int, words: list[str], rows: list[list[str]]) -> Iterator[Run]:
        for one, other in rows:
            octets, output = code(one) if one != "nothing" else [""], code(other)
            if octets and output:
                text = f"{output[0]}\n".encode()
                yield Run(f"{self.place(at)}, `{octets[0]}`", words, of_hex(" ".join(octets)), text, status_of(text))

    def of_texts(self, at: int, rows: list[list[str]]) -> Iterator[Run]:
        for one, other in rows:
            lines, (octets, _, status) = code(one), other.rpartition(",")
            output = code(octets)
            if lines and output:
                text = "".join(f"{line}\n" for line in lines).encode()
                yield Run(f"{self.place(at)}, `{lines[0]}`", ["untowers"], text, of_hex(" ".join(output)), int(status))


def of_documents() -> tuple[list[tuple[str, Run | Excerpt]], list[str]]:
    """Returns the examples of all documents, each with its document's name, and which documents have none."""
    runs: list[tuple[str, Run | Excerpt]] = []
    faults: list[str] = []
    for path in DOCUMENTS:
        document = Document(path)
        found = list(document.runs())
        if not found:
            faults.append(f"{path} has no example")
        runs += [(document.name, it) for it in found]
    return runs, faults
