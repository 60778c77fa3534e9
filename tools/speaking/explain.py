"""A fault in words: the line, the word, what it should be, and the usual slip."""

from __future__ import annotations

from collections.abc import Iterator

from cds.commands import COMMANDS, STOPPED
from speaking import language, lines, pages, slips

WIDEST = 160


class Explained:
    """A fault that is explained. `slip` says what to do, and `better` are lines to write in place of the faulty one."""

    should: list[str]
    better: list[str]

    def __init__(self, number: int, reason: str, place: int, line: bytes) -> None:
        self.number, self.reason, self.place, self.line = number, reason, place, line
        self.text = line.decode("utf-8", "replace")
        self.begin, self.end, self.should, self.slip, self.better = 0, len(self.text), [], "", []

    def marked(self) -> tuple[str, str]:
        """The line, and marks under what is meant."""
        text, begin, end = self.text.replace("\t", " ").replace("\r", " "), self.begin, max(self.end, self.begin + 1)
        if len(text) > WIDEST:
            cut = max(0, min(begin - 40, len(text) - WIDEST))
            text = (".." if cut else "") + text[cut : cut + WIDEST] + (".." if cut + WIDEST < len(text) else "")
            begin, end = (it - cut + (2 if cut else 0) for it in (begin, end))
        return f"    {text}", "    " + " " * begin + "^" * min(end - begin, WIDEST)

    def lines(self) -> Iterator[str]:
        """All that there is to say, line by line."""
        yield f"line {self.number}: {self.reason} {self.place}: {language.FAULTS[self.reason]}"
        yield from self.marked()
        yield from self.should
        yield self.slip
        for line in self.better:
            yield f"    {line}"


def spans(text: str) -> list[tuple[str, int, int]]:
    """The words of a line, each with its begin and end."""
    found, at = [], 0
    for word in text.split(" "):
        if word:
            found.append((word, at, at + len(word)))
        at += len(word) + 1
    return found


def should_be(kind: str) -> list[str]:
    """The row of the words of SCRIPT.md for a kind."""
    what, form = pages.words().get(kind, ("", ""))
    return [f"{kind.rstrip('.')}: {what}: {form}"] if form else []


def explain(line: bytes, number: int, reason: str, place: int, form: str = "run") -> Explained:
    """Explains a fault of a line, which is given without its end."""
    it = Explained(number, reason, place, line)
    if reason in ("LineTooLong", "NotAscii", "NoLineEnd", "TooManyLines"):
        octets(it)
        return it
    found = spans(it.text)
    words = [word for word, _, _ in found]
    if reason == "UnknownCommand":
        it.begin, it.end = found[0][1:]
        it.slip, it.better = lines.unknown(words, form, it.text)
    elif reason == "WrongCount":
        count(it, found, words)
    else:
        _, it.begin, it.end = found[place - 1]
        kinds = language.kinds(words)
        kind = kinds[place - 2] if place - 2 < len(kinds) else ""
        it.should = should_be(kind)
        said, better = slips.word_slip(kind, place - 1, words)
        it.slip, it.better = said, [" ".join(better)] if better else []
    return it


def octets(it: Explained) -> None:
    """A fault of the octets of a line."""
    it.begin, it.end = it.place - 1, it.place
    if it.reason == "NotAscii":
        it.begin = len(it.line[: it.place - 1].decode("utf-8", "replace"))
        it.end = it.begin + 1
        it.slip, it.better = lines.octet(it.line, it.place)
    elif it.reason == "NoLineEnd":
        it.slip = "Press Enter after the last line. `echo >>FILE` ends it, too."
    elif it.reason == "LineTooLong":
        it.slip = "A long remark goes on several lines, each with `#`; no command needs so many octets."
    else:
        it.slip = "Cut the script into several."


def count(it: Explained, found: list[tuple[str, int, int]], words: list[str]) -> None:
    """A line with too few or too many words: marks the surplus, or the end."""
    inner = words[4:] if words[0] == "stop" and len(words) > 4 and words[4] in STOPPED else words
    least, most = language.expects(inner[0])
    first = len(words) - len(inner) + (most or least) + 1
    if len(words) > first:
        it.begin, it.end = found[first][1], found[-1][2]
    else:
        it.begin, it.end = len(it.text.rstrip()) + 1, len(it.text.rstrip()) + 2
    kinds = dict.fromkeys(COMMANDS[inner[0]].split())
    it.should = [language.pattern(inner[0]), *(f"  {row}" for kind in kinds for row in should_be(kind))]
    it.slip, better = lines.miscounted(inner)
    it.better = [" ".join([*words[: len(words) - len(inner)], line]) for line in better]
