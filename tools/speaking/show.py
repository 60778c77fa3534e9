"""What houses hold of a directory, side by side, and which messages are under way."""

from __future__ import annotations

import re
from collections.abc import Iterator

from speaking import texts
from speaking.desk import Desk

STAMP = re.compile(r"(\d+)@([0-9a-f]{12})")


class Held:
    """What one house holds: the epoch and more in a word each, and the cells of its entries, attributes and values."""

    facts: dict[str, str]
    cells: dict[tuple[str, str, str], str]

    def __init__(self, house: int) -> None:
        self.house, self.facts, self.cells = house, {}, {}

    def take(self, lines: list[str], nodes: dict[str, str]) -> None:
        """Takes the lines of a dump, each without the number in front."""
        entry = attribute = ""
        for line in lines:
            words = line.split()
            if words[0] == "dump":
                members = {it.split(":")[0]: it.split(":")[2] for it in words[6:]}
                role = {"m": "master", "s": "secondary", "r": "read-only"}.get(members.get(str(self.house), ""), "?")
                self.facts.update(epoch=words[2], role=role, allupto=short(words[4], nodes), members=" ".join(members))
            elif words[0] == "entry":
                entry, attribute = words[1], ""
                dead = "" if words[4] == "live" else f" died {short(words[4], nodes)}"
                self.cells[entry, "", ""] = f"{words[2]} {short(words[3], nodes)}{dead}"
            elif words[0] == "attr":
                attribute = words[1]
                if words[2] != "none":
                    self.cells[entry, attribute, ""] = f"cleared {short(words[2], nodes)}"
            elif words[0] == "value":
                gone = "" if words[2] == "present" else "removed "
                self.cells[entry, attribute, words[1]] = f"{gone}{short(words[3], nodes)}"


def short(stamp: str, nodes: dict[str, str]) -> str:
    """A stamp with the name of its house in place of the node."""
    found = STAMP.fullmatch(stamp)
    return f"{found.group(1)}@{nodes[found.group(2)]}" if found and found.group(2) in nodes else stamp


def held(cell: Desk, directory: int) -> list[Held]:
    """What each house of a directory holds, also those that are down."""
    happened = cell.happened()
    houses = [house for house in sorted(happened.nodes) if happened.held.get((house, directory))]
    nodes = {node: cell.names.called(house).removeprefix("house ") for house, node in happened.nodes.items()}
    downs = [house for house in houses if happened.is_down(house)]
    first = len(cell.lines) + len(downs) + 1
    said = cell.ask(*(f"start {house}" for house in downs), *(f"dump {house} {directory}" for house in houses))
    found = []
    for at, house in enumerate(houses):
        it = Held(house)
        it.facts["state"] = "down" if house in downs else "up"
        it.take([line.partition(" ")[2] for line in said if line.startswith(f"{first + at} ")], nodes)
        found.append(it)
    return found


def row_name(key: tuple[str, str, str]) -> str:
    """What a row is about."""
    entry, attribute, value = key
    return entry if not attribute else f"  {attribute}" + (f" {texts.shown(value)}" if value else "")


def table(cell: Desk, directory: int, width: int = 100) -> Iterator[str]:
    """The lines of the table of a directory. Rows in which the houses differ have a mark in front."""
    houses = held(cell, directory)
    if not houses:
        yield f"No house holds directory {directory}."
        return
    facts = [
        (name, [it.facts.get(name, "-") for it in houses]) for name in ("state", "epoch", "role", "members", "allupto")
    ]
    keys = sorted({key for it in houses for key in it.cells})
    rows = [(row_name(key), [it.cells.get(key, "-") for it in houses]) for key in keys]
    first = min(max(len(name) for name, _ in [*facts, *rows]), 40)
    columns = [
        max(len(cell.names.called(it.house)), *(len(row[at]) for _, row in [*facts, *rows]))
        for at, it in enumerate(houses)
    ]
    at = 0
    while at < len(houses):
        end = at + 1
        while end < len(houses) and first + sum(it + 2 for it in columns[at : end + 1]) + 2 <= width:
            end += 1
        heads = ("", [cell.names.called(it.house) for it in houses])
        for name, row in [heads, *facts, *rows]:
            mark = "*" if (name, row) in rows and len(set(row)) > 1 else " "
            yield (
                f"{mark} {name[:40]:<{first}}" + "".join(f"  {row[it]:<{columns[it]}}" for it in range(at, end))
            ).rstrip()
        at = end
        if at < len(houses):
            yield ""
    if any(len(set(row)) > 1 for _, row in rows):
        yield "* The houses differ here; - is what a house does not have."


def messages(cell: Desk) -> Iterator[str]:
    """The lines on the messages that are under way."""
    waiting, happened = cell.under_way(), cell.happened()
    for it in waiting:
        down = " (down)" if it.receiver and happened.is_down(it.receiver) else ""
        names = cell.names
        yield (
            f"{it.serial:>4}  {it.kind} from {names.called(it.sender)} to {names.called(it.receiver)}{down}, line"
            f" {it.line}: {it.text}"
        )
    if not waiting:
        yield "No message is under way."
