"""The cell file of a machine: which houses are here, which are behind other doors, and who may speak."""
from __future__ import annotations

import os
import shlex
import tomllib
from typing import Any

from doors import allows

# The longest path of a Unix socket.
LONGEST_PATH = 107
KEYS = {"near", "socket", "log", "trace", "program", "clerk", "console", "ledger", "house", "peer", "allow"}
TIMES = {"skulk_every", "patience", "patience_of_turns", "kill_after"}


class Faulty(Exception):
    """A cell file that says nothing that a door can do."""


class Peer:
    """Another door: the socket of its own here, the houses that are behind it, and what it may send."""

    def __init__(self, socket: str, houses: frozenset[int], classes: frozenset[str]) -> None:
        self.socket, self.houses, self.classes = socket, houses, classes


class CellFile:
    """`here` has the folder of each house of this machine, `there` the command that reaches each other one."""

    def __init__(self, base: str, table: dict[str, Any]) -> None:
        self.base, self.table = base, table
        if unknown := sorted(set(self.table) - KEYS - TIMES):
            raise Faulty(f"{unknown[0]} is no word of a cell file")
        self.here: dict[int, str] = {}
        self.there: dict[int, str] = {}
        for number, house in self.numbered("house"):
            self.add_house(number, house)
        self.socket = self.path_of("socket", "door")
        self.log, self.trace = self.path_of("log", ""), self.path_of("trace", "")
        self.skulk_every = self.seconds("skulk_every", 60.0)
        self.patience = self.seconds("patience", 1.0), self.seconds("patience_of_turns", 10.0)
        self.kill_after = self.seconds("kill_after", 15.0)
        self.program, self.clerk = self.words("program"), self.words("clerk")
        self.near = self.house("near", min(self.here, default=min(self.there, default=0)))
        # The house whose door numbers directories and epochs; 0 where nobody does.
        self.console = self.house("console", 0 if self.there else min(self.here, default=0))
        self.ledger = self.path_of("ledger", "console")
        self.peers = [self.peer(number, peer) for number, peer in self.numbered("peer")]
        self.allow = self.allowed()
        for path in (self.socket, *(peer.socket for peer in self.peers)):
            if len(path) > LONGEST_PATH:
                raise Faulty(f"{path}: a socket's path has at most {LONGEST_PATH} octets")

    # ---- words of the file

    def path_of(self, key: str, default: str) -> str:
        """A path, from the folder of the cell file on."""
        text = self.table.get(key, default)
        if not isinstance(text, str):
            raise Faulty(f"{key} has to be a path, in quotes")
        return os.path.join(self.base, text) if text else ""

    def words(self, key: str) -> list[str]:
        text = self.table.get(key, "")
        if not isinstance(text, str):
            raise Faulty(f"{key} has to be a command, in quotes")
        return shlex.split(text)

    def seconds(self, key: str, default: float) -> float:
        value = self.table.get(key, default)
        if isinstance(value, bool) or not isinstance(value, int | float) or value < 0:
            raise Faulty(f"{key} has to be seconds; 0 means never")
        return float(value)

    def house(self, key: str, default: int) -> int:
        value = self.table.get(key, default)
        if value not in self.here and value not in self.there and value != default:
            raise Faulty(f"{key} = {value}: there is no [house.{value}]")
        return int(value)

    def numbered(self, key: str) -> list[tuple[int, dict[str, Any]]]:
        """The tables `[house.N]` or `[peer.N]`, ascending."""
        tables = self.table.get(key, {})
        for name, table in tables.items():
            if not name.isdigit() or not 0 < int(name) < 256 or not isinstance(table, dict):
                raise Faulty(f"[{key}.{name}]: a house is a number from 1 to 255")
        return sorted((int(name), table) for name, table in tables.items())

    def add_house(self, number: int, table: dict[str, Any]) -> None:
        match table:
            case {"folder": str(folder), **rest} if not rest:
                self.here[number] = os.path.join(self.base, folder)
            case {"via": str(command), **rest} if not rest:
                self.there[number] = command
            case _:
                said = 'either folder = "..", a house of this machine, or via = "..", the command that reaches it'
                raise Faulty(f"[house.{number}] has {said}")

    def peer(self, number: int, table: dict[str, Any]) -> Peer:
        houses, classes = table.get("houses", [number]), table.get("allow", list(allows.OF_DOORS))
        if not set(houses) <= set(self.there) or not isinstance(table.get("socket"), str):
            raise Faulty(f'[peer.{number}] has socket = "..", and houses of other machines')
        if unknown := set(classes) - {*allows.CLASSES, "messages"}:
            raise Faulty(f"[peer.{number}]: {min(unknown)} is no class of lines")
        return Peer(os.path.join(self.base, table["socket"]), frozenset(houses), frozenset(classes))

    def allowed(self) -> allows.Allow:
        table = self.table.get("allow")
        if table is None:
            return allows.Allow()
        directories = {int(name): list(users) for name, users in table.get("directory", {}).items() if name.isdigit()}
        if unknown := set(table) - {*allows.CLASSES, "directory"}:
            raise Faulty(f"[allow]: {min(unknown)} is no class of lines")
        return allows.Allow({kind: list(map(str, table.get(kind, []))) for kind in allows.CLASSES}, directories)


def read(path: str) -> CellFile:
    """The cell file at a path. Paths in it are from its folder on."""
    try:
        with open(path, "rb") as file:
            return CellFile(os.path.dirname(os.path.abspath(path)), tomllib.load(file))
    except OSError as error:
        raise Faulty(f"{path}: {error.strerror}") from error
    except (ValueError, Faulty) as error:
        raise Faulty(f"{path}: {error}") from error
