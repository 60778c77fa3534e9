"""Who may send what. A line is of one of four classes: `questions`, `updates`, `operation`, and `messages`, which are
of doors alone."""
from __future__ import annotations

import pwd
import socket
import struct
from collections.abc import Mapping

from doors.lines import CARRIED, NUMBERED, class_of, sender_of

CLASSES = ("questions", "updates", "operation")
# What another door may send if its cell file does not say.
OF_DOORS = ("questions", "updates", "messages")
ALL = "*"


class Who:
    """Whoever is at the other end of a connection. `senders` are the houses whose messages it may bring;
    `directories` those that it may update if not all."""

    def __init__(
        self, name: str, classes: frozenset[str], senders: frozenset[int] = frozenset(), is_door: bool = False
    ) -> None:
        self.name, self.classes, self.senders, self.is_door = name, classes, senders, is_door
        self.barred: frozenset[int] = frozenset()

    def may(self, words: list[str]) -> bool:
        """Whether it may send a command of the door or of the clerk, or a line of a house."""
        kind = class_of(words)
        if kind == "updates" and len(words) > 1 and words[1].isdigit() and int(words[1]) in self.barred:
            return False
        return kind in self.classes

    def may_house(self, words: list[str]) -> bool:
        """Whether it may send a line to a house as it is. Numbers are the console's to give, so programs give none; a
        part of a message without the rest would be taken for the beginning of another's."""
        if words[0] in CARRIED:
            return words[0] == "take" and len(words) == 2 and sender_of(words[1]) in self.senders and self.may(words)
        return self.may(words) and (self.is_door or words[0] not in (*NUMBERED, "house"))


class Allow:
    """`[allow]` of a cell file: users, by name or number, for each class. Without it all who may open the socket may
    send all."""

    def __init__(
        self, users: Mapping[str, list[str]] | None = None, directories: Mapping[int, list[str]] | None = None
    ) -> None:
        self.users, self.directories = users, directories or {}

    def of_user(self, uid: int) -> Who:
        names = names_of(uid)
        users = self.users
        classes = [kind for kind in CLASSES if users is None or names & set(users.get(kind, []))]
        who = Who(f"user {min(names - {ALL})}", frozenset(classes))
        who.barred = frozenset(number for number, given in self.directories.items() if not names & set(given))
        return who


def names_of(uid: int) -> set[str]:
    """What a user is called in a cell file."""
    try:
        return {ALL, str(uid), pwd.getpwuid(uid).pw_name}
    except KeyError:
        return {ALL, str(uid)}


def uid_of(connection: socket.socket) -> int:
    """The user of the process that opened a connection to a Unix socket."""
    form = "3i"
    octets = connection.getsockopt(socket.SOL_SOCKET, socket.SO_PEERCRED, struct.calcsize(form))
    return int(struct.unpack(form, octets)[1])
