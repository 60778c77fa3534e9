"""The door of a machine: it runs the houses that are here, reaches others by streams, carries messages, holds a
clerk, begins skulks, and speaks with programs at a Unix socket. It decides nothing that a house or the clerk
decides."""
from __future__ import annotations

import collections
import os
import socket
import subprocess
import time
from collections.abc import Callable

from doors.allows import Who, uid_of
from doors.cellfile import CellFile, Faulty
from doors.clerks import Clerk
from doors.houses import Answer, Here, House, There, kill
from doors.lines import NUMBERED
from doors.loops import Loop
from doors.numbers import Numbers
from doors.post import Post
from doors.programs import Program, Say
from doors.skulks import Skulks
from doors.traces import Trace, place
from doors.ledger import Ledger

# How often patience and waiting messages are looked at, in seconds.
TICK = 0.2
# Who may open a socket.
FOR_ALL, FOR_GROUP, FOR_OWNER = 0o666, 0o660, 0o600
# So long houses may take to end, in seconds.
LONGEST_END = 10.0


class Door:
    def __init__(self, cell: CellFile, note: Callable[[str], None]) -> None:
        self.cell, self.note, self.loop = cell, note, Loop()
        self.began = time.monotonic()
        self.counts: collections.Counter[str] = collections.Counter()
        self.houses: dict[int, House] = {}
        self.programs: set[Program] = set()
        self.listeners: dict[str, socket.socket] = {}
        self.skulks = Skulks(self.houses, self.counts)
        self.post = Post(self.houses, self.counts, note, self.skulks.mark)
        self.clerk = Clerk(self.loop, cell.clerk, cell.near, self.houses, note)
        self.numbers = Numbers(Ledger(cell.ledger), self.houses, self.moved) if cell.console in cell.here else None
        self.trace = Trace(cell.trace) if cell.trace else None
        if self.trace:
            self.clerk.on_end, self.clerk.place = self.trace.ended, place

    # ---- its life

    def begin(self) -> None:
        for number, folder in self.cell.here.items():
            self.add_here(number, folder)
        for number, command in self.cell.there.items():
            self.add(There(self.loop, number, command, self.note))
        self.clerk.begin()
        allow = self.cell.allow
        mode = FOR_GROUP if allow.users is None else FOR_ALL
        self.listen(self.cell.socket, mode, lambda it: allow.of_user(uid_of(it)))
        for peer in self.cell.peers:
            who = Who(f"the door of house {min(peer.houses)}", peer.classes, peer.houses, is_door=True)
            self.listen(peer.socket, FOR_OWNER, self.always(who))
        self.loop.after(TICK, self.tick)
        if self.cell.skulk_every:
            self.loop.after(self.cell.skulk_every, self.skulk)

    def add_here(self, number: int, folder: str, restarts: bool = True, sets_clock: bool = True) -> None:
        os.makedirs(folder, exist_ok=True)
        house = Here(self.loop, number, self.cell.program, folder, self.note, self.posted)
        house.restarts, house.sets_clock = restarts, sets_clock
        if self.trace:
            self.trace.follow(house)
        self.add(house)

    def posted(self, to: int, octets: str) -> None:
        """A house of this door posts a message."""
        self.post.post(to, octets)

    def add(self, house: House) -> None:
        self.houses[house.number] = house
        house.patience, house.kill_after = self.cell.patience, self.cell.kill_after
        before = house.on_up

        def up() -> None:
            before()
            self.up(house)

        house.on_up = up
        house.begin()

    def up(self, house: House) -> None:
        if isinstance(house, Here):
            if self.numbers:
                self.numbers.started(house, house.start)
            if self.cell.skulk_every:
                self.skulks.learn(house)
        self.post.deliver(house.number)

    def tick(self) -> None:
        for house in self.houses.values():
            house.tick()
        self.clerk.tick()
        self.post.deliver_all()
        self.loop.after(TICK, self.tick)

    def moved(self, house: House, directory: int) -> None:
        """A master that moved hides its last updates until a skulk."""
        if self.cell.skulk_every:
            self.skulks.begin(house, directory)

    def skulk(self) -> None:
        self.skulks.begin_all()
        self.loop.after(self.cell.skulk_every, self.skulk)

    def close(self) -> None:
        """Ends all inputs, and waits for the houses of this door. One that hangs is killed."""
        for path, listener in self.listeners.items():
            self.loop.reads(listener.fileno(), None)
            listener.close()
            os.unlink(path)
        self.clerk.close()
        for house in self.houses.values():
            house.close()
        until = time.monotonic() + LONGEST_END
        for house in self.houses.values():
            if house.child:
                self.wait(house, house.child, until if house.is_here else 0.0)

    def wait(self, house: House, child: subprocess.Popen[bytes], until: float) -> None:
        """Waits for the end of a process, and kills one that does not end by then."""
        try:
            child.wait(max(0.01, until - time.monotonic()))
        except subprocess.TimeoutExpired:
            if house.is_here:
                self.note(f"house {house.number} does not end: it is killed")
            kill(child)
            child.wait()

    # ---- sockets

    def listen(self, path: str, mode: int, who_of: Callable[[socket.socket], Who]) -> None:
        if os.path.exists(path):
            self.take_over(path)
        listener = socket.socket(socket.AF_UNIX, socket.SOCK_STREAM)
        listener.bind(path)
        os.chmod(path, mode)
        listener.listen(64)
        listener.setblocking(False)
        self.listeners[path] = listener

        def accept() -> None:
            try:
                connection, _ = listener.accept()
            except OSError:
                return
            who = who_of(connection)
            self.programs.add(Program(self.loop, connection.detach(), who, self.command, self.programs.discard))

        self.loop.reads(listener.fileno(), accept)

    def always(self, who: Who) -> Callable[[socket.socket], Who]:
        return lambda connection: who

    def take_over(self, path: str) -> None:
        """Takes the place of a door that died. One that lives keeps it."""
        with socket.socket(socket.AF_UNIX, socket.SOCK_STREAM) as other:
            try:
                other.connect(path)
            except OSError:
                os.unlink(path)
                return
        raise Faulty(f"{path}: another door is there")

    # ---- commands

    def command(self, line: str, who: Who, say: Say) -> None:
        """Does a command that has at least one word."""
        words = line.split()
        self.counts["commands"] += 1
        if words[0].startswith("@"):
            self.ask_house(words[0][1:], words[1:], who, say)
        elif words == ["status"]:
            say(self.status() if who.may(words) else self.forbidden(words, who))
        elif not who.may(words):
            say(self.forbidden(words, who))
        elif words == ["skulk"]:
            self.skulks.begin_all()
            say(["ok"])
        elif words[0] in (*NUMBERED, "house", "recount"):
            self.number(words, say)
        else:
            self.clerk.command(line, say, lambda step: self.is_allowed(step, who))

    def is_allowed(self, words: list[str], who: Who) -> bool:
        """Whether the clerk may send a line to a house for somebody."""
        return who.may(words) or not self.forbidden(words, who)

    def forbidden(self, words: list[str], who: Who) -> list[str]:
        self.counts["forbidden"] += 1
        self.note(f"{who.name} may not send {' '.join(words)[:80]}")
        return ["refused Forbidden"]

    def ask_house(self, number: str, words: list[str], who: Who, say: Say) -> None:
        """A line for one house as it is."""
        house = self.houses.get(int(number)) if number.isdigit() and len(number) < 4 else None
        if not house:
            say(["refused NoHouse"])
        elif not words or words[0].startswith("#"):
            say(["fault WrongCount 1"])
        elif not who.may_house(words):
            say(self.forbidden(words, who))
        else:
            target = house

            def hear(told: Answer) -> None:
                if told and words[0] == "take":
                    self.skulks.mark(words[1])
                if told and self.trace and who.is_door and target.is_here:
                    segment, turns = place(target)
                    told = [*told[:-1], f"at {segment} {turns}", told[-1]]
                say(told or ["refused Down"])

            house.ask(" ".join(words), hear)

    def number(self, words: list[str], say: Say) -> None:
        """A command of the console, which may be behind another door."""
        console = self.houses.get(self.cell.console)
        if self.numbers and words[0] == "recount":
            self.numbers.recount(words, say)
        elif self.numbers:
            self.numbers.command(words, say)
        elif isinstance(console, There) and console.is_reached:
            console.send_as_is(" ".join(words), " ".join(words), lambda told: say(told or ["refused Down doubt"]))
        else:
            say(["refused Down" if console else "refused NoConsole"])

    def status(self) -> list[str]:
        counts = " ".join(f"{word} {count}" for word, count in sorted(self.counts.items()))
        lines = [f"door up {time.monotonic() - self.began:.0f} programs {len(self.programs)} {counts}".strip()]
        lines.append(f"clerk {'up' if self.clerk.stream else 'down'} commands {len(self.clerk.jobs)}")
        for number, house in sorted(self.houses.items()):
            where = "here" if house.is_here else "there"
            state = f"{'up' if house.is_reached else 'down'} starts {house.starts} late {house.late}"
            why = "" if house.is_reached else f" because {house.why}"
            lines.append(f"house {number} {where} {state} undelivered {len(self.post.waiting[number])}{why}")
        return [*lines, f"end {len(lines)}"]
