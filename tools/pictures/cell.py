"""A cell as the words of a script and of its answers tell it: houses, what they hold, and the messages that they post.

What an answer does not say follows from the commands before it: which houses get the messages that it posts, what these
messages are, and what a house holds once it has taken one.
"""

from __future__ import annotations

from collections.abc import Callable, Sequence

from .facts import Entry, Epoch, Fault, Message, Rise, Skulk, Step, numbers, order, plural, secondary
from .walks import Walks
from cds.commands import COMMANDS, SERVICES, UPDATES

# What an answer says, in its groups.
Said = Sequence[str]


class Replay(Walks):
    """All that happened. Steps are named by their places in `steps`."""

    steps: list[Step]
    messages: dict[int, Message]
    epochs: dict[int, list[Epoch]]
    skulks: list[Skulk]
    rises: list[Rise]
    nodes: dict[int, str]
    born: dict[int, int]
    downs: dict[int, list[tuple[int, int | None]]]
    holdings: list[tuple[int, int, int, str]]
    held: dict[tuple[int, int], Epoch | None]
    up_to: dict[tuple[int, int], str | None]
    running: dict[tuple[int, int], Skulk]
    entries: dict[tuple[int, str], Entry]

    def __init__(self) -> None:
        self.steps, self.messages, self.epochs, self.skulks, self.rises = [], {}, {}, [], []
        self.nodes, self.born, self.downs, self.holdings = {}, {}, {}, []
        self.held, self.up_to, self.running, self.entries = {}, {}, {}, {}
        self.line = 0

    # Facts about houses and directories.

    def fault(self, what: str) -> Fault:
        """A fault of the answer that is looked at."""
        return Fault("answers", self.line, what)

    def held_epoch(self, house: int, directory: int) -> Epoch:
        """The epoch that a house holds of a directory, which it has to hold."""
        epoch = self.held.get((house, directory))
        if epoch is None:
            raise self.fault(f"house {house} holds no replica of directory {directory}")
        return epoch

    def hold(self, house: int, directory: int, epoch: Epoch | None, step: Step) -> None:
        """A house holds this epoch of a directory from now on, or none; a skulk that it ran ends."""
        self.held[house, directory] = epoch
        role = "none" if epoch is None else epoch.role(house)
        self.holdings.append((step.at, house, directory, role))
        self.end_skulk(house, directory, step)

    def end_skulk(self, house: int, directory: int, step: Step, is_complete: bool = False) -> Skulk | None:
        """Ends the skulk that a house runs."""
        skulk = self.running.pop((house, directory), None)
        if skulk:
            skulk.end, skulk.is_complete = step.at, is_complete
        return skulk

    def set_up_to(self, house: int, directory: int, stamp: str | None, step: Step) -> None:
        """A house has this AllUpTo from now on."""
        before = self.up_to.get((house, directory))
        self.up_to[house, directory] = stamp
        if stamp and order(stamp) > order(before):
            self.rises.append(Rise(house, directory, stamp, before, step.at))

    def raise_up_to(self, house: int, directory: int, stamp: str | None, step: Step) -> None:
        """A house learns of an AllUpTo, and keeps the later one."""
        before = self.up_to.get((house, directory))
        if stamp and stamp != before and order(stamp) > order(before):
            self.set_up_to(house, directory, stamp, step)

    # Messages.

    def post(
        self,
        step: Step,
        kind: str,
        sender: int,
        directory: int,
        epoch: int,
        receivers: list[int],
        stamp: str | None = None,
    ) -> None:
        """Takes the next serials of the answer for a message to each of these houses."""
        count, serials = len(receivers), step.posted
        if len(serials) < count:
            raise self.fault(f"{kind} goes to {plural(count, 'house')}, and has {plural(len(serials), 'serial')} here")
        step.posted = serials[count:]
        up_to = self.up_to.get((sender, directory)) if kind in ("Gathered", "Spread", "Join") else None
        for serial, receiver in zip(serials, receivers):
            if serial != len(self.messages) + 1:
                raise self.fault(f"message {serial} is posted before message {len(self.messages) + 1}")
            self.messages[serial] = Message(serial, kind, sender, receiver, directory, epoch, stamp, up_to, step.at)

    def post_updates(self, step: Step, house: int, directory: int, count: int = 1) -> None:
        """Each of so many updates is told to each other member."""
        epoch = self.held_epoch(house, directory)
        for _ in range(count):
            self.post(step, "Update", house, directory, epoch.number, epoch.others(house))

    def begin_epoch(self, step: Step, directory: int, master: int, others: str) -> None:
        """Begins an epoch of a directory, whose other members these words name, and posts its Joins and Leaves."""
        listed = [master, *numbers(others)]
        if len(set(listed)) < len(listed) or any(it not in self.nodes for it in listed):
            raise self.fault("the new epoch has no such members")
        epochs = self.epochs.setdefault(directory, [])
        before = epochs[-1] if epochs else None
        epoch = Epoch(directory, len(epochs) + 1, master, listed, secondary(others), before, step.at)
        epochs.append(epoch)
        self.hold(master, directory, epoch, step)
        self.post(step, "Join", master, directory, epoch.number, epoch.others(master))
        left = [it for it in before.members if it not in epoch.members] if before else []
        self.post(step, "Leave", master, directory, epoch.number, left)

    # Commands, where they are not refused. Each gets the step, and what its answer says in its groups.

    def do_nothing(self, step: Step, _: Said) -> None:
        """Nothing comes of it that a picture shows: of `clock`, and of questions."""

    def do_house(self, step: Step, _: Said) -> None:
        """A house is made."""
        number = int(step.words[0])
        if number in self.nodes:
            raise self.fault(f"house {number} was made already")
        self.nodes[number], self.born[number], step.house = step.words[1].lower(), step.at, number

    def do_crash(self, step: Step, _: Said) -> None:
        """A house goes down, and forgets its skulks."""
        if self.is_down(step.house):
            raise self.fault(f"house {step.house} is down already")
        self.downs.setdefault(step.house, []).append((step.at, None))
        for house, directory in [it for it in self.running if it[0] == step.house]:
            self.end_skulk(house, directory, step)

    def do_start(self, step: Step, _: Said) -> None:
        """A house is up again."""
        if not self.is_down(step.house):
            raise self.fault(f"house {step.house} is not down")
        self.downs[step.house][-1] = (self.downs[step.house][-1][0], step.at)

    def do_root(self, step: Step, _: Said) -> None:
        """The root directory is made."""
        if 1 in self.epochs:
            raise self.fault("there is a root directory already")
        self.begin_epoch(step, 1, int(step.words[0]), step.words[1])

    def do_mkdir(self, step: Step, said: Said) -> None:
        """A child and its directory are made."""
        house, parent, master = (int(step.words[it]) for it in (0, 1, 3))
        name, others = step.words[2], step.words[4]
        directory = int(said[0])
        if directory != len(self.epochs) + 1:
            raise self.fault(f"directory {directory} is made before {len(self.epochs) + 1}")
        self.post_updates(step, house, parent)
        self.begin_epoch(step, directory, master, others)
        step.dirs = (parent, directory)
        self.entry(parent, name).become("child", child=(directory, (master, *sorted(numbers(others)))))

    def do_update(self, step: Step, said: Said) -> None:
        """An update is accepted."""
        directory, name = int(step.words[1]), step.words[2]
        self.post_updates(step, step.house, directory)
        entry = self.entry(directory, name)
        if step.command == "repoint" and entry.child:
            entry.become("child", child=(entry.child[0], (int(step.words[3]), *sorted(numbers(step.words[4])))))
        elif step.command == "link":
            entry.become("link", step.words[3])
        elif step.command in ("create", "delete"):
            entry.become("object" if step.command == "create" else None)

    def do_epoch(self, step: Step, said: Said) -> None:
        """A new epoch begins."""
        directory, master, others = int(step.words[0]), int(step.words[1]), step.words[2]
        if directory not in self.epochs:
            raise self.fault(f"directory {directory} was not made")
        self.held_epoch(master, directory)
        due = len(self.epochs[directory]) + 1
        if int(said[0]) != due:
            raise self.fault(f"the next epoch of directory {directory} is {due}, not {said[0]}")
        self.begin_epoch(step, directory, master, others)

    def do_skulk(self, step: Step, said: Said) -> None:
        """A skulk begins; it is complete at once where the house is alone."""
        house, directory, stamp = step.house, int(step.words[1]), said[1]
        epoch = self.held_epoch(house, directory)
        others = epoch.others(house)
        if bool(said[0]) == bool(others):
            raise self.fault("a skulk is complete at once where its master is alone, and only there")
        self.end_skulk(house, directory, step)
        skulk = self.running[house, directory] = Skulk(directory, house, stamp, step.at)
        self.skulks.append(skulk)
        self.post(step, "Gather", house, directory, epoch.number, others, stamp)
        if said[0]:
            self.complete(step, house, directory, stamp)

    def complete(self, step: Step, house: int, directory: int, stamp: str) -> None:
        """The skulk of a house is complete."""
        skulk = self.end_skulk(house, directory, step, True)
        if skulk is None or skulk.stamp != stamp:
            raise self.fault(f"house {house} runs no skulk {stamp}")
        self.raise_up_to(house, directory, stamp, step)
        epoch = self.held_epoch(house, directory)
        self.post(step, "Advance", house, directory, epoch.number, epoch.others(house), stamp)

    def do_deliver(self, step: Step, said: Said) -> None:
        """A message comes to its receiver."""
        message = step.message
        if message is None or message.lost is not None:
            raise self.fault(f"message {step.words[0]} was not posted, or was lost")
        step.outcome, *told = said[0].split()
        if told and message.receiver:
            due = str(message.epoch) if step.outcome in ("late", "early") else message.stamp
            if told[0] != due:
                raise self.fault(f"message {message.serial} is of {due}, not {told[0]}")
        message.deliveries += (step.at,)
        step.has_changed = step.outcome in ("taken", "complete")
        if step.has_changed and message.receiver:
            self.take(step, message)

    def take(self, step: Step, message: Message) -> None:
        """A message is taken by its receiver."""
        house, directory, stamp = message.receiver, message.dir, message.stamp
        if self.is_down(house):
            raise self.fault(f"house {house} is down")
        if message.kind == "Join":
            self.take_join(step, message)
        elif message.kind == "Leave":
            self.hold(house, directory, None, step)
            self.up_to.pop((house, directory), None)
        else:
            epoch = self.held_epoch(house, directory)
            if epoch.number != message.epoch:
                raise self.fault(f"house {house} holds epoch {epoch.number}, and the message is of {message.epoch}")
            self.raise_up_to(house, directory, stamp if message.kind == "Advance" else message.up_to, step)
            self.count_answer(message)
            if step.outcome == "complete":
                if message.kind != "SpreadAck" or stamp is None:
                    raise self.fault(f"message {message.serial} is {message.kind}, and completes no skulk")
                self.complete(step, house, directory, stamp)
            elif message.kind in ("Gather", "Spread"):
                kind = "Gathered" if message.kind == "Gather" else "SpreadAck"
                self.post(step, kind, house, directory, epoch.number, [message.sender], stamp)
            elif message.kind == "Gathered" and step.posted:
                self.post(step, "Spread", house, directory, epoch.number, epoch.others(house), stamp)
                self.running[house, directory].answered = set()

    def count_answer(self, message: Message) -> None:
        """Counts an answer in the round of the skulk that its receiver runs."""
        skulk = self.running.get((message.receiver, message.dir))
        if skulk and message.kind in ("Gathered", "SpreadAck"):
            skulk.answered.add(message.sender)

    def take_join(self, step: Step, message: Message) -> None:
        """A Join is taken: the house keeps what it has within its term, and else takes a copy."""
        house, directory = message.receiver, message.dir
        before, epoch = self.held.get((house, directory)), self.epochs[directory][message.epoch - 1]
        keeps = before is not None and epoch.since[house] <= before.number
        self.hold(house, directory, epoch, step)
        if keeps:
            self.raise_up_to(house, directory, message.up_to, step)
        else:
            self.set_up_to(house, directory, message.up_to, step)

    def do_lose(self, step: Step, _: Said) -> None:
        """A message is taken away."""
        if step.message is None or step.message.lost is not None:
            raise self.fault(f"message {step.words[0]} was not posted, or was lost")
        step.message.lost = step.at

    # A house that loses its power inside a command.

    def stop(self, step: Step, outcome: str) -> None:
        """The command was done or not, as its house was told by its journal, and the house is down."""
        if not step.house or self.is_down(step.house):
            raise self.fault("no house is up that could lose its power")
        if outcome == "stopped after":
            self.do_unheard(step)
        elif step.message:
            step.message.deliveries += (step.at,)
        self.do_crash(step, ())
        step.outcome = outcome

    def do_unheard(self, step: Step) -> None:
        """Does a command whose answer is told nowhere. Its messages are lost."""
        first = len(self.messages) + 1
        # More than a command posts.
        step.posted = list(range(first, first + 256))
        if step.command == "skulk":
            epoch = self.held_epoch(step.house, int(step.words[1]))
            self.end_skulk(step.house, epoch.dir, step)
            self.post(step, "Gather", step.house, epoch.dir, epoch.number, epoch.others(step.house))
        else:
            if step.message and step.message.kind == "Gathered" and not self.is_last_answer(step.message):
                step.posted = ()
            STEPS[step.command](self, step, self.unheard(step))
        step.has_changed, step.posted = True, ()
        for serial in range(first, len(self.messages) + 1):
            self.messages[serial].lost = step.at

    def unheard(self, step: Step) -> Said:
        """What the answer to a command would have said."""
        if step.command == "deliver":
            message = step.message
            is_complete = message and message.kind == "SpreadAck" and self.is_last_answer(message)
            return [f"complete {message.stamp}" if message and is_complete else "taken"]
        return [str(len(self.epochs.get(int(step.words[0]), ())) + 1)] if step.command == "epoch" else []

    def is_last_answer(self, message: Message) -> bool:
        """Whether this is the last answer that is missing in the round of its receiver's skulk."""
        skulk = self.running.get((message.receiver, message.dir))
        if not skulk or message.kind not in ("Gathered", "SpreadAck"):
            return False
        others = self.held_epoch(message.receiver, message.dir).others(message.receiver)
        return skulk.answered | {message.sender} == set(others)

    def do_service(self, step: Step, said: Said) -> None:
        """Updates of an entry by its full name: at the house that the walk comes to, where the script tells which that
        is."""
        count, found = int(said[0]), self.walk(step.words[0])
        if found:
            house, directory, name = found
            due = count * len(self.held_epoch(house, directory).others(house))
        if not found or due != len(step.posted):
            self.post(step, "Update", 0, 0, 0, [0] * len(step.posted))
            return
        step.house, step.dirs, step.found = house, (directory,), found
        self.post_updates(step, house, directory, count)
        entry = self.entry(directory, name)
        if count and entry.kind is None:
            entry.become("object")


STEPS: dict[str, Callable[[Replay, Step, Said], None]] = {
    it: getattr(Replay, f"do_{it}", Replay.do_nothing) for it in COMMANDS
}
STEPS.update({it: Replay.do_update for it in UPDATES} | {it: Replay.do_service for it in SERVICES})
