"""What refusals and fruitless deliveries mean, and what helps. `docs/SCRIPT.md` has their causes."""

from __future__ import annotations

from cds.answers import OF_OCTETS
from speaking import pages

# What helps, where nothing more is known than the refusal.
HELP = {
    "BadMembers": "Name each house once, and at most 64.",
    "BadPriority": "Write 8 after `default`, and 0 to 7 after an interface; lower numbers are searched first.",
    "DirectoryExists": (
        "A cell has one root. `epoch 1 M R..` changes which houses have it, and `mkdir` makes further directories."
    ),
    "Down": "`start H` brings the house up again.",
    "ElementTooLong": "Shorten the annotation.",
    "EntryExists": (
        "`add`, `put` and `remove` change the entry that is there, `repoint` a child; `delete` takes an object or a"
        " link away."
    ),
    "HouseExists": "Choose another number, and give each house its own node.",
    "LinkCycle": "The links lead in a circle. `readlink` shows where each leads; delete one, and link it elsewhere.",
    "NameTooLong": "A link leads into itself, or its target is too long. `readlink` shows it.",
    "NoDirectory": (
        "`root M R..` makes directory 1, and each `mkdir` the next one; its answer has the number after `ok`."
    ),
    "NoHouse": "`house H NODE` makes it; do that first.",
    "NoMessage": (
        "Take the number from the answer that posted it. A lost message does not come back; a skulk brings what it"
        " said."
    ),
    "NoReplica": "Deliver its Join, or make it a member by `epoch D M R..`.",
    "NoSuchElement": (
        "`proflist 1 high NAME all - all -`, in the form inquire, lists the elements; both have to be just these."
    ),
    "NoSuchMember": (
        "`grouplist 1 high NAME`, in the form inquire, lists the members; names are compared letter by letter."
    ),
    "NoSuchEntry": "`create` makes it. `dump H D` lists what the house holds; `LPR` and `lpr` are two names.",
    "NoSuchName": (
        "`dump H D` lists what a house holds. It may have missed the update: then a skulk at the master brings it."
    ),
    "NotActing": (
        "Name the house that acts: of `deliver` the receiver, of `root` and `epoch` M, of the others their own H."
    ),
    "NotDirectory": "Only a child leads on. End the name at the object.",
    "NotJoined": "Deliver its Join first, and then begin the epoch.",
    "NotLink": "`read` asks for the values of an object.",
    "NotMaster": "Ask the master, or a secondary house; `skulk` is for the master alone.",
    "NotMember": "First an epoch in which the house is a member, and its Join delivered; then one with it as master.",
    "NotObject": "The name leads to a child or a link: name an object.",
    "NothingToExport": "Give a binding, or an object: one of the two words is other than `-`.",
    "NothingToUnexport": (
        "`entrylist 1 high NAME`, in the form inquire, lists what there is; both versions have to be just these."
    ),
    "RootName": "The root has no entry of its own. Name an entry in it: `/.:/NAME`.",
    "StampsSpent": (
        "The house has the last time that there is, from `clock` or from a message, and no clock takes it back. "
        "An epoch with another master goes on, if that one has not heard of that time."
    ),
    "TooManyLinks": "The links lead in a circle, or are a chain of more than 64. `readlink` shows where each leads.",
    "Unreachable": (
        "`start H` brings a house up, and `deliver` its replica. At `low` any listed house answers, at `high` the"
        " master alone."
    ),
    "Up": "`crash H` takes it down first.",
    "Vanished": (
        "The clerk has kept the name from an earlier answer. `read` at `high` asks the master and not the clerk."
    ),
    "WrongKind": (
        "`CDS_LinkTarget` changes by `delete` and `link`, `CDS_Replicas` by `repoint`; a child can't be deleted."
    ),
} | {
    reason: "Take octets that `octets msg N` has printed; FORMATS.md says what is at this place."
    for reason in OF_OCTETS
}
# Where `reasons` says what helps, if it knows the cause.
HELPED = ("Down", "NoDirectory", "NoHouse", "NoReplica", "NotJoined", "NotMaster", "NotMember")
# The answers to deliveries that change nothing.
VAIN = {
    "late": (
        "The receiver is in a later epoch already, and takes nothing of an earlier one. What the message said comes by"
        " a skulk."
    ),
    "early": "The receiver has not heard of the message's epoch yet. Deliver its Join first, and then this again.",
    "stale": (
        "The message answers a skulk that has ended: a later one began, or it is complete, or its house crashed."
        " `skulk` begins one."
    ),
    "noreplica": "The receiver holds nothing of this directory yet. Deliver its Join first, and then this again.",
}


def meaning(reason: str) -> str:
    """What a refusal means: its cause, as SCRIPT.md has it."""
    return pages.refusals().get(reason, "")
