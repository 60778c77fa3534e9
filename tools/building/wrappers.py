"""Cases of the wrappers ./cdsreplay, ./cdsmend, ./cdshouse, ./cdsexplain and ./cdsclerk, for tools/cases: which words
they know, what they say of how a program ends, which program they run, and what a signal does.

They are tried on copies: beside a program that ends as the first word of its input says and writes the other words, and
a `tools/build` that finds nothing, or a program of its own. A copy of the sources shows that built programs can be
handed over.
"""

from __future__ import annotations

import fcntl
import os
import resource
import shutil
import signal
import subprocess
import sys
import time
from collections.abc import Callable

from building.sources import MEANT, PARTS, PROGRAMS, ROOT

SECONDS = 60
# Tries something in a room, which is a folder that is not there yet, and returns what differs.
Call = Callable[[str, str], str | None]
# The processor time that a wrapper may take, in seconds, with its program, which takes next to none here.
QUICK = 0.01
# Ends as the first word of its input says, after it wrote the others; or waits for a signal, and says which one came.
STUB = """#!/bin/sh
trap 'echo ended; exit 9' TERM
read -r status text || exit 4
[ "$status" != wait ] || { echo begun; while :; do sleep 0.05; done; }
[ -z "$text" ] || echo "$text"
[ "$status" -lt 128 ] || { trap - TERM; kill -s TERM $$; }
exit "$status"
"""
# Finds a program that is not proved, as `tools/build --find` does.
FINDER = """#!/bin/sh
echo "cdsreplay: these answers are unproved." >&2
echo "${0%/*}/../unproved"
"""
NOTHING = "#!/bin/sh\nexit 1\n"
WHY = "`tools/why in` explains it (status 3)"
# A name, a line of shell in the copy, and the status, output and words on standard error that it has to end with.
TABLE = (
    (
        "a line that is faulty",
        "./cdsreplay run <in",
        3,
        "12 fault BadWord 3\n",
        f"cdsreplay: line 12 is faulty: BadWord 3; {WHY}\n",
    ),
    (
        "a faulty line in a file of answers",
        "./cdsreplay run <in >to; s=$?; cat to; exit $s",
        3,
        "12 fault BadWord 3\n",
        f"cdsreplay: line 12 is faulty: BadWord 3; {WHY}\n",
    ),
    (
        "a faulty line of cdsmend",
        "./cdsmend 1 <in",
        3,
        "12 fault BadWord 3\n",
        f"cdsmend: line 12 is faulty: BadWord 3; {WHY}\n",
    ),
    (
        "a faulty line in a pipe",
        "cat in | ./cdsreplay run",
        3,
        "12 fault BadWord 3\n",
        "cdsreplay: the last answer says what is faulty; `tools/why FILE` explains it (status 3)\n",
    ),
    (
        "a faulty tower",
        "./cdsreplay towers <in",
        3,
        "12 fault BadWord 3\n",
        "cdsreplay: tower 12 is faulty: BadWord 3; docs/FORMATS.md has the form of its input (status 3)\n",
    ),
    ("a failed read", "echo 4 | ./cdsreplay run", 4, "", "cdsreplay: reading failed (status 4)\n"),
    ("a failed write", "echo 5 | ./cdsreplay run", 5, "", "cdsreplay: writing failed (status 5)\n"),
    ("no memory", "echo 6 1 ok | ./cdsreplay run", 6, "1 ok\n", "cdsreplay: out of memory (status 6)\n"),
    ("a full journal", "echo 7 | ./cdsreplay journal", 7, "", "cdsreplay: the journal of a house is full (status 7)\n"),
    (
        "a signal from elsewhere",
        "echo 143 | ./cdsreplay run",
        143,
        "",
        "cdsreplay: signal 15 ended the program (status 143)\n",
    ),
    ("all well", "echo 0 1 ok | ./cdsreplay run", 0, "1 ok\n", ""),
    (
        "the name of a script",
        "./cdsreplay run in 2>&1 | tail -n 1",
        0,
        "cdsreplay: the input is read from standard input: ./cdsreplay run <in\n",
        "",
    ),
    (
        "the name of a script after a number",
        "./cdsreplay clerk 9 in 2>&1 | tail -n 1",
        0,
        "cdsreplay: the input is read from standard input: ./cdsreplay clerk 9 <in\n",
        "",
    ),
    (
        "the name of a script of cdsmend",
        "./cdsmend 1 in 2>&1 | tail -n 1",
        0,
        "cdsmend: the script is read from standard input: ./cdsmend 1 <in\n",
        "",
    ),
    (
        "the name of a script of cdsmend after houses",
        "./cdsmend 1 - 3 in 2>&1 | tail -n 1",
        0,
        "cdsmend: the script is read from standard input: ./cdsmend 1 - 3 <in\n",
        "",
    ),
    ("a link", "ln -s ../cdsreplay links/replay; echo 0 1 ok | links/replay run", 0, "1 ok\n", ""),
    ("the folder itself", "echo 0 1 ok | sh cdsreplay run", 0, "1 ok\n", ""),
    ("the path", "cd links; echo 0 1 ok | PATH=$PWD/..:$PATH cdsreplay run", 0, "1 ok\n", ""),
    (
        "a source that has changed",
        "sleep 0.1; echo >>crates/low/src/lib.rt; echo 0 1 ok | ./cdsreplay run",
        0,
        "unproved\n",
        "cdsreplay: these answers are unproved.\n",
    ),
    (
        "a source that has changed a second after it was looked at",
        "echo 0 1 ok | ./cdsreplay run; echo >>crates/low/src/lib.rt; sleep 1.1; echo 0 1 ok | ./cdsreplay run",
        0,
        "1 ok\nunproved\n",
        "cdsreplay: these answers are unproved.\n",
    ),
    (
        "a source that has gone",
        "sleep 0.1; rm crates/low/src/lib.rt; echo 0 1 ok | ./cdsreplay run",
        0,
        "unproved\n",
        "cdsreplay: these answers are unproved.\n",
    ),
    (
        "an old source in place of a new one",
        "sleep 0.1; touch -d @9 old; mv old crates/low/src/lib.rt; echo 0 | ./cdsreplay run",
        0,
        "unproved\n",
        "cdsreplay: these answers are unproved.\n",
    ),
    (
        "a proof that has changed",
        "sleep 0.1; echo >>crates/low/proofs/a.antt; echo 0 1 ok | ./cdsreplay run",
        0,
        "1 ok\n",
        "",
    ),
    ("the house of a folder", "echo 0 1 ok | ./cdshouse links", 0, "1 ok\n", ""),
    ("a house that ends otherwise", "echo 10 | ./cdshouse links", 10, "", ""),
    (
        "no folder",
        "./cdshouse 2>&1 | head -n 1",
        0,
        "usage: ./cdshouse FOLDER       is the house that the folder keeps: lines in, answers out\n",
        "",
    ),
    ("two folders", "./cdshouse links links 2>errors", 2, "", ""),
    ("journals that are explained", "mkdir -p h1; : >h1/1; echo 0 house | ./cdsexplain h1", 0, "house\n", ""),
    (
        "an entry that is not explained",
        "mkdir -p h1; : >h1/1; echo 3 | ./cdsexplain h1 h1",
        3,
        "",
        (
            "cdsexplain: not all is explained: the last lines of the script say what, and docs/EXPLAINED.md what each"
            " reason means (status 3)\n"
        ),
    ),
    (
        "a house whose folder is not there",
        "echo 9 | ./cdshouse nowhere",
        9,
        "",
        "cdshouse: nowhere is no folder: `mkdir nowhere` makes one (status 9)\n",
    ),
    (
        "a folder to explain that is not there",
        "echo 4 | ./cdsexplain nowhere",
        4,
        "",
        "cdsexplain: nowhere is no folder\n",
    ),
    (
        "the folder of a cell",
        "echo 0 | ./cdsexplain crates 2>&1 | head -n 1",
        0,
        "cdsexplain: crates has no segments: name the folder of each house, such as mycell/h1\n",
        "",
    ),
    (
        "nothing to explain",
        "./cdsexplain 2>&1 | head -n 1",
        0,
        (
            "usage: ./cdsexplain FOLDER..     writes a script of `cdsreplay run` that explains the journals of these"
            " houses\n"
        ),
        "",
    ),
    ("a clerk of houses", "echo 0 1 ok | ./cdsclerk 2 1 2 3", 0, "1 ok\n", ""),
    ("a clerk that ends otherwise", "echo 3 | ./cdsclerk 1", 3, "", ""),
    ("a clerk of what is no house", "./cdsclerk 2 256 2>errors", 2, "", ""),
    (
        "a clerk of nothing",
        "./cdsclerk 2>&1 | head -n 1",
        0,
        "usage: ./cdsclerk NEAR HOUSE..    answers commands of the name service by asking houses\n",
        "",
    ),
    ("closed ends", "./cdsreplay run <&-", 1, "", "cdsreplay: standard input or standard output is closed\n"),
)


def write(path: str, text: str, mode: int = 0o644) -> None:
    """Writes a file, with its folders."""
    os.makedirs(os.path.dirname(path), exist_ok=True)
    with open(path, "w", encoding="utf-8") as it:
        it.write(text)
    os.chmod(path, mode)


def copy_wrappers(folder: str, build: str) -> None:
    """Copies the wrappers beside this `tools/build`."""
    write(f"{folder}/tools/build", build, 0o755)
    for name in (*PROGRAMS, "tools/start.sh"):
        shutil.copy(f"{ROOT}/{name}", f"{folder}/{name}")


def copy_with_stub(folder: str) -> None:
    """Makes a repository in which all programs are the stub, and are noted as proved."""
    copy_wrappers(folder, FINDER)
    os.mkdir(f"{folder}/links")
    texts = {
        "in": "3 12 fault BadWord 3\n",
        "old": "",
        "HANDLES": "",
        "crates.txt": "",
        "crates/low/src/lib.rt": "",
        "crates/low/specs/A": "",
        "crates/low/proofs/a.antt": "",
    }
    for name, text in texts.items():
        write(f"{folder}/{name}", text)
    write(f"{folder}/unproved", "#!/bin/sh\ncat >unread\necho unproved\n", 0o755)
    for name in PROGRAMS:
        write(f"{folder}/crates/{name}/out/{name}", STUB, 0o755)
        write(f"{folder}/crates/{name}/src/main.rt", "")
    note_stubs(folder)


def note_stubs(folder: str) -> None:
    """Notes all programs as proved, of the sources as they are."""
    for name in PROGRAMS:
        write(f"{folder}/out/built-{name}", "")
        os.utime(f"{folder}/out/built-{name}", (time.time(),) * 2)


class Wrapped:
    """The wrapper's answer to words: it knows those of a form, and prints its usage if they are none."""

    def __init__(self, wrapper: str, words: list[str], is_form: bool) -> None:
        self.name, self.wrapper = f"./{os.path.basename(wrapper)} {' '.join(words)}", wrapper
        self.words, self.is_form = words, is_form

    def fault(self, _: str) -> str | None:
        """Returns what differs, or None."""
        ran = subprocess.run([self.wrapper, *self.words], input=b"", capture_output=True, timeout=SECONDS)
        is_told = b"usage:" in ran.stderr
        if (ran.returncode, is_told) == ((1, False) if self.is_form else (2, True)) and not ran.stdout:
            return None
        return f"status {ran.returncode}, and standard error has {ran.stderr[:100]!r}"


class Tried:
    """A case of the wrappers that a function tries in a new folder. It returns what differs, or None."""

    def __init__(self, name: str, room: str, call: Call) -> None:
        self.name, self.room, self.call = f"wrapper, {name}", room, call

    def fault(self, program: str) -> str | None:
        """Returns what differs, or None."""
        os.makedirs(self.room)
        return self.call(self.room, program)


def of_table(line: str, status: int, output: str, errors: str) -> Call:
    """Returns the call for a row of the table."""

    def call(room: str, _: str) -> str | None:
        copy_with_stub(room)
        ran = subprocess.run(
            ["sh", "-c", line], cwd=room, stdin=subprocess.DEVNULL, capture_output=True, text=True, timeout=SECONDS
        )
        found = ran.returncode, ran.stdout, ran.stderr
        return None if found == (status, output, errors) else f"it is {found}, not {(status, output, errors)}"

    return call


def signalled(number: signal.Signals) -> Call:
    """Returns the call for a signal to the wrapper: the program gets one, and the wrapper ends by that which it got."""

    def call(room: str, _: str) -> str | None:
        copy_with_stub(room)
        # (whoever is run beside a shell ignores an interrupt, or with nohup the end of a terminal, and so would all
        # that it starts)
        with subprocess.Popen(
            ["./cdsreplay", "run"],
            cwd=room,
            text=True,
            stdin=subprocess.PIPE,
            stdout=subprocess.PIPE,
            preexec_fn=lambda: signal.signal(number, signal.SIG_DFL),
        ) as ran:
            assert ran.stdin and ran.stdout
            ran.stdin.write("wait\n")
            ran.stdin.flush()
            begun = ran.stdout.readline()
            ran.send_signal(number)
            rest, _ = ran.communicate(timeout=SECONDS)
        found = begun, rest, ran.returncode
        return None if found == ("begun\n", "ended\n", -number) else f"it is {found}"

    return call


def quick(room: str, _: str) -> str | None:
    """The least processor time of ten runs, where all is built: in a repository with the sources of this one."""
    copy_with_stub(room)
    copy_sources(f"{room}/crates", MEANT)
    note_stubs(room)
    took = []
    for _ in [room] * 10:
        before = resource.getrusage(resource.RUSAGE_CHILDREN)
        subprocess.run(["./cdsreplay", "run"], cwd=room, input=b"0\n", timeout=SECONDS)
        after = resource.getrusage(resource.RUSAGE_CHILDREN)
        took.append(after.ru_utime + after.ru_stime - before.ru_utime - before.ru_stime)
    return None if min(took) <= QUICK else f"it took {min(took):.3f} seconds of processor time"


def copy_sources(crates: str, parts: tuple[str, ...]) -> None:
    """Copies these parts of all crates."""
    for name in os.listdir(f"{ROOT}/crates"):
        for part in parts:
            if os.path.isdir(f"{ROOT}/crates/{name}/{part}"):
                shutil.copytree(f"{ROOT}/crates/{name}/{part}", f"{crates}/{name}/{part}", dirs_exist_ok=True)


def copy_repository(folder: str) -> None:
    """Copies what a clone has that the wrappers need."""
    copy_sources(f"{folder}/crates", PARTS)
    shutil.copytree(f"{ROOT}/tools", f"{folder}/tools")
    for name in (*PROGRAMS, "crates.txt", "HANDLES"):
        shutil.copy(f"{ROOT}/{name}", f"{folder}/{name}")
    os.mkdir(f"{folder}/out")


def without_rt() -> dict[str, str]:
    """The environment, without a path to rt."""
    folders = [it for it in os.environ["PATH"].split(":") if not os.path.exists(f"{it}/rt")]
    return {**os.environ, "PATH": ":".join(folders), "PYTHONDONTWRITEBYTECODE": "1"}


def handed_over(room: str, _: str) -> str | None:
    """A program that was noted in one clone answers in another, without rt, once the files that docs/CHANGING.md names
    are copied there."""
    one, other = f"{room}/one", f"{room}/other"
    for clone in (one, other):
        os.mkdir(clone)
        copy_repository(clone)
    for name in PROGRAMS:
        write(f"{one}/crates/{name}/out/{name}", STUB, 0o755)
        noting = (
            f"import sys; sys.path.insert(0, sys.argv[1]); from building import sources; sources.note({name!r},"
            " sources.ROOT)"
        )
        subprocess.run([sys.executable, "-c", noting, f"{one}/tools"], check=True, env=without_rt(), timeout=SECONDS)
        os.makedirs(f"{other}/crates/{name}/out")
        for file in (f"crates/{name}/out/{name}", f"out/built-{name}"):
            shutil.copy(f"{one}/{file}", f"{other}/{file}")
    write(f"{other}/h1/1", "")
    forms = ["./cdsreplay run", "./cdsmend 1", "./cdshouse crates", "./cdsexplain h1", "./cdsclerk 1"]
    for words in [form.split() for form in forms] * 2:
        ran = subprocess.run(
            words, cwd=other, input="0 1 ok\n", capture_output=True, text=True, env=without_rt(), timeout=SECONDS
        )
        if (ran.returncode, ran.stdout, ran.stderr) != (0, "1 ok\n", ""):
            return f"{words[0]} ends with {ran.returncode}, {ran.stdout!r} and {ran.stderr!r}"
    ran = subprocess.run(
        ["./cdsreplay", "--version"], cwd=other, capture_output=True, text=True, env=without_rt(), timeout=SECONDS
    )
    return None if ran.stdout.endswith("; proved\n") and not ran.returncode else f"its version is {ran.stdout!r}"


def ran_by_nobody(words: list[str], folder: str, text: str = "") -> tuple[int, str, str]:
    """The status, the output and the standard error of a command that another user runs, if this is root."""
    user = 65534 if os.geteuid() == 0 else None
    groups: list[int] | None = [] if user else None
    try:
        ran = subprocess.run(
            words,
            cwd=folder,
            input=text,
            capture_output=True,
            text=True,
            check=False,
            env=without_rt(),
            timeout=SECONDS,
            user=user,
            group=user,
            extra_groups=groups,
        )
    except OSError as error:
        return 1, "", str(error)
    return ran.returncode, ran.stdout, ran.stderr


def of_another_user(room: str, _: str) -> str | None:
    """A program that was noted in the clone of another user answers there, also if a source was written again, as it
    is."""
    clone = f"{room}/clone"
    os.mkdir(clone)
    copy_repository(clone)
    write(f"{clone}/crates/cdsreplay/out/cdsreplay", STUB, 0o755)
    noting = (
        "import sys; sys.path.insert(0, sys.argv[1]); from building import sources; sources.note('cdsreplay',"
        " sources.ROOT)"
    )
    subprocess.run([sys.executable, "-c", noting, f"{clone}/tools"], check=True, env=without_rt(), timeout=SECONDS)
    for at in [it[0] for it in os.walk(clone)]:
        os.chmod(at, 0o555)
    for at in (os.path.dirname(room), room):
        os.chmod(at, 0o755)
    found = []
    # (where Python is in a folder of root's, nobody else can run it)
    has_python = ran_by_nobody(["python3", "-c", ""], clone)[0] == 0
    for _ in [clone] * (1 + has_python):
        found.append(ran_by_nobody(["./cdsreplay", "run"], clone, "0 1 ok\n"))
        os.utime(f"{clone}/crates/cds_base/src/lib.rt")
    for at in [it[0] for it in os.walk(clone)]:
        os.chmod(at, 0o755)
    return None if found == [(0, "1 ok\n", "")] * len(found) else f"it is {found}"


def waiting(room: str, _: str) -> str | None:
    """Whoever waits for another build says which one it is."""
    copy_repository(room)
    with open(f"{room}/out/build.lock", "w", encoding="utf-8") as lock:
        fcntl.flock(lock, fcntl.LOCK_EX)
        print("process 7 (tools/build)", file=lock, flush=True)
        with subprocess.Popen(["tools/build"], cwd=room, stderr=subprocess.PIPE, text=True, env=without_rt()) as ran:
            found = ran.stderr.readline() if ran.stderr else ""
            ran.send_signal(signal.SIGTERM)
    wanted = "cdsreplay: process 7 (tools/build) builds here; waiting until it ends\n"
    return None if found == wanted else f"it says {found!r}"


def cases(runs: list[tuple[str, tuple[str, ...], bool]], folder: str) -> list[Wrapped | Tried]:
    """Returns the cases of the wrappers: with the words of all these runs (a program's name, its words, and whether
    they are of a form), and those of this file."""
    copy_wrappers(f"{folder}/words", NOTHING)
    found: list[Wrapped | Tried] = [
        Wrapped(f"{folder}/words/{name}", list(words), is_form) for name, words, is_form in sorted(runs)
    ]
    for number, (name, line, status, output, errors) in enumerate(TABLE):
        found.append(Tried(name, f"{folder}/{number}", of_table(line, status, output, errors)))
    more: dict[str, Call] = {
        "quick": quick,
        "handed over": handed_over,
        "another user": of_another_user,
        "waiting": waiting,
    }
    more |= {it.name: signalled(it) for it in (signal.SIGTERM, signal.SIGINT, signal.SIGHUP)}
    return [*found, *(Tried(name, f"{folder}/{name}", call) for name, call in more.items())]
