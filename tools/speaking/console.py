"""The console: what each line that is typed does."""

from __future__ import annotations

import os
import re
import subprocess
import textwrap
from collections.abc import Callable

from building.sources import ROOT
from cds.commands import COMMANDS, FORMS
from pictures import facts
from speaking import desk, language, pages, program, show, texts, tokens, writing

OWN = {
    "help [COMMAND]": "this list, or what a command does",
    "undo": "takes the last line back",
    "show [DIRECTORY]": "what each house holds, side by side",
    "messages": "what is under way, and to whom",
    "deliver all": "delivers it, and what comes of that; `but to HOUSE..` leaves some out",
    "skulk HOUSE through": "a skulk with all its messages",
    "from here deliver all": "does so after each line; `from here deliver nothing` ends it",
    "script": "the lines so far",
    "picture [FILE]": "draws them into FILE, cell.svg where none is named",
    "save FILE": "writes the lines into FILE, a script",
    "load FILE": "takes the lines of FILE after those that are there",
    "quit": "ends, as Ctrl-D does",
}


class Console:
    """A console over a cell. `say` prints a line."""

    def __init__(self, asked: program.Program, say: Callable[[str], object], width: int = 100) -> None:
        self.cell, self.say, self.width = desk.Desk(asked), say, width
        self.saved, self.is_warned, self.is_over = 0, False, False

    def prompt(self) -> str:
        """The prompt: the number that the next line gets."""
        return f"{len(self.cell.lines) + 1}> "

    def completions(self, text: str, line: str) -> list[str]:
        """What a word may be."""
        if not line.strip() or line.strip() == text:
            known = [*FORMS[self.cell.program.form[0]], *(it.split()[0] for it in OWN)]
        else:
            known = [*self.cell.names.houses, *self.cell.names.directories]
            known += COMMANDS if line.split()[0] == "help" else ["all", "through", "but", "to", "low", "high"]
        return sorted({f"{it} " for it in known if it.startswith(text)})

    def take(self, line: str) -> None:
        """Takes a line that was typed. Nothing that was there is lost, whatever it says."""
        words = line.split()
        self.is_warned = self.is_warned and words[:1] in (["quit"], ["exit"])
        own: dict[str, Callable[[list[str]], None]] = {
            "?": self.help, "help": self.help, "undo": self.undo, "show": self.show, "messages": self.messages,
            "script": self.script, "picture": self.picture, "save": self.save, "load": self.load, "quit": self.quit,
            "exit": self.quit,
        }  # fmt: skip
        if not words or words[0].startswith("#"):
            return
        try:
            if words[0].lower() in own:
                own[words[0].lower()](words[1:])
            else:
                self.do(line)
        except (tokens.Fault, program.Failed) as fault:
            self.say(str(fault))
        except facts.Fault as fault:
            self.say(f"The answers are not understood: {fault}")
        except OSError as error:
            self.say(f"{error.filename}: {error.strerror}")

    def do(self, line: str) -> None:
        """Does a line of the cell, and says the answers."""
        done = self.cell.do(line)
        if len(done.lines) > 1 or done.lines and done.lines[0] != " ".join(line.split()):
            for answer in done.answers:
                made = self.cell.lines[int(answer.split(" ", 1)[0]) - 1]
                said = writing.spoken(answer)
                self.say(f"{said:<44} {made}" if answer.split()[1] in ("ok", "refused") else said)
        else:
            for answer in done.answers:
                self.say(writing.spoken(answer))
        for note in [*done.notes, *done.hints]:
            self.say(f"   {note}")
        self.say_names(done)

    def say_names(self, done: desk.Done) -> None:
        """Says what new houses and directories are called."""
        for line in done.lines:
            found = re.match(r"house (\d+) ", line)
            if found and not self.cell.names.called(int(found.group(1))).startswith("house "):
                self.say(f"   house {found.group(1)} is {self.cell.names.called(int(found.group(1)))}")

    def help(self, words: list[str]) -> None:
        """Says what there is, or what a command does."""
        if not words:
            known = " ".join(FORMS[self.cell.program.form[0]])
            self.say(f"Commands of the cell: {known}. `help COMMAND` explains one.")
            for name, what in OWN.items():
                self.say(f"  {name:<24}{what}")
            self.say(
                "Houses may have names (`house a_ch b_ch`), and values may be texts in quotes: `tools/write --help` has"
                " it all."
            )
            return
        command = tokens.command_of(words[0])
        if command not in COMMANDS:
            meant = next((f"{name}: {what}" for name, what in OWN.items() if name.split()[0] == words[0]), "")
            self.say(meant or f"There is no command `{words[0]}`. `help` lists all.")
            return
        self.say(f"{language.pattern(command)}: {pages.commands().get(command, '')}")
        for kind in dict.fromkeys(COMMANDS[command].split()):
            what, form = pages.words().get(kind, ("", ""))
            self.say(f"  {kind}: {what}: {form}")
        for line in textwrap.wrap(pages.paragraph(command), self.width):
            self.say(line)

    def undo(self, _: list[str]) -> None:
        """Takes the last line back."""
        line = self.cell.undo()
        self.say(f"taken back: {line}" if line else "There is nothing to take back.")

    def show(self, words: list[str]) -> None:
        """Shows what each house holds of a directory."""
        for line in show.table(self.cell, int(self.cell.names.directory(words[0])) if words else 1, self.width):
            self.say(line)

    def messages(self, _: list[str]) -> None:
        """Says which messages are under way."""
        for line in show.messages(self.cell):
            self.say(line)

    def script(self, _: list[str]) -> None:
        """Says the lines so far."""
        for number, line in enumerate(self.cell.lines, 1):
            self.say(f"{number:>4}  {line}")

    def picture(self, words: list[str]) -> None:
        """Draws the cell."""
        file = words[0] if words else "cell.svg"
        answers = "".join(f"{it}\n" for it in self.cell.answers)
        with open(f"{file}.script", "wb") as it:
            it.write(self.cell.script())
        try:
            drawn = subprocess.run(
                [f"{ROOT}/tools/picture", f"{file}.script", "-", file],
                input=answers.encode(),
                stderr=subprocess.PIPE,
                check=False,
            )
        finally:
            os.remove(f"{file}.script")
        self.say(f"{file} is drawn: open it in a browser." if drawn.returncode == 0 else drawn.stderr.decode().strip())

    def save(self, words: list[str]) -> None:
        """Writes the lines into a file, with the names as comments."""
        if not words:
            self.say("Name the file: `save FILE`.")
        elif os.path.exists(words[0]) and words[1:] != ["over"]:
            self.say(f"{words[0]} is there already. `save {words[0]} over` writes over it.")
        else:
            self.write(words[0])

    def write(self, file: str) -> None:
        """Writes the lines into a file."""
        form, named = self.cell.program.form, self.cell.names
        # The names go to the end, so that lines keep their numbers.
        first = [] if form == ("run",) else [f"# ./cdsreplay {' '.join(form)} <{os.path.basename(file)}"]
        last = [f"# house {number} is {name}" for name, number in named.houses.items()]
        last += [f"# directory {number} is {path}" for path, number in named.directories.items() if number > 1]
        with open(file, "w", encoding="ascii") as it:
            it.write("".join(f"{line}\n" for line in [*first, *self.cell.lines, *last]))
        self.saved = len(self.cell.lines)
        self.say(f"{file} has {texts.plural(self.saved, 'line')}. Replay it by ./cdsreplay {' '.join(form)} <{file}")

    def load(self, words: list[str]) -> None:
        """Takes the lines of a file. A faulty one ends that; those before it stay."""
        if not words:
            self.say("Name the file: `load FILE`.")
            return
        with open(words[0], encoding="utf-8", errors="replace") as it:
            lines = it.read().splitlines()
        for number, name in re.findall(r"(?m)^# (?:.*, )?house (\d+) is ([A-Za-z][^ ,\n]*)", "\n".join(lines)):
            self.cell.names.houses.setdefault(name, int(number))
        # A script goes as a whole; words for tools/write, from the first such line on, one by one.
        first = self.cell.take_script(lines)
        for number, line in enumerate(lines[first:], first + 1):
            try:
                self.cell.do(line)
            except (tokens.Fault, facts.Fault) as fault:
                self.say(f"{words[0]}, line {number}: {line.strip()}")
                self.say(str(fault))
                self.say(f"The lines before it are loaded; the next one is {len(self.cell.lines) + 1}.")
                return
        self.saved = len(self.cell.lines)
        self.say(f"{words[0]} is loaded; the next line is {self.saved + 1}.")

    def quit(self, _: list[str]) -> None:
        """Ends, and warns once where lines would be lost."""
        if len(self.cell.lines) != self.saved and not self.is_warned:
            self.is_warned = True
            self.say(
                f"{texts.plural(len(self.cell.lines), 'line')} would be lost: `save FILE`, or `quit` (or Ctrl-D) once"
                " more."
            )
        else:
            self.is_over = True
