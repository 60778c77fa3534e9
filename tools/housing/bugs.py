"""Bugs of the plain house that trials have to find: a check that finds none of them would show nothing."""

from __future__ import annotations

import shutil
from typing import Any

from building.sources import ROOT
from cds import programs

SEGMENTS, TURNS, MAIN = "bench/plain/house_segments.rs", "bench/plain/house_turns.rs", "bench/house.rs"

PUT = """        if let Some(record) = &reply.record {
            self.segment.put(record)?;
        }
"""
SAY = """        let mut out = Vec::new();
        tell(&mut out, number, &reply.text);
        self.say(&out)?;
"""
RESPOND = "        let reply = self.home.respond(words);\n"
BEFORE = "        let before = self.home.house.as_ref().map(|house| house.image());\n"
PUT_CHANGED = """        let is_same = before == self.home.house.as_ref().map(|house| house.image());
        if let Some(record) = reply.record.as_ref().filter(|_| !is_same) {
            self.segment.put(record)?;
        }
        self.home.entry -= u64::from(is_same && reply.record.is_some());
"""
WRITE, SYNC = "        self.file.write_all_at(&octets, self.gate + 1)?;\n", "        self.file.sync_all()?;\n"
OPEN = "        self.file.write_all_at(&[1], self.gate)?;\n"
BOTH = "        self.file.write_all_at(&[&[1], &octets[..]].concat(), self.gate)?;\n"
PUT_OCTETS = WRITE + SYNC + OPEN + SYNC
RECORDS = "        segment.put_octets(&[&title(number)[..], &before].concat())?;\n        segment.put(record)?;\n"
NAMED = '        fs::rename(self.path.join("new"), self.path.join(number.to_string()))?;\n'
BEGUN = "        segment.begun = segment.size;\n"
RENAME = '        fs::rename(self.path.join("new"), name)?;\n'
OTHERS, FEWER = "others.iter().all(", "others[..others.len().max(1) - 1].iter().all("
SAY_LAST = "    tell(&mut out, 0, rest);\n"
SAY_ANSWER = """    let at = rest[..rest.len() - 1].iter().rposition(|b| *b == b'\\n').map_or(0, |at| at + 1);
    tell(&mut out, 0, &rest[at..]);
"""
REFUSED = r"""Err(refusal) => Reply::says(format!("{refusal}\n")),"""
PUT_REFUSED = r"""Err(refusal) => {
                let said = format!("{refusal}\n").into_bytes();
                self.entry += 1;
                let text = [&words.join(&b' '), &b"\n"[..], &said].concat();
                Reply { text: said, record: Some(Record { entry: self.entry, clock: self.clock, text, image: None }) }
            }"""
PIECES = "let pieces = std::mem::take(&mut self.pieces);"
KEEP_PIECES = """let is_message = matches!(line, Line::Take(_) | Line::More(_));
        let pieces = if is_message { std::mem::take(&mut self.pieces) } else { Vec::new() };"""
BEHIND = "next.is_some_and(|record| record_at(&opened, 1 + LENGTH + record.len()).is_some())"
ANY_BEHIND = "next.is_some_and(|record| opened.get(1 + LENGTH + record.len()) == Some(&1))"

# What the bug is, the file, and its edits: the present text, and the text in its place.
Bug = tuple[Any, ...]
BUGS: list[Bug] = [
    ("a turn is answered before it is put", MAIN, (PUT + SAY, SAY + PUT)),
    ("a turn that leaves the image as it is is not put", MAIN, (RESPOND + PUT, BEFORE + RESPOND + PUT_CHANGED)),
    ("a line that is refused leaves a record", TURNS, (REFUSED, PUT_REFUSED)),
    ("the record is not synced before its gate", SEGMENTS, (PUT_OCTETS, WRITE + OPEN + SYNC)),
    ("a put ends without a sync", SEGMENTS, (PUT_OCTETS, WRITE + SYNC + OPEN)),
    ("the gate is written with the record", SEGMENTS, (PUT_OCTETS, BOTH + SYNC)),
    ("the gate is opened before the record is there", SEGMENTS, (PUT_OCTETS, OPEN + SYNC + WRITE + SYNC)),
    ("a start does not sync what it reads", SEGMENTS, ("file.sync_all().map_err(|_| NotOpened::Failed)?;", "")),
    ("the folder is not synced", SEGMENTS, (RENAME + "        sync_folder(&self.path)?;\n", RENAME)),
    ("a segment has its name before its records", SEGMENTS, (RECORDS + BEGUN, NAMED + RECORDS + BEGUN), (RENAME, "")),
    (
        "a new segment does not follow the one before",
        MAIN,
        ("self.folder.next(Some(&self.segment),", "self.folder.next(None,"),
    ),
    (
        "a start keeps the clock",
        TURNS,
        ("Home { clock: 0, pieces: vec![], ..self }", "Home { pieces: vec![], ..self }"),
    ),
    ("a start says no message", MAIN, (SAY_LAST, SAY_ANSWER)),
    ("a start does not count as an entry", MAIN, ("home.entry += u64::from(home.house.is_some());", "")),
    ("pieces of a message are kept over another line", TURNS, (PIECES, KEEP_PIECES)),
    ("an octet 1 behind a record that was not put is damage", SEGMENTS, (BEHIND, ANY_BEHIND)),
    ("the last record is not done again", MAIN, (OTHERS, FEWER)),
    ("lines are done again at the clock of the first record", TURNS, ("        self.clock = record.clock;\n", "")),
    ("a start keeps the skulks that run", TURNS, ("            house.crash();\n", "            let _ = house;\n")),
    ("a next segment forgets the skulks that run", TURNS, ("&house.running(), ", "")),
    ("a next segment knows of a skulk in its first round alone", TURNS, ('b"spread" => true', 'b"spread" => false')),
    (
        "what is done again is not compared",
        TURNS,
        (".record.is_some_and(|own| own.octets() == body)", ".record.is_some()"),
    ),
]
# The tests that find what trials seldom come across, or never.
TESTS = {
    "a next segment forgets the skulks that run": "test_skulks_that_run_where_a_segment_begins",
    "a next segment knows of a skulk in its first round alone": "test_skulks_that_run_where_a_segment_begins",
    "what is done again is not compared": "test_a_house_that_would_do_otherwise",
}


def planted(bug: Bug, room: str) -> str:
    """A house with a bug, in a copy of bench/ of its own."""
    name, file, *edits = bug
    shutil.copytree(f"{ROOT}/bench", f"{room}/bench")
    path = f"{room}/{file}"
    with open(path, encoding="utf-8") as it:
        text = it.read()
    for old, new in edits:
        if text.count(old) != 1:
            raise SystemExit(f"bugs.py: {name}: what it changes is not there once")
        text = text.replace(old, new)
    with open(path, "w", encoding="utf-8") as it:
        it.write(text)
    return programs.compiled("bench/house.rs", "out/house", root=room)
