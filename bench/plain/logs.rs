//! The journals of houses, read from their folders.

use std::fs;
use std::io::{self, ErrorKind};
use std::path::Path;

use crate::answers::push_hex;
use crate::house_lines::{Line, line_of};
use crate::house_segments::{self, NO_SUM, Record, Sum, greatest, is_other_version, sum_before};
use crate::house_turns::line_in;
use crate::script::{house, octets};

/// A start, or a turn.
pub struct Entry {
    pub clock: u64,
    /// Nothing of a start.
    pub line: Vec<u8>,
    pub posts: Vec<(u8, Vec<u8>)>,
    pub answer: Vec<u8>,
    /// If a record has it: that of a start, or of the segment that begins after the entry.
    pub image: Option<Vec<u8>>,
}

impl Entry {
    pub fn is_start(&self) -> bool {
        self.line.is_empty()
    }
}

/// What a house did after it was made, in its order.
pub struct Log {
    pub house: u8,
    pub node: u64,
    /// After it was made, if a record has it.
    pub image: Option<Vec<u8>>,
    pub entries: Vec<Entry>,
}

/// What is read of a folder: the journal of its house, if one was made, and why it is not read to its end, if it is not.
pub struct Found {
    pub log: Option<Log>,
    pub fault: Option<String>,
}

/// The parts of a turn's text: its line, its messages, and its answer.
type Parts<'a> = (&'a [u8], Vec<(u8, Vec<u8>)>, &'a [u8]);

fn post(line: &[u8]) -> Option<(u8, Vec<u8>)> {
    let words: Vec<&[u8]> = line.split(|b| *b == b' ').collect();
    let [b"post", to, digits] = words[..] else {
        return None;
    };
    let (to, octets) = (house(to)?, octets(digits)?);
    let mut again = Vec::new();
    push_hex(&mut again, &octets);
    if again == digits { Some((to, octets)) } else { None }
}

fn parts(text: &[u8]) -> Option<Parts<'_>> {
    let mut lines = text.strip_suffix(b"\n")?.split(|b| *b == b'\n');
    let line = lines.next()?;
    let rest: Vec<&[u8]> = lines.collect();
    let (answer, posts) = rest.split_last()?;
    if answer.starts_with(b"post ") {
        return None;
    }
    Some((line, posts.iter().map(|line| post(line)).collect::<Option<_>>()?, answer))
}

/// Reads a folder, record by record.
#[derive(Default)]
struct Reader {
    log: Option<Log>,
    number: u64,
    clock: u64,
    /// The text of the last turn.
    turn: Vec<u8>,
}

/// The text of a segment's first record without its first line, and without the lines of the skulks that run.
fn without_running(mut text: &[u8]) -> Option<&[u8]> {
    (_, text) = line_in(text)?;
    while let Some((_, rest)) = line_in(text).filter(|(line, _)| line.starts_with(b"running ")) {
        text = rest;
    }
    Some(text)
}

impl Reader {
    /// Takes a record whose number is due; nothing where no house writes it there.
    fn take(&mut self, record: &Record) -> Option<()> {
        match (&record.image, line_in(&record.text)?.0) {
            (None, b"new") => return if self.log.is_none() && record.clock == 0 && record.text == b"new\n" { Some(()) } else { None },
            (Some(image), b"start") => self.take_start(record, image)?,
            (Some(image), first) => return self.take_segment(record, first, image),
            (None, _) => {
                self.take_turn(record)?;
                self.turn = record.text.clone();
            }
        }
        (self.number, self.clock) = (record.entry, record.clock);
        Some(())
    }

    fn take_start(&mut self, record: &Record, image: &[u8]) -> Option<()> {
        let log = self.log.as_mut().filter(|_| record.clock == 0 && record.text.strip_prefix(b"start\n") == Some(&self.turn))?;
        log.entries.push(Entry { clock: 0, line: vec![], posts: vec![], answer: vec![], image: Some(image.to_vec()) });
        Some(())
    }

    /// The house went on: the image is that after its last entry.
    fn take_segment(&mut self, record: &Record, first: &[u8], image: &[u8]) -> Option<()> {
        let log = self.log.as_mut()?;
        let own = log.entries.last_mut().map_or(&mut log.image, |entry| &mut entry.image);
        let is_next = first == format!("segment {}", self.number).as_bytes() && record.clock == self.clock;
        if !is_next || without_running(&record.text)? != self.turn || own.as_deref().is_some_and(|own| own != image) {
            return None;
        }
        *own = Some(image.to_vec());
        Some(())
    }

    fn take_turn(&mut self, record: &Record) -> Option<()> {
        let (line, posts, answer) = parts(&record.text)?;
        let words: Vec<&[u8]> = line.split(|b| *b == b' ').filter(|word| !word.is_empty()).collect();
        let said = if words.is_empty() { None } else { line_of(&words).ok() }?;
        match (&mut self.log, said) {
            (None, Line::House(house, node)) if record.clock == 0 && posts.is_empty() && answer == b"ok" => {
                self.log = Some(Log { house, node, image: None, entries: vec![] });
            }
            (None, _) | (_, Line::House(..)) => return None,
            (_, line) if line.is_no_turn() => return None,
            (Some(log), _) => {
                let (line, answer) = (line.to_vec(), answer.to_vec());
                log.entries.push(Entry { clock: record.clock, line, posts, answer, image: None });
            }
        }
        Some(())
    }

    /// Reads the octets of a segment after a sum, up to the first record that is none. The sum after it.
    fn read(&mut self, octets: &[u8], number: u64, before: &Sum) -> Result<Sum, String> {
        if is_other_version(octets) {
            return Err(format!("segment {number} is of another version"));
        }
        let own = sum_before(octets, number).ok_or(format!("segment {number} record 1 is damaged"))?;
        if own != *before {
            return Err(format!("segment {number} does not follow the segment before"));
        }
        let mut records = Vec::new();
        let sums = house_segments::read(octets, number, |body| records.push(Record::read(body)));
        for (place, record) in (2..).zip(&records) {
            let no_record = || format!("segment {number} record {place} does not follow the record before");
            let record = record.as_ref().ok_or_else(no_record)?;
            let is_entry = record.text != b"new\n" && !record.text.starts_with(b"segment ");
            let due = self.number + u64::from(is_entry);
            if record.entry != due {
                return Err(format!("segment {number} record {place} has entry {} where {due} is due", record.entry));
            }
            self.take(record).ok_or_else(no_record)?;
        }
        sums.map(|sums| sums.last).ok_or(format!("segment {number} record {} is damaged", records.len() + 2))
    }

    /// Reads the segments of a folder, of which this is the greatest number, up to the first fault.
    fn read_all(&mut self, folder: &Path, most: u64) -> io::Result<Option<String>> {
        let mut sum = NO_SUM;
        for number in 1..=most {
            let octets = match fs::read(folder.join(number.to_string())) {
                Ok(octets) => octets,
                Err(error) if error.kind() == ErrorKind::NotFound => return Ok(Some(format!("segment {number} is missing"))),
                Err(error) => return Err(error),
            };
            match self.read(&octets, number, &sum) {
                Ok(last) => sum = last,
                Err(fault) => return Ok(Some(fault)),
            }
        }
        Ok(None)
    }
}

impl Found {
    /// What a folder has.
    pub fn read(folder: &Path) -> io::Result<Found> {
        let mut reader = Reader::default();
        let fault = reader.read_all(folder, greatest(folder)?)?;
        Ok(Found { log: reader.log, fault })
    }
}
