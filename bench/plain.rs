//! The work of the forms of `cdsreplay` in plain Rust: what a proved program is to be compared with. It aborts where there is no
//! memory.

#[path = "plain/parts.rs"]
mod parts;
#[path = "plain/audit.rs"]
mod audit;
#[path = "plain/clerk.rs"]
mod clerk;
#[path = "plain/disk.rs"]
mod disk;
#[path = "plain/journal.rs"]
mod journal;
#[path = "plain/load.rs"]
mod load;
#[path = "plain/mend.rs"]
mod mend;
#[path = "plain/towers.rs"]
mod towers;

use std::io::{self, Read, Write};
use std::process::ExitCode;

use answers::write_answer;
use cell::Cell;
use clerk::Clerked;
use inquiries::Inquired;
use journal::Journals;
use parts::{Replay, Stop, answers, cell, house, inquiries, names, records, rpc, script, service, tables};
use script::{Fault, Words, command, each_line};

/// How many octets of answers wait at most.
const MOST_WAITING: usize = 65_536;

/// How many octets an input that is read whole has at most.
const MOST_WHOLE: u64 = 16_777_216;

/// How many rounds `load` has at most, and how many answers a clerk keeps.
const MOST_ROUNDS: u32 = 20_000;
const MOST_KEPT: u32 = 1_000;

/// How a run ends that reads and writes all that it has to.
pub enum Ending {
    Whole,
    Faulty,
    JournalFull,
}

impl Replay for Cell {
    fn answer_line(&mut self, text: &mut Vec<u8>, number: u32, mut words: Words) -> Result<(), Stop> {
        Ok(write_answer(text, number, self.answer(command(&mut words)?))?)
    }
}

/// Answers each line up to the first faulty one.
fn run(mut replay: impl Replay, source: impl Read, mut sink: impl Write) -> io::Result<Ending> {
    let mut text = Vec::new();
    let read = each_line(source, |number, words| {
        replay.answer_line(&mut text, number, words)?;
        if text.len() > MOST_WAITING {
            sink.write_all(&text)?;
            text.clear();
        }
        Ok(())
    });
    let (ending, _) = ended(read, &mut text)?;
    sink.write_all(&text)?;
    sink.flush()?;
    Ok(ending)
}

/// How the lines of a script ended, and how many there are; a fault is told.
fn ended(read: Result<u32, (u32, Stop)>, text: &mut Vec<u8>) -> io::Result<(Ending, u32)> {
    match read {
        Ok(lines) => Ok((Ending::Whole, lines)),
        Err((number, Stop::Faulty(Fault(reason, place)))) => {
            writeln!(text, "{number} fault {reason} {place}")?;
            Ok((Ending::Faulty, number))
        }
        Err((number, Stop::JournalFull)) => Ok((Ending::JournalFull, number)),
        Err((_, Stop::Failed(error))) => Err(error),
    }
}

/// Counts the lines and the commands, or tells the first fault.
fn check(source: impl Read, mut sink: impl Write) -> io::Result<Ending> {
    let mut commands = 0;
    let read = each_line(source, |_, mut words| {
        command(&mut words)?;
        commands += 1;
        Ok(())
    });
    let mut text = Vec::new();
    let (ending, lines) = ended(read, &mut text)?;
    if matches!(ending, Ending::Whole) {
        writeln!(text, "ok {lines} {commands}")?;
    }
    sink.write_all(&text)?;
    Ok(ending)
}

/// The whole input; nothing where it is too long.
fn whole(source: impl Read) -> io::Result<Option<Vec<u8>>> {
    let mut octets = Vec::new();
    source.take(MOST_WHOLE + 1).read_to_end(&mut octets)?;
    Ok(Some(octets).filter(|octets| octets.len() as u64 <= MOST_WHOLE))
}

/// Writes an image in today's format, where the whole input is one.
fn migrate(source: impl Read, mut sink: impl Write) -> io::Result<Ending> {
    let Some(image) = whole(source)?.and_then(|octets| records::migrated(&octets)) else {
        return Ok(Ending::Faulty);
    };
    sink.write_all(&image)?;
    sink.flush()?;
    Ok(Ending::Whole)
}

/// A source that tells whether its last read failed.
struct Source<'a, R> {
    reader: R,
    has_failed: &'a mut bool,
}

impl<R: Read> Read for Source<'_, R> {
    fn read(&mut self, octets: &mut [u8]) -> io::Result<usize> {
        let count = self.reader.read(octets);
        *self.has_failed = count.is_err();
        count
    }
}

/// A number from 1 to this one.
fn number_to(most: u32, word: &str) -> Option<u32> {
    let digits = word.bytes().all(|digit| digit.is_ascii_digit()) && !word.starts_with('0');
    if digits { word.parse().ok().filter(|number| (1..=most).contains(number)) } else { None }
}

/// Does what words say; nothing where they are no form.
fn serve(words: &[&str], source: impl Read, sink: impl Write) -> Option<io::Result<Ending>> {
    Some(match *words {
        ["run"] => run(Cell::default(), source, sink),
        ["clerk", room] => run(Clerked::new(number_to(MOST_KEPT, room)? as usize), source, sink),
        ["inquire"] => run(Inquired::default(), source, sink),
        ["journal"] => run(Journals::default(), source, sink),
        ["check"] => check(source, sink),
        ["load", rounds] => load::load(number_to(MOST_ROUNDS, rounds)?, sink),
        ["towers"] => towers::towers(source, sink),
        ["untowers"] => towers::untowers(source, sink),
        ["migrate"] => migrate(source, sink),
        ["audit", dir] => {
            let dir = number_to(u32::MAX, dir)?;
            whole(source).and_then(|input| audit::audit(dir, input, sink))
        }
        ["mend", dir] => mend::mend(number_to(u32::MAX, dir)?, &[], source, sink),
        ["mend", dir, "-", ref houses @ ..] if !houses.is_empty() => {
            let without: Option<Vec<u8>> = houses.iter().map(|it| Some(number_to(255, it)? as u8)).collect();
            mend::mend(number_to(u32::MAX, dir)?, &without?, source, sink)
        }
        _ => return None,
    })
}

fn main() -> ExitCode {
    let mut has_failed = false;
    let source = Source { reader: io::stdin().lock(), has_failed: &mut has_failed };
    let sink = io::stdout().lock();
    let words: Vec<String> = std::env::args().skip(1).collect();
    let words: Vec<&str> = words.iter().map(String::as_str).collect();
    let ended = serve(&words, source, sink);
    ExitCode::from(match ended {
        None => 2,
        Some(Ok(Ending::Whole)) => 0,
        Some(Ok(Ending::Faulty)) => 3,
        Some(Ok(Ending::JournalFull)) => 7,
        Some(Err(_)) if has_failed => 4,
        Some(Err(_)) => 5,
    })
}
