//! A clearinghouse as a process, in plain Rust: what the proved `cdshouse` is to be compared with. It aborts where there is no memory.
//! The environment variables HOUSE_SEGMENT and HOUSE_TIMES, if they are there, say after how many octets, and how many times those that it
//! begins with, a segment is changed for the next one.
#![allow(dead_code)]

#[path = "plain/parts.rs"]
mod parts;
#[path = "plain/house_lines.rs"]
mod house_lines;
#[path = "plain/house_segments.rs"]
mod house_segments;
#[path = "plain/house_turns.rs"]
mod house_turns;
#[path = "plain/sha256.rs"]
mod sha256;

use std::io::{self, BufRead, BufReader, Read, Write};
use std::path::Path;
use std::process::ExitCode;

use house_segments::{Folder, NotOpened, NotPut, Segment};
use house_turns::{Home, line_in, tell};
use parts::{Replay, Stop, answers, cell, house, inquiries, names, records, rpc, script, service, tables};
use script::{Fault, MOST_LINES};

/// After how many octets, and how many times those that it begins with, a segment is changed for the next one.
const LARGE: u64 = 4_194_304;
const TIMES: u64 = 3;

/// How a house ends, by its status.
enum Ending {
    InputEnds = 0,
    WrongArguments = 2,
    BadInput = 3,
    ReadFault = 4,
    WriteFault = 5,
    Full = 7,
    DiskFault = 8,
    NoFolder = 9,
    Held = 10,
    OtherVersion = 11,
    DoesOtherwise = 12,
}

impl From<NotPut> for Ending {
    fn from(fault: NotPut) -> Ending {
        match fault {
            NotPut::Full => Ending::Full,
            NotPut::Failed => Ending::DiskFault,
        }
    }
}

impl From<NotOpened> for Ending {
    fn from(fault: NotOpened) -> Ending {
        match fault {
            NotOpened::Unreadable => Ending::NoFolder,
            NotOpened::OtherVersion => Ending::OtherVersion,
            NotOpened::Held => Ending::Held,
            NotOpened::Failed => Ending::DiskFault,
        }
    }
}

/// A house that is at work.
struct Serving<W> {
    home: Home,
    folder: Folder,
    segment: Segment,
    large: u64,
    times: u64,
    sink: W,
}

/// The house after the records of a segment with these bodies, each of which it does again, and after the death of its process.
fn home_after(bodies: &[Vec<u8>]) -> Result<Home, Ending> {
    let Some((first, others)) = bodies.split_first() else {
        return Ok(Home::default());
    };
    let mut home = Home::resume(first).ok_or(Ending::NoFolder)?;
    if others.iter().all(|body| home.redo(body)) { Ok(home.end()) } else { Err(Ending::DoesOtherwise) }
}

/// What a start says: the house, and its last turn once more.
fn start_told(home: &Home) -> Vec<u8> {
    let mut out = Vec::new();
    let Some(house) = &home.house else {
        return b"0 new\n".to_vec();
    };
    let _ = writeln!(out, "0 house {} {:012x}", house.number, house.node);
    let (line, rest) = line_in(&home.last).unwrap_or_default();
    out.extend_from_slice(b"0 last ");
    out.extend_from_slice(if line.starts_with(b"take ") { b"take" } else { line });
    out.push(b'\n');
    tell(&mut out, 0, rest);
    out
}

/// A number of the environment, or else this one.
fn set(name: &str, otherwise: u64) -> u64 {
    std::env::var(name).ok().and_then(|text| text.parse().ok()).unwrap_or(otherwise)
}

impl<W: Write> Serving<W> {
    /// Goes on where the folder ended.
    fn start(folder: &Path, sink: W) -> Result<Serving<W>, Ending> {
        let (mut folder, bodies) = Folder::open(folder)?;
        let mut home = home_after(&bodies)?;
        drop(bodies);
        home.entry += u64::from(home.house.is_some());
        let segment = folder.next(None, &home.first_record(true))?;
        let told = start_told(&home);
        let mut serving = Serving { home, folder, segment, large: set("HOUSE_SEGMENT", LARGE), times: set("HOUSE_TIMES", TIMES), sink };
        serving.say(&told)?;
        Ok(serving)
    }

    fn say(&mut self, text: &[u8]) -> Result<(), Ending> {
        self.sink.write_all(text).and_then(|()| self.sink.flush()).map_err(|_| Ending::WriteFault)
    }

    /// Changes a large segment for the next one.
    fn change(&mut self) -> Result<(), Ending> {
        if self.segment.held >= self.large.max(self.times * self.segment.begun) {
            self.segment = self.folder.next(Some(&self.segment), &self.home.first_record(false))?;
        }
        Ok(())
    }

    /// Answers the words of a line. A turn is put before.
    fn answer(&mut self, number: u32, words: &[&[u8]]) -> Result<(), Ending> {
        let reply = self.home.respond(words);
        if let Some(record) = &reply.record {
            self.segment.put(record)?;
        }
        let mut out = Vec::new();
        tell(&mut out, number, &reply.text);
        self.say(&out)?;
        if reply.record.is_some() { self.change() } else { Ok(()) }
    }

    /// Answers each line up to the end of the input.
    fn serve(&mut self, source: impl Read) -> Result<(), Ending> {
        let mut source = BufReader::new(source);
        let mut line = Vec::new();
        let mut number = 0;
        loop {
            line.clear();
            let longest = house_lines::LONGEST as u64 + 2;
            let read = source.by_ref().take(longest).read_until(b'\n', &mut line);
            if read.map_err(|_| Ending::ReadFault)? == 0 {
                return Ok(());
            }
            number += 1;
            let words = match number > MOST_LINES && matches!(line[0], b' '..=b'~' | b'\n') {
                true => Err(Fault("TooManyLines", 1)),
                false => house_lines::words_of(&line),
            };
            match words {
                Ok(words) if words.is_empty() => {}
                Ok(words) => self.answer(number, &words)?,
                Err(Fault(reason, place)) => {
                    self.say(format!("{number} fault {reason} {place}\n").as_bytes())?;
                    return Err(Ending::BadInput);
                }
            }
        }
    }
}

fn main() -> ExitCode {
    let words: Vec<_> = std::env::args_os().skip(1).collect();
    let ended = match &words[..] {
        [folder] if !folder.is_empty() => Serving::start(Path::new(folder), io::stdout().lock()).and_then(|mut serving| serving.serve(io::stdin().lock())),
        _ => Err(Ending::WrongArguments),
    };
    ExitCode::from(ended.err().unwrap_or(Ending::InputEnds) as u8)
}
