//! Towers as octets and as text.

use std::io::{self, BufRead, BufReader, BufWriter, Read, Write};

use crate::Ending;
use crate::answers::push_hex;
use crate::script::{MOST_LINES, text_of};

const LONGEST_TOWER: usize = 1024;
const MOST_TOWERS: u32 = 16_777_216;

/// Why there is no next tower.
enum Stop {
    Faulty(&'static str, usize),
    Failed(io::Error),
}

impl From<io::Error> for Stop {
    fn from(error: io::Error) -> Stop {
        Stop::Failed(error)
    }
}

/// The next octets of a tower, which has this fault where it ends in them. Of a tower that is too long one octet too many is read.
fn take<'a>(source: &mut impl BufRead, tower: &'a mut Vec<u8>, len: usize, short: &'static str) -> Result<&'a [u8], Stop> {
    let start = tower.len();
    let end = (start + len).min(LONGEST_TOWER + 1);
    while tower.len() < end {
        let octets = source.fill_buf()?;
        if octets.is_empty() {
            return Err(Stop::Faulty(short, tower.len() + 1));
        }
        let taken = octets.len().min(end - tower.len());
        tower.extend_from_slice(&octets[..taken]);
        source.consume(taken);
    }
    if end < start + len { Err(Stop::Faulty("TooLong", end)) } else { Ok(&tower[start..]) }
}

fn take_number(source: &mut impl BufRead, tower: &mut Vec<u8>, short: &'static str) -> Result<usize, Stop> {
    let octets = take(source, tower, 2, short)?;
    Ok(usize::from(u16::from_le_bytes([octets[0], octets[1]])))
}

/// Adds the line of the next tower.
fn print_tower(source: &mut impl BufRead, tower: &mut Vec<u8>, text: &mut Vec<u8>) -> Result<(), Stop> {
    let count = take_number(source, tower, "ShortCount")?;
    if count == 0 {
        text.push(b'-');
    }
    for i in 0..count {
        if i > 0 {
            text.push(b' ');
        }
        for mark in [Some(b':'), None] {
            let place = tower.len() + 1;
            let len = take_number(source, tower, "ShortLength")?;
            if len == 0 && mark.is_some() {
                return Err(Stop::Faulty("EmptyLeft", place));
            }
            push_hex(text, take(source, tower, len, "ShortPart")?);
            text.extend(mark);
        }
    }
    text.push(b'\n');
    if tower.len() > LONGEST_TOWER { Err(Stop::Faulty("TooLong", tower.len())) } else { Ok(()) }
}

/// Writes the line of each tower up to the first faulty one.
pub fn towers(source: impl Read, sink: impl Write) -> io::Result<Ending> {
    let mut source = BufReader::new(source);
    let mut sink = BufWriter::new(sink);
    let (mut tower, mut text) = (Vec::new(), Vec::new());
    let mut number = 0;
    while !source.fill_buf()?.is_empty() {
        number += 1;
        tower.clear();
        text.clear();
        let printed = match number > MOST_TOWERS {
            true => Err(Stop::Faulty("TooManyTowers", 1)),
            false => print_tower(&mut source, &mut tower, &mut text),
        };
        match printed {
            Ok(()) => sink.write_all(&text)?,
            Err(Stop::Faulty(reason, place)) => {
                writeln!(sink, "{number} fault {reason} {place}")?;
                sink.flush()?;
                return Ok(Ending::Faulty);
            }
            Err(Stop::Failed(error)) => return Err(error),
        }
    }
    sink.flush()?;
    Ok(Ending::Whole)
}

/// A line that is no tower.
struct Faulty;

/// Adds the octets of a part, behind their number.
fn push_part(tower: &mut Vec<u8>, digits: &[u8]) -> Result<(), Faulty> {
    let digit = |b: u8| (b as char).to_digit(16).map(|d| d as u8).ok_or(Faulty);
    let len = u16::try_from(digits.len() / 2).map_err(|_| Faulty)?;
    if digits.len() % 2 != 0 {
        return Err(Faulty);
    }
    tower.extend_from_slice(&len.to_le_bytes());
    tower.reserve(digits.len() / 2);
    for pair in digits.chunks_exact(2) {
        tower.push(digit(pair[0])? << 4 | digit(pair[1])?);
    }
    Ok(())
}

/// The octets of the tower that a line with its end says; nothing for a line that says nothing.
fn spell_tower(line: &[u8], tower: &mut Vec<u8>) -> Result<(), Faulty> {
    tower.clear();
    let text = text_of(line).map_err(|_| Faulty)?.trim_ascii();
    if text.is_empty() || text.starts_with(b"#") {
        return Ok(());
    }
    tower.extend_from_slice(&[0, 0]);
    if text == b"-" {
        return Ok(());
    }
    let mut count: u16 = 0;
    for word in text.split(|b| *b == b' ').filter(|word| !word.is_empty()) {
        let at = word.iter().position(|b| *b == b':').ok_or(Faulty)?;
        if at == 0 {
            return Err(Faulty);
        }
        push_part(tower, &word[..at])?;
        push_part(tower, &word[at + 1..])?;
        count += 1;
        if tower.len() > LONGEST_TOWER {
            return Err(Faulty);
        }
    }
    tower[..2].copy_from_slice(&count.to_le_bytes());
    Ok(())
}

/// Writes the tower of each line up to the first faulty one.
pub fn untowers(source: impl Read, sink: impl Write) -> io::Result<Ending> {
    let mut source = BufReader::new(source);
    let mut sink = BufWriter::new(sink);
    let (mut line, mut tower) = (Vec::new(), Vec::new());
    let mut number = 0;
    loop {
        line.clear();
        if source.read_until(b'\n', &mut line)? == 0 {
            sink.flush()?;
            return Ok(Ending::Whole);
        }
        number += 1;
        if number > MOST_LINES || spell_tower(&line, &mut tower).is_err() {
            sink.flush()?;
            return Ok(Ending::Faulty);
        }
        sink.write_all(&tower)?;
    }
}
