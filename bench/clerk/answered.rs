//! The answers of houses, read back: `show`, `status`, and the `dump` of a house that knows neither. What no house answers counts as passed
//! over.

use std::collections::HashMap;

use crate::heard::{Said, Whole};
use crate::script::{self, hex};
use crate::tables::{Change, Entry, Kind, Marks, Pointer, Stamp};

/// Marks are compared by houses. Here each has this stamp.
const SOME: Stamp = Stamp { time: 1, node: 1 };

fn words(line: &[u8]) -> Vec<&[u8]> {
    line.split(|b| *b == b' ').filter(|word| !word.is_empty()).collect()
}

/// What is before the first space of a line.
fn first_word(line: &[u8]) -> &[u8] {
    line.split(|b| *b == b' ').next().unwrap_or(line)
}

/// Whether a line is the last one of an answer.
pub fn is_last(line: &[u8]) -> bool {
    matches!(first_word(line), b"ok" | b"refused" | b"fault" | b"end")
}

/// Whether a house does not know the command that it was asked.
pub fn is_unknown(lines: &[Vec<u8>]) -> bool {
    lines.last().is_some_and(|line| line.starts_with(b"fault UnknownCommand"))
}

/// The epoch and the houses of the root directory by a line of `status`.
pub fn root(line: &[u8]) -> Option<(u64, Pointer<'static>)> {
    match words(line)[..] {
        [b"ok", b"epoch", epoch, _, _, _, _, _, _, b"members", ref members @ ..] => listed(epoch, members),
        _ => None,
    }
}

/// The same by the first line of a `dump`.
pub fn root_of_dump(line: &[u8]) -> Option<(u64, Pointer<'static>)> {
    match words(line)[..] {
        [b"dump", b"epoch", epoch, _, _, b"members", ref members @ ..] => listed(epoch, members),
        _ => None,
    }
}

fn listed(epoch: &[u8], members: &[&[u8]]) -> Option<(u64, Pointer<'static>)> {
    let (mut master, mut others) = (None, Vec::new());
    for member in members {
        let mut parts = member.splitn(3, |b| *b == b':');
        let (house, _, kind) = (script::house(parts.next()?)?, parts.next()?, parts.next()?);
        if kind == b"m" {
            master.get_or_insert(house);
        } else {
            others.push(house);
        }
    }
    Some((script::serial(epoch)?, pointer(1, master?, &others)?))
}

/// A directory and its houses, if these are houses of one.
fn pointer(dir: u32, master: u8, others: &[u8]) -> Option<Pointer<'static>> {
    let octets = Pointer { dir, houses: [&[master], others].concat().into() }.octets();
    Pointer::read(&octets).map(|pointer| pointer.lent().into_kept())
}

/// What a `show` says.
pub fn shown(lines: &[Vec<u8>]) -> Said {
    match lines {
        [only] if only == b"refused NoSuchEntry" => Said::Absent,
        [first, middle @ .., last] if first_word(last) == b"end" => shown_entry(first, middle).map_or(Said::Passed, Said::Shows),
        _ => Said::Passed,
    }
}

/// The entry of a `show`: its kind and where it leads; then its attributes, and the values of each, ascending.
fn shown_entry(first: &[u8], rest: &[Vec<u8>]) -> Option<Entry> {
    let (kind, lead) = match words(first)[..] {
        [b"object"] => (Kind::Object, None),
        [b"link", target] => (Kind::Link, Some(script::full(target)?.to_vec())),
        [b"child", dir, master, ref others @ ..] => {
            let others: Option<Vec<u8>> = others.iter().map(|word| script::house(word)).collect();
            (Kind::Child, Some(pointer(script::directory(dir)?, script::house(master)?, &others?)?.octets()))
        }
        _ => return None,
    };
    let mut entry = Entry::born(kind, SOME, lead);
    // (of an attribute that is named twice the first values count)
    let (mut attributes, mut last, mut counts) = (Vec::<&[u8]>::new(), Vec::new(), false);
    for line in rest {
        match words(line)[..] {
            [b"attr", name] => {
                counts = !attributes.contains(&name);
                attributes.push(script::attribute(name)?);
                last.clear();
            }
            [b"value", digits] => {
                let (attribute, value) = (attributes.last()?, script::value(digits)?);
                if value <= last {
                    return None;
                }
                if counts {
                    add(&mut entry, attribute, value.clone());
                }
                last = value;
            }
            _ => return None,
        }
    }
    Some(entry)
}

fn add(entry: &mut Entry, attribute: &[u8], octets: Vec<u8>) {
    entry.apply(Marks::Change(Change { attribute, clears: false, value: Some((octets, true)) }), SOME);
}

/// The entries of a `dump` that show. At high confidence a house counts that is the master by its own list.
pub fn dumped(lines: &[Vec<u8>], high: bool, house: u8) -> Whole {
    let [first, middle @ .., last] = lines else { return None };
    let (_, pointer) = root_of_dump(first)?;
    if first_word(last) != b"end" || high && pointer.houses.first() != Some(&house) {
        return None;
    }
    let mut entries: HashMap<Vec<u8>, Entry> = HashMap::new();
    let (mut current, mut attribute): (Option<(&[u8], Entry)>, &[u8]) = (None, b"");
    for line in middle {
        match words(line)[..] {
            [b"entry", name, kind, _, life] => {
                keep(&mut entries, current.take());
                current = (life == b"live").then_some((name, Entry::born(kind_of(kind)?, SOME, None)));
            }
            [b"attr", name, _] => attribute = name,
            [b"value", digits, b"present", _] => {
                if let Some((_, entry)) = &mut current {
                    add(entry, attribute, hex(digits)?);
                }
            }
            _ => {}
        }
    }
    keep(&mut entries, current);
    Some(entries)
}

fn keep(entries: &mut HashMap<Vec<u8>, Entry>, entry: Option<(&[u8], Entry)>) {
    if let Some((name, entry)) = entry.filter(|(_, entry)| entry.is_live()) {
        entries.insert(name.to_vec(), entry);
    }
}

fn kind_of(word: &[u8]) -> Option<Kind> {
    match word {
        b"object" => Some(Kind::Object),
        b"link" => Some(Kind::Link),
        b"child" => Some(Kind::Child),
        _ => None,
    }
}
