//! Whether the houses of two images can agree on a directory, up to the earlier AllUpTo.

use std::cmp::Ordering;
use std::io::{self, Write};

use crate::Ending;
use crate::answers::push_hex;
use crate::house::Clearinghouse;
use crate::records::{Fault, read_images};
use crate::tables::{Entry, Kind, Replica, Stamp};

/// A mark of a replica, by what it is about.
struct Fact<'a> {
    name: &'a [u8],
    /// Of a value, its attribute with its octets.
    value: Option<(&'a [u8], &'a [u8])>,
    stamp: Stamp,
}

impl Fact<'_> {
    /// By name, with births before values.
    fn order(&self, other: &Fact) -> Ordering {
        (self.name, self.value).cmp(&(other.name, other.value))
    }

    fn write(&self, mut out: impl Write) -> io::Result<()> {
        let mut text = Vec::new();
        match self.value {
            None => {
                text.extend_from_slice(b"birth ");
                text.extend_from_slice(self.name);
            }
            Some((attribute, value)) => {
                text.extend_from_slice(b"value ");
                text.extend_from_slice(self.name);
                text.push(b' ');
                text.extend_from_slice(attribute);
                text.push(b' ');
                push_hex(&mut text, value);
            }
        }
        writeln!(text, " {}", self.stamp)?;
        out.write_all(&text)
    }
}

/// Whether an entry of another replica speaks for a birth: it is the same entry, or a later one.
fn answers_birth(other: Option<&Entry>, kind: Kind, birth: Stamp) -> bool {
    other.is_some_and(|other| birth < other.birth || other.birth == birth && other.kind == kind)
}

/// Whether an entry of another replica, of the same birth, speaks for a value: it has that, or cleared or changed it later.
fn answers_value(other: &Entry, attribute: &[u8], value: &[u8], stamp: Stamp) -> bool {
    other.attributes.get(attribute).is_some_and(|attribute| {
        attribute.cleared > Some(stamp)
            || attribute.marks.get(value).is_some_and(|mark| stamp < mark.stamp || mark.present && mark.stamp == stamp)
    })
}

/// The first fact of an entry, up to a stamp, for which the entry of another replica does not speak.
fn first_open_of<'a>(up_to: Stamp, name: &'a [u8], entry: &'a Entry, other: Option<&Entry>) -> Option<Fact<'a>> {
    if entry.birth <= up_to && !answers_birth(other, entry.kind, entry.birth) {
        return Some(Fact { name, value: None, stamp: entry.birth });
    }
    if other.is_some_and(|other| entry.birth < other.birth) {
        return None;
    }
    let same = other.filter(|other| other.birth == entry.birth);
    entry.attributes.iter().find_map(|(attribute, held)| {
        let mut facts = held.marks.iter().filter(|(_, mark)| mark.present && mark.stamp <= up_to);
        let (value, mark) =
            facts.find(|(value, mark)| !same.is_some_and(|same| answers_value(same, attribute, value, mark.stamp)))?;
        Some(Fact { name, value: Some((attribute, value)), stamp: mark.stamp })
    })
}

/// The first fact of a replica, up to a stamp, for which another one does not speak, though its AllUpTo is that stamp.
fn first_open<'a>(up_to: Stamp, own: &'a Replica, other: &Replica) -> Option<Fact<'a>> {
    if other.all_up_to != Some(up_to) {
        return None;
    }
    own.entries().iter().find_map(|(name, entry)| first_open_of(up_to, name, entry, other.entries().get(name)))
}

/// The first open fact of two replicas, with the number of the one that has it.
fn difference<'a>(first: &'a Replica, second: &'a Replica, up_to: Option<Stamp>) -> Option<(u8, Fact<'a>)> {
    let of_first = first_open(up_to?, first, second).map(|fact| (1, fact));
    let of_second = first_open(up_to?, second, first).map(|fact| (2, fact));
    let is_later = |(_, fact): &(u8, Fact), (_, other): &(u8, Fact)| other.order(fact) == Ordering::Less;
    match (of_first, of_second) {
        (Some(first), Some(second)) if is_later(&first, &second) => Some(second),
        (first, second) => first.or(second),
    }
}

/// Writes whether two houses can agree on a directory.
fn tell(first: &Clearinghouse, second: &Clearinghouse, dir: u32, mut sink: impl Write) -> io::Result<()> {
    let Some(one) = first.held(dir) else {
        return writeln!(sink, "refused NoReplica 1");
    };
    let Some(two) = second.held(dir) else {
        return writeln!(sink, "refused NoReplica 2");
    };
    let up_to = one.replica.all_up_to.min(two.replica.all_up_to);
    match (difference(&one.replica, &two.replica, up_to), up_to) {
        (Some((image, fact)), _) => {
            write!(sink, "differ {dir} {image} ")?;
            fact.write(sink)
        }
        (None, Some(stamp)) => writeln!(sink, "agree {dir} {stamp}"),
        (None, None) => writeln!(sink, "agree {dir} none"),
    }
}

/// Writes whether the houses of two images can agree on a directory, or what is wrong with the images. An input that is too long is
/// not there.
pub fn audit(dir: u32, input: Option<Vec<u8>>, mut sink: impl Write) -> io::Result<Ending> {
    let read = match input {
        Some(octets) => read_images(&octets),
        None => Err((1, Fault { rule: "TooLong", place: crate::MOST_WHOLE as usize + 1 })),
    };
    let ending = match read {
        Ok([first, second]) => {
            tell(&first, &second, dir, &mut sink)?;
            Ending::Whole
        }
        Err((image, Fault { rule, place })) => {
            writeln!(sink, "{image} fault {rule} {place}")?;
            Ending::Faulty
        }
    };
    sink.flush()?;
    Ok(ending)
}
