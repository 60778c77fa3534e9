//! The journal of a house: numbered files of records that no process but their own writes, each record with a sum of all before it.

use std::fs::{self, File, OpenOptions};
use std::io::{self, Read as _};
use std::os::unix::fs::{FileExt, OpenOptionsExt};
use std::path::{Path, PathBuf};

use crate::sha256::sha256;

/// How large a segment gets.
const MOST: u64 = 1 << 40;
/// The octets before a record's body, after it, and after the record: the length, the sum, and the next gate.
const LENGTH: usize = 8;
const SUM: usize = 32;
const GATE: usize = 1;
/// The octets in front of a record's text: its number, the clock, the mark of an image, and the length of the text.
const FIELDS: usize = 21;

pub type Sum = [u8; SUM];

/// The sum before the first record of all.
pub const NO_SUM: Sum = [0; SUM];

/// Why a record is not put.
pub enum NotPut {
    Full,
    Failed,
}

impl From<io::Error> for NotPut {
    fn from(_: io::Error) -> NotPut {
        NotPut::Failed
    }
}

/// What a turn, a start, or the change of a segment leaves in the journal.
pub struct Record {
    pub entry: u64,
    pub clock: u64,
    pub text: Vec<u8>,
    /// Of the first record of a segment, if there is a house.
    pub image: Option<Vec<u8>>,
}

impl Record {
    pub fn octets(&self) -> Vec<u8> {
        let mut octets = self.entry.to_be_bytes().to_vec();
        octets.extend(self.clock.to_be_bytes());
        octets.push(u8::from(self.image.is_some()));
        octets.extend((self.text.len() as u32).to_be_bytes());
        octets.extend(&self.text);
        octets.extend(self.image.iter().flatten());
        octets
    }

    pub fn read(octets: &[u8]) -> Option<Record> {
        let (fields, rest) = octets.split_at_checked(FIELDS)?;
        let size = u32::from_be_bytes(fields[17..].try_into().ok()?);
        let (text, image) = rest.split_at_checked(size as usize)?;
        let image = match fields[16] {
            0 if image.is_empty() => None,
            1 => Some(image.to_vec()),
            _ => return None,
        };
        let (entry, clock) = (fields[..8].try_into().ok()?, fields[8..16].try_into().ok()?);
        Some(Record { entry: u64::from_be_bytes(entry), clock: u64::from_be_bytes(clock), text: text.to_vec(), image })
    }
}

/// How a file is opened that its owner alone may read and write.
fn owned() -> OpenOptions {
    let mut options = File::options();
    options.write(true).create(true).truncate(false).mode(0o600);
    options
}

/// A file that this process made, and writes.
pub struct Segment {
    file: File,
    /// Where the closed gate is.
    gate: u64,
    sum: Sum,
    /// How many octets it has.
    size: u64,
    /// How many its records have, and how many they had when it got its name.
    pub held: u64,
    pub begun: u64,
}

impl Segment {
    /// A segment without a record, as the file `new` of a folder.
    fn begin(folder: &Path, before: Sum) -> io::Result<Segment> {
        let file = owned().open(folder.join("new"))?;
        file.set_len(0)?;
        file.sync_all()?;
        file.write_all_at(&[0], 0)?;
        file.sync_all()?;
        Ok(Segment { file, gate: 0, sum: before, size: 1, held: 0, begun: 0 })
    }

    /// Writes a record with the next gate and syncs, then opens the gate before it and syncs.
    fn put_octets(&mut self, body: &[u8]) -> Result<(), NotPut> {
        let length = body.len() + SUM;
        let size = self.size + (LENGTH + length + GATE) as u64;
        if size > MOST {
            return Err(NotPut::Full);
        }
        let sum = sha256(&self.sum, body);
        let mut octets = Vec::with_capacity(LENGTH + length + GATE);
        octets.extend((length as u64).to_be_bytes());
        octets.extend(body);
        octets.extend(sum);
        octets.push(0);
        self.file.write_all_at(&octets, self.gate + 1)?;
        self.file.sync_all()?;
        self.file.write_all_at(&[1], self.gate)?;
        self.file.sync_all()?;
        self.gate = size - 1;
        (self.size, self.held, self.sum) = (size, self.held + length as u64, sum);
        Ok(())
    }

    pub fn put(&mut self, record: &Record) -> Result<(), NotPut> {
        self.put_octets(&record.octets())
    }
}

/// The sums before the records of a segment and of its last one; and whether it has a record after its first one, as all that houses leave.
pub struct Sums {
    pub before: Sum,
    pub last: Sum,
    pub is_begun: bool,
}

/// The record after an open gate at this place.
fn record_at(octets: &[u8], gate: usize) -> Option<&[u8]> {
    let (length, rest) = octets.get(gate..)?.strip_prefix(&[1])?.split_first_chunk()?;
    let length = usize::try_from(u64::from_be_bytes(*length)).ok()?;
    if length < rest.len() { Some(&rest[..length]) } else { None }
}

/// The body of a record whose sum is that of the record, and the sum.
fn body_of(record: &[u8], before: Option<&Sum>) -> Option<(Sum, usize)> {
    let (body, sum) = record.split_last_chunk::<SUM>()?;
    let before = before.or_else(|| body.last_chunk())?;
    if sha256(before, body) == *sum { Some((*sum, body.len())) } else { None }
}

/// Whether this gate, which ends the list, was open once: it is 1, or a record that fits comes after it, and an open gate after that. No crash
/// leaves that. (A crash in the first write of a put may leave the whole record and any octet at its end, also a 1.)
fn was_open(octets: &[u8], gate: usize, before: &Sum) -> bool {
    let Some((last, rest)) = octets.get(gate..).and_then(<[u8]>::split_first) else {
        return false;
    };
    if *last == 1 {
        return true;
    }
    let opened = [&[1], rest].concat();
    let next = record_at(&opened, 0).filter(|record| body_of(record, Some(before)).is_some());
    next.is_some_and(|record| record_at(&opened, 1 + LENGTH + record.len()).is_some())
}

/// How the first record of a segment begins, and goes on in this version of the folder.
const TITLE: &[u8] = b"cdshouse journal ";
const VERSION: &[u8] = b"2 ";

/// The first record of a segment without the sums.
fn title(number: u64) -> Vec<u8> {
    [TITLE, VERSION, format!("{number}\n").as_bytes()].concat()
}

/// Whether octets begin as a segment of another version.
pub fn is_other_version(octets: &[u8]) -> bool {
    let rest = record_at(octets, 0).and_then(|first| first.strip_prefix(TITLE));
    rest.is_some_and(|rest| !rest.starts_with(VERSION))
}

/// The sum that the head of segment `number` names; nothing where the first record is no such head.
pub fn sum_before(octets: &[u8], number: u64) -> Option<Sum> {
    let first = record_at(octets, 0)?;
    let (_, size) = body_of(first, None)?;
    let (text, before) = first[..size].split_last_chunk()?;
    if text == title(number) { Some(*before) } else { None }
}

/// Takes the bodies of the records in the octets of segment `number` after its first one; nothing where they are no such segment, or damaged.
pub fn read(octets: &[u8], number: u64, mut take: impl FnMut(&[u8])) -> Option<Sums> {
    let first = record_at(octets, 0)?;
    let (mut sum, size) = body_of(first, None)?;
    let (text, before) = first[..size].split_last_chunk()?;
    if text != title(number) {
        return None;
    }
    let begin = 1 + LENGTH + first.len();
    let mut gate = begin;
    while let Some(record) = record_at(octets, gate) {
        let (next, size) = body_of(record, Some(&sum))?;
        take(&record[..size]);
        sum = next;
        gate += 1 + LENGTH + record.len();
    }
    if was_open(octets, gate, &sum) { None } else { Some(Sums { before: *before, last: sum, is_begun: gate > begin }) }
}

/// The folder of a house, which no other process has.
pub struct Folder {
    path: PathBuf,
    /// The number of the last segment.
    number: u64,
    sum: Sum,
    _lock: File,
}

/// Why a folder is not opened.
pub enum NotOpened {
    Unreadable,
    OtherVersion,
    Held,
    Failed,
}

/// The greatest number of a segment in a folder, 0 where there is none. That number has to be the name of a file.
pub fn greatest(path: &Path) -> io::Result<u64> {
    let number = |name: &str| name.parse().ok().filter(|number: &u64| *number > 0 && number.to_string() == name);
    let mut most = 0;
    for entry in fs::read_dir(path)? {
        let entry = entry?;
        if let Some(number) = entry.file_name().to_str().and_then(number) {
            if !entry.file_type()?.is_file() {
                return Err(io::ErrorKind::InvalidInput.into());
            }
            most = most.max(number);
        }
    }
    Ok(most)
}

/// Syncs the names of a folder.
fn sync_folder(path: &Path) -> io::Result<()> {
    File::open(path)?.sync_all()
}

impl Folder {
    /// Opens a folder, and reads the bodies of the records of its last segment, none if there is no segment. What an earlier process wrote
    /// there and did not sync is synced first.
    pub fn open(path: &Path) -> Result<(Folder, Vec<Vec<u8>>), NotOpened> {
        let number = greatest(path).map_err(|_| NotOpened::Unreadable)?;
        let lock = owned().open(path.join("lock")).map_err(|_| NotOpened::Unreadable)?;
        lock.try_lock().map_err(|_| NotOpened::Held)?;
        sync_folder(path).map_err(|_| NotOpened::Failed)?;
        let number = number.max(greatest(path).map_err(|_| NotOpened::Unreadable)?);
        let mut folder = Folder { path: path.to_path_buf(), number, sum: NO_SUM, _lock: lock };
        if number == 0 {
            return Ok((folder, Vec::new()));
        }
        let mut file = File::open(path.join(number.to_string())).map_err(|_| NotOpened::Unreadable)?;
        file.sync_all().map_err(|_| NotOpened::Failed)?;
        let mut octets = Vec::new();
        file.read_to_end(&mut octets).map_err(|_| NotOpened::Unreadable)?;
        let mut bodies = Vec::new();
        let sums = read(&octets, number, |body| bodies.push(body.to_vec())).filter(|sums| sums.is_begun);
        folder.sum = match sums {
            Some(sums) => sums.last,
            None if is_other_version(&octets) => return Err(NotOpened::OtherVersion),
            None => return Err(NotOpened::Unreadable),
        };
        Ok((folder, bodies))
    }

    /// The next segment, which begins with this record, is there after any crash.
    pub fn next(&mut self, before: Option<&Segment>, record: &Record) -> Result<Segment, NotPut> {
        let before = before.map_or(self.sum, |segment| segment.sum);
        let number = self.number.checked_add(1).ok_or(NotPut::Full)?;
        let mut segment = Segment::begin(&self.path, before)?;
        segment.put_octets(&[&title(number)[..], &before].concat())?;
        segment.put(record)?;
        segment.begun = segment.held;
        let name = self.path.join(number.to_string());
        if name.try_exists()? {
            return Err(NotPut::Failed);
        }
        fs::rename(self.path.join("new"), name)?;
        sync_folder(&self.path)?;
        self.number = number;
        Ok(segment)
    }
}
