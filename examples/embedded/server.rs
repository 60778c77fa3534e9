//! server FOLDER [OCTETS]: a house like `cdshouse FOLDER`, as a program in plain Rust over the library, with a disk of its own.
//! It reads lines and writes answers (docs/LINES.md); `cdsexplain` explains its folder. A segment is changed after so many
//! octets, or three times those that it began with. It ends with 3 after octets that are no line, and with 8 if its disk or its
//! output fails. It locks nothing: run one on a folder.
//!
//!     rustc --edition 2021 -O --crate-type rlib --crate-name cds rust/cds/src/lib.rs
//!     rustc --edition 2021 -O server.rs --extern cds=libcds.rlib -L lib -l static=cds -o server

use cds::{House, HouseFault};
use std::fs::{self, File, OpenOptions};
use std::io::{self, BufRead, Write};
use std::os::unix::fs::FileExt;
use std::path::PathBuf;
use std::process::ExitCode;

const MOST: u64 = 1 << 20;

/// The segments of a folder: `records` are those of the last one. A record is there once the gate before it is 1.
struct Disk {
    folder: PathBuf,
    number: u64,
    records: Vec<Vec<u8>>,
    sum: [u8; 32],
    file: Option<File>,
    size: u64,
    least: u64,
    most: u64,
}

impl Disk {
    fn open(folder: PathBuf, least: u64) -> io::Result<Disk> {
        let names = fs::read_dir(&folder)?.filter_map(|it| it.ok()?.file_name().to_str()?.parse().ok());
        let number = names.max().unwrap_or(0);
        let mut disk = Disk { folder, number, records: Vec::new(), sum: [0; 32], file: None, size: 0, least, most: 0 };
        // (an earlier process may have died in front of a sync)
        File::open(&disk.folder)?.sync_all()?;
        if number > 0 {
            let path = disk.folder.join(number.to_string());
            File::open(&path)?.sync_all()?;
            disk.read(&fs::read(path)?).ok_or(io::ErrorKind::InvalidData)?;
        }
        Ok(disk)
    }

    /// Reads a segment: its head, in which the sum before it is, and its records; none if it is damaged.
    fn read(&mut self, octets: &[u8]) -> Option<()> {
        let mut rest = octets;
        while let (1, behind) = (rest.first()?, &rest[1..]) {
            let (size, behind) = behind.split_first_chunk()?;
            let (record, later) = behind.split_at_checked(u64::from_be_bytes(*size) as usize)?;
            let (body, sum) = record.split_last_chunk::<32>()?;
            let before = if rest.len() == octets.len() { *body.last_chunk()? } else { self.sum };
            self.sum = sha256(&[&before, body].concat());
            if self.sum != *sum {
                return None;
            }
            self.records.push(body.to_vec());
            rest = later;
        }
        // (the head is no record of the house, and a segment has one beside)
        self.records = self.records.split_off(1.min(self.records.len()));
        (!self.records.is_empty()).then_some(())
    }

    /// A record with its length and its sum, as it is after the gate.
    fn summed(&mut self, body: &[u8]) -> Vec<u8> {
        self.sum = sha256(&[&self.sum, body].concat());
        [&(body.len() as u64 + 32).to_be_bytes(), body, &self.sum].concat()
    }

    /// Makes the next segment with this first record, whole or not at all.
    fn begin(&mut self, body: &[u8]) -> io::Result<()> {
        self.number += 1;
        let head = [format!("cdshouse journal 2 {}\n", self.number).as_bytes(), &self.sum].concat();
        let octets = [&[1], self.summed(&head).as_slice(), &[1], self.summed(body).as_slice(), &[0]].concat();
        let (new, path) = (self.folder.join("new"), self.folder.join(self.number.to_string()));
        let file = OpenOptions::new().create(true).truncate(true).write(true).open(&new)?;
        file.write_all_at(&octets, 0)?;
        file.sync_all()?;
        fs::rename(new, path)?;
        File::open(&self.folder)?.sync_all()?;
        (self.file, self.size) = (Some(file), octets.len() as u64);
        self.most = self.least.max(3 * self.size);
        Ok(())
    }

    /// Adds a record, whole or not at all: it is synced before the gate opens.
    fn add(&mut self, body: &[u8]) -> io::Result<()> {
        let octets = [self.summed(body).as_slice(), &[0]].concat();
        let file = self.file.as_ref().ok_or(io::ErrorKind::NotFound)?;
        file.write_all_at(&octets, self.size)?;
        file.sync_all()?;
        file.write_all_at(&[1], self.size - 1)?;
        file.sync_all()?;
        self.size += octets.len() as u64;
        Ok(())
    }
}

fn main() -> ExitCode {
    serve().unwrap_or_else(|fault| {
        eprintln!("server: {fault}");
        let of_disk = !matches!(fault.kind(), io::ErrorKind::Other | io::ErrorKind::InvalidData);
        ExitCode::from(if of_disk { 8 } else { 1 })
    })
}

/// Serves lines until they end.
fn serve() -> io::Result<ExitCode> {
    let failed = |fault: HouseFault| io::Error::other(fault.to_string());
    let least = std::env::args().nth(2).and_then(|it| it.parse().ok()).unwrap_or(MOST);
    let mut disk = Disk::open(std::env::args_os().nth(1).unwrap_or_default().into(), least)?;
    let mut house = House::open(&disk.records).map_err(failed)?;
    let (mut lines, mut out) = (io::stdin().lock(), io::stdout());
    let started = house.start().map_err(failed)?;
    disk.begin(started.record().unwrap_or_default())?;
    let mut text = started.kept().map_err(failed)?;
    loop {
        out.write_all(&text)?;
        out.flush()?;
        if disk.size > disk.most {
            let begun = house.next_segment().map_err(failed)?;
            disk.begin(begun.record().unwrap_or_default())?;
            begun.kept().map_err(failed)?;
        }
        let mut line = Vec::new();
        if lines.read_until(b'\n', &mut line)? == 0 {
            return Ok(ExitCode::SUCCESS);
        }
        let reply = match house.line(line.strip_suffix(b"\n").unwrap_or(&line)) {
            Err(HouseFault::BadLine) => return Ok(ExitCode::from(3)),
            other => other.map_err(failed)?,
        };
        if let Some(record) = reply.record() {
            disk.add(record)?;
        }
        text = reply.kept().map_err(failed)?;
    }
}

/// SHA-256 (FIPS 180-4): the round constants are the first octets of the cube roots of the first 64 primes.
fn sha256(octets: &[u8]) -> [u8; 32] {
    let primes: Vec<u64> = (2..312).filter(|n| (2..*n).all(|m| n % m != 0)).collect();
    let front = |root: f64| (root.fract() * 4_294_967_296.0) as u32;
    let rounds: Vec<u32> = primes.iter().map(|p| front((*p as f64).cbrt())).collect();
    let mut state: Vec<u32> = primes[..8].iter().map(|p| front((*p as f64).sqrt())).collect();
    let mut whole = [octets, &[0x80]].concat();
    whole.resize(whole.len().div_ceil(64) * 64 + if whole.len() % 64 > 56 || whole.len() % 64 == 0 { 64 } else { 0 }, 0);
    let end = whole.len();
    whole[end - 8..].copy_from_slice(&(octets.len() as u64 * 8).to_be_bytes());
    for block in whole.chunks(64) {
        let mut w: Vec<u32> = block.chunks(4).map(|b| u32::from_be_bytes([b[0], b[1], b[2], b[3]])).collect();
        for i in 16..64 {
            let (x, y) = (w[i - 15], w[i - 2]);
            let low = x.rotate_right(7) ^ x.rotate_right(18) ^ (x >> 3);
            let high = y.rotate_right(17) ^ y.rotate_right(19) ^ (y >> 10);
            w.push(w[i - 16].wrapping_add(low).wrapping_add(w[i - 7]).wrapping_add(high));
        }
        let mut s = state.clone();
        for i in 0..64 {
            let (a, e) = (s[0], s[4]);
            let high = e.rotate_right(6) ^ e.rotate_right(11) ^ e.rotate_right(25);
            let choice = (e & s[5]) ^ (!e & s[6]);
            let one = s[7].wrapping_add(high).wrapping_add(choice).wrapping_add(rounds[i]).wrapping_add(w[i]);
            let low = a.rotate_right(2) ^ a.rotate_right(13) ^ a.rotate_right(22);
            let most = (a & s[1]) ^ (a & s[2]) ^ (s[1] & s[2]);
            s.rotate_right(1);
            s[4] = s[4].wrapping_add(one);
            s[0] = one.wrapping_add(low).wrapping_add(most);
        }
        state.iter_mut().zip(&s).for_each(|(x, y)| *x = x.wrapping_add(*y));
    }
    let mut sum = [0; 32];
    sum.chunks_mut(4).zip(&state).for_each(|(to, x)| to.copy_from_slice(&x.to_be_bytes()));
    sum
}
