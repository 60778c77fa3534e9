//! A disk in memory that can lose its power, and a journal of images on it.

/// What a disk has of what was not synced when it lost its power: all, nothing, or the first half of each write.
#[derive(Clone, Copy)]
pub enum Leave {
    Keep,
    Drop,
    Torn,
}

/// The disk has no power.
#[derive(Debug)]
pub struct Failed;

/// What a write or a cut changed: from this octet on, what was there up to its end or to that of the disk; and the size before.
struct Change {
    at: usize,
    written: usize,
    former: Vec<u8>,
    size: usize,
}

#[derive(Default)]
pub struct Disk {
    octets: Vec<u8>,
    /// Since the last sync.
    changes: Vec<Change>,
    /// After how many more calls that write it loses its power, and what it has then.
    stop: Option<(u8, Leave)>,
}

impl Disk {
    /// It will lose its power in so manyth a call that writes.
    pub fn stop(&mut self, call: u8, leave: Leave) {
        self.stop = Some((call, leave));
    }

    /// Counts a call that writes: whether the disk has power before it, and whether it has behind it.
    fn count(&mut self) -> (bool, Result<(), Failed>) {
        match &mut self.stop {
            None => (true, Ok(())),
            Some((0, _)) => (false, Err(Failed)),
            Some((left, _)) => {
                *left -= 1;
                (true, if *left == 0 { Err(Failed) } else { Ok(()) })
            }
        }
    }

    fn write_at(&mut self, at: usize, piece: &[u8]) -> Result<(), Failed> {
        let (has_power, done) = self.count();
        if has_power {
            let size = self.octets.len();
            let end = size.min(at + piece.len());
            self.changes.push(Change { at, written: piece.len(), former: self.octets[at..end].to_vec(), size });
            self.octets[at..end].copy_from_slice(&piece[..end - at]);
            self.octets.extend_from_slice(&piece[end - at..]);
        }
        done
    }

    fn cut(&mut self, size: usize) -> Result<(), Failed> {
        let (has_power, done) = self.count();
        if has_power {
            let former = self.octets.split_off(size);
            self.changes.push(Change { at: size, written: 0, size: size + former.len(), former });
        }
        done
    }

    fn sync(&mut self) -> Result<(), Failed> {
        let (_, done) = self.count();
        if done.is_ok() {
            self.changes.clear();
        }
        done
    }

    /// Goes back to the last sync. Returns where the writes since then began, and their octets.
    fn go_back(&mut self) -> Vec<(usize, Vec<u8>)> {
        let mut writes = Vec::new();
        for Change { at, written, former, size } in std::mem::take(&mut self.changes).into_iter().rev() {
            if written > 0 {
                writes.push((at, self.octets[at..at + written].to_vec()));
            }
            self.octets.resize(size, 0);
            self.octets[at..at + former.len()].copy_from_slice(&former);
        }
        writes.reverse();
        writes
    }

    /// It has power again.
    pub fn restart(&mut self) {
        let leave = self.stop.take().map_or(Leave::Keep, |(_, leave)| leave);
        match leave {
            Leave::Keep => self.changes.clear(),
            Leave::Drop => drop(self.go_back()),
            Leave::Torn => {
                for (at, written) in self.go_back() {
                    let end = self.octets.len().max(at + written.len());
                    self.octets.resize(end, 0xff);
                    let half = written.len() / 2;
                    self.octets[at..at + half].copy_from_slice(&written[..half]);
                }
            }
        }
    }
}

/// How large the file of a journal gets.
const MOST: u64 = 1 << 40;

/// The octets before and behind an image: the gate, the length and the next gate.
const GATE: usize = 1;
const LENGTH: usize = 8;

/// A list of images on a disk: an open gate, 1, and the length of each stand before it, and a closed one, 0, behind the last.
pub struct Journal {
    disk: Disk,
    /// Where the closed gate is.
    gate: usize,
}

/// Why an image is not kept.
pub enum NotPut {
    Full,
    Failed,
}

impl From<Failed> for NotPut {
    fn from(_: Failed) -> NotPut {
        NotPut::Failed
    }
}

impl Journal {
    /// The journal of an empty disk.
    pub fn new() -> Journal {
        let mut journal = Journal { disk: Disk::default(), gate: 0 };
        let _ = journal.open();
        journal
    }

    /// The image behind an open gate at this place: a whole length, so many octets and another gate have to follow.
    fn image_at(&self, gate: usize) -> Option<&[u8]> {
        let (length, rest) = self.disk.octets.get(gate..)?.strip_prefix(&[1])?.split_first_chunk()?;
        let length = usize::try_from(u64::from_be_bytes(*length)).ok()?;
        if length < rest.len() { Some(&rest[..length]) } else { None }
    }

    /// Finds the last image, and throws away what is behind its closed gate.
    pub fn open(&mut self) -> Result<Option<&[u8]>, Failed> {
        self.disk.sync()?;
        let (mut gate, mut last) = (0, None);
        while let Some(image) = self.image_at(gate) {
            let begin = gate + GATE + LENGTH;
            last = Some(begin..begin + image.len());
            gate = begin + image.len();
        }
        self.gate = gate;
        if gate + GATE < self.disk.octets.len() {
            self.disk.cut(gate + GATE)?;
            self.disk.sync()?;
        }
        if self.disk.octets.get(gate) != Some(&0) {
            self.disk.write_at(gate, &[0])?;
            self.disk.sync()?;
        }
        Ok(last.map(|range| &self.disk.octets[range]))
    }

    /// Writes an image with its length and the next gate, and then opens the gate before it.
    pub fn put(&mut self, image: &[u8]) -> Result<(), NotPut> {
        let size = self.gate + GATE + LENGTH + image.len() + GATE;
        if size as u64 > MOST {
            return Err(NotPut::Full);
        }
        let mut record = Vec::with_capacity(size - self.gate - GATE);
        record.extend((image.len() as u64).to_be_bytes());
        record.extend(image);
        record.push(0);
        self.disk.write_at(self.gate + GATE, &record)?;
        self.disk.sync()?;
        self.disk.write_at(self.gate, &[1])?;
        self.disk.sync()?;
        self.gate = size - GATE;
        Ok(())
    }

    /// Puts an image, loses power in so manyth a call that writes, and begins anew. Returns what it has then.
    pub fn put_stopped(&mut self, image: &[u8], call: u8, leave: Leave) -> Result<Option<&[u8]>, NotPut> {
        self.disk.stop(call, leave);
        if let Err(NotPut::Full) = self.put(image) {
            return Err(NotPut::Full);
        }
        self.disk.restart();
        Ok(self.open()?)
    }
}
