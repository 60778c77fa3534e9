//! What a disk is sure to keep of a folder, and what a crash may leave of it.

use std::collections::HashMap;
use std::ffi::c_int;
use std::fs::{self, OpenOptions};
use std::io::{self, Write};
use std::os::unix::fs::{FileExt, MetadataExt};
use std::path::{Path, PathBuf};

unsafe extern "C" {
    fn _Fork() -> c_int;
    fn waitpid(child: c_int, status: *mut c_int, options: c_int) -> c_int;
    fn _exit(status: c_int) -> !;
}

/// What was done to a file since its last sync.
pub enum Change {
    Write(usize, Vec<u8>),
    Cut(usize),
}

/// A file since its last sync: what was done to it, and its least and greatest size.
pub struct Unsynced {
    pub changes: Vec<Change>,
    pub least: usize,
    pub most: usize,
}

pub struct Disk {
    pub folder: PathBuf,
    state: PathBuf,
    random: u64,
    loss: u64,
    fail: u64,
    room: u64,
    /// The call in which the power is lost, and how many were made.
    lost_at: u64,
    calls: u64,
    pub files: HashMap<u64, Unsynced>,
}

/// What comes of a call.
pub enum Fate {
    Goes,
    Fails,
    /// It goes, and then the power is lost.
    GoesLast,
}

/// The runs of octets in which a file differs from what the disk is sure to keep.
fn differences(kept: &[u8], now: &[u8]) -> Vec<Change> {
    let mut changes = Vec::new();
    let mut begin = None;
    for at in 0..=now.len() {
        let differs = at < now.len() && kept.get(at) != Some(&now[at]);
        match (differs, begin) {
            (true, None) => begin = Some(at),
            (false, Some(from)) => {
                changes.push(Change::Write(from, now[from..at].to_vec()));
                begin = None;
            }
            _ => {}
        }
    }
    if now.len() < kept.len() {
        changes.push(Change::Cut(now.len()));
    }
    changes
}

// Chance.
impl Disk {
    pub fn of_environment() -> Option<Disk> {
        let words = std::env::var("HOUSE_DISK").ok()?;
        let words: Vec<&str> = words.split(' ').collect();
        let [folder, state, ref numbers @ ..] = words[..] else {
            return None;
        };
        let number = |at: usize| numbers.get(at).and_then(|word| word.parse().ok()).unwrap_or(0);
        let (folder, state, random) = (fs::canonicalize(folder).ok()?, state.into(), number(0) | 1);
        let (loss, fail, room, lost_at) = (number(1), number(2), number(3), number(4));
        Some(Disk { folder, state, random, loss, fail, room, lost_at, calls: 0, files: HashMap::new() })
    }

    pub fn below(&mut self, most: usize) -> usize {
        self.random ^= self.random << 13;
        self.random ^= self.random >> 7;
        self.random ^= self.random << 17;
        (self.random >> 11) as usize % most.max(1)
    }

    pub fn once_in(&mut self, times: u64) -> bool {
        times > 0 && self.below(times as usize) == 0
    }

    /// What comes of a call that writes; the power may be lost before it.
    pub fn fate(&mut self) -> Fate {
        self.calls += 1;
        if self.calls == self.lost_at || self.once_in(self.loss) {
            if self.below(2) == 0 {
                self.lose_power();
            }
            return Fate::GoesLast;
        }
        if self.once_in(self.fail) { Fate::Fails } else { Fate::Goes }
    }
}

// What the disk is sure to keep.
impl Disk {
    /// Whether a path is the folder, or a file of it that the house writes.
    pub fn has(&self, path: &Path) -> bool {
        path == self.folder || path.parent() == Some(&self.folder) && path.file_name().is_some_and(|name| name != "lock")
    }

    /// The folder or a file of it by its descriptor, and the number of that file.
    pub fn tracked(&self, descriptor: c_int) -> Option<(PathBuf, u64)> {
        let path = fs::read_link(format!("/proc/self/fd/{descriptor}")).ok().filter(|path| self.has(path))?;
        let number = fs::metadata(&path).ok()?.ino();
        Some((path, number))
    }

    pub fn kept_path(&self, number: u64) -> PathBuf {
        self.state.join(number.to_string())
    }

    /// What the disk is sure to keep of a file; of one that it never saw, all.
    fn kept(&self, number: u64, now: &[u8]) -> Vec<u8> {
        fs::read(self.kept_path(number)).unwrap_or_else(|_| now.to_vec())
    }

    /// What was done to a file since its last sync, also by earlier processes.
    pub fn unsynced(&mut self, path: &Path, number: u64) -> &mut Unsynced {
        if !self.files.contains_key(&number) {
            let now = fs::read(path).unwrap_or_default();
            let kept = self.kept(number, &now);
            if !self.kept_path(number).exists() {
                let whole = self.state.join("whole");
                let _ = fs::write(&whole, &now).and_then(|()| fs::rename(whole, self.kept_path(number)));
            }
            let (least, most) = (now.len().min(kept.len()), now.len().max(kept.len()));
            self.files.insert(number, Unsynced { changes: differences(&kept, &now), least, most });
        }
        self.files.get_mut(&number).expect("it is there")
    }

    /// A file is kept as it is.
    pub fn sync_file(&mut self, path: &Path, number: u64) {
        let changes = std::mem::take(&mut self.unsynced(path, number).changes);
        let size = fs::metadata(path).map_or(0, |it| it.len());
        if let Ok(kept) = OpenOptions::new().write(true).open(self.kept_path(number)) {
            for change in changes {
                match change {
                    Change::Write(at, octets) => drop(kept.write_all_at(&octets, at as u64)),
                    Change::Cut(size) => drop(kept.set_len(size as u64)),
                }
            }
            let _ = kept.set_len(size);
        }
        self.files.insert(number, Unsynced { changes: Vec::new(), least: size as usize, most: size as usize });
    }

    /// One of the contents that a crash may leave of a file.
    fn left(&mut self, kept: Vec<u8>, unsynced: &Unsynced) -> Vec<u8> {
        let mut left = kept;
        let way = self.below(8);
        for change in &unsynced.changes {
            match change {
                Change::Write(at, octets) => {
                    let size = left.len().max(at + octets.len());
                    let written = self.torn(way, octets);
                    left.resize(size, 0xff);
                    for (at, octet) in (*at..).zip(written) {
                        left[at] = octet.unwrap_or(left[at]);
                    }
                }
                Change::Cut(size) if way == 0 || self.below(2) == 0 => left.truncate(*size),
                Change::Cut(_) => {}
            }
        }
        let size = match if way == 0 { 9 } else { self.below(5) } {
            0 => unsynced.least,
            1 => unsynced.most,
            2 => unsynced.least + self.below(unsynced.most - unsynced.least + 1),
            _ => left.len(),
        };
        let noise = self.below(256) as u8;
        left.resize(size.clamp(unsynced.least, unsynced.most), noise);
        left
    }

    /// What of a write's octets a crash leaves: all, none, the first ones, noise of full length, some of its sectors, or all but the last
    /// one, which is 1 as that of an open gate.
    fn torn(&mut self, way: usize, octets: &[u8]) -> Vec<Option<u8>> {
        let way = if way < 2 { way } else { self.below(7) };
        let first = self.below(octets.len() + 1);
        let mut sector = true;
        let chosen = octets.iter().enumerate().map(|(at, octet)| match way {
            1 => None,
            2 => Some(*octet).filter(|_| at < first),
            3 => Some(if self.below(2) == 0 { *octet } else { self.below(256) as u8 }),
            4 => {
                sector = if at % 64 == 0 { self.below(2) == 0 } else { sector };
                Some(*octet).filter(|_| sector)
            }
            5 => Some(self.below(256) as u8),
            6 if at + 1 == octets.len() => Some(1),
            _ => Some(*octet),
        });
        chosen.collect()
    }
}

// Names.
impl Disk {
    pub fn names_path(&self) -> PathBuf {
        self.state.join("names")
    }

    /// A file has another name, which the disk may forget. (A new file has none before.)
    pub fn name(&mut self, from: &Path, to: &Path) {
        let file = OpenOptions::new().append(true).create(true).open(self.names_path());
        let _ = file.and_then(|mut file| writeln!(file, "{}\t{}", from.display(), to.display()));
    }

    /// Forgets some of the last names, the last one first.
    fn forget_names(&mut self) {
        let names = fs::read_to_string(self.names_path()).unwrap_or_default();
        for line in names.lines().rev() {
            if self.below(2) == 0 {
                break;
            }
            let _ = match line.split_once('\t') {
                Some(("", to)) => self.forget_file(Path::new(to)),
                Some((from, to)) => fs::rename(to, from),
                None => Ok(()),
            };
        }
        let _ = fs::remove_file(self.names_path());
    }

    /// A file is not there, as it was before it was made. (Another file may get its number.)
    fn forget_file(&self, path: &Path) -> io::Result<()> {
        fs::remove_file(self.kept_path(fs::metadata(path)?.ino()))?;
        fs::remove_file(path)
    }

    fn files(&self) -> Vec<(PathBuf, u64)> {
        let entries = fs::read_dir(&self.folder).into_iter().flatten().flatten();
        let files = entries.filter(|entry| entry.file_name() != "lock");
        files.filter_map(|entry| Some((entry.path(), entry.metadata().ok()?.ino()))).collect()
    }

    /// Leaves what a crash may leave, and aborts. A process of its own does it, which has the same output: whoever kills this one
    /// meanwhile, and reads to the end of the output, finds it done.
    pub fn lose_power(&mut self) -> ! {
        match unsafe { _Fork() } {
            0 => {
                self.leave();
                unsafe { _exit(0) }
            }
            child => drop(unsafe { waitpid(child, std::ptr::null_mut(), 0) }),
        }
        std::process::abort()
    }

    /// Leaves of each file one of the contents that a crash may leave, and of each name that it is there or not.
    fn leave(&mut self) {
        for (path, number) in self.files() {
            self.unsynced(&path, number);
            let unsynced = self.files.remove(&number).expect("it is there");
            if unsynced.changes.is_empty() && unsynced.least == unsynced.most {
                continue;
            }
            let kept = fs::read(self.kept_path(number)).unwrap_or_default();
            let left = self.left(kept, &unsynced);
            let _ = fs::write(&path, &left);
            let _ = fs::write(self.kept_path(number), &left);
        }
        self.forget_names();
    }

    pub fn is_full(&self, path: &Path, end: u64) -> bool {
        let own = fs::metadata(path).map_or(0, |it| it.len());
        let all: u64 = self.files().iter().filter_map(|(path, _)| Some(fs::metadata(path).ok()?.len())).sum();
        self.room > 0 && end > own && all + (end - own) > self.room
    }
}
