//! A disk that loses its power, fails and fills up, between a house and its folder: a library that `LD_PRELOAD` puts before the C
//! library. It has the calls that write (`open`, `pwrite`, `ftruncate`, `fsync` and `rename`, under all of their names), and follows
//! which octets and names a crash would keep. It remembers what was not synced over the death of the process, as the memory of a
//! machine does that goes on.
//!
//! HOUSE_DISK is `FOLDER STATE SEED LOSS FAIL ROOM AT`: the folder of the house, a folder for what the disk is sure to keep, a seed, one in how
//! many calls loses the power and one in how many fails (0: none), how many octets the folder may have (0: any number), and, if it is there,
//! the number of a call that loses the power. A loss of power leaves one of the contents that docs/FORMATS.md allows, and aborts.

#[path = "disk_model.rs"]
mod disk_model;

use std::ffi::{CStr, OsStr, c_char, c_int, c_void};
use std::fs;
use std::mem::transmute;
use std::os::unix::ffi::OsStrExt;
use std::os::unix::fs::MetadataExt;
use std::path::{Path, PathBuf};
use std::sync::Mutex;
use std::sync::atomic::{AtomicBool, Ordering};

use disk_model::{Change, Disk, Fate};

unsafe extern "C" {
    fn dlsym(handle: *mut c_void, name: *const c_char) -> *mut c_void;
    fn __errno_location() -> *mut c_int;
}

const NEXT: *mut c_void = -1isize as *mut c_void;
const INPUT_OUTPUT: c_int = 5;
const NO_SPACE: c_int = 28;
/// The flag of an open that cuts all off.
const TRUNCATE: c_int = 0o1000;
/// The descriptor that means the present folder.
const PRESENT_FOLDER: c_int = -100;

/// Whether this library itself makes the call.
static INSIDE: AtomicBool = AtomicBool::new(false);
static DISK: Mutex<Option<Disk>> = Mutex::new(None);

// Calls.
impl Disk {
    fn write(&mut self, descriptor: c_int, octets: &[u8], at: i64, write: impl Fn(&[u8]) -> isize) -> isize {
        let Some((path, number)) = self.tracked(descriptor) else {
            return write(octets);
        };
        let fate = self.fate();
        let is_full = self.is_full(&path, at as u64 + octets.len() as u64);
        let fails = is_full || matches!(fate, Fate::Fails);
        let size = match fails || self.once_in(16) {
            true => self.below(octets.len() + 1),
            false => octets.len(),
        };
        let octets = &octets[..size.max(usize::from(!fails)).min(octets.len())];
        let unsynced = self.unsynced(&path, number);
        unsynced.changes.push(Change::Write(at as usize, octets.to_vec()));
        unsynced.most = unsynced.most.max(at as usize + octets.len());
        let done = write(octets);
        if fails {
            return refuse(if is_full { NO_SPACE } else { INPUT_OUTPUT }) as isize;
        }
        if matches!(fate, Fate::GoesLast) {
            self.lose_power();
        }
        done
    }

    fn cut(&mut self, descriptor: c_int, size: i64, cut: impl Fn() -> c_int) -> c_int {
        let Some((path, number)) = self.tracked(descriptor) else {
            return cut();
        };
        let fate = self.fate();
        let unsynced = self.unsynced(&path, number);
        unsynced.changes.push(Change::Cut(size as usize));
        unsynced.least = unsynced.least.min(size as usize);
        self.ended(fate, cut)
    }

    /// Syncs a file or the folder. (No sync of the machine is made: it is not the machine that crashes.)
    fn sync(&mut self, descriptor: c_int, sync: impl Fn() -> c_int) -> c_int {
        let Some((path, number)) = self.tracked(descriptor) else {
            return sync();
        };
        match self.fate() {
            Fate::Fails => refuse(INPUT_OUTPUT),
            fate => {
                if path == self.folder {
                    let _ = fs::remove_file(self.names_path());
                } else {
                    self.sync_file(&path, number);
                }
                self.ended(fate, || 0)
            }
        }
    }

    fn rename(&mut self, from: &Path, to: &Path, rename: impl Fn() -> c_int) -> c_int {
        if from.parent() != Some(&self.folder) {
            return rename();
        }
        match self.fate() {
            Fate::Fails => refuse(INPUT_OUTPUT),
            fate => {
                self.name(from, to);
                self.ended(fate, rename)
            }
        }
    }

    fn ended(&mut self, fate: Fate, call: impl Fn() -> c_int) -> c_int {
        match fate {
            Fate::Fails => refuse(INPUT_OUTPUT),
            Fate::Goes => call(),
            Fate::GoesLast => {
                call();
                self.lose_power()
            }
        }
    }

    /// Opens a file. One that was not there has a name that the disk may forget.
    fn open(&mut self, path: PathBuf, flags: c_int, open: impl Fn() -> c_int) -> c_int {
        let number = fs::metadata(&path).ok().map(|it| it.ino());
        if let Some(number) = number.filter(|_| self.has(&path) && flags & TRUNCATE != 0) {
            let unsynced = self.unsynced(&path, number);
            unsynced.changes.push(Change::Cut(0));
            unsynced.least = 0;
        }
        let descriptor = open();
        if let Some((path, new)) = self.tracked(descriptor).filter(|_| number.is_none()) {
            let _ = fs::write(self.kept_path(new), b"");
            self.files.remove(&new);
            self.name(Path::new(""), &path);
        }
        descriptor
    }
}

fn refuse(reason: c_int) -> c_int {
    unsafe { *__errno_location() = reason };
    -1
}

/// Lets the disk do a call, but one of its own.
fn through<T>(real: impl Fn() -> T, call: impl FnOnce(&mut Disk) -> T) -> T {
    if INSIDE.swap(true, Ordering::Relaxed) {
        return real();
    }
    let mut disk = DISK.lock().expect("there is one thread");
    if disk.is_none() {
        *disk = Disk::of_environment();
    }
    let done = disk.as_mut().map(call);
    INSIDE.store(false, Ordering::Relaxed);
    done.unwrap_or_else(real)
}

/// The whole path of a file as a folder's descriptor and a path of it name it.
fn path_of(folder: c_int, path: *const c_char) -> PathBuf {
    let path = Path::new(OsStr::from_bytes(unsafe { CStr::from_ptr(path) }.to_bytes()));
    let folder = match folder {
        PRESENT_FOLDER => std::env::current_dir(),
        folder => fs::read_link(format!("/proc/self/fd/{folder}")),
    };
    let path = folder.unwrap_or_default().join(path);
    let parent = path.parent().and_then(|parent| fs::canonicalize(parent).ok());
    match (parent, path.file_name()) {
        (Some(parent), Some(name)) => parent.join(name),
        _ => path,
    }
}

/// A function in the place of one of the C library, which does it by way of this body.
macro_rules! call {
    ($body:path, $name:ident $real:literal, ($($argument:ident: $type:ty),*) -> $result:ty) => {
        #[unsafe(no_mangle)]
        pub extern "C" fn $name($($argument: $type),*) -> $result {
            type Real = unsafe extern "C" fn($($type),*) -> $result;
            $body(unsafe { transmute::<*mut c_void, Real>(dlsym(NEXT, $real.as_ptr())) }, $($argument),*)
        }
    };
}

type Open = unsafe extern "C" fn(*const c_char, c_int, u32) -> c_int;
type OpenAt = unsafe extern "C" fn(c_int, *const c_char, c_int, u32) -> c_int;
type Pwrite = unsafe extern "C" fn(c_int, *const c_void, usize, i64) -> isize;
type Ftruncate = unsafe extern "C" fn(c_int, i64) -> c_int;
type Fsync = unsafe extern "C" fn(c_int) -> c_int;
type Rename = unsafe extern "C" fn(*const c_char, *const c_char) -> c_int;
type RenameAt = unsafe extern "C" fn(c_int, *const c_char, c_int, *const c_char) -> c_int;

fn opened(real: Open, path: *const c_char, flags: c_int, mode: u32) -> c_int {
    let real = || unsafe { real(path, flags, mode) };
    through(real, |disk| disk.open(path_of(PRESENT_FOLDER, path), flags, real))
}

fn opened_at(real: OpenAt, folder: c_int, path: *const c_char, flags: c_int, mode: u32) -> c_int {
    let real = || unsafe { real(folder, path, flags, mode) };
    through(real, |disk| disk.open(path_of(folder, path), flags, real))
}

fn written(real: Pwrite, descriptor: c_int, octets: *const c_void, size: usize, at: i64) -> isize {
    let write = |octets: &[u8]| unsafe { real(descriptor, octets.as_ptr().cast(), octets.len(), at) };
    let octets = unsafe { std::slice::from_raw_parts(octets.cast::<u8>(), size) };
    through(|| write(octets), |disk| disk.write(descriptor, octets, at, write))
}

fn cut(real: Ftruncate, descriptor: c_int, size: i64) -> c_int {
    let real = || unsafe { real(descriptor, size) };
    through(real, |disk| disk.cut(descriptor, size, real))
}

fn synced(real: Fsync, descriptor: c_int) -> c_int {
    let real = || unsafe { real(descriptor) };
    through(real, |disk| disk.sync(descriptor, real))
}

fn renamed(real: Rename, from: *const c_char, to: *const c_char) -> c_int {
    let real = || unsafe { real(from, to) };
    through(real, |disk| disk.rename(&path_of(PRESENT_FOLDER, from), &path_of(PRESENT_FOLDER, to), real))
}

fn renamed_at(real: RenameAt, folder: c_int, from: *const c_char, other: c_int, to: *const c_char) -> c_int {
    let real = || unsafe { real(folder, from, other, to) };
    through(real, |disk| disk.rename(&path_of(folder, from), &path_of(other, to), real))
}

call!(opened, open c"open", (path: *const c_char, flags: c_int, mode: u32) -> c_int);
call!(opened, open64 c"open64", (path: *const c_char, flags: c_int, mode: u32) -> c_int);
call!(opened_at, openat c"openat", (folder: c_int, path: *const c_char, flags: c_int, mode: u32) -> c_int);
call!(opened_at, openat64 c"openat64", (folder: c_int, path: *const c_char, flags: c_int, mode: u32) -> c_int);
call!(written, pwrite c"pwrite", (descriptor: c_int, octets: *const c_void, size: usize, at: i64) -> isize);
call!(written, pwrite64 c"pwrite64", (descriptor: c_int, octets: *const c_void, size: usize, at: i64) -> isize);
call!(cut, ftruncate c"ftruncate", (descriptor: c_int, size: i64) -> c_int);
call!(cut, ftruncate64 c"ftruncate64", (descriptor: c_int, size: i64) -> c_int);
call!(synced, fsync c"fsync", (descriptor: c_int) -> c_int);
call!(synced, fdatasync c"fdatasync", (descriptor: c_int) -> c_int);
call!(renamed, rename c"rename", (from: *const c_char, to: *const c_char) -> c_int);
call!(renamed_at, renameat c"renameat", (folder: c_int, from: *const c_char, other: c_int, to: *const c_char) -> c_int);
