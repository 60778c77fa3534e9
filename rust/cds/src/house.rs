//! A house that its caller steps: he keeps its records on a disk of his own, and carries its messages.
//! What it says comes only out of `Reply::kept`, so that no text leaves before its record is durable.

use std::fmt;
use std::marker::PhantomData;
use std::ptr;

const NO_ROOM: u32 = 5;
const ROOM: usize = 4096;

// What C sees of a house. At null it holds none.
#[repr(C)]
struct Handle {
    state: *mut u8,
}

unsafe extern "C" {
    fn cds_house_new(house: *mut Handle) -> u32;
    fn cds_house_open(house: *mut Handle, record: *const u8, record_len: usize) -> u32;
    fn cds_house_redo(house: *mut Handle, record: *const u8, record_len: usize) -> u32;
    fn cds_house_start(house: *mut Handle) -> u32;
    fn cds_house_line(house: *mut Handle, line: *const u8, line_len: usize) -> u32;
    fn cds_house_next_segment(house: *mut Handle) -> u32;
    fn cds_house_record(house: *mut Handle, out: *mut u8, out_len: usize, len: *mut usize) -> u32;
    fn cds_house_kept(house: *mut Handle) -> u32;
    fn cds_house_text(house: *mut Handle, out: *mut u8, out_len: usize, len: *mut usize) -> u32;
    fn cds_house_free(house: *mut Handle) -> u32;
}

/// Why a call of a house was not done. But for `NoRecord` and `NoMemory` the house is as it was.
#[derive(Clone, Copy, Debug, PartialEq, Eq)]
pub enum HouseFault {
    /// Memory ran out. The house is spent then, but after `next_segment`.
    NoMemory,
    /// These octets are not the next record of the house. It is spent then.
    NoRecord,
    /// The record of the last call was not kept: its reply was dropped.
    NotKept,
    /// It was spent before: open it again from the records that were kept.
    Spent,
    /// Octets that are not from 20 to 7E, or more than 4,080 of them.
    BadLine,
    /// It has not started.
    NotStarted,
    /// It has started already.
    Started,
    /// No record waits.
    NoneWaits,
    /// The library has calls of another number, or ended with a code that this file does not know.
    Unknown(u32),
}

impl fmt::Display for HouseFault {
    fn fmt(&self, f: &mut fmt::Formatter<'_>) -> fmt::Result {
        write!(f, "{self:?}")
    }
}

impl std::error::Error for HouseFault {}

fn done(code: u32) -> Result<(), HouseFault> {
    Err(match code {
        0 => return Ok(()),
        6 => HouseFault::NoMemory,
        18 => HouseFault::NoRecord,
        19 => HouseFault::NotKept,
        20 => HouseFault::Spent,
        21 => HouseFault::BadLine,
        22 => HouseFault::NotStarted,
        23 => HouseFault::Started,
        24 => HouseFault::NoneWaits,
        other => HouseFault::Unknown(other),
    })
}

/// A house between two lines. It stays on the thread that made it.
///
/// ```compile_fail,E0277
/// let mut house = cds::House::new()?;
/// std::thread::scope(|it| it.spawn(|| house.start().is_ok()).join().is_ok());
/// # Ok::<(), cds::HouseFault>(())
/// ```
pub struct House {
    handle: Handle,
    // (neither Send nor Sync)
    stays: PhantomData<*mut u8>,
}

impl Drop for House {
    fn drop(&mut self) {
        // SAFETY: the handle was written by the calls alone, and nobody else has it. An empty one is
        // answered.
        unsafe { cds_house_free(&mut self.handle) };
    }
}

/// What a line or a start came to. It borrows the house: the next call waits until it was kept.
///
/// ```
/// let mut house = cds::House::new()?;
/// assert_eq!(house.start()?.kept()?, b"0 new\n");
/// # Ok::<(), cds::HouseFault>(())
/// ```
///
/// Another call in front of `kept` does not compile, and neither does a second `kept`:
///
/// ```compile_fail,E0499
/// let mut house = cds::House::new()?;
/// let reply = house.start()?;
/// house.line(b"root")?;
/// reply.kept()?;
/// # Ok::<(), cds::HouseFault>(())
/// ```
///
/// ```compile_fail,E0382
/// let mut house = cds::House::new()?;
/// let reply = house.start()?;
/// reply.kept()?;
/// reply.kept()?;
/// # Ok::<(), cds::HouseFault>(())
/// ```
#[must_use = "what was said comes out of `kept`"]
pub struct Reply<'a> {
    house: &'a mut House,
    record: Option<Vec<u8>>,
}

impl Reply<'_> {
    /// The record that has to be durable before `kept` is called; none if it was no turn.
    pub fn record(&self) -> Option<&[u8]> {
        self.record.as_deref()
    }

    /// Says that the record is durable, and gives the text.
    pub fn kept(self) -> Result<Vec<u8>, HouseFault> {
        if self.record.is_some() {
            // SAFETY: as in `drop`.
            done(unsafe { cds_house_kept(&mut self.house.handle) })?;
        }
        self.house.octets(cds_house_text)
    }
}

impl House {
    fn empty() -> Result<House, HouseFault> {
        // SAFETY: it takes and touches nothing.
        let abi = unsafe { crate::cds_abi() };
        if abi != crate::ABI {
            return Err(HouseFault::Unknown(abi));
        }
        Ok(House { handle: Handle { state: ptr::null_mut() }, stays: PhantomData })
    }

    /// A house that has no record yet. `start` is next.
    pub fn new() -> Result<House, HouseFault> {
        let mut house = House::empty()?;
        // SAFETY: as in `drop`.
        done(unsafe { cds_house_new(&mut house.handle) })?;
        Ok(house)
    }

    /// The house that goes on from the records of its last segment, all of them in their order; a house
    /// that has no record yet, if there are none. `start` is next.
    pub fn open<R: AsRef<[u8]>>(records: &[R]) -> Result<House, HouseFault> {
        let Some((first, others)) = records.split_first() else {
            return House::new();
        };
        let (mut house, first) = (House::empty()?, first.as_ref());
        // SAFETY: as in `drop`; the octets are those of slices that live through the call.
        done(unsafe { cds_house_open(&mut house.handle, first.as_ptr(), first.len()) })?;
        for record in others {
            let record = record.as_ref();
            // SAFETY: the same.
            done(unsafe { cds_house_redo(&mut house.handle, record.as_ptr(), record.len()) })?;
        }
        Ok(house)
    }

    // All octets that a call puts into a room.
    fn octets(
        &mut self,
        call: unsafe extern "C" fn(*mut Handle, *mut u8, usize, *mut usize) -> u32,
    ) -> Result<Vec<u8>, HouseFault> {
        let mut out = vec![0; ROOM];
        loop {
            let mut len = 0;
            // SAFETY: as in `drop`; the room is that of a vector that lives through the call.
            let code = unsafe { call(&mut self.handle, out.as_mut_ptr(), out.len(), &mut len) };
            if code != NO_ROOM {
                done(code)?;
                out.truncate(len);
                return Ok(out);
            }
            out.resize(len, 0);
        }
    }

    fn reply(&mut self) -> Result<Reply<'_>, HouseFault> {
        let record = match self.octets(cds_house_record) {
            Ok(record) => Some(record),
            Err(HouseFault::NoneWaits) => None,
            Err(fault) => return Err(fault),
        };
        Ok(Reply { house: self, record })
    }

    /// Ends the life of the house before, and starts: its record is the first one of a next segment.
    pub fn start(&mut self) -> Result<Reply<'_>, HouseFault> {
        // SAFETY: as in `drop`.
        done(unsafe { cds_house_start(&mut self.handle) })?;
        self.reply()
    }

    /// What the house replies to a line, which is given without its end.
    pub fn line(&mut self, line: &[u8]) -> Result<Reply<'_>, HouseFault> {
        // SAFETY: as in `open`.
        done(unsafe { cds_house_line(&mut self.handle, line.as_ptr(), line.len()) })?;
        self.reply()
    }

    /// Begins a next segment, whose first record this is. Nothing is said of it.
    pub fn next_segment(&mut self) -> Result<Reply<'_>, HouseFault> {
        // SAFETY: as in `drop`.
        done(unsafe { cds_house_next_segment(&mut self.handle) })?;
        self.reply()
    }
}
