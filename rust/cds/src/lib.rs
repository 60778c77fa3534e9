//! The forms of `cdsreplay` as a call, and a house that its caller steps, by its library for C:
//!
//! ```no_run
//! let answers = cds::run("run", b"house 1 00000000000a\n")?;
//! # Ok::<(), cds::Failed>(())
//! ```
//!
//! docs/EMBEDDING.md says how to begin.

mod house;

pub use house::{House, HouseFault, Reply};
use std::fmt;

/// The number of the calls that this file knows.
pub const ABI: u32 = 2;

const ROOM: usize = 65536;
const NO_ROOM: u32 = 5;

unsafe extern "C" {
    fn cds_abi() -> u32;
    fn cds_run(
        words: *const u8,
        words_len: usize,
        input: *const u8,
        input_len: usize,
        out: *mut u8,
        out_len: usize,
        len: *mut usize,
    ) -> u32;
}

/// Why a call ended with another status than 0.
#[derive(Clone, Copy, Debug, PartialEq, Eq)]
pub enum Why {
    /// The words name no form.
    Usage,
    /// The input is at fault.
    BadInput,
    /// Memory ran out.
    NoMemory,
    /// A journal has no room for what a line puts.
    JournalFull,
    /// The library has calls of another number, or ended with a status that this file does not know.
    Unknown(u32),
}

/// A call ended with another status than 0.
#[derive(Clone, Debug, PartialEq, Eq)]
pub struct Failed {
    pub why: Why,
    /// What the form said until then.
    pub text: Vec<u8>,
}

impl fmt::Display for Failed {
    fn fmt(&self, f: &mut fmt::Formatter<'_>) -> fmt::Result {
        let last = self.text.split(|octet| *octet == b'\n').rfind(|line| !line.is_empty());
        write!(f, "{:?}, and last: {:?}", self.why, String::from_utf8_lossy(last.unwrap_or_default()))
    }
}

impl std::error::Error for Failed {}

/// One call with the room that `out` has: its status, and how long the text is. The front of the text
/// that has room is in `out` then.
pub fn call(words: &str, input: &[u8], out: &mut [u8]) -> (u32, usize) {
    let mut len = 0;
    // SAFETY: the pointers and lengths are those of slices that live through the call. None is null,
    // and no other reference is to what is written.
    let status = unsafe {
        cds_run(words.as_ptr(), words.len(), input.as_ptr(), input.len(), out.as_mut_ptr(), out.len(), &mut len)
    };
    (status, len)
}

// The status, and the text or the front of it that has this room; and how long the text is.
fn call_with(words: &str, input: &[u8], room: usize) -> (u32, Vec<u8>, usize) {
    let mut text = vec![0; room];
    let (status, len) = call(words, input, &mut text);
    text.truncate(len);
    (status, text, len)
}

/// What a form says of an input: all of it, or why it failed.
pub fn run(words: &str, input: &[u8]) -> Result<Vec<u8>, Failed> {
    // SAFETY: it takes and touches nothing.
    let abi = unsafe { cds_abi() };
    if abi != ABI {
        return Err(Failed { why: Why::Unknown(abi), text: Vec::new() });
    }
    let (mut status, mut text, len) = call_with(words, input, ROOM);
    if status == NO_ROOM {
        (status, text, _) = call_with(words, input, len);
    }
    let why = match status {
        0 => return Ok(text),
        2 => Why::Usage,
        3 => Why::BadInput,
        6 => Why::NoMemory,
        7 => Why::JournalFull,
        other => Why::Unknown(other),
    };
    Err(Failed { why, text })
}
