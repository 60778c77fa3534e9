//! replay WORD.. <INPUT >TEXT: `cdsreplay` again, as a program in plain Rust over the library.
//!
//!     rustc --edition 2021 -O --crate-type rlib --crate-name cds rust/cds/src/lib.rs
//!     rustc --edition 2021 -O replay.rs --extern cds=libcds.rlib -L lib -l static=cds -o replay

use cds::Why;
use std::io::{self, Read, Write};
use std::process::ExitCode;

fn status_of(why: Why) -> u8 {
    match why {
        Why::Usage => 2,
        Why::BadInput => 3,
        Why::NoMemory => 6,
        Why::JournalFull => 7,
        Why::Unknown(_) => 1,
    }
}

fn main() -> io::Result<ExitCode> {
    let words: Vec<String> = std::env::args().skip(1).collect();
    let mut input = Vec::new();
    io::stdin().read_to_end(&mut input)?;
    let (status, text) = match cds::run(&words.join(" "), &input) {
        Ok(text) => (0, text),
        Err(failed) => (status_of(failed.why), failed.text),
    };
    io::stdout().write_all(&text)?;
    Ok(ExitCode::from(status))
}
