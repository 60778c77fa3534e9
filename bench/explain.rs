//! The script that explains the journals of houses, in plain Rust: what the proved `cdsexplain` is to be compared with. It aborts where
//! there is no memory.
#![allow(dead_code)]

#[path = "plain/parts.rs"]
mod parts;
#[path = "plain/explaining.rs"]
mod explaining;
#[path = "plain/house_lines.rs"]
mod house_lines;
#[path = "plain/house_segments.rs"]
mod house_segments;
#[path = "plain/house_turns.rs"]
mod house_turns;
#[path = "plain/logs.rs"]
mod logs;
#[path = "plain/sha256.rs"]
mod sha256;

use std::io::{self, Write};
use std::path::Path;
use std::process::ExitCode;

use explaining::{Explainer, Stuck};
use logs::Found;
use parts::{Replay, Stop, answers, cell, house, inquiries, names, records, rpc, script, service, tables};

const WHOLE: u8 = 0;
const USAGE: u8 = 2;
const UNEXPLAINED: u8 = 3;
const READ_FAULT: u8 = 4;
const WRITE_FAULT: u8 = 5;
const TOO_LONG: u8 = 7;

/// What is written, and the status.
fn explained(folders: &[std::ffi::OsString]) -> (Vec<u8>, u8) {
    let (mut all, mut faults) = (Vec::new(), String::new());
    for (at, folder) in folders.iter().enumerate() {
        let Ok(Found { log, fault }) = Found::read(Path::new(folder)) else {
            return (vec![], READ_FAULT);
        };
        all.extend(log);
        faults.extend(fault.map(|fault| format!("# unexplained: folder {}: {fault}\n", at + 1)));
    }
    let mut explainer = Explainer::new(all);
    let ended = explainer.run();
    let mut script = explainer.script;
    let mut status = if faults.is_empty() { WHOLE } else { UNEXPLAINED };
    match ended {
        Ok(()) => {}
        Err(Stuck::TooLong) => status = TOO_LONG,
        Err(Stuck::At { house, entry, cause }) => {
            script.extend(format!("# unexplained: house {house} entry {entry}: {cause}\n").into_bytes());
            status = UNEXPLAINED;
        }
    }
    script.extend(faults.into_bytes());
    (script, status)
}

fn main() -> ExitCode {
    let folders: Vec<_> = std::env::args_os().skip(1).collect();
    if folders.is_empty() {
        return ExitCode::from(USAGE);
    }
    let (text, status) = explained(&folders);
    let mut sink = io::stdout().lock();
    let written = sink.write_all(&text).and_then(|()| sink.flush());
    ExitCode::from(if written.is_err() { WRITE_FAULT } else { status })
}
