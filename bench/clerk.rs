//! A clerk in plain Rust: `clerk NEAR HOUSE..`. It answers the commands of the name service by asking houses, several at a time. It has no
//! connection: it reads `do K COMMAND`, `hear Q LINE` and `down Q`, and writes `ask Q K HOUSE LINE` and `say K LINE`. Whoever runs it carries
//! the lines (docs/LIVE.md).

#[path = "plain/parts.rs"]
mod parts;
#[path = "clerk/answered.rs"]
mod answered;
#[path = "clerk/commands.rs"]
mod commands;
#[path = "clerk/heard.rs"]
mod heard;
#[path = "clerk/jobs.rs"]
mod jobs;

use std::io::{self, BufRead, BufReader, BufWriter, Write};
use std::process::ExitCode;

use parts::{Replay, Stop, answers, cell, house, inquiries, names, records, rpc, script, service, tables};

fn main() -> ExitCode {
    let houses: Option<Vec<u8>> = std::env::args().skip(1).map(|word| script::house(word.as_bytes())).collect();
    let Some((near, houses)) = houses.as_deref().and_then(<[u8]>::split_first) else {
        eprintln!("usage: clerk NEAR HOUSE..");
        return ExitCode::from(2);
    };
    let mut clerk = jobs::Clerk::new(*near, houses.to_vec(), BufWriter::new(io::stdout().lock()));
    let mut source = BufReader::new(io::stdin().lock());
    let mut line = Vec::new();
    loop {
        line.clear();
        match source.read_until(b'\n', &mut line) {
            Ok(0) => return ExitCode::SUCCESS,
            Ok(_) => clerk.read(line.strip_suffix(b"\n").unwrap_or(&line)),
            Err(_) => return ExitCode::from(4),
        }
        // (all that is under way is asked in one write)
        if source.buffer().is_empty() && clerk.sink.flush().is_err() {
            return ExitCode::from(5);
        }
    }
}
