//! What mends a directory behind a script, as `cdsmend` writes it.

use std::fmt::Write as _;
use std::io::{self, Read, Write};

use crate::Ending;
use crate::cell::Cell;
use crate::house::{Clearinghouse, Slot, Term};
use crate::records::{Member, Role};
use crate::script::{command, each_line};

/// The epoch of a member that holds the directory at its `since` or later.
fn held_since(home: &Clearinghouse, dir: u32, member: &Member) -> Option<u64> {
    match home.dirs.get(&dir)? {
        Slot::Held(held) => Some(held.term.epoch).filter(|epoch| *epoch >= member.since),
        Slot::Gone(_) => None,
    }
}

/// The master once these houses are left out: of those that hold the latest epoch the first.
fn master_of(cell: &Cell, dir: u32, term: &Term, without: &[u8]) -> Option<u8> {
    let master = term.master()?;
    if !without.contains(&master) {
        return Some(master);
    }
    let mut best: Option<(u64, u8)> = None;
    for member in term.members.iter().filter(|member| !without.contains(&member.house)) {
        let held = cell.home(member.house).and_then(|home| held_since(&home, dir, member));
        if let Some(epoch) = held.filter(|epoch| best.is_none_or(|(later, _)| later < *epoch)) {
            best = Some((epoch, member.house));
        }
    }
    best.map(|(_, house)| house)
}

/// Whether each member is up and holds the last epoch.
fn is_ready(cell: &Cell, dir: u32, term: &Term) -> bool {
    let holds = |member: &Member| cell.held(dir, member.house).is_some_and(|held| held.term.epoch == term.epoch);
    term.members.iter().all(holds)
}

fn deliver(text: &mut String, first: u64, count: usize) {
    for serial in (first + 1..).take(count) {
        let _ = writeln!(text, "deliver {serial}");
    }
}

/// The commands of a new epoch with this master and the other members that stay, and its Joins.
fn renew(text: &mut String, cell: &Cell, dir: u32, master: u8, stay: &[Member]) {
    for member in stay.iter().filter(|member| cell.is_down(member.house)) {
        let _ = writeln!(text, "start {}", member.house);
    }
    let _ = write!(text, "epoch {dir} {master}");
    for member in stay.iter().filter(|member| member.house != master) {
        let letter = if member.role == Role::Secondary { "s" } else { "" };
        let _ = write!(text, " {letter}{}", member.house);
    }
    text.push('\n');
    deliver(text, cell.posted(), stay.len() - 1);
}

/// The lines that mend a directory without these houses, or why there are none.
fn lines(cell: &Cell, dir: u32, without: &[u8]) -> Result<String, &'static str> {
    let term = cell.term(dir).ok_or("NoDirectory")?;
    let master = master_of(cell, dir, term, without).ok_or("NoReplica")?;
    if cell.home(master).is_some_and(|home| home.floor == u64::MAX) {
        return Err("StampsSpent");
    }
    let mut text = String::new();
    let stay: Vec<Member> = term.members.iter().filter(|member| !without.contains(&member.house)).copied().collect();
    let mut first = cell.posted();
    if !without.is_empty() || !is_ready(cell, dir, term) {
        renew(&mut text, cell, dir, master, &stay);
        first += term.members.len() as u64 - 1;
    }
    let _ = writeln!(text, "skulk {master} {dir}");
    deliver(&mut text, first, 4 * (stay.len() - 1));
    Ok(text)
}

/// Replays a script, and writes the lines that mend a directory behind it.
pub fn mend(dir: u32, without: &[u8], source: impl Read, mut sink: impl Write) -> io::Result<Ending> {
    let mut cell = Cell::default();
    let read = each_line(source, |_, mut words| {
        let _ = cell.answer(command(&mut words)?);
        Ok(())
    });
    let mut text = Vec::new();
    let (ending, _) = crate::ended(read, &mut text)?;
    if matches!(ending, Ending::Whole) {
        match lines(&cell, dir, without) {
            Ok(lines) => text.extend_from_slice(lines.as_bytes()),
            Err(why) => writeln!(text, "refused {why}")?,
        }
    }
    sink.write_all(&text)?;
    sink.flush()?;
    Ok(ending)
}
