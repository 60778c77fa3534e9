//! Journals, explained: the houses in turn, each as far as it comes, and each line done on a cell and compared with its entry.

use std::collections::{BTreeSet, HashMap};
use std::fmt::Write as _;

use crate::answers::write_answer;
use crate::cell::{Answer, Cell};
use crate::house::{Refusal, Said};
use crate::house_lines::{Line, line_of};
use crate::logs::{Entry, Log};
use crate::records::{Member, Role};
use crate::script::{Command, LONGEST_LINE, MOST_LINES, Words, command, words_within};

/// Why an entry is not explained, and whether another one may yet explain it.
pub struct Cause {
    text: String,
    waits: bool,
}

/// Why journals are not explained.
pub enum Stuck {
    At { house: u8, entry: usize, cause: String },
    TooLong,
}

/// Why an entry does not go on: it is not its turn, it is none of a cell, or the script is too long.
enum Fault {
    NotYet(Cause),
    Other(String),
    TooLong,
}

const MOST_SHOWN: usize = 200;

/// Octets of an answer, as they are shown.
fn shown(octets: &[u8]) -> String {
    octets.iter().take(MOST_SHOWN).map(|b| if matches!(b, b' '..=b'~') { char::from(*b) } else { '?' }).collect()
}

fn never(text: impl Into<String>) -> Fault {
    Fault::NotYet(Cause { text: text.into(), waits: false })
}

fn later(text: impl Into<String>) -> Fault {
    Fault::NotYet(Cause { text: text.into(), waits: true })
}

/// What a line of a journal says.
fn said(line: &[u8]) -> Option<(Vec<&[u8]>, Line<'_>)> {
    let words: Vec<&[u8]> = line.split(|b| *b == b' ').filter(|word| !word.is_empty()).collect();
    let said = if words.is_empty() { None } else { line_of(&words).ok() }?;
    Some((words, said))
}

/// The houses that a line names.
fn named(line: &Line) -> Vec<u8> {
    match line {
        Line::Root(others) | Line::Mkdir(_, _, _, others) => others.houses.clone(),
        Line::Repoint(_, _, houses) => houses.clone(),
        Line::Epoch(_, _, members, _) => members.iter().map(|member| member.house).collect(),
        _ => vec![],
    }
}

fn same(one: &[Member], other: &[Member]) -> bool {
    let key = |member: &Member| (member.house, member.since, member.role as u8);
    one.iter().map(key).eq(other.iter().map(key))
}

/// Words with the house after the first one.
fn with_house(words: &[&[u8]], house: u8) -> String {
    let mut line = format!("{} {house}", String::from_utf8_lossy(words[0]));
    for word in &words[1..] {
        let _ = write!(line, " {}", String::from_utf8_lossy(word));
    }
    line
}

/// The line of a turn, which takes this message if it takes one.
fn line_for(house: u8, words: &[&[u8]], line: &Line, serial: u64) -> String {
    let number = house.to_string();
    match line {
        Line::Take(_) => format!("deliver {serial}"),
        Line::Mkdir(..) => with_house(&[&words[..3], &[number.as_bytes()], &words[4..]].concat(), house),
        Line::Epoch(dir, _, members, _) => {
            let mut line = format!("epoch {dir} {house}");
            for member in members.iter().filter(|member| member.house != house) {
                let _ = write!(line, " {}{}", if member.role == Role::Secondary { "s" } else { "" }, member.house);
            }
            line
        }
        _ => with_house(words, house),
    }
}

pub struct Explainer {
    logs: Vec<Log>,
    /// Of each journal how many entries are explained, and the clock of its house.
    done: Vec<usize>,
    clocks: Vec<u64>,
    cell: Cell,
    /// How many directories were made.
    directories: usize,
    /// The first message to a house with these octets.
    posted: HashMap<(u8, Vec<u8>), u64>,
    lines: u32,
    pub script: Vec<u8>,
}

impl Explainer {
    pub fn new(mut logs: Vec<Log>) -> Explainer {
        logs.sort_by_key(|log| log.house);
        let (done, clocks) = (vec![0; logs.len()], vec![0; logs.len()]);
        Explainer { logs, done, clocks, cell: Cell::default(), directories: 0, posted: HashMap::new(), lines: 0, script: vec![] }
    }

    // ---- lines

    /// Does a line. What it answers, if that is an answer of a turn, and what it answers in any case.
    fn does(&mut self, line: &str) -> Result<(Option<String>, String), Fault> {
        if self.lines >= MOST_LINES {
            return Err(Fault::TooLong);
        }
        let octets = format!("{line}\n").into_bytes();
        let no_line = || Fault::Other("no line of a script does this".to_string());
        let words = words_within(&octets, LONGEST_LINE).map_err(|_| no_line())?;
        let command = command(&mut Words::new(words)).map_err(|_| no_line())?;
        self.lines += 1;
        let answer = self.cell.answer(command);
        let own = match &answer {
            Ok(Answer::Step(said, _)) => match said {
                Said::Done | Said::Made(..) | Said::Stamped(_) | Said::Epoch(_) | Said::Taken | Said::Complete(_) => Some(said.to_string()),
                _ => None,
            },
            _ => None,
        };
        let told = own.clone().unwrap_or_else(|| text_of(answer));
        Ok((own, told))
    }

    fn say(&mut self, line: &str) {
        self.script.extend_from_slice(line.as_bytes());
        self.script.push(b'\n');
    }

    /// Does a line that is no turn, and adds it.
    /// Does a line that has to be answered `ok`.
    fn done(&mut self, line: &str) -> Result<(), Fault> {
        match self.does(line)? {
            (Some(own), _) if own == "ok" => Ok(()),
            (_, told) => Err(Fault::Other(format!("answered ok where the replay answers {}", shown(told.as_bytes())))),
        }
    }

    fn quietly(&mut self, line: &str) -> Result<(), Fault> {
        self.done(line)?;
        self.say(line);
        Ok(())
    }

    /// That the replay has this image of a house, if it is known.
    fn compare_image(&self, house: u8, image: Option<&[u8]>) -> Result<(), Fault> {
        match (image, self.cell.image(house)) {
            (None, _) => Ok(()),
            (Some(image), Ok(own)) if *own == *image => Ok(()),
            _ => Err(Fault::Other("an image that the replay has not".to_string())),
        }
    }

    // ---- houses

    fn twin(&self, at: usize) -> Option<String> {
        let log = &self.logs[at];
        self.logs[..at].iter().find_map(|other| match other {
            _ if other.house == log.house => Some("the house of another journal".to_string()),
            _ if other.node == log.node => Some(format!("the node of house {}", other.house)),
            _ => None,
        })
    }

    fn make_houses(&mut self) -> Result<(), Stuck> {
        for at in 0..self.logs.len() {
            let (house, node) = (self.logs[at].house, self.logs[at].node);
            let made = match self.twin(at) {
                Some(cause) => Err(never(cause)),
                None => self.quietly(&format!("house {house} {node:012x}")),
            };
            made.and_then(|()| self.compare_image(house, self.logs[at].image.as_deref())).map_err(|fault| stuck(house, 1, fault))?;
        }
        Ok(())
    }

    fn make_others(&mut self) -> Result<(), Stuck> {
        let mut others = BTreeSet::new();
        for entry in self.logs.iter().flat_map(|log| &log.entries) {
            others.extend(said(&entry.line).iter().flat_map(|(_, line)| named(line)));
        }
        let mut node = 1;
        for house in others {
            if self.logs.iter().any(|log| log.house == house) {
                continue;
            }
            while self.logs.iter().any(|log| log.node == node) {
                node += 1;
            }
            self.quietly(&format!("house {house} {node:012x}")).map_err(|fault| stuck(house, 1, fault))?;
            node += 1;
        }
        Ok(())
    }

    // ---- entries

    fn set_clock(&mut self, at: usize, time: u64) -> Result<(), Fault> {
        if self.clocks[at] != time {
            self.quietly(&format!("clock {} {time}", self.logs[at].house))?;
            self.clocks[at] = time;
        }
        Ok(())
    }

    /// Why a line cannot be next; or the message that it takes.
    fn ready(&self, house: u8, line: &Line) -> Result<u64, Fault> {
        match line {
            Line::Root(_) if self.cell.term(1).is_some() => Err(never("a second root")),
            Line::Mkdir(_, _, made, _) => {
                let (made, next) = (*made as usize, (self.directories + 1).max(2));
                match () {
                    _ if made < next => Err(never(format!("directory {made} was made before"))),
                    _ if made > next || self.directories == 0 => Err(later(format!("directory {made} where the next one is {next}"))),
                    _ => Ok(0),
                }
            }
            Line::Epoch(dir, epoch, ..) => {
                let last = self.cell.term(*dir).map_or(0, |term| term.epoch);
                let text = format!("epoch {epoch} where the last one is {last}");
                match () {
                    _ if *epoch <= last => Err(never(text)),
                    _ if last == 0 || *epoch - last != 1 => Err(later(text)),
                    _ => Ok(0),
                }
            }
            Line::Take(octets) => {
                let found = self.posted.get(&(house, octets.clone()));
                found.copied().ok_or_else(|| later("took a message that no house posted"))
            }
            _ => Ok(0),
        }
    }

    fn start(&mut self, at: usize, entry: &Entry) -> Result<(), Fault> {
        let house = self.logs[at].house;
        self.quietly(&format!("crash {house}"))?;
        self.set_clock(at, 0)?;
        let line = format!("start {house}");
        self.done(&line)?;
        self.compare_image(house, entry.image.as_deref())?;
        self.say(&line);
        Ok(())
    }

    /// That the console gave a list, after one with these members.
    fn compare_list(&self, line: &Line, before: &[Member]) -> Result<(), Fault> {
        let Line::Epoch(dir, _, members, left) = line else {
            return Ok(());
        };
        let now = self.cell.term(*dir).map_or(&[][..], |term| &term.members);
        let gone: Vec<u8> = before.iter().map(|member| member.house).filter(|house| !now.iter().any(|it| it.house == *house)).collect();
        if same(now, members) && gone == *left { Ok(()) } else { Err(Fault::Other("the console would give another list".to_string())) }
    }

    fn is_posted(&mut self, serial: u64, to: u8, octets: &[u8]) -> bool {
        let is_to = matches!(self.cell.actor(&Command::Deliver(serial)), Ok(Some(house)) if house == to);
        is_to && matches!(self.cell.answer(Command::OctetsOfMessage(serial)), Ok(Answer::Octets(own)) if *own == *octets)
    }

    fn compare_posts(&mut self, first: u64, posts: &[(u8, Vec<u8>)]) -> Result<(), Fault> {
        let are = posts.iter().zip(first + 1..).all(|((to, octets), serial)| self.is_posted(serial, *to, octets));
        let count = first + posts.len() as u64 == self.cell.posted();
        if are && count { Ok(()) } else { Err(Fault::Other("posted what the replay does not post".to_string())) }
    }

    fn turn(&mut self, at: usize, entry: &Entry) -> Result<(), Fault> {
        let house = self.logs[at].house;
        let (words, line) = said(&entry.line).ok_or_else(|| never("no line of a script does this"))?;
        let serial = self.ready(house, &line)?;
        self.set_clock(at, entry.clock)?;
        let text = line_for(house, &words, &line, serial);
        let first = self.cell.posted();
        let before = match &line {
            Line::Epoch(dir, ..) => self.cell.term(*dir).map_or(vec![], |term| term.members.clone()),
            _ => vec![],
        };
        let (own, told) = self.does(&text)?;
        if own.as_deref().map(str::as_bytes) != Some(&entry.answer[..]) {
            let words = format!("answered {} where the replay answers {}", shown(&entry.answer), shown(told.as_bytes()));
            return Err(Fault::Other(words));
        }
        self.compare_list(&line, &before)?;
        self.compare_posts(first, &entry.posts)?;
        self.compare_image(house, entry.image.as_deref())?;
        self.directories += usize::from(matches!(line, Line::Root(_) | Line::Mkdir(..)));
        for ((to, octets), serial) in entry.posts.iter().zip(first + 1..) {
            self.posted.entry((*to, octets.clone())).or_insert(serial);
        }
        self.say(&text);
        Ok(())
    }

    // ---- the order

    /// Lets a house go on as far as it comes. Why it stops before its end.
    fn go_on(&mut self, at: usize) -> Result<Option<(usize, Cause)>, Stuck> {
        let entries = std::mem::take(&mut self.logs[at].entries);
        let mut stopped = None;
        while stopped.is_none() && self.done[at] < entries.len() {
            let entry = &entries[self.done[at]];
            match if entry.is_start() { self.start(at, entry) } else { self.turn(at, entry) } {
                Ok(()) => self.done[at] += 1,
                Err(Fault::NotYet(cause)) => stopped = Some((self.done[at] + 2, cause)),
                Err(fault) => return Err(stuck(self.logs[at].house, self.done[at] + 2, fault)),
            }
        }
        self.logs[at].entries = entries;
        Ok(stopped)
    }

    pub fn run(&mut self) -> Result<(), Stuck> {
        self.make_houses()?;
        self.make_others()?;
        loop {
            let before: usize = self.done.iter().sum();
            let mut reason: Option<(u8, usize, Cause)> = None;
            for at in 0..self.logs.len() {
                if let Some((entry, cause)) = self.go_on(at)? {
                    // (one that can never be explained comes before those that wait for it)
                    if reason.as_ref().is_none_or(|(_, _, first)| first.waits && !cause.waits) {
                        reason = Some((self.logs[at].house, entry, cause));
                    }
                }
            }
            match reason {
                None => return Ok(()),
                Some((house, entry, cause)) if self.done.iter().sum::<usize>() == before => {
                    return Err(Stuck::At { house, entry, cause: cause.text });
                }
                Some(_) => {}
            }
        }
    }
}

fn stuck(house: u8, entry: usize, fault: Fault) -> Stuck {
    match fault {
        Fault::TooLong => Stuck::TooLong,
        Fault::Other(cause) | Fault::NotYet(Cause { text: cause, .. }) => Stuck::At { house, entry, cause },
    }
}

/// An answer in words, without the number of its line.
fn text_of(answer: Result<Answer, Refusal>) -> String {
    let mut text = Vec::new();
    let _ = write_answer(&mut text, 0, answer);
    String::from_utf8_lossy(&text[2..text.len() - 1]).into_owned()
}
