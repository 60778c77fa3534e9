//! One house: what it does at a line, and what of that has to be durable before it answers.

use std::collections::BTreeMap;
use std::io::Write;

use crate::answers::{push_hex, stamp_or, write_dump, write_listed};
use crate::house::Refusal::{self, At, Because};
use crate::house::{Clearinghouse, Held, Letters, Said, Skulk, Slot, Term, Update};
use crate::house_lines::{Line, Others, line_of};
use crate::house_segments::Record;
use crate::records::{Body, Member, Role, read_image, read_message};
use crate::script::{directory, node, number};
use crate::tables::{Entry, Kind, Pointer, Stamp};

const MOST_MEMBERS: usize = 64;
const LONGEST_MESSAGE: usize = 16_777_216;
/// How many octets a line of an answer shows at most.
const PIECE: usize = 2000;

/// What a house is, between two lines.
#[derive(Default)]
pub struct Home {
    pub house: Option<Clearinghouse>,
    pub clock: u64,
    /// The number of the last entry of its journal.
    pub entry: u64,
    /// The text of the last turn: its line, what it posted, and its answer.
    pub last: Vec<u8>,
    /// The octets in front of the next message.
    pub pieces: Vec<u8>,
}

/// What a house does at a line that it does not refuse: a turn, or an answer that changes nothing, of one line or of several.
enum Outcome {
    Turn(Said, Vec<Letters>),
    Stays(Said),
    Lines(Vec<u8>),
}

use Outcome::{Lines, Stays, Turn};

/// That no house is listed twice, and that they are not too many.
fn listable(houses: &[u8]) -> Result<(), Refusal> {
    let twice = houses.iter().enumerate().any(|(at, house)| houses[at + 1..].contains(house));
    if twice || houses.len() > MOST_MEMBERS { Err(Because("BadMembers")) } else { Ok(()) }
}

fn is_ascending(houses: &[u8]) -> bool {
    houses.is_sorted_by(|a, b| a < b)
}

/// All stamps of an entry.
fn stamps_in(entry: &Entry) -> Vec<Stamp> {
    let marks = entry.attributes.values().flat_map(|attribute| attribute.marks.values());
    let clears = entry.attributes.values().filter_map(|attribute| attribute.cleared);
    [entry.birth].into_iter().chain(entry.death).chain(clears).chain(marks.map(|mark| mark.stamp)).collect()
}

/// All stamps that a message carries.
fn stamps_of(body: &Body) -> Vec<Stamp> {
    let table = |entries: &BTreeMap<Vec<u8>, Entry>| -> Vec<Stamp> { entries.values().flat_map(stamps_in).collect() };
    match body {
        Body::Update(_, entry) => stamps_in(entry),
        Body::Gather(stamp) | Body::SpreadAck(stamp) | Body::Advance(stamp) => vec![*stamp],
        Body::Gathered(stamp, delta) | Body::Spread(stamp, delta) => {
            [*stamp].into_iter().chain(delta.above).chain(table(&delta.entries)).collect()
        }
        Body::Join(_, replica) => replica.all_up_to.into_iter().chain(table(replica.entries())).collect(),
        Body::Leave => vec![],
    }
}

/// Whether a console gives this list: this house is the one master, and who leaves is not listed.
fn is_given(me: u8, epoch: u64, members: &[Member], left: &[u8]) -> bool {
    let listed: Vec<u8> = members.iter().map(|member| member.house).collect();
    let masters: Vec<u8> = members.iter().filter(|member| member.role == Role::Master).map(|member| member.house).collect();
    let leaves = left.iter().all(|house| !listed.contains(house));
    is_ascending(&listed)
        && is_ascending(left)
        && leaves
        && masters == [me]
        && listed.len() <= MOST_MEMBERS
        && members.iter().all(|member| member.since <= epoch)
}

/// The list of a new directory whose master is this house.
fn first_term(me: u8, others: &Others) -> Term {
    let role = |house: u8| match house {
        _ if house == me => Role::Master,
        _ if others.secondary.contains(&house) => Role::Secondary,
        _ => Role::ReadOnly,
    };
    let mut houses = [&[me], &others.houses[..]].concat();
    houses.sort_unstable();
    Term { epoch: 1, members: houses.into_iter().map(|house| Member { house, since: 1, role: role(house) }).collect() }
}

/// The pointer of a child to a directory: the master first, and the others ascending.
fn pointer(dir: u32, houses: &[u8]) -> Vec<u8> {
    let mut ordered = houses.to_vec();
    ordered[1..].sort_unstable();
    Pointer { dir, houses: ordered.into() }.octets()
}

/// What a house says to a line: an answer without numbers, and the record of a turn.
pub struct Reply {
    pub text: Vec<u8>,
    pub record: Option<Record>,
}

impl Reply {
    /// Of a line that is no turn.
    fn says(text: impl Into<Vec<u8>>) -> Reply {
        Reply { text: text.into(), record: None }
    }
}

/// The first line of a text, and what follows its end.
pub fn line_in(text: &[u8]) -> Option<(&[u8], &[u8])> {
    let end = text.iter().position(|b| *b == b'\n')?;
    Some((&text[..end], &text[end + 1..]))
}

/// A stamp in words.
fn stamp(word: &[u8]) -> Option<Stamp> {
    let at = word.iter().position(|b| *b == b'@')?;
    Some(Stamp { time: number(&word[..at])?, node: node(&word[at + 1..])? })
}

/// The directory of a skulk that runs, and the skulk, as a line of a record says them.
fn running(line: &[u8]) -> Option<(u32, Skulk)> {
    let words: Vec<&[u8]> = line.split(|b| *b == b' ').collect();
    let [b"running", dir, issued, round, answered] = words[..] else {
        return None;
    };
    let spreads = match round {
        b"gather" => false,
        b"spread" => true,
        _ => return None,
    };
    Some((directory(dir)?, Skulk { stamp: stamp(issued)?, spreads, answered: number(answered)? }))
}

// The skulks that run, which an image leaves out.
impl Clearinghouse {
    /// Ends the skulks that run, as the death of the process does.
    pub fn crash(&mut self) {
        for slot in self.dirs.values_mut() {
            if let Slot::Held(held) = slot {
                held.skulk = None;
            }
        }
    }

    /// The skulks that run, a line each: the directory, the stamp, the round, and a bit for each member that answered in it.
    pub fn running(&self) -> Vec<u8> {
        let mut text = Vec::new();
        for (dir, slot) in &self.dirs {
            if let Slot::Held(Held { skulk: Some(skulk), .. }) = slot {
                let round = if skulk.spreads { "spread" } else { "gather" };
                let _ = writeln!(text, "running {dir} {} {round} {}", skulk.stamp, skulk.answered);
            }
        }
        text
    }

    /// Lets a skulk run on, if the house holds its directory.
    pub fn run_on(&mut self, dir: u32, skulk: Skulk) {
        if let Some(Slot::Held(held)) = self.dirs.get_mut(&dir) {
            held.skulk = Some(skulk);
        }
    }
}

// From records.
impl Home {
    /// What a house was at the first record of a segment, by its body; none, where no house writes that.
    pub fn resume(body: &[u8]) -> Option<Home> {
        let record = Record::read(body)?;
        let Some(image) = &record.image else {
            let is_new = record.text == b"new\n" && record.entry == 0;
            return if is_new { Some(Home::default()) } else { None };
        };
        let mut house = read_image(image).ok()?;
        let (first, mut last) = line_in(&record.text)?;
        if first == format!("segment {}", record.entry).as_bytes() {
            while last.starts_with(b"running ") {
                let (line, rest) = line_in(last)?;
                let (dir, skulk) = running(line)?;
                house.run_on(dir, skulk);
                last = rest;
            }
        } else if first != b"start" {
            return None;
        }
        Some(Home { house: Some(house), clock: record.clock, entry: record.entry, last: last.to_vec(), pieces: vec![] })
    }

    /// Does again what the body of a record says. Whether that gives the same body.
    pub fn redo(&mut self, body: &[u8]) -> bool {
        let Some(record) = Record::read(body) else {
            return false;
        };
        self.clock = record.clock;
        self.forget();
        let line = line_in(&record.text).map_or(&[][..], |(line, _)| line);
        let words: Vec<&[u8]> = line.split(|b| *b == b' ').filter(|word| !word.is_empty()).collect();
        !words.is_empty() && self.respond(&words).record.is_some_and(|own| own.octets() == body)
    }

    /// The house after the death of its process: its skulks are over, and its clock is 0.
    pub fn end(mut self) -> Home {
        if let Some(house) = &mut self.house {
            house.crash();
        }
        Home { clock: 0, pieces: vec![], ..self }
    }

    /// The record with which a segment begins: that of a start, or of a house that goes on.
    pub fn first_record(&self, is_start: bool) -> Record {
        let Some(house) = &self.house else {
            return Record { entry: 0, clock: 0, text: b"new\n".to_vec(), image: None };
        };
        let first = if is_start { "start\n".to_string() } else { format!("segment {}\n", self.entry) };
        let text = [first.as_bytes(), &house.running(), &self.last].concat();
        Record { entry: self.entry, clock: self.clock, text, image: Some(house.image()) }
    }
}

// What lines do.
impl Home {
    /// Responds to the words of a line.
    pub fn respond(&mut self, words: &[&[u8]]) -> Reply {
        let line = match line_of(words) {
            Ok(line) => line,
            Err(fault) => {
                self.forget();
                return Reply::says(format!("fault {} {}\n", fault.0, fault.1));
            }
        };
        let taken = if let Line::Take(octets) = &line { Some(self.with_pieces(octets)) } else { None };
        match self.outcome(line) {
            Err(refusal) => Reply::says(format!("{refusal}\n")),
            Ok(Stays(said)) => Reply::says(format!("{said}\n")),
            Ok(Lines(text)) => Reply::says(text),
            Ok(Turn(said, letters)) => self.turn(&taken.unwrap_or_else(|| words.join(&b' ')), &letters, &said),
        }
    }

    /// Notes a turn as its last one.
    fn turn(&mut self, line: &[u8], letters: &[Letters], said: &Said) -> Reply {
        self.last = text_of(line, letters, said);
        self.entry += 1;
        let record = Record { entry: self.entry, clock: self.clock, text: self.last.clone(), image: None };
        Reply { text: self.last[line.len() + 1..].to_vec(), record: Some(record) }
    }

    fn home(&mut self) -> Result<&mut Clearinghouse, Refusal> {
        self.house.as_mut().ok_or(Because("NoHouse"))
    }

    /// Does what a line says.
    fn outcome(&mut self, line: Line) -> Result<Outcome, Refusal> {
        let pieces = std::mem::take(&mut self.pieces);
        match line {
            Line::House(number, node) => self.make(number, node),
            Line::Clock(time) => {
                self.home()?;
                self.clock = time;
                Ok(Stays(Said::Done))
            }
            Line::Root(others) => self.root(&others),
            Line::Mkdir(dir, name, child, others) => self.mkdir(dir, name, child, &others),
            Line::Repoint(dir, name, houses) => self.repoint(dir, name, houses),
            Line::Update(dir, name, update) => self.update(dir, name, update),
            Line::Skulk(dir) => self.skulk(dir),
            Line::Epoch(dir, epoch, members, left) => self.epoch(dir, epoch, members, left),
            Line::More(octets) => {
                self.pieces = joined(pieces, &octets)?;
                Ok(Stays(Said::Done))
            }
            Line::Take(octets) => self.take(pieces, &octets),
            Line::Dump(dir) => self.dump(dir),
            Line::Look(dir, name, attribute) => self.look(dir, name, attribute),
            Line::Show(high, dir, name) => self.show(high, dir, name),
            Line::Status(dir) => self.status(dir),
            Line::Directories => self.directories(),
            Line::Image => Ok(Lines(octets_told(&self.home()?.image()))),
        }
    }

    /// The text of a line that takes a message of the octets so far and these.
    fn with_pieces(&self, octets: &[u8]) -> Vec<u8> {
        let mut text = b"take ".to_vec();
        push_hex(&mut text, &self.pieces);
        push_hex(&mut text, octets);
        text
    }

    /// Forgets the octets in front of the next message.
    fn forget(&mut self) {
        self.pieces.clear();
    }

    fn make(&mut self, number: u8, node: u64) -> Result<Outcome, Refusal> {
        if self.house.is_some() {
            return Err(Because("HouseExists"));
        }
        self.house = Some(Clearinghouse::new(number, node));
        Ok(Turn(Said::Done, vec![]))
    }

    /// That this house neither has nor had a directory, and that it can list these houses beside itself.
    fn foundable(&mut self, dir: u32, others: &Others) -> Result<u8, Refusal> {
        let home = self.home()?;
        if home.dirs.contains_key(&dir) {
            return Err(Because("DirectoryExists"));
        }
        listable(&[&[home.number], &others.houses[..]].concat())?;
        Ok(home.number)
    }

    fn root(&mut self, others: &Others) -> Result<Outcome, Refusal> {
        let me = self.foundable(1, others)?;
        let letters = self.home()?.found(1, first_term(me, others));
        Ok(Turn(Said::Done, letters.into_iter().collect()))
    }

    fn mkdir(&mut self, dir: u32, name: &[u8], child: u32, others: &Others) -> Result<Outcome, Refusal> {
        let me = self.foundable(child, others)?;
        let value = pointer(child, &[&[me], &others.houses[..]].concat());
        let (clock, home) = (self.clock, self.home()?);
        let (stamp, letters) = home.accept(clock, dir, name, Update::New(Kind::Child, Some(value)))?;
        let joins = home.found(child, first_term(me, others));
        Ok(Turn(Said::Made(child, stamp), letters.into_iter().chain(joins).collect()))
    }

    fn repoint(&mut self, dir: u32, name: &[u8], mut houses: Vec<u8>) -> Result<Outcome, Refusal> {
        self.home()?;
        listable(&houses)?;
        houses[1..].sort_unstable();
        self.update(dir, name, Update::Repoint(houses))
    }

    fn update(&mut self, dir: u32, name: &[u8], update: Update) -> Result<Outcome, Refusal> {
        let clock = self.clock;
        let (stamp, letters) = self.home()?.accept(clock, dir, name, update)?;
        Ok(Turn(Said::Stamped(stamp), letters.into_iter().collect()))
    }

    fn skulk(&mut self, dir: u32) -> Result<Outcome, Refusal> {
        let clock = self.clock;
        let (said, letters) = self.home()?.begin_skulk(clock, dir)?;
        Ok(Turn(said, letters.into_iter().collect()))
    }

    fn epoch(&mut self, dir: u32, epoch: u64, members: Vec<Member>, left: Vec<u8>) -> Result<Outcome, Refusal> {
        let home = self.home()?;
        let held = home.held(dir).ok_or(Because("NoReplica"))?.term.epoch;
        if !is_given(home.number, epoch, &members, &left) {
            return Err(Because("BadMembers"));
        }
        if epoch <= held {
            return Err(At("NotAbove", held));
        }
        let letters = home.enter(dir, Term { epoch, members }, left)?;
        Ok(Turn(Said::Epoch(epoch), letters.into_iter().flatten().collect()))
    }

    fn take(&mut self, pieces: Vec<u8>, octets: &[u8]) -> Result<Outcome, Refusal> {
        let home = self.home()?;
        let octets = joined(pieces, octets)?;
        let (message, size) = read_message(&octets).map_err(|fault| At(fault.rule, fault.place as u64))?;
        if size < octets.len() {
            return Err(At("Trailing", size as u64 + 1));
        }
        let restored = stamps_of(&message.body).into_iter().filter(|stamp| stamp.node == home.node && stamp.time > home.floor).max();
        if let Some(stamp) = restored {
            return Ok(Lines(format!("refused Restored {stamp}\n").into_bytes()));
        }
        let (said, letters) = home.take(message);
        Ok(match said {
            Said::Taken | Said::Complete(_) => Turn(said, letters.into_iter().collect()),
            said => Stays(said),
        })
    }

    fn dump(&mut self, dir: u32) -> Result<Outcome, Refusal> {
        let held = self.home()?.held(dir).ok_or(Because("NoReplica"))?;
        let mut text = Vec::new();
        let _ = write_dump(&mut text, 0, held);
        Ok(Lines(text.split_inclusive(|b| *b == b'\n').flat_map(|line| &line[2..]).copied().collect()))
    }

    fn look(&mut self, dir: u32, name: &[u8], attribute: &[u8]) -> Result<Outcome, Refusal> {
        let held = self.home()?.held(dir).ok_or(Because("NoReplica"))?;
        let (_, entry) = held.replica.live(name).ok_or(Because("NoSuchEntry"))?;
        let (mut text, mut count) = (Vec::new(), 0);
        for value in entry.values(attribute) {
            hex_line(&mut text, b"value ", value);
            count += 1;
        }
        let _ = writeln!(text, "end {count}");
        Ok(Lines(text))
    }
}

/// The line that says what an entry is, and where it leads, if it leads anywhere.
fn lead_line(entry: &Entry) -> Vec<u8> {
    let (word, lead) = match (entry.kind, entry.lead()) {
        (Kind::Object, _) => ("object", vec![]),
        (Kind::Link, target) => ("link", target.map_or(vec![], |target| [b" ", target].concat())),
        (Kind::Child, lead) => ("child", lead.and_then(Pointer::read).map_or(vec![], |pointer| pointer_words(&pointer))),
    };
    [word.as_bytes(), &lead, b"\n"].concat()
}

/// The directory and the houses of a pointer, each after a space.
fn pointer_words(pointer: &Pointer) -> Vec<u8> {
    let houses: String = pointer.houses.iter().map(|house| format!(" {house}")).collect();
    format!(" {}{houses}", pointer.dir).into_bytes()
}

// Questions of clerks and of operators.
impl Home {
    /// What shows of a name: what it is and where it leads, and the values of its attributes. At high confidence only the master answers,
    /// by its own list.
    fn show(&mut self, high: bool, dir: u32, name: &[u8]) -> Result<Outcome, Refusal> {
        let home = self.home()?;
        let held = home.held(dir).ok_or(Because("NoReplica"))?;
        if high && held.term.master() != Some(home.number) {
            return Err(Because("NotMaster"));
        }
        let (_, entry) = held.replica.live(name).ok_or(Because("NoSuchEntry"))?;
        let mut text = lead_line(entry);
        for attribute in entry.attributes.keys() {
            let mut values = entry.values(attribute).peekable();
            if values.peek().is_some() {
                text.extend([b"attr ", &attribute[..], b"\n"].concat());
            }
            values.for_each(|value| hex_line(&mut text, b"value ", value));
        }
        text.extend_from_slice(b"end\n");
        Ok(Lines(text))
    }

    /// How a directory is, without its entries.
    fn status(&mut self, dir: u32) -> Result<Outcome, Refusal> {
        let held = self.home()?.held(dir).ok_or(Because("NoReplica"))?;
        let up_to = stamp_or(held.replica.all_up_to, "none");
        let skulk = stamp_or(held.skulk.as_ref().map(|skulk| skulk.stamp), "none");
        let count = held.replica.entries().values().filter(|entry| entry.is_live()).count();
        let mut text = format!("ok epoch {} allupto {up_to} skulk {skulk} entries {count} members", held.term.epoch).into_bytes();
        let _ = write_listed(&mut text, &held.term.members);
        text.push(b'\n');
        Ok(Lines(text))
    }

    /// The directories that it holds, and those that it held.
    fn directories(&mut self) -> Result<Outcome, Refusal> {
        let dirs = &self.home()?.dirs;
        let mut text = Vec::new();
        for (dir, slot) in dirs {
            let (word, epoch) = match slot {
                Slot::Held(held) => ("held", held.term.epoch),
                Slot::Gone(epoch) => ("gone", *epoch),
            };
            let _ = writeln!(text, "directory {dir} {word} {epoch}");
        }
        let _ = writeln!(text, "end {}", dirs.len());
        Ok(Lines(text))
    }
}

/// The octets of a message so far and more of them.
fn joined(mut pieces: Vec<u8>, octets: &[u8]) -> Result<Vec<u8>, Refusal> {
    if pieces.len() + octets.len() > LONGEST_MESSAGE {
        return Err(Because("TooLong"));
    }
    pieces.extend_from_slice(octets);
    Ok(pieces)
}

fn hex_line(text: &mut Vec<u8>, word: &[u8], octets: &[u8]) {
    text.extend_from_slice(word);
    push_hex(text, octets);
    text.push(b'\n');
}

fn octets_told(octets: &[u8]) -> Vec<u8> {
    let mut text = Vec::new();
    octets.chunks(PIECE).for_each(|piece| hex_line(&mut text, b"octets ", piece));
    let _ = writeln!(text, "end {}", octets.len());
    text
}

/// The text of a turn, as its record has it: the line, the messages, and the answer.
fn text_of(line: &[u8], letters: &[Letters], said: &Said) -> Vec<u8> {
    let mut text = line.to_vec();
    text.push(b'\n');
    for letter in letters {
        for to in &letter.to {
            let _ = write!(text, "post {to} ");
            hex_line(&mut text, b"", &letter.octets);
        }
    }
    let _ = writeln!(text, "{said}");
    text
}

/// Adds each line of a text with a number in front; messages come in pieces.
pub fn tell(out: &mut Vec<u8>, number: u32, text: &[u8]) {
    for line in text.split_inclusive(|b| *b == b'\n') {
        match line.strip_prefix(b"post ") {
            Some(rest) => tell_post(out, number, rest),
            None => {
                let _ = write!(out, "{number} ");
                out.extend_from_slice(line);
            }
        }
    }
}

/// Adds a message in pieces: the receiver, a space, digits and a line end.
fn tell_post(out: &mut Vec<u8>, number: u32, rest: &[u8]) {
    let at = rest.iter().position(|b| *b == b' ').unwrap_or(0) + 1;
    let (to, digits) = (&rest[..at], &rest[at..rest.len() - 1]);
    let count = digits.len().div_ceil(2 * PIECE);
    for (at, piece) in digits.chunks(2 * PIECE).enumerate() {
        let word = if at + 1 < count { "more" } else { "post" };
        let _ = write!(out, "{number} {word} ");
        out.extend_from_slice(to);
        out.extend_from_slice(piece);
        out.push(b'\n');
    }
}
