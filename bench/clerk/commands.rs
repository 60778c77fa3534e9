//! What a command comes to over what was heard: its answer, or a plan, which is lines for the master that may each be sent again.

use std::io::Write;

use crate::answers::{push_hex, write_answer, write_told};
use crate::cell::Answer;
use crate::heard::{Bindings, Found, Halt, Heard, Place};
use crate::house::Refusal::{At, Because};
use crate::house::Update;
use crate::inquiries::{self, Inquiry, Line, Told, interfaces};
use crate::names;
use crate::rpc::{Element, Tower};
use crate::script::{self, Command, Fault, Words};
use crate::service::{GROUP, LONGEST_ELEMENT_TEXT, OBJECTS, PROFILE, TOWERS};
use crate::tables::{Change, Entry, Kind};

pub enum Done {
    /// The lines of an answer, each with the number 0.
    Text(Vec<u8>),
    /// A house, and the lines that it is given, one after the other.
    Plan(u8, Vec<Vec<u8>>),
}

type Outcome = Result<Done, Vec<Halt>>;

/// Whether a word is a command that changes nothing, and takes a confidence.
pub fn is_question(word: &[u8]) -> bool {
    matches!(word, b"read" | b"readlink" | b"import" | b"grouplist" | b"entrylist" | b"proflist" | b"lookup")
}

/// Whether a word is an update by a full name.
pub fn is_update(word: &[u8]) -> bool {
    matches!(word, b"create" | b"link" | b"delete" | b"add" | b"remove" | b"put" | b"clear")
}

/// What a command comes to, if its words are those of one.
pub fn outcome(heard: &Heard, words: &[Vec<u8>]) -> Result<Outcome, Fault> {
    let mut words: Vec<&[u8]> = words.iter().map(Vec::as_slice).collect();
    if is_update(words[0]) {
        return update(&mut Words::new(words)).map(|(name, update)| named(heard, name, &update));
    }
    if !is_question(words[0]) {
        return plans(&words).map(|command| plan(heard, &command));
    }
    // (in a script a house is named before the confidence)
    words.insert(1, b"1");
    let line = inquiries::line(&mut Words::new(words)).map_err(|Fault(reason, place)| Fault(reason, place.max(2) - 1));
    line.map(|line| question(heard, &line))
}

fn plans<'a>(words: &[&'a [u8]]) -> Result<Command<'a>, Fault> {
    let known: [&[u8]; 6] = [b"export", b"unexport", b"groupadd", b"groupdel", b"profadd", b"profdel"];
    if known.contains(&words[0]) { script::command(&mut Words::new(words.to_vec())) } else { Err(Fault("UnknownCommand", 1)) }
}

/// An update by a full name.
fn update<'a>(w: &mut Words<'a>) -> Result<(&'a [u8], Update<'a>), Fault> {
    let word = w.behind(0);
    let due = match word {
        b"create" | b"delete" => 2,
        b"link" | b"clear" => 3,
        _ => 4,
    };
    w.counted_behind(0, (due, due))?;
    w.pass();
    let name = w.next(script::full)?;
    let update = match word {
        b"create" => Update::New(Kind::Object, None),
        b"delete" => Update::Delete,
        b"link" => Update::New(Kind::Link, Some(w.next(script::full)?.to_vec())),
        b"clear" => Update::Change(Change { attribute: w.next(script::attribute)?, clears: true, value: None }),
        _ => {
            let attribute = w.next(script::attribute)?;
            let value = Some((w.next(script::value)?, word != b"remove"));
            Update::Change(Change { attribute, clears: word == b"put", value })
        }
    };
    Ok((name, update))
}

// Questions.

fn single(halt: Halt) -> Vec<Halt> {
    vec![halt]
}

fn question(heard: &Heard, line: &Line) -> Outcome {
    match line {
        Line::Command(Command::Read(_, name, attribute)) => {
            let found = heard.find(name, true).map_err(single)?;
            answer(Answer::Values(found.entry.values(attribute).collect()))
        }
        Line::Command(Command::ReadLink(_, name)) => {
            let entry = heard.find(name, false).map_err(single)?.entry;
            let target = entry.lead().filter(|_| entry.kind == Kind::Link);
            answer(Answer::Target(target.ok_or_else(|| single(Because("NotLink").into()))?))
        }
        Line::Command(Command::Import(_, name, wanted)) => {
            let Bindings { all, unreached } = heard.bindings(name, wanted)?;
            Ok(with_unreached(answer(Answer::Bindings(all))?, unreached))
        }
        Line::Command(_) => Err(single(Because("UnknownCommand").into())),
        Line::Inquiry(_, name, Inquiry::Bindings(wanted, most)) => {
            let Bindings { all, unreached } = heard.bindings(name, wanted)?;
            Ok(with_unreached(told(&Told::Batches(all, *most)), unreached))
        }
        Line::Inquiry(_, name, inquiry) => {
            let entry = heard.find(name, true).and_then(Found::object).map_err(single)?.entry;
            Ok(told(&match inquiry {
                Inquiry::Members => Told::Members(entry.values(GROUP).filter(|value| names::is_full(value)).collect()),
                Inquiry::Elements(choice) => {
                    let elements = entry.values(PROFILE).filter_map(Element::read);
                    Told::Elements(elements.filter(|element| choice.takes(element)).collect())
                }
                _ => Told::Entry(interfaces(entry), entry.values(OBJECTS).filter_map(|value| value.try_into().ok()).collect()),
            }))
        }
    }
}

fn answer(answer: Answer) -> Outcome {
    let mut text = Vec::new();
    let _ = write_answer(&mut text, 0, Ok(answer));
    Ok(Done::Text(text))
}

fn told(told: &Told) -> Done {
    let mut text = Vec::new();
    let _ = write_told(&mut text, 0, told);
    Done::Text(text)
}

/// An answer that says before its last line which directories were not reached.
fn with_unreached(done: Done, unreached: impl IntoIterator<Item = u64>) -> Done {
    let Done::Text(text) = done else { return done };
    let at = text[..text.len() - 1].iter().rposition(|b| *b == b'\n').map_or(0, |at| at + 1);
    let lines: Vec<u8> = unreached.into_iter().flat_map(|dir| format!("0 unreached {dir}\n").into_bytes()).collect();
    Done::Text([&text[..at], &lines, &text[at..]].concat())
}

// Plans.

/// The line of a house that makes an update.
fn update_line(dir: u32, name: &[u8], update: &Update) -> Vec<u8> {
    let word: &[u8] = match update {
        Update::New(Kind::Link, _) => b"link",
        Update::New(..) => b"create",
        Update::Delete => b"delete",
        Update::Change(Change { clears: true, value: None, .. }) => b"clear",
        Update::Change(Change { clears: true, .. }) => b"put",
        Update::Change(Change { value: Some((_, false)), .. }) => b"remove",
        Update::Change(_) => b"add",
        Update::Repoint(_) => b"repoint",
    };
    let mut line = word.to_vec();
    let _ = write!(line, " {dir} ");
    line.extend_from_slice(name);
    match update {
        Update::New(_, Some(target)) => line.extend([b" ", &target[..]].concat()),
        Update::Change(Change { attribute, value, .. }) => {
            line.extend([b" ", *attribute].concat());
            if let Some((value, _)) = value {
                line.push(b' ');
                push_hex(&mut line, value);
            }
        }
        _ => {}
    }
    line
}

fn marked(attribute: &'static [u8], value: Vec<u8>, present: bool) -> Update<'static> {
    Update::Change(Change { attribute, clears: false, value: Some((value, present)) })
}

/// The removal of those values of an attribute that are chosen, ascending.
fn removals(entry: &Entry, attribute: &'static [u8], chosen: impl Fn(&[u8]) -> bool) -> Vec<Update<'static>> {
    let gone = entry.values(attribute).filter(|octets| chosen(octets));
    gone.map(|octets| marked(attribute, octets.to_vec(), false)).collect()
}

/// Adds values to the object that a name leads to, which is made where there is none.
fn adding(heard: &Heard, name: &[u8], values: impl IntoIterator<Item = Update<'static>>) -> Outcome {
    let (dir, house, name, is_free) = match heard.walk(name, true).map_err(single)? {
        Place::Found(found) => found.object().map(|found| (found.dir, found.house, found.name, false)).map_err(single)?,
        Place::Free { dir, house, name, .. } => (dir, house, name, true),
    };
    let creation = is_free.then_some(Update::New(Kind::Object, None));
    Ok(Done::Plan(house, creation.into_iter().chain(values).map(|update| update_line(dir, &name, &update)).collect()))
}

/// Removes values from the object that a name leads to; refused for this reason where it has none of them.
fn removing(heard: &Heard, name: &[u8], reason: &'static str, gone: impl Fn(&Entry) -> Vec<Update<'static>>) -> Outcome {
    let found = heard.find(name, true).and_then(Found::object).map_err(single)?;
    let gone = gone(found.entry);
    if gone.is_empty() {
        return Err(single(Because(reason).into()));
    }
    Ok(Done::Plan(found.house, gone.iter().map(|update| update_line(found.dir, &found.name, update)).collect()))
}

/// Why an element is none of a profile.
fn element_fault(element: &Element) -> Option<&'static str> {
    let fits = match element.interface {
        Some(_) => element.priority < Element::DEFAULT,
        None => element.priority == Element::DEFAULT,
    };
    if !fits {
        return Some("BadPriority");
    }
    (element.member.len() + element.annotation.len() > LONGEST_ELEMENT_TEXT).then_some("ElementTooLong")
}

fn plan(heard: &Heard, command: &Command) -> Outcome {
    let refused = |reason| Err(single(Because(reason).into()));
    // (it asks where the name leads before it looks at anything else)
    if let Command::Export(name, ..) | Command::Unexport(name, ..) | Command::ProfileAdd(name, _) = command {
        if let Err(lack @ (Halt::LacksRoot | Halt::Lacks(_))) = heard.walk(name, true) {
            return Err(single(lack));
        }
    }
    match command {
        Command::Export(_, _, addresses, objects) if addresses.is_empty() && objects.is_empty() => refused("NothingToExport"),
        Command::Export(name, interface, addresses, objects) => {
            let towers = addresses.iter().map(|address| marked(TOWERS, Tower::new(*interface, *address).octets(), true));
            adding(heard, name, towers.chain(objects.iter().map(|object| marked(OBJECTS, object.to_vec(), true))))
        }
        Command::Unexport(name, interface, objects) => removing(heard, name, "NothingToUnexport", |entry| {
            let is_gone = |octets: &[u8]| interface.is_some() && Tower::read(octets).map(|tower| tower.interface) == *interface;
            let mut gone = removals(entry, TOWERS, is_gone);
            gone.extend(removals(entry, OBJECTS, |octets| objects.iter().any(|object| object == octets)));
            gone
        }),
        Command::GroupAdd(name, member) => adding(heard, name, [marked(GROUP, member.to_vec(), true)]),
        Command::GroupDelete(name, member) => {
            removing(heard, name, "NoSuchMember", |entry| removals(entry, GROUP, |octets| octets == *member))
        }
        Command::ProfileAdd(name, element) => match element_fault(element) {
            Some(reason) => refused(reason),
            None => adding(heard, name, [marked(PROFILE, element.octets(), true)]),
        },
        Command::ProfileDelete(name, interface, member) => removing(heard, name, "NoSuchElement", |entry| {
            let is_gone = |element: Element| element.interface == *interface && element.member == *member;
            removals(entry, PROFILE, |octets| Element::read(octets).is_some_and(is_gone))
        }),
        _ => refused("UnknownCommand"),
    }
}

/// An update of the entry of a name, of which the last link is not followed.
fn named(heard: &Heard, name: &[u8], update: &Update) -> Outcome {
    match heard.walk(name, false).map_err(single)? {
        Place::Found(found) => Ok(Done::Plan(found.house, vec![update_line(found.dir, &found.name, update)])),
        Place::Free { dir, house, name, .. } if matches!(update, Update::New(..)) => {
            Ok(Done::Plan(house, vec![update_line(dir, &name, update)]))
        }
        Place::Free { done, .. } => Err(single(At("NoSuchName", done).into())),
    }
}
