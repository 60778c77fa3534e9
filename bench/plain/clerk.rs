//! A clerk, which keeps answers of houses: a read at low confidence asks a house only for what the clerk does not know.

use std::borrow::Cow;
use std::collections::HashMap;
use std::rc::Rc;

use crate::answers::write_answer;
use crate::cell::{Answer, Cell, Names, Seen};
use crate::house::Refusal::{self, At, Because};
use crate::script::{Ask, Command, Words, command};
use crate::tables::Pointer;
use crate::{Replay, Stop};

/// What a clerk asks: what a name is in a directory, or the values of an attribute.
#[derive(Clone, PartialEq, Eq, Hash)]
struct Question<'a> {
    /// The house that is preferred.
    house: u8,
    at: Pointer<'a>,
    name: Cow<'a, [u8]>,
    attribute: Option<Cow<'a, [u8]>>,
}

impl Question<'_> {
    fn into_kept(self) -> Rc<Question<'static>> {
        let Question { house, at, name, attribute } = self;
        let attribute = attribute.map(|attribute| Cow::Owned(attribute.into_owned()));
        Rc::new(Question { house, at: at.into_kept(), name: Cow::Owned(name.into_owned()), attribute })
    }
}

enum Told {
    Seen(Seen),
    Values(Vec<Vec<u8>>),
}

/// The places of the answers that were used just before and just behind one.
#[derive(Clone, Copy)]
struct Neighbours {
    later: usize,
    earlier: usize,
}

/// Answers by their questions, in a ring by when they were used last. Place 0, where no answer is, is between the last and the first.
struct Ring {
    places: HashMap<Rc<Question<'static>>, usize>,
    kept: Vec<(Rc<Question<'static>>, Told)>,
    ring: Vec<Neighbours>,
}

impl Ring {
    fn take_out(&mut self, place: usize) {
        let Neighbours { later, earlier } = self.ring[place];
        self.ring[later].earlier = earlier;
        self.ring[earlier].later = later;
    }

    fn put_first(&mut self, place: usize) {
        let second = self.ring[0].earlier;
        self.ring[place] = Neighbours { later: 0, earlier: second };
        self.ring[second].later = place;
        self.ring[0].earlier = place;
    }

    /// Where the answer to a question is, which is used.
    fn used(&mut self, question: &Question) -> Option<usize> {
        let place = *self.places.get(question)?;
        self.take_out(place);
        self.put_first(place);
        Some(place)
    }

    /// Keeps a new answer in this room, in the place of the one that was not used for the longest time.
    fn keep(&mut self, room: usize, question: Rc<Question<'static>>, told: Told) -> usize {
        let place = if self.kept.len() < room {
            self.kept.push((question.clone(), told));
            self.ring.push(Neighbours { later: 0, earlier: 0 });
            self.kept.len()
        } else {
            let last = self.ring[0].later;
            self.take_out(last);
            let (former, _) = std::mem::replace(&mut self.kept[last - 1], (question.clone(), told));
            self.places.remove(&former);
            last
        };
        self.places.insert(question, place);
        self.put_first(place);
        place
    }
}

pub struct Clerk {
    room: usize,
    ring: Ring,
}

/// Where a walk comes to: a name in a directory, or a link with the name where it leads.
enum Pass<'n> {
    Found(Rc<Pointer<'static>>, &'n [u8]),
    Link(Vec<u8>),
}

impl Clerk {
    pub fn new(room: usize) -> Clerk {
        let ring = Ring { places: HashMap::new(), kept: Vec::new(), ring: vec![Neighbours { later: 0, earlier: 0 }] };
        Clerk { room, ring }
    }

    /// The answer to a question: the kept one, or else that of a house, which is kept then.
    fn ask(&mut self, question: Question, of_house: impl FnOnce() -> Option<Told>) -> Option<&Told> {
        let place = match self.ring.used(&question) {
            Some(place) => place,
            None => {
                let told = of_house()?;
                self.ring.keep(self.room, question.into_kept(), told)
            }
        };
        Some(&self.ring.kept[place - 1].1)
    }

    /// What an entry is; nothing where no house of the directory answers.
    fn lookup(&mut self, cell: &Cell, house: u8, at: &Pointer, name: &[u8]) -> Option<&Told> {
        let question = Question { house, at: at.lent(), name: Cow::Borrowed(name), attribute: None };
        self.ask(question, || cell.seen(at, Ask { house, high: false }, name).map(Told::Seen))
    }

    /// Walks one full name from the root directory on.
    fn pass<'n>(&mut self, cell: &Cell, house: u8, name: &'n [u8]) -> Result<Pass<'n>, Refusal> {
        let mut rest = &name[3..];
        if rest.is_empty() {
            return Err(Because("RootName"));
        }
        let mut at = Rc::new(cell.root()?.into_kept());
        let mut done = 0;
        loop {
            let names = &rest[1..];
            let (component, behind) = names.split_at(names.iter().position(|b| *b == b'/').unwrap_or(names.len()));
            let next = match self.lookup(cell, house, &at, component) {
                None => return Err(At("Unreachable", u64::from(at.dir))),
                Some(Told::Seen(Seen::Link(target))) => return Ok(Pass::Link([target, behind].concat())),
                Some(Told::Seen(Seen::Absent)) => return Err(At("NoSuchName", done)),
                Some(_) if behind.is_empty() => return Ok(Pass::Found(at, component)),
                Some(Told::Seen(Seen::Child(next))) => next.clone(),
                Some(_) => return Err(At("NotDirectory", done + 1)),
            };
            at = next;
            rest = behind;
            done += 1;
        }
    }

    /// The values of an attribute of the entry that a full name leads to.
    pub fn read(&mut self, cell: &Cell, house: u8, name: &[u8], attribute: &[u8]) -> Result<Answer<'_>, Refusal> {
        cell.made(&[house])?;
        let mut names = Names::new(name);
        loop {
            match self.pass(cell, house, names.present())? {
                Pass::Found(at, name) => return self.values(cell, house, &at, name, attribute),
                Pass::Link(next) => names.follow(next)?,
            }
        }
    }

    fn values(&mut self, cell: &Cell, house: u8, at: &Pointer, name: &[u8], attribute: &[u8]) -> Result<Answer<'_>, Refusal> {
        let attributed = Some(Cow::Borrowed(attribute));
        let question = Question { house, at: at.lent(), name: Cow::Borrowed(name), attribute: attributed };
        let told = self.ask(question, || {
            let entry = cell.shown(at, Ask { house, high: false }, name)?;
            Some(Told::Values(entry.values(attribute).map(<[u8]>::to_vec).collect()))
        });
        match told {
            Some(Told::Values(values)) => Ok(Answer::Values(values.iter().map(Vec::as_slice).collect())),
            _ => Err(Because("Vanished")),
        }
    }
}

/// A cell whose entries are read through a clerk at low confidence.
pub struct Clerked {
    cell: Cell,
    clerk: Clerk,
}

impl Clerked {
    pub fn new(room: usize) -> Clerked {
        Clerked { cell: Cell::default(), clerk: Clerk::new(room) }
    }
}

impl Replay for Clerked {
    fn answer_line(&mut self, text: &mut Vec<u8>, number: u32, mut words: Words) -> Result<(), Stop> {
        let answer = match command(&mut words)? {
            Command::Read(ask, name, attribute) if !ask.high => self.clerk.read(&self.cell, ask.house, name, attribute),
            command => self.cell.answer(command),
        };
        Ok(write_answer(text, number, answer)?)
    }
}
