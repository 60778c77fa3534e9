//! What houses said for one command, and the walks and the searches over it. What was heard does not change, so all walks of a command see
//! one cell.

use std::collections::{BTreeSet, HashMap, HashSet};

use crate::cell::Names;
use crate::house::Refusal::{self, At, Because};
use crate::rpc::{Binding, Wanted};
use crate::tables::{Entry, Kind, Pointer};

/// What one house is asked: a name of a directory.
#[derive(Clone, PartialEq, Eq, Hash)]
pub struct Look {
    pub dir: u32,
    pub house: u8,
    pub name: Vec<u8>,
}

/// What a house says of a name: nothing that counts, since it holds no replica or is not the master that is wanted; that none shows; or what
/// shows.
pub enum Said {
    Passed,
    Absent,
    Shows(Entry),
}

/// Why a command does not come to its end yet, or at all.
pub enum Halt {
    Refused(Refusal),
    Lacks(Look),
    LacksRoot,
}

impl From<Refusal> for Halt {
    fn from(refusal: Refusal) -> Halt {
        Halt::Refused(refusal)
    }
}

/// An entry that a full name leads to, at the house that showed it.
pub struct Found<'a> {
    pub dir: u32,
    pub house: u8,
    pub name: Vec<u8>,
    pub entry: &'a Entry,
}

impl<'a> Found<'a> {
    pub fn object(self) -> Result<Found<'a>, Halt> {
        if self.entry.kind == Kind::Object { Ok(self) } else { Err(Because("NotObject").into()) }
    }
}

/// Where a full name leads: to an entry, or to a name of a directory that no entry has, behind so many components.
pub enum Place<'a> {
    Found(Found<'a>),
    Free { dir: u32, house: u8, name: Vec<u8>, done: u64 },
}

/// Where the walk of a full name comes to: a place, or a link, which is followed, and what is behind it.
enum Pass<'a, 'n> {
    Place(Place<'a>),
    Link(&'a [u8], &'n [u8]),
}

/// All that a house said of a directory in one answer, or that it said nothing that counts.
pub type Whole = Option<HashMap<Vec<u8>, Entry>>;

#[derive(Default)]
pub struct Heard {
    /// The house that is asked before all others that are listed, if there is one.
    near: Option<u8>,
    /// Where the root directory is, if that was heard; no house may have said so.
    pub root: Option<Option<Pointer<'static>>>,
    said: HashMap<Look, Said>,
    wholes: HashMap<(u32, u8), Whole>,
    down: BTreeSet<u8>,
}

impl Heard {
    /// Nothing but where the root directory was, if that is known.
    pub fn new(near: Option<u8>, root: Option<Option<Pointer<'static>>>) -> Heard {
        Heard { near, root, ..Heard::default() }
    }

    pub fn hear(&mut self, look: Look, said: Said) {
        self.said.insert(look, said);
    }

    pub fn hear_whole(&mut self, dir: u32, house: u8, whole: Whole) {
        self.wholes.insert((dir, house), whole);
    }

    /// A house was not reached. What it said before counts, and it is asked no more.
    pub fn miss(&mut self, house: u8) {
        self.down.insert(house);
    }

    /// What a house said of a name; none if it passes; or what it has to be asked.
    fn said(&self, look: Look) -> Result<Option<Option<&Entry>>, Look> {
        match (self.said.get(&look), self.wholes.get(&(look.dir, look.house))) {
            (Some(Said::Passed), _) | (None, Some(None)) => Ok(None),
            (Some(Said::Absent), _) => Ok(Some(None)),
            (Some(Said::Shows(entry)), _) => Ok(Some(Some(entry))),
            (None, Some(Some(entries))) => Ok(Some(entries.get(&look.name))),
            (None, None) if self.down.contains(&look.house) => Ok(None),
            (None, None) => Err(look),
        }
    }

    /// What the first house of those that are listed says that says something.
    fn look(&self, at: &Pointer, name: &[u8]) -> Result<(u8, Option<&Entry>), Halt> {
        let is_near = |house: &&u8| Some(**house) == self.near;
        let near = at.houses.iter().find(is_near);
        for house in near.into_iter().chain(at.houses.iter().filter(|house| !is_near(house))) {
            let look = Look { dir: at.dir, house: *house, name: name.to_vec() };
            if let Some(entry) = self.said(look).map_err(Halt::Lacks)? {
                return Ok((*house, entry));
            }
        }
        Err(At("Unreachable", u64::from(at.dir)).into())
    }

    /// Walks one full name from the root directory on.
    fn pass<'n>(&self, name: &'n [u8], follows_last: bool) -> Result<Pass<'_, 'n>, Halt> {
        let mut rest = &name[3..];
        if rest.is_empty() {
            return Err(Because("RootName").into());
        }
        let root = self.root.as_ref().ok_or(Halt::LacksRoot)?;
        let mut at = root.as_ref().ok_or(At("Unreachable", 1))?.lent();
        let mut done = 0;
        loop {
            let names = &rest[1..];
            let (component, behind) = names.split_at(names.iter().position(|b| *b == b'/').unwrap_or(names.len()));
            let (house, entry) = self.look(&at, component)?;
            let (dir, name) = (at.dir, component.to_vec());
            let Some(entry) = entry else {
                let is_last = behind.is_empty();
                return if is_last { Ok(Pass::Place(Place::Free { dir, house, name, done })) } else { Err(At("NoSuchName", done).into()) };
            };
            match (entry.kind, entry.lead()) {
                (Kind::Link, Some(target)) if follows_last || !behind.is_empty() => return Ok(Pass::Link(target, behind)),
                _ if behind.is_empty() => return Ok(Pass::Place(Place::Found(Found { dir, house, name, entry }))),
                (Kind::Child, Some(lead)) => at = Pointer::read(lead).ok_or(At("NoSuchName", done))?,
                _ => return Err(At("NotDirectory", done + 1).into()),
            }
            rest = behind;
            done += 1;
        }
    }

    pub fn walk(&self, name: &[u8], follows_last: bool) -> Result<Place<'_>, Halt> {
        let mut names = Names::new(name);
        loop {
            let next = match self.pass(names.present(), follows_last)? {
                Pass::Place(place) => return Ok(place),
                Pass::Link(target, behind) => [target, behind].concat(),
            };
            names.follow(next)?;
        }
    }

    /// The entry that a full name leads to.
    pub fn find(&self, name: &[u8], follows_last: bool) -> Result<Found<'_>, Halt> {
        match self.walk(name, follows_last)? {
            Place::Found(found) => Ok(found),
            Place::Free { done, .. } => Err(At("NoSuchName", done).into()),
        }
    }

    /// The bindings of a search, or all that it lacks: it goes on past a name that lacks, since which entries it comes to does not depend on
    /// the order.
    pub fn bindings(&self, name: &[u8], wanted: &Wanted) -> Result<Bindings, Vec<Halt>> {
        let mut search = Search { wanted, searched: HashSet::new(), names: Vec::new(), found: Bindings::default() };
        let mut lacks = Vec::new();
        search.enter(self.find(name, true).and_then(Found::object).map_err(|halt| vec![halt])?);
        while let Some(name) = search.names.pop() {
            match self.find(name, true).and_then(Found::object) {
                Ok(object) => search.enter(object),
                Err(Halt::Refused(At("Unreachable", dir))) => drop(search.found.unreached.insert(dir)),
                // A name that leads to no object is passed over.
                Err(Halt::Refused(_)) => {}
                Err(lack) => lacks.push(lack),
            }
        }
        if lacks.is_empty() { Ok(search.found) } else { Err(lacks) }
    }
}

/// What a search found, and the directories of which no listed house said anything.
#[derive(Default)]
pub struct Bindings {
    pub all: Vec<Binding>,
    pub unreached: BTreeSet<u64>,
}

/// How far a search has come. The next name is the last one.
struct Search<'a> {
    wanted: &'a Wanted,
    searched: HashSet<(u32, Vec<u8>)>,
    names: Vec<&'a [u8]>,
    found: Bindings,
}

impl<'a> Search<'a> {
    /// Searches an object, unless it was searched.
    fn enter(&mut self, object: Found<'a>) {
        if self.searched.insert((object.dir, object.name)) {
            self.found.all.extend(self.wanted.bindings_in(object.entry));
            self.names.extend(self.wanted.members_in(object.entry).rev());
        }
    }
}
