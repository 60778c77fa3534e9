//! A clearinghouse: what it holds of directories, the updates and skulks that it does as a master, and the messages that it takes.

use std::collections::BTreeMap;
use std::ops::RangeInclusive;

use crate::records::{self, begin_message, put_delta, put_entry, put_marks, put_members, put_replica, put_stamp};
use crate::records::{Body, Member, Message, Role, Sender, Tag};
use crate::tables::{Change, Entry, Kind, LINK_TARGET, Marks, Pointer, REPLICAS, Replica, Stamp};

/// The numbers of the messages that a command posted.
pub struct Posted(pub RangeInclusive<u64>);

/// Why a command is refused.
pub enum Refusal {
    Because(&'static str),
    At(&'static str, u64),
    NotJoined(u64, u64),
    /// No stamp was left behind so many updates, which stay and posted these messages.
    Spent(usize, Posted),
}

use Refusal::Because;

/// What comes of a command.
pub enum Said {
    Done,
    Stamped(Stamp),
    Made(u32, Stamp),
    Epoch(u64),
    Updates(usize),
    Taken,
    Late(u64, u64),
    Early(u64, u64),
    Stale(Stamp, Option<Stamp>),
    NoReplica,
    /// The sender or this house is no member, so it is a message of no cell.
    Foreign,
    Complete(Stamp),
    /// The house lost its power, before the step or after it.
    Stopped(&'static str),
}

/// A message as octets, and the houses that it goes to.
pub struct Letters {
    pub to: Vec<u8>,
    pub octets: Vec<u8>,
}

/// The members of an epoch.
#[derive(Clone)]
pub struct Term {
    pub epoch: u64,
    pub members: Vec<Member>,
}

impl Term {
    pub fn place(&self, house: u8) -> Option<usize> {
        self.members.iter().position(|member| member.house == house)
    }

    pub fn master(&self) -> Option<u8> {
        self.members.iter().find(|member| member.role == Role::Master).map(|member| member.house)
    }

    fn role(&self, house: u8) -> Option<Role> {
        Some(self.members[self.place(house)?].role)
    }

    /// The members but this house.
    pub fn others(&self, house: u8) -> Vec<u8> {
        self.members.iter().map(|member| member.house).filter(|other| *other != house).collect()
    }

    /// A message of this epoch to these houses, if there are any.
    fn tell(&self, to: Vec<u8>, tag: Tag, sender: Sender, put: impl FnOnce(&mut Vec<u8>)) -> Option<Letters> {
        if to.is_empty() {
            return None;
        }
        let mut octets = begin_message(tag, sender, self.epoch);
        put(&mut octets);
        Some(Letters { to, octets })
    }

    fn tell_others(&self, tag: Tag, sender: Sender, put: impl FnOnce(&mut Vec<u8>)) -> Option<Letters> {
        self.tell(self.others(sender.house), tag, sender, put)
    }
}

/// A skulk that runs, with a bit for each member that has answered in its round.
pub struct Skulk {
    pub stamp: Stamp,
    pub spreads: bool,
    pub answered: u64,
}

pub struct Held {
    pub term: Term,
    pub replica: Replica,
    pub skulk: Option<Skulk>,
}

pub enum Slot {
    Held(Held),
    /// The epoch in which the house left the directory.
    Gone(u64),
}

pub struct Clearinghouse {
    pub number: u8,
    pub node: u64,
    pub floor: u64,
    pub dirs: BTreeMap<u32, Slot>,
}

/// An update of an entry.
pub enum Update<'a> {
    /// A new entry; a link or a child with the value that says where it leads.
    New(Kind, Option<Vec<u8>>),
    Delete,
    Change(Change<'a>),
    /// Other houses of a child, the master first.
    Repoint(Vec<u8>),
}

impl<'a> Update<'a> {
    /// What it does to this entry.
    fn marks(self, entry: &Entry) -> Result<Marks<'a>, Refusal> {
        match self {
            Update::New(..) => Err(Because("EntryExists")),
            Update::Delete if entry.kind != Kind::Child => Ok(Marks::Death),
            Update::Change(change) if ![LINK_TARGET, REPLICAS].contains(&change.attribute) => Ok(Marks::Change(change)),
            Update::Repoint(houses) if entry.kind == Kind::Child => {
                let dir = entry.lead().and_then(Pointer::read).map_or(0, |pointer| pointer.dir);
                let value = Pointer { dir, houses: houses.into() }.octets();
                Ok(Marks::Change(Change { attribute: REPLICAS, clears: true, value: Some((value, true)) }))
            }
            _ => Err(Because("WrongKind")),
        }
    }
}

/// A house that issues stamps: its number, node and clock.
#[derive(Clone, Copy)]
struct Issuer {
    house: u8,
    node: u64,
    clock: u64,
}

impl Issuer {
    fn issue(self, floor: &mut u64) -> Result<Stamp, Refusal> {
        let next = floor.checked_add(1).ok_or(Because("StampsSpent"))?;
        *floor = self.clock.max(next);
        Ok(Stamp { time: *floor, node: self.node })
    }
}

impl Held {
    pub fn new(epoch: u64, members: Vec<Member>, replica: Replica) -> Held {
        Held { term: Term { epoch, members }, replica, skulk: None }
    }

    fn accept(
        &mut self,
        by: Issuer,
        floor: &mut u64,
        dir: u32,
        name: &[u8],
        update: Update,
    ) -> Result<(Stamp, Option<Letters>), Refusal> {
        match (update, self.replica.live_mut(name)) {
            (Update::New(kind, lead), None) => {
                let stamp = by.issue(floor)?;
                let entry = Entry::born(kind, stamp, lead);
                let sender = Sender { house: by.house, dir, floor: *floor };
                let letters = self.term.tell_others(Tag::Update, sender, |out| put_entry(out, name, &entry));
                self.replica.insert(name, entry);
                Ok((stamp, letters))
            }
            (_, None) => Err(Because("NoSuchEntry")),
            (update, Some(live)) => {
                let marks = update.marks(live.entry)?;
                let stamp = by.issue(floor)?;
                let sender = Sender { house: by.house, dir, floor: *floor };
                let letters = self.term.tell_others(Tag::Update, sender, |out| put_marks(out, name, live.entry, &marks, stamp));
                live.apply(name, marks, stamp);
                Ok((stamp, letters))
            }
        }
    }

    fn begin_skulk(&mut self, by: Issuer, floor: &mut u64, dir: u32) -> Result<(Said, Option<Letters>), Refusal> {
        let stamp = by.issue(floor)?;
        if self.term.members.len() == 1 {
            self.skulk = None;
            self.replica.advance(stamp);
            return Ok((Said::Complete(stamp), None));
        }
        self.skulk = Some(Skulk { stamp, spreads: false, answered: self.bit(by.house) });
        let sender = Sender { house: by.house, dir, floor: *floor };
        Ok((Said::Stamped(stamp), self.term.tell_others(Tag::Gather, sender, |out| put_stamp(out, stamp))))
    }

    /// The bit of a member.
    fn bit(&self, house: u8) -> u64 {
        self.term.place(house).map_or(0, |place| 1 << place)
    }

    /// Counts an answer in a round of the skulk; whether it was the last one missing.
    fn counts(&mut self, from: u8, spreads: bool) -> bool {
        let bit = self.bit(from);
        let all = u64::MAX >> (64 - self.term.members.len());
        match &mut self.skulk {
            Some(skulk) if skulk.spreads == spreads => {
                skulk.answered |= bit;
                skulk.answered == all
            }
            _ => false,
        }
    }

    /// Why a message is not taken, which is neither Join nor Leave: it is of another epoch, of no member, or of another skulk.
    fn bars(&self, message: &Message) -> Option<Said> {
        let epoch = self.term.epoch;
        if message.epoch < epoch {
            return Some(Said::Late(message.epoch, epoch));
        }
        if epoch < message.epoch {
            return Some(Said::Early(message.epoch, epoch));
        }
        if self.term.place(message.from).is_none() {
            return Some(Said::Foreign);
        }
        match message.body {
            Body::Gathered(stamp, _) | Body::SpreadAck(stamp) => {
                let running = self.skulk.as_ref().map(|skulk| skulk.stamp);
                if running == Some(stamp) { None } else { Some(Said::Stale(stamp, running)) }
            }
            _ => None,
        }
    }

    /// Takes a message that nothing bars.
    fn take(&mut self, me: Sender, from: u8, body: Body) -> (Said, Option<Letters>) {
        let letters = match body {
            Body::Update(name, entry) => {
                self.replica.join_entry(name, entry);
                None
            }
            Body::Gather(stamp) => self.term.tell(vec![from], Tag::Gathered, me, |out| {
                put_stamp(out, stamp);
                put_delta(out, &self.replica.delta());
            }),
            Body::Gathered(stamp, delta) => {
                self.replica.take_delta(delta);
                if self.counts(from, false) {
                    self.skulk = Some(Skulk { stamp, spreads: true, answered: self.bit(me.house) });
                    self.term.tell_others(Tag::Spread, me, |out| {
                        put_stamp(out, stamp);
                        put_delta(out, &self.replica.delta());
                    })
                } else {
                    None
                }
            }
            Body::Spread(stamp, delta) => {
                self.replica.take_delta(delta);
                self.term.tell(vec![from], Tag::SpreadAck, me, |out| put_stamp(out, stamp))
            }
            Body::SpreadAck(stamp) => {
                if self.counts(from, true) {
                    self.skulk = None;
                    self.replica.advance(stamp);
                    let letters = self.term.tell_others(Tag::Advance, me, |out| put_stamp(out, stamp));
                    return (Said::Complete(stamp), letters);
                }
                None
            }
            Body::Advance(stamp) => {
                self.replica.advance(stamp);
                None
            }
            Body::Join(..) | Body::Leave => None,
        };
        (Said::Taken, letters)
    }
}

impl Clearinghouse {
    pub fn new(number: u8, node: u64) -> Clearinghouse {
        Clearinghouse { number, node, floor: 0, dirs: BTreeMap::new() }
    }

    pub fn image(&self) -> Vec<u8> {
        records::image(self)
    }

    fn sender(&self, dir: u32) -> Sender {
        Sender { house: self.number, dir, floor: self.floor }
    }

    pub fn held(&self, dir: u32) -> Option<&Held> {
        match self.dirs.get(&dir) {
            Some(Slot::Held(held)) => Some(held),
            _ => None,
        }
    }

    /// A new directory, of which it is the master.
    pub fn found(&mut self, dir: u32, term: Term) -> Option<Letters> {
        self.dirs.insert(dir, Slot::Held(Held { term, replica: Replica::default(), skulk: None }));
        self.tell_join(dir)
    }

    fn tell_join(&self, dir: u32) -> Option<Letters> {
        let held = self.held(dir)?;
        held.term.tell_others(Tag::Join, self.sender(dir), |out| {
            put_members(out, &held.term.members);
            put_replica(out, &held.replica);
        })
    }

    /// What it holds as a member that may do this, who issues its stamps, and its floor.
    fn issuing(&mut self, clock: u64, dir: u32, may: fn(Role) -> bool) -> Result<(&mut Held, Issuer, &mut u64), Refusal> {
        let by = Issuer { house: self.number, node: self.node, clock };
        match self.dirs.get_mut(&dir) {
            Some(Slot::Held(held)) if held.term.role(self.number).is_some_and(may) => Ok((held, by, &mut self.floor)),
            Some(Slot::Held(_)) => Err(Because("NotMaster")),
            _ => Err(Because("NoReplica")),
        }
    }

    pub fn accept(
        &mut self,
        clock: u64,
        dir: u32,
        name: &[u8],
        update: Update,
    ) -> Result<(Stamp, Option<Letters>), Refusal> {
        let (held, by, floor) = self.issuing(clock, dir, |role| role != Role::ReadOnly)?;
        held.accept(by, floor, dir, name, update)
    }

    pub fn begin_skulk(&mut self, clock: u64, dir: u32) -> Result<(Said, Option<Letters>), Refusal> {
        let (held, by, floor) = self.issuing(clock, dir, |role| role == Role::Master)?;
        held.begin_skulk(by, floor, dir)
    }

    /// Enters a new epoch as its master; the other members are told, and then the houses that left.
    pub fn enter(&mut self, dir: u32, term: Term, left: Vec<u8>) -> Result<[Option<Letters>; 2], Refusal> {
        let since = term.place(self.number).map_or(0, |place| term.members[place].since);
        let Some(Slot::Held(held)) = self.dirs.get_mut(&dir) else {
            return Err(Because("NoReplica"));
        };
        if held.term.epoch < since {
            return Err(Refusal::NotJoined(held.term.epoch, since));
        }
        let leave = term.tell(left, Tag::Leave, Sender { house: self.number, dir, floor: self.floor }, |_| ());
        held.term = term;
        held.skulk = None;
        Ok([self.tell_join(dir), leave])
    }

    pub fn take(&mut self, message: Message) -> (Said, Option<Letters>) {
        if let Some(said) = self.bars(&message) {
            return (said, None);
        }
        self.floor = self.floor.max(message.latest);
        let me = self.sender(message.dir);
        match (message.body, self.dirs.get_mut(&message.dir)) {
            (Body::Join(members, replica), _) => {
                self.take_join(message.dir, Term { epoch: message.epoch, members }, replica)
            }
            (Body::Leave, _) => {
                self.dirs.insert(message.dir, Slot::Gone(message.epoch));
            }
            (body, Some(Slot::Held(held))) => return held.take(me, message.from, body),
            _ => {}
        }
        (Said::Taken, None)
    }

    /// Why a message is not taken.
    fn bars(&self, message: &Message) -> Option<Said> {
        let late = |epoch: u64| Some(Said::Late(message.epoch, epoch));
        match (&message.body, self.dirs.get(&message.dir)) {
            (Body::Join(..), Some(Slot::Held(held))) if message.epoch < held.term.epoch => late(held.term.epoch),
            (Body::Leave, Some(Slot::Held(held))) if message.epoch <= held.term.epoch => late(held.term.epoch),
            (Body::Join(..) | Body::Leave, Some(Slot::Gone(epoch))) if message.epoch <= *epoch => late(*epoch),
            (Body::Join(members, _), _) => {
                let is_listed = |house| members.iter().any(|member| member.house == house);
                if is_listed(self.number) && is_listed(message.from) { None } else { Some(Said::Foreign) }
            }
            (Body::Leave, _) => None,
            (_, Some(Slot::Held(held))) => held.bars(message),
            _ => Some(Said::NoReplica),
        }
    }

    /// Joins a copy in where it holds the directory in its present term; else the copy takes the place of what it held.
    fn take_join(&mut self, dir: u32, term: Term, replica: Replica) {
        let since = term.place(self.number).map_or(0, |place| term.members[place].since);
        match self.dirs.get_mut(&dir) {
            Some(Slot::Held(held)) if since <= held.term.epoch => {
                held.replica.join(replica);
                held.term = term;
                held.skulk = None;
            }
            _ => {
                self.dirs.insert(dir, Slot::Held(Held { term, replica, skulk: None }));
            }
        }
    }
}
