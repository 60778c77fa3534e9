//! The form `load`: a cell that replays a script of so many rounds, and what is told of it.

use std::io::{self, Write};

use crate::Ending;
use crate::cell::{Answer, Cell};
use crate::house::{Said, Update};
use crate::script::{Command, Listed};
use crate::tables::{Change, Entry, Kind};

const ENTRIES: [&[u8]; 16] = [
    b"e0", b"e1", b"e2", b"e3", b"e4", b"e5", b"e6", b"e7", b"e8", b"e9", b"e10", b"e11", b"e12", b"e13", b"e14", b"e15",
];
const MASTER: u8 = 1;
const ROOT: u32 = 1;

#[derive(Default)]
struct Loader {
    cell: Cell,
    commands: u32,
    accepted: u32,
    complete: u32,
    /// How many messages were posted that are lost.
    lost: u64,
}

impl Loader {
    fn step(&mut self, command: Command) {
        self.commands += 1;
        let is_update = matches!(command, Command::Update(..));
        let is_delivery = matches!(command, Command::Deliver(_));
        match self.cell.answer(command) {
            Ok(Answer::Step(Said::Complete(_), _)) if is_delivery => self.complete += 1,
            Ok(_) if is_update => self.accepted += 1,
            _ => {}
        }
    }

    fn update(&mut self, entry: usize, update: Update) {
        self.step(Command::Update(MASTER, ROOT, ENTRIES[entry], update));
    }

    fn create(&mut self, entry: usize) {
        self.update(entry, Update::New(Kind::Object, None));
    }

    /// Each so manyth of the next messages is delivered, and then all of them are lost.
    fn fates(&mut self, messages: u64, step: Option<usize>) {
        let serials = self.lost + 1..=self.lost + messages;
        if let Some(step) = step {
            serials.clone().step_by(step).for_each(|serial| self.step(Command::Deliver(serial)));
        }
        serials.for_each(|serial| self.step(Command::Lose(serial)));
        self.lost += messages;
    }

    fn open(&mut self) {
        for house in 1..=3 {
            self.step(Command::House(house, u64::from(house)));
        }
        self.step(Command::Root(Listed { houses: vec![1, 2, 3], secondary: vec![] }));
        self.fates(2, Some(1));
        for entry in 0..ENTRIES.len() {
            self.create(entry);
            self.fates(2, None);
        }
    }

    fn round(&mut self, x: u64) {
        let y = x / 256;
        let (entry, value, change, told) = ((y % 16) as usize, (y / 16 % 256) as u8, y / 4096 % 8, y / 32_768 % 2 == 1);
        if change == 7 {
            self.update(entry, Update::Delete);
            self.create(entry);
            self.fates(4, told.then_some(2));
        } else {
            let value = Some((vec![value], change < 5));
            self.update(entry, Update::Change(Change { attribute: b"A", clears: false, value }));
            self.fates(2, told.then_some(2));
        }
    }

    fn skulk(&mut self) {
        self.step(Command::Skulk(MASTER, ROOT));
        self.fates(10, Some(1));
    }

    /// The live entries of the first house, and the values that they show.
    fn shown(&self) -> (usize, usize) {
        let Some(held) = self.cell.held(ROOT, MASTER) else {
            return (0, 0);
        };
        let live = held.replica.entries().values().filter(|entry| entry.is_live());
        let values = |entry: &Entry| entry.attributes.values().map(|attribute| attribute.values().count()).sum::<usize>();
        live.fold((0, 0), |(entries, count), entry| (entries + 1, count + values(entry)))
    }
}

pub fn load(rounds: u32, mut sink: impl Write) -> io::Result<Ending> {
    let mut loader = Loader::default();
    loader.open();
    let mut x = u64::from(rounds);
    for round in 1..=rounds {
        x = (x * 1_103_515_245 + 12_345) % 2_147_483_648;
        loader.round(x);
        if round % 32 == 0 || round == rounds {
            loader.skulk();
        }
    }
    let Loader { commands, accepted, complete, .. } = loader;
    let (live, values) = loader.shown();
    writeln!(sink, "load {rounds} commands {commands} accepted {accepted} complete {complete} live {live} values {values}")?;
    sink.flush()?;
    Ok(Ending::Whole)
}
