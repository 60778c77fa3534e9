//! Houses that write down what they are after each step, and lose their power inside one.

use std::borrow::Cow;
use std::collections::BTreeMap;

use crate::answers::write_answer;
use crate::cell::{Answer, Cell};
use crate::disk::{Journal, Leave, NotPut};
use crate::house::Refusal::{self, Because};
use crate::house::{Posted, Said};
use crate::script::{Command, Fault, Words, command, counts, house, number};
use crate::{Replay, Stop};

/// The commands inside which a house can lose its power.
const STOPPED: [&[u8]; 12] = [
    b"root", b"repoint", b"create", b"link", b"delete", b"add", b"remove", b"put", b"clear", b"epoch", b"skulk", b"deliver",
];

/// Where a house loses its power, in which call that writes of its disk, and what the disk has then.
struct Loss {
    house: u8,
    call: u8,
    leave: Leave,
}

enum Line<'a> {
    Command(Command<'a>),
    Image(u8),
    Stopped(Loss, Command<'a>),
}

fn call(word: &[u8]) -> Option<u8> {
    number(word).filter(|call| (1..=4).contains(call)).map(|call| call as u8)
}

fn leave(word: &[u8]) -> Option<Leave> {
    match word {
        b"keep" => Some(Leave::Keep),
        b"drop" => Some(Leave::Drop),
        b"torn" => Some(Leave::Torn),
        _ => None,
    }
}

fn line<'a>(w: &mut Words<'a>) -> Result<Line<'a>, Fault> {
    match w.behind(0) {
        b"image" => {
            w.counted_behind(0, (2, 2))?;
            w.pass();
            w.next(house).map(Line::Image)
        }
        b"stop" => stopped(w),
        _ => command(w).map(Line::Command),
    }
}

fn stopped<'a>(w: &mut Words<'a>) -> Result<Line<'a>, Fault> {
    w.counted_behind(0, (5, usize::MAX))?;
    let is_stopped = STOPPED.contains(&w.behind(4));
    if is_stopped {
        w.counted_behind(4, counts(w.behind(4))?)?;
    }
    w.pass();
    let loss = Loss { house: w.next(house)?, call: w.next(call)?, leave: w.next(leave)? };
    if !is_stopped {
        w.next(|_| None::<()>)?;
    }
    Ok(Line::Stopped(loss, command(w)?))
}

/// A journal, and the image that it was given last.
struct Kept {
    journal: Journal,
    image: Vec<u8>,
}

/// Why a line has no answer.
enum NotDone {
    Refused(Refusal),
    Full,
}

impl From<Refusal> for NotDone {
    fn from(refusal: Refusal) -> NotDone {
        NotDone::Refused(refusal)
    }
}

impl From<NotPut> for NotDone {
    fn from(_: NotPut) -> NotDone {
        NotDone::Full
    }
}

/// A cell whose houses keep journals.
#[derive(Default)]
pub struct Journals {
    cell: Cell,
    kept: BTreeMap<u8, Kept>,
}

impl Journals {
    /// What the journal of a house gives.
    fn image(&mut self, house: u8) -> Result<Vec<u8>, Refusal> {
        let kept = self.kept.get_mut(&house).ok_or(Because("NoHouse"))?;
        let image = kept.journal.open().ok().flatten().ok_or(Because("NoHouse"))?;
        Ok(image.to_vec())
    }

    /// Puts the new images of the houses that have another one than before.
    fn put_changed(&mut self) -> Result<(), NotPut> {
        for house in self.cell.take_changed() {
            let Ok(image) = self.cell.image(house) else {
                continue;
            };
            let kept = self.kept.entry(house).or_insert_with(|| Kept { journal: Journal::new(), image: Vec::new() });
            if *image != kept.image {
                kept.journal.put(&image)?;
                kept.image = image.into_owned();
            }
        }
        Ok(())
    }

    /// Does a command, and its house loses its power while it puts its new image; where it has no new one, the command is done.
    fn stop(&mut self, loss: &Loss, command: Command) -> Result<Answer<'_>, NotDone> {
        self.cell.made(&[loss.house])?;
        if self.cell.actor(&command)? != Some(loss.house) {
            return Err(Because("NotActing").into());
        }
        let before = self.cell.before(&command);
        let posted = self.cell.posted();
        let said = self.cell.step(command)?;
        let kept = self.kept.get_mut(&loss.house).ok_or(Because("NoHouse"))?;
        let image = self.cell.image(loss.house)?.into_owned();
        if image == kept.image {
            return Ok(Answer::Step(said, Posted(posted + 1..=self.cell.posted())));
        }
        let found = kept.journal.put_stopped(&image, loss.call, loss.leave)?.ok_or(Because("NoHouse"))?;
        let is_new = *found == image;
        kept.image = found.to_vec();
        if is_new {
            self.cell.lose_since(&before);
        } else {
            self.cell.go_back(before);
        }
        self.cell.lay_down(loss.house, kept.image.clone());
        Ok(Answer::Step(Said::Stopped(if is_new { "after" } else { "before" }), Posted(1..=0)))
    }

    /// Does what a line says.
    fn answer(&mut self, line: Line) -> Result<Answer<'_>, NotDone> {
        match line {
            Line::Image(house) => Ok(Answer::Octets(Cow::Owned(self.image(house)?))),
            Line::Stopped(loss, command) => self.stop(&loss, command),
            Line::Command(Command::Start(house)) => {
                if self.cell.is_down(house) {
                    let image = self.image(house)?;
                    self.cell.lay_down(house, image);
                }
                Ok(self.cell.answer(Command::Start(house))?)
            }
            Line::Command(command) => Ok(self.cell.answer(command)?),
        }
    }
}

impl Replay for Journals {
    fn answer_line(&mut self, text: &mut Vec<u8>, number: u32, mut words: Words) -> Result<(), Stop> {
        let (line, begin) = (line(&mut words)?, text.len());
        match self.answer(line) {
            Ok(answer) => write_answer(text, number, Ok(answer))?,
            Err(NotDone::Refused(refusal)) => write_answer(text, number, Err(refusal))?,
            Err(NotDone::Full) => return Err(Stop::JournalFull),
        }
        self.put_changed().map_err(|_| {
            text.truncate(begin);
            Stop::JournalFull
        })
    }
}
