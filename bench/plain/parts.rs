//! The modules that each plain program has, though none needs all of them, and what a program that replays scripts answers line by line.
#![allow(dead_code)]

pub mod answers;
pub mod cell;
pub mod house;
pub mod inquiries;
pub mod names;
pub mod records;
pub mod rpc;
pub mod script;
pub mod service;
pub mod tables;

use std::io;

use script::{Fault, Words};

/// Why a line of a script is not answered.
pub enum Stop {
    Faulty(Fault),
    JournalFull,
    Failed(io::Error),
}

impl From<Fault> for Stop {
    fn from(fault: Fault) -> Stop {
        Stop::Faulty(fault)
    }
}

impl From<io::Error> for Stop {
    fn from(error: io::Error) -> Stop {
        Stop::Failed(error)
    }
}

/// What answers a script line by line.
pub trait Replay {
    /// Adds the answer to the words of a line.
    fn answer_line(&mut self, text: &mut Vec<u8>, number: u32, words: Words) -> Result<(), Stop>;
}
