//! The subcommands, and how they end.

use crate::words::{Known, Words};
use crate::{answers, convert, draw, judge, matrix, phase};

/// How the work ended, which is the exit status.
#[derive(Clone, Copy, Debug, PartialEq, Eq, PartialOrd, Ord)]
pub enum Status {
    Fine = 0,
    /// a block or an answer is not as it should be
    Found = 1,
    /// something could not be done
    Failed = 2,
}

impl Status {
    /// Fine, or else found.
    pub fn of(fine: bool) -> Self {
        if fine { Status::Fine } else { Status::Found }
    }
}

/// Why nothing came of a command.
pub enum Fault {
    /// the words are not as the command takes them
    Usage(String),
    Failed(String),
}

pub struct Command {
    pub name: &'static str,
    pub help: &'static str,
    pub options: &'static [Known],
    pub run: fn(&Words) -> Result<Status, Fault>,
}

pub const COMMANDS: [Command; 6] =
    [phase::COMMAND, judge::COMMAND, answers::COMMAND, convert::COMMAND, draw::COMMAND, matrix::COMMAND];
