//! A file that is written where none is, and what came of it.

use crate::{Outcome, read_regular};
use std::io::{ErrorKind, Write};
use std::path::Path;
use std::{fmt, fs};

/// What came of an answer or a block that was to be written.
#[derive(Debug, PartialEq, Eq)]
pub enum Made {
    Written,
    /// the same was there already
    There,
    /// another is there; it is kept
    Other {
        what: &'static str,
    },
    /// the block that it comes from is refused or cannot be read
    Not(Outcome),
    Unwritable {
        what: &'static str,
        why: String,
    },
}

impl Made {
    /// Whether what was to be written is there now.
    pub fn fine(&self) -> bool {
        matches!(self, Made::Written | Made::There)
    }
}

impl fmt::Display for Made {
    fn fmt(&self, f: &mut fmt::Formatter) -> fmt::Result {
        match self {
            Made::Written => write!(f, "written"),
            Made::There => write!(f, "there already"),
            Made::Other { what } => write!(f, "another {what} is there and is kept"),
            Made::Not(outcome) => write!(f, "{outcome}"),
            Made::Unwritable { what, why } => write!(f, "the {what} cannot be written: {why}"),
        }
    }
}

/// Writes an answer or a block. A file that is there is kept.
pub fn put(path: &Path, bytes: &[u8], what: &'static str) -> Made {
    let file = match fs::File::create_new(path) {
        Err(fault) if fault.kind() == ErrorKind::AlreadyExists => {
            let same = read_regular(path, bytes.len(), what).is_ok_and(|there| there == bytes);
            return if same { Made::There } else { Made::Other { what } };
        }
        file => file,
    };
    match file.and_then(|mut file| file.write_all(bytes).inspect_err(|_| drop(fs::remove_file(path)))) {
        Ok(()) => Made::Written,
        Err(fault) => Made::Unwritable { what, why: fault.to_string() },
    }
}
