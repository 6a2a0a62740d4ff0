//! What is written to standard output and to standard error.

use crate::Fault;
use std::io::{ErrorKind, Write, stderr, stdout};
use std::path::Path;

/// Writes to standard output; says whether anyone still reads it. That nobody does is no fault.
pub fn print(bytes: &[u8]) -> Result<bool, Fault> {
    let mut out = stdout().lock();
    match out.write_all(bytes).and_then(|()| out.flush()) {
        Ok(()) => Ok(true),
        Err(fault) if fault.kind() == ErrorKind::BrokenPipe => Ok(false),
        Err(fault) => Err(Fault::Failed(format!("standard output: {fault}"))),
    }
}

/// Writes a line to standard error, if it can be written.
pub fn say(line: &str) {
    let _ = writeln!(stderr(), "{line}");
}

/// A fault with the name of the file that it is about.
pub fn at(path: &Path, fault: impl std::fmt::Display) -> String {
    format!("{}: {fault}", corpus::shown(path.as_os_str()))
}
