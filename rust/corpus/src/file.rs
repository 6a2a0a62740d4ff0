//! Files that are read: regular ones, and no more of them than a lawful one can have.

use std::fs::{self, File, FileType};
use std::io::{self, Read};
use std::os::unix::fs::FileTypeExt;
use std::path::Path;
use velejume::{BLOCK_BYTES, OUTPUT_BYTES};

/// What a file is that is no regular one.
fn other(kind: FileType) -> &'static str {
    match kind {
        kind if kind.is_dir() => "a folder",
        kind if kind.is_fifo() => "a pipe",
        kind if kind.is_socket() => "a socket",
        _ => "a device",
    }
}

/// The bytes of a regular file, at most so many, or why they cannot be had. What the file should be is said of one that has more.
pub fn read_regular(path: &Path, most: usize, what: &str) -> Result<Vec<u8>, String> {
    let said = |fault: io::Error| fault.to_string();
    // asked before the file is opened: to open a pipe is to wait for one who writes
    let kind = fs::metadata(path).map_err(said)?.file_type();
    if !kind.is_file() {
        return Err(format!("it is {}, no regular file", other(kind)));
    }
    let mut bytes = Vec::new();
    File::open(path).and_then(|file| file.take(most as u64 + 1).read_to_end(&mut bytes)).map_err(said)?;
    match bytes.len() > most {
        true => Err(format!("it has more than {most} bytes, which no {what} has")),
        false => Ok(bytes),
    }
}

/// The bytes of a fragment block.
pub fn read_block(path: &Path) -> Result<Vec<u8>, String> {
    read_regular(path, BLOCK_BYTES, "block")
}

/// The bytes of an answer block.
pub fn read_answer(path: &Path) -> Result<Vec<u8>, String> {
    read_regular(path, OUTPUT_BYTES, "answer")
}
