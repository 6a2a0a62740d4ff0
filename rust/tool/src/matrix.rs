//! velejume matrix: the notation to a block and back.

use crate::command::{Command, Fault, Status};
use crate::input;
use crate::output::{at, print, say};
use crate::words::Words;
use matrix::Matrix;
use velejume::BLOCK_BYTES;

pub const COMMAND: Command = Command {
    name: "matrix",
    help: "\
usage: velejume matrix --block [--columns M] [--version V] [TEXT]
       velejume matrix --text [BLOCK]

Turns a matrix as text into a fragment block, or a fragment block into text,
from a file or from standard input to standard output. A text has a row for each
read, with '/' or a newline between. 0:5 is letter 0 of weight 5, '.' a hole or
no cell; a row of dots alone is a read without cells.

  --block      from a text to a block
  --columns M  the number of columns, where no row reaches the last
  --version V  version of the block: 1 for weights up to 255, 2 for weights up
               to 65535; without it the least that holds the weights. Version 2
               has no reads without cells: a row of dots alone is an error there
  --text       from a block to a text, a line for each read

The exit status is 0 if it is written; 1 if the text is no matrix or the block
is refused; 2 if the file cannot be read or this usage is not kept.
",
    options: &[("--block", None), ("--text", None), ("--columns", Some("a number")), ("--version", Some("1 or 2"))],
    run,
};

/// How long a text may be: 16 characters for each of 1,024 entries of 1,024 rows.
const TEXT_BYTES: usize = 16 * 1024 * 1024;

/// The block of a text, in the version that is given or needed, or what is wrong with it.
fn block(text: Vec<u8>, columns: Option<usize>, version: Option<u8>) -> Result<Vec<u8>, String> {
    let text = String::from_utf8(text).map_err(|_| "it is no text".to_string())?;
    let in_version = |matrix: Matrix| match version {
        Some(version) => matrix.in_version(version),
        None => Ok(matrix),
    };
    let matrix = matrix::parse(&text, columns).and_then(in_version);
    matrix.map(|matrix| matrix.block()).map_err(|fault| fault.to_string())
}

/// The text of a block, or its refusal.
fn text(block: Vec<u8>) -> Result<Vec<u8>, String> {
    let refused = |(number, second)| format!("refused {number} at {second}");
    Matrix::read(&block).map(|matrix| matrix.to_string().into_bytes()).map_err(refused)
}

fn run(words: &Words) -> Result<Status, Fault> {
    let columns = words.number("--columns", 1..=1024).map_err(Fault::Usage)?;
    let version = words.block_version().map_err(Fault::Usage)?;
    let of_block = ["--columns", "--version"].into_iter().find(|option| words.has(option));
    let to_block = match (words.has("--block"), words.has("--text"), of_block) {
        (true, false, _) => true,
        (false, true, None) => false,
        (false, true, Some(option)) => return Err(Fault::Usage(format!("{option} goes with --block"))),
        _ => return Err(Fault::Usage("either --block or --text".to_string())),
    };
    let (most, what) = if to_block { (TEXT_BYTES, "text") } else { (BLOCK_BYTES, "block") };
    let (name, bytes) = input::one(&words.rest(), most, what)?;
    match if to_block { block(bytes, columns, version) } else { text(bytes) } {
        Ok(output) => print(&output).map(|_| Status::Fine),
        Err(fault) => {
            say(&format!("velejume matrix: {}", at(&name, fault)));
            Ok(Status::Found)
        }
    }
}
