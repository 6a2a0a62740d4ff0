//! velejume convert: blocks of version 1 into blocks of version 2, without their reads without cells.

use crate::command::{Command, Fault, Status};
use crate::output::{at, print, say};
use crate::words::Words;
use crate::{folder, input};
use corpus::{Made, Outcome};
use std::collections::BTreeSet;
use std::fs;
use std::path::{Path, PathBuf};
use velejume::BLOCK_BYTES;

pub const COMMAND: Command = Command {
    name: "convert",
    help: "\
usage: velejume convert [BLOCK]
       velejume convert BLOCK.. --to FOLDER
       velejume convert FOLDER --to FOLDER

Converts fragment blocks of version 1 into blocks of version 2 without their
reads without cells, which version 2 does not have. The other reads keep their
order, letters and weights, and so their sides, both haplotypes and the cost;
their numbers close up. Without --to, one block from a file or from standard
input to standard output.

  --to FOLDER  write each block, of a folder each NAME.block, under its own name
               into this folder, which is made if it is not there; a file that
               is there is kept. Prints a line for each block that is not
               converted then, how many are, and how many reads were left out

Answers are not converted: where reads are left out, an answer has sides that
the new block has no reads for. 'velejume answers FOLDER' writes new ones.

The exit status is 0 if every block is converted; 1 if one is refused, one of a
folder cannot be read, or another file is there; 2 if a block or a folder that
is named here cannot be read, something cannot be written, or this usage is not
kept.
",
    options: &[("--to", Some("a folder"))],
    run,
};

/// Converts one block to standard output.
fn convert_one(paths: &[PathBuf]) -> Result<Status, Fault> {
    if paths.len() > 1 || paths.iter().any(|path| path.is_dir()) {
        return Err(Fault::Usage("several blocks, or a folder, go with --to".to_string()));
    }
    let (name, block) = input::one(paths, BLOCK_BYTES, "block")?;
    match velejume::convert(&block) {
        Ok(wide) => print(&wide).map(|_| Status::Fine),
        Err(refusal) => {
            say(&format!("velejume convert: {}", at(&name, Outcome::Refused(refusal))));
            Ok(Status::Found)
        }
    }
}

/// The blocks of a folder.
fn blocks_of(folder: &Path) -> Result<Vec<PathBuf>, Fault> {
    let blocks: Vec<PathBuf> = folder::items(folder)?.into_iter().filter_map(|item| item.block).collect();
    match blocks.is_empty() {
        true => Err(Fault::Failed(at(folder, "holds no NAME.block"))),
        false => Ok(blocks),
    }
}

/// The first block that has the name of one before it.
fn twice(blocks: &[PathBuf]) -> Option<&PathBuf> {
    let mut names = BTreeSet::new();
    blocks.iter().find(|block| !names.insert(block.file_name()))
}

/// All blocks that are named, themselves or by their folder. No two may have one name: they are written into one folder.
fn all_blocks(paths: &[PathBuf]) -> Result<Vec<PathBuf>, Fault> {
    let mut blocks = Vec::new();
    for path in paths {
        blocks.extend(if path.is_dir() { blocks_of(path)? } else { vec![path.clone()] });
    }
    match twice(&blocks) {
        Some(block) => Err(Fault::Usage(at(block, "another block of this name is given"))),
        None if blocks.is_empty() => Err(Fault::Usage("no block is given".to_string())),
        None => Ok(blocks),
    }
}

/// How well a block ended that was named itself or by its folder.
fn status(made: &Made, named: bool) -> Status {
    match made {
        Made::Written | Made::There => Status::Fine,
        Made::Unwritable { .. } => Status::Failed,
        Made::Not(Outcome::Unreadable(_)) if named => Status::Failed,
        _ => Status::Found,
    }
}

/// Converts blocks into a folder.
fn convert_all(paths: &[PathBuf], to: &Path) -> Result<Status, Fault> {
    let blocks = all_blocks(paths)?;
    fs::create_dir_all(to).map_err(|fault| Fault::Failed(at(to, format!("cannot be made: {fault}"))))?;
    let converted = corpus::convert(&blocks, to);
    let (mut lines, mut worst) = (String::new(), Status::Fine);
    for (block, converted) in blocks.iter().zip(&converted) {
        let status = status(&converted.made, paths.contains(block));
        match status {
            Status::Fine => (),
            Status::Found => lines += &format!("{}\n", at(block, &converted.made)),
            Status::Failed => say(&format!("velejume convert: {}", at(block, &converted.made))),
        }
        worst = worst.max(status);
    }
    let count = |which: Made| converted.iter().filter(|converted| converted.made == which).count();
    let (written, there) = (count(Made::Written), count(Made::There));
    let left_out: usize = converted.iter().map(|converted| converted.left_out).sum();
    let not = converted.len() - written - there;
    lines += &format!("{written} written, {there} there already, {not} not converted; ");
    lines += &format!("{left_out} reads without cells left out\n");
    print(lines.as_bytes())?;
    Ok(worst)
}

fn run(words: &Words) -> Result<Status, Fault> {
    match words.path("--to") {
        Some(to) => convert_all(&words.rest(), &to),
        None => convert_one(&words.rest()),
    }
}
