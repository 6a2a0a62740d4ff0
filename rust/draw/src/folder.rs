//! A corpus, written into a folder.

use crate::drawn::Block;
use crate::{Answers, Drawn, Plan};
use corpus::Progress;
use std::path::Path;
use std::{fs, io};

/// The file that says what each block is like.
pub const MANIFEST: &str = "manifest.tsv";

/// A fault with the name of the file that it is about.
fn at(path: &Path, fault: io::Error) -> String {
    format!("{}: {fault}", corpus::shown(path.as_os_str()))
}

fn write(path: &Path, bytes: &[u8]) -> Result<(), String> {
    fs::write(path, bytes).map_err(|fault| at(path, fault))
}

/// Makes the folder, or finds it empty.
fn make(folder: &Path) -> Result<(), String> {
    fs::create_dir_all(folder).map_err(|fault| at(folder, fault))?;
    match fs::read_dir(folder).map_err(|fault| at(folder, fault))?.next() {
        Some(_) => Err(format!("{}: the folder is not empty", corpus::shown(folder.as_os_str()))),
        None => Ok(()),
    }
}

/// Draws a block and writes it, with an answer if one is asked for.
fn written(
    plan: &Plan,
    number: usize,
    folder: &Path,
    answers: Option<Answers>,
    work: &mut [u32],
) -> Result<Drawn, String> {
    let block = Block::new(plan, number, work);
    let path = folder.join(format!("{}.block", block.drawn.name));
    write(&path, &block.bytes)?;
    if let Some(answers) = answers {
        write(&path.with_extension("answer"), block.answer(answers))?;
    }
    Ok(block.drawn)
}

/// Draws a corpus into a new or an empty folder, on all cores. The manifest, which starts with a line that says how it came
/// about, is written last.
pub fn draw(plan: &Plan, folder: &Path, answers: Option<Answers>, origin: &str) -> Result<Vec<Drawn>, String> {
    make(folder)?;
    let numbers: Vec<usize> = (0..plan.count).collect();
    let mut progress = Progress::new(plan.count);
    let drawn = corpus::each(&numbers, &mut progress, |&number, work| written(plan, number, folder, answers, work));
    let drawn = drawn.into_iter().collect::<Result<Vec<Drawn>, String>>()?;
    let lines: String = drawn.iter().map(Drawn::line).collect();
    write(&folder.join(MANIFEST), format!("# {origin}\n{}{lines}", Drawn::HEAD).as_bytes())?;
    Ok(drawn)
}
