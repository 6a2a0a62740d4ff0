//! velejume phase: the least cost of blocks, and how their reads are divided at it.

use crate::command::{Command, Fault, Status};
use crate::output::{at, print, say};
use crate::words::Words;
use corpus::{Outcome, Progress, put_answer, read_block};
use std::path::{Path, PathBuf};
use velejume::{Answer, Refusal};

pub const COMMAND: Command = Command {
    name: "phase",
    help: "\
usage: velejume phase [--all-het | --margins] [--answer] BLOCK..

Divides the reads of each fragment block at the least cost and prints five
lines: cost, flips, the side of each read, and the haplotypes of side 0 and
side 1. '-' is no letter: both cost the same. Of several blocks each has its
name before, as 'block NAME'. A block that is refused gets one line, 'refused
NUMBER at SECOND' and the reason.

  --all-het  for haplotypes that differ at every column: a column is written 0
             and 1 or 1 and 0, whichever costs less, and '-' in both where they
             cost the same
  --margins  also print how sure each letter is, in two lines more, margin1 and
             margin2: what the other letter would cost more at each column, 0
             where there is no letter
  --answer   also write the answer blocks: NAME.answer beside NAME.block; an
             answer that is there is kept

The exit status is 0 if every block is accepted; 1 if one is refused, or
another answer is there; 2 if a block cannot be read, an answer cannot be
written, or this usage is not kept.
",
    options: &[("--all-het", None), ("--margins", None), ("--answer", None)],
    run,
};

/// How many blocks are phased before they are printed.
const AT_ONCE: usize = 256;

/// What came of a block: what is printed of it, what is said of it on standard error, how well it ended.
struct Phased {
    printed: String,
    said: Option<String>,
    status: Status,
}

/// A call that phases: the answer, and what is printed of it.
type Phase = fn(&[u8]) -> Result<(Answer, String), Refusal>;

/// An answer that is printed as it is.
fn printed(answer: Answer) -> (Answer, String) {
    let lines = answer.to_string();
    (answer, lines)
}

/// The call that the options ask for.
fn call(words: &Words) -> Result<Phase, Fault> {
    match (words.has("--all-het"), words.has("--margins")) {
        (false, false) => Ok(|block| velejume::phase(block).map(printed)),
        (true, false) => Ok(|block| velejume::phase_heterozygous(block).map(printed)),
        (false, true) => Ok(|block| {
            let sure = velejume::phase_margins(block)?;
            let lines = sure.to_string();
            Ok((sure.answer, lines))
        }),
        (true, true) => Err(Fault::Usage("--margins does not go with --all-het".to_string())),
    }
}

fn phased(path: &Path, phase: Phase, answers: bool) -> Phased {
    let block = match read_block(path) {
        Ok(block) => block,
        Err(why) => {
            let said = Some(at(path, format!("cannot be read: {why}")));
            return Phased { printed: String::new(), said, status: Status::Failed };
        }
    };
    let (answer, printed) = match phase(&block) {
        Ok(answered) => answered,
        Err(refusal) => {
            let printed = format!("{}\n", Outcome::Refused(refusal));
            return Phased { printed, said: None, status: Status::Found };
        }
    };
    let made = answers.then(|| put_answer(path, &answer.block())).filter(|made| !made.fine());
    let status = match &made {
        None => Status::Fine,
        Some(corpus::Made::Other { .. }) => Status::Found,
        Some(_) => Status::Failed,
    };
    Phased { printed, said: made.map(|made| at(path, made)), status }
}

/// Prints what came of some blocks, with their names if there are several; says whether anyone still reads.
fn shown(paths: &[PathBuf], phased: &[Phased], named: bool) -> Result<bool, Fault> {
    let mut text = String::new();
    for (path, phased) in paths.iter().zip(phased) {
        if named && !phased.printed.is_empty() {
            text += &format!("block {}\n", corpus::shown(path.as_os_str()));
        }
        text += &phased.printed;
        phased.said.iter().for_each(|said| say(&format!("velejume phase: {said}")));
    }
    print(text.as_bytes())
}

fn run(words: &Words) -> Result<Status, Fault> {
    let (paths, answers, phase) = (words.rest(), words.has("--answer"), call(words)?);
    if paths.is_empty() {
        return Err(Fault::Usage("no block is given".to_string()));
    }
    let mut progress = Progress::new(paths.len());
    let mut status = Status::Fine;
    for some in paths.chunks(AT_ONCE) {
        let phased = corpus::each(some, &mut progress, |path, _| phased(path, phase, answers));
        status = phased.iter().map(|phased| phased.status).fold(status, Status::max);
        if !shown(some, &phased, paths.len() > 1)? && !answers {
            break;
        }
    }
    Ok(status)
}
