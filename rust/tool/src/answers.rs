//! velejume answers: our answers for a folder of blocks.

use crate::command::{Command, Fault, Status};
use crate::folder;
use crate::output::{at, print};
use crate::words::Words;
use corpus::Made;

pub const COMMAND: Command = Command {
    name: "answers",
    help: "\
usage: velejume answers FOLDER [--all-het]

Writes our answers for a folder of fragment blocks: NAME.answer for each
NAME.block. An answer that is there is kept. Prints a line for each block that
has not our answer now, and how many have.

  --all-het  answers for haplotypes that differ at every column, as those of
             'velejume phase --all-het'; 'velejume judge' takes ours to be the
             ones without it

The exit status is 0 if every block has our answer; 1 if one is refused or
cannot be read, has another answer, or its answer cannot be written; 2 if the
folder cannot be read or holds no block, or this usage is not kept.
",
    options: &[("--all-het", None)],
    run,
};

fn run(words: &Words) -> Result<Status, Fault> {
    let [folder] = &words.rest()[..] else {
        return Err(Fault::Usage("one folder".to_string()));
    };
    let phase = if words.has("--all-het") { velejume::phase_heterozygous_in } else { velejume::phase_in };
    let made = corpus::answers(&folder::items(folder)?, phase);
    if made.is_empty() {
        return Err(Fault::Failed(at(folder, "holds no NAME.block")));
    }
    let count = |which: Made| made.iter().filter(|(_, made)| *made == which).count();
    let (written, there) = (count(Made::Written), count(Made::There));
    let others = made.iter().filter(|(_, made)| !made.fine());
    let lines: String = others.map(|(name, made)| format!("{name}: {made}\n")).collect();
    let without = made.len() - written - there;
    print(format!("{lines}{written} written, {there} there already, {without} not ours\n").as_bytes())?;
    Ok(Status::of(without == 0))
}
