//! Writing our answers to all blocks of a folder.

use crate::{Item, Made, Outcome, Progress, cores, put, read_block};
use std::path::Path;
use velejume::{Numbers, OUTPUT_BYTES, Refusal};

/// The proved call of a mode: [`velejume::phase_in`] or [`velejume::phase_heterozygous_in`].
pub type Phase = fn(&[u8], &mut [u32], &mut [u8]) -> Numbers;

/// Our answer to a block.
fn answer(phase: Phase, block: &[u8], work: &mut [u32]) -> Result<Vec<u8>, Refusal> {
    let mut out = vec![0; OUTPUT_BYTES];
    phase(block, work, &mut out).cost()?;
    let rest = u32::from_be_bytes([out[1], out[2], out[3], out[4]]);
    out.truncate(5 + rest as usize);
    Ok(out)
}

/// Writes an answer beside its block, `NAME.answer`. One that is there is kept.
pub fn put_answer(block: &Path, answer: &[u8]) -> Made {
    put(&block.with_extension("answer"), answer, "answer")
}

fn made(phase: Phase, path: &Path, work: &mut [u32]) -> Made {
    match read_block(path).map(|block| answer(phase, &block, work)) {
        Ok(Ok(answer)) => put_answer(path, &answer),
        Ok(Err(refusal)) => Made::Not(Outcome::Refused(refusal)),
        Err(why) => Made::Not(Outcome::unreadable("block", why)),
    }
}

/// Writes our answer to each block that has none, on all cores; gives the name of each block and what came of it.
pub fn answers(items: &[Item], phase: Phase) -> Vec<(String, Made)> {
    let blocks: Vec<(&str, &Path)> =
        items.iter().filter_map(|item| Some((item.name.as_str(), item.block.as_deref()?))).collect();
    let mut progress = Progress::new(blocks.len());
    cores::each(&blocks, &mut progress, |(name, block), work| (name.to_string(), made(phase, block, work)))
}
