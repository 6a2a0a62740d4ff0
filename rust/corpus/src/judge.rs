//! Judging all answers of a folder.

use crate::{Checksum, Item, Numbers, Outcome, Progress, cores, read_answer, read_block};
use std::path::PathBuf;
use velejume::judge_in;

/// What is wanted of each answer beside what came of it.
#[derive(Clone, Copy, Default)]
pub struct Wanted {
    /// the bytes of those that are not ours, and the checksums of all files
    pub page: bool,
    pub numbers: bool,
}

/// What came of an answer.
pub struct Judged {
    pub name: String,
    pub outcome: Outcome,
    /// block and answer as they were judged, where they are to be drawn
    pub bytes: Option<(Vec<u8>, Vec<u8>)>,
    pub checksums: Vec<Checksum>,
    pub numbers: Numbers,
}

/// A file's bytes or why they cannot be read; None where there is no such file.
type Found = Option<Result<Vec<u8>, String>>;

fn outcome(block: &Found, answer: &Found, work: &mut [u32]) -> Outcome {
    match (block, answer) {
        (None, _) => Outcome::NoBlock,
        (_, None) => Outcome::NoAnswer,
        (Some(Err(why)), _) => Outcome::unreadable("block", why),
        (_, Some(Err(why))) => Outcome::unreadable("answer", why),
        (Some(Ok(block)), Some(Ok(answer))) => match judge_in(block, answer, work).verdict() {
            Ok(verdict) => Outcome::Judged(verdict),
            Err(refusal) => Outcome::Refused(refusal),
        },
    }
}

fn checksum(path: &Option<PathBuf>, bytes: &Option<Vec<u8>>) -> Option<Checksum> {
    Some(Checksum::of(path.as_ref()?, bytes.as_ref()?))
}

fn judged(item: &Item, wanted: Wanted, work: &mut [u32]) -> Judged {
    let block = item.block.as_deref().map(read_block);
    let answer = item.answer.as_deref().map(read_answer);
    let outcome = outcome(&block, &answer, work);
    let (block, answer) = (block.and_then(Result::ok), answer.and_then(Result::ok));
    let (mut checksums, mut numbers) = (Vec::new(), Numbers::default());
    if wanted.page {
        checksums = [checksum(&item.answer, &answer), checksum(&item.block, &block)].into_iter().flatten().collect();
    }
    if wanted.numbers {
        numbers = Numbers::of(block.as_deref(), answer.as_deref(), &outcome, work);
    }
    let drawn = wanted.page && matches!(outcome, Outcome::Judged(_)) && !outcome.is_ours();
    Judged { name: item.name.clone(), outcome, bytes: block.zip(answer).filter(|_| drawn), checksums, numbers }
}

/// Judges all answers on all cores, in rooms that suffice for every block.
pub fn judge(items: &[Item], wanted: Wanted) -> Vec<Judged> {
    cores::each(items, &mut Progress::new(items.len()), |item, work| judged(item, wanted, work))
}
