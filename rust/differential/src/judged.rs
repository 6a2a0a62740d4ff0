//! One judging, compared in everything.

use crate::Judging;
use crate::check::{hexadecimal, searchable, solvers};
use crate::rooms::Room;
use blocks::Random;
use solver::Numbers;

/// What one judging is lent, with guards around it.
#[derive(Clone, PartialEq, Eq)]
struct Lent {
    block: Room<u8>,
    answer: Room<u8>,
    work: Room<u32>,
}

/// A judging as document 02 has it: block, answer, work room.
pub type Judge = fn(&[u8], &[u8], &mut [u32]) -> Numbers;

/// The proved judging.
pub fn proved_judge(block: &[u8], answer: &[u8], work: &mut [u32]) -> Numbers {
    let numbers = velejume::judge_in(block, answer, work);
    (numbers.number, numbers.second)
}

/// What a judging returns, and what it was lent afterwards.
fn judged(judge: impl Fn(&[u8], &[u8], &mut [u32]) -> Numbers, before: &Lent) -> (Numbers, Lent) {
    let mut lent = before.clone();
    let numbers = judge(lent.block.lent(), lent.answer.lent(), lent.work.lent());
    (numbers, lent)
}

/// A judging must leave as it was: all on a refusal, else what lies beyond the table; block, answer and guards always.
fn kept(block: &[u8], before: &Lent, (numbers, after): &(Numbers, Lent)) -> Result<(), String> {
    let written = if numbers.0 < 50 { 0 } else { solver::rooms(block).map_or(0, |need| need.0) };
    let work = after.work.kept_from(written, &before.work);
    match after.block == before.block && after.answer == before.answer && work {
        true => Ok(()),
        false => Err(format!("{numbers:?}, and something is written that is to be kept")),
    }
}

/// Compares a judging with the independent one, in a work room of this size. Gives the numbers and whether every division
/// was tried, or what differs.
pub fn check_judge(
    judge: Judge,
    block: &[u8],
    answer: &[u8],
    work: usize,
    random: &mut Random,
) -> Result<(Numbers, bool), String> {
    let before = Lent {
        block: Room::holding(block, random),
        answer: Room::holding(answer, random),
        work: Room::filled(work, || random.number() as u32),
    };
    let given = judged(judge, &before);
    let fault =
        |fault: String| format!("{fault}; work {work}, answer {}, block {}", hexadecimal(answer), hexadecimal(block));
    kept(block, &before, &given).map_err(fault)?;
    for (name, phase) in solvers(block) {
        let wanted = judged(|block, answer, work| solver::judge(phase, block, answer, work), &before);
        if given.0 != wanted.0 {
            return Err(fault(format!("gives {:?}, {name} {:?}", given.0, wanted.0)));
        }
        if let Some(place) = given.1.work.difference(&wanted.1.work) {
            return Err(fault(format!("{:?}, work entry {place} is not as by {name}", given.0)));
        }
    }
    Ok((given.0, searchable(block)))
}

/// The proved judging, compared on a case.
pub fn check_judging(case: &Judging, random: &mut Random) -> Result<(Numbers, bool), String> {
    let said = |fault: String| {
        let Judging { kind, version, field, builder, faults, .. } = case;
        format!("{kind:?}, version {version}, damaged {field:?}, answer {builder:?} with {faults:?}: {fault}")
    };
    let checked = check_judge(proved_judge, &case.block, &case.answer, case.work.1, random).map_err(said)?;
    match case.possible(checked.0.0) {
        true => Ok(checked),
        false => Err(said(format!("{:?} cannot be, answer {}", checked.0, hexadecimal(&case.answer)))),
    }
}
