//! One call, compared in everything.

use crate::Case;
use crate::rooms::Rooms;
use blocks::Random;
use solver::{Block, Mode, Numbers, Phase};

/// The proved call of a mode.
pub fn proved(mode: Mode, block: &[u8], work: &mut [u32], out: &mut [u8]) -> Numbers {
    let call = match mode {
        Mode::General => velejume::phase_in,
        Mode::Heterozygous => velejume::phase_heterozygous_in,
    };
    let numbers = call(block, work, out);
    (numbers.number, numbers.second)
}

/// What a call returns, and the rooms afterwards.
fn called(call: Phase, mode: Mode, before: &Rooms) -> (Numbers, Rooms) {
    let mut rooms = before.clone();
    let numbers = call(mode, rooms.block.lent(), rooms.work.lent(), rooms.out.lent());
    (numbers, rooms)
}

/// Whether trying every division takes no longer than some milliseconds.
pub fn searchable(block: &[u8]) -> bool {
    Block::read(block).is_ok_and(|block| {
        let with_cells = block.reads.iter().filter(|read| read.c() > 0).count();
        with_cells <= 12 && (block.columns * block.reads.len()) << with_cells <= 1 << 22
    })
}

/// The independent solvers for a block, plain search where it does not take long.
pub fn solvers(block: &[u8]) -> impl Iterator<Item = (&'static str, Phase)> {
    let solvers: [(&str, Phase); 2] = [("columns", solver::columns), ("plain search", solver::exhaustive)];
    solvers.into_iter().take(1 + usize::from(searchable(block)))
}

/// Bytes as a message shows them.
pub fn hexadecimal(bytes: &[u8]) -> String {
    bytes.iter().map(|byte| format!("{byte:02x}")).collect()
}

/// A call must leave as it was: all on a refusal, else what lies beyond table and answer; the block and the guards always.
pub fn kept(block: &[u8], before: &Rooms, (numbers, after): (Numbers, &Rooms)) -> Result<(), String> {
    let written = match (numbers, solver::rooms(block)) {
        ((0, _), Ok(written)) => written,
        ((0, _), Err(refusal)) => return Err(format!("accepted, not refused by {refusal:?}")),
        _ => (0, 0),
    };
    let work = after.work.kept_from(written.0, &before.work);
    let out = after.out.kept_from(written.1, &before.out);
    match after.block == before.block && work && out {
        true => Ok(()),
        false => Err(format!("{numbers:?}, and something is written that is to be kept")),
    }
}

/// Both must give the same numbers and leave the same rooms.
pub fn same(name: &str, (numbers, given): (Numbers, &Rooms), wanted: (Numbers, &Rooms)) -> Result<(), String> {
    if numbers != wanted.0 {
        return Err(format!("gives {numbers:?}, {name} {:?}", wanted.0));
    }
    if let Some(place) = given.work.difference(&wanted.1.work) {
        return Err(format!("{numbers:?}, work entry {place} is not as by {name}"));
    }
    if let Some(place) = given.out.difference(&wanted.1.out) {
        return Err(format!("{numbers:?}, output byte {place} is not as by {name}"));
    }
    Ok(())
}

/// Compares a call in a mode with the independent solver, in rooms of these sizes. Gives the numbers and whether every division
/// was tried for it, or what differs.
pub fn check(
    call: Phase,
    mode: Mode,
    block: &[u8],
    (work, out): (usize, usize),
    random: &mut Random,
) -> Result<(Numbers, bool), String> {
    let before = Rooms::random(block, work, out, random);
    let (numbers, given) = called(call, mode, &before);
    let fault = |fault: String| format!("{mode:?}: {fault}; work {work}, out {out}, block {}", hexadecimal(block));
    kept(block, &before, (numbers, &given)).map_err(fault)?;
    for (name, phase) in solvers(block) {
        let (wanted, rooms) = called(phase, mode, &before);
        same(name, (numbers, &given), (wanted, &rooms)).map_err(fault)?;
    }
    Ok((numbers, searchable(block) && numbers.0 == 0))
}

/// The proved call of a mode, compared on a case.
pub fn check_case(mode: Mode, case: &Case, random: &mut Random) -> Result<(Numbers, bool), String> {
    let checked = check(proved, mode, &case.block, case.rooms(), random);
    let Case { kind, version, field, .. } = case;
    checked.map_err(|fault| format!("{kind:?}, version {version}, damaged {field:?}: {fault}"))
}
