//! One phasing with margins, compared in everything.

use crate::Case;
use crate::check::{hexadecimal, kept, same, searchable, solvers};
use crate::rooms::{Room, Rooms};
use blocks::Random;
use solver::{Block, Numbers};

/// A phasing with margins as document 02 has it: block, work room, output, run of margins.
pub type Margins = fn(&[u8], &mut [u32], &mut [u8], &mut [u32]) -> Numbers;

/// The proved phasing with margins.
pub fn proved_margins(block: &[u8], work: &mut [u32], out: &mut [u8], margins: &mut [u32]) -> Numbers {
    let numbers = velejume::phase_margins_in(block, work, out, margins);
    (numbers.number, numbers.second)
}

/// What one call is lent, with guards around it: the rooms of a phasing, and the run.
type Lent = (Rooms, Room<u32>);

/// What a call returns, and what it was lent afterwards.
fn called(call: impl Fn(&[u8], &mut [u32], &mut [u8], &mut [u32]) -> Numbers, before: &Lent) -> (Numbers, Lent) {
    let (mut rooms, mut margins) = before.clone();
    let numbers = call(rooms.block.lent(), rooms.work.lent(), rooms.out.lent(), margins.lent());
    (numbers, (rooms, margins))
}

/// A call must leave the run as it was: all on a refusal, else what lies beyond 2m; its guards always.
fn run_kept(block: &[u8], before: &Room<u32>, (numbers, after): (Numbers, &Room<u32>)) -> Result<(), String> {
    let columns = Block::read(block).ok().filter(|_| numbers.0 == 0).map_or(0, |block| block.columns);
    match after.kept_from(2 * columns, before) {
        true => Ok(()),
        false => Err(format!("{numbers:?}, and something of the run is written that is to be kept")),
    }
}

/// Compares a phasing with margins with the independent one, in rooms of these sizes: work room, output, run. Gives the numbers and
/// whether every division was tried for it, or what differs.
pub fn check_margins(
    call: Margins,
    block: &[u8],
    (work, out, run): (usize, usize, usize),
    random: &mut Random,
) -> Result<(Numbers, bool), String> {
    let before = (Rooms::random(block, work, out, random), Room::filled(run, || random.number() as u32));
    let (numbers, given) = called(call, &before);
    let fault = |fault: String| format!("{fault}; work {work}, out {out}, run {run}, block {}", hexadecimal(block));
    kept(block, &before.0, (numbers, &given.0)).map_err(fault)?;
    run_kept(block, &before.1, (numbers, &given.1)).map_err(fault)?;
    for (name, phase) in solvers(block) {
        let (wanted, rooms) = called(|b, work, out, run| solver::margins(phase, b, work, out, run), &before);
        same(name, (numbers, &given.0), (wanted, &rooms.0)).map_err(fault)?;
        if let Some(place) = given.1.difference(&rooms.1) {
            return Err(fault(format!("{numbers:?}, margin {place} is not as by {name}")));
        }
    }
    Ok((numbers, searchable(block) && numbers.0 == 0))
}

/// The proved phasing with margins, compared on a case.
pub fn check_case_margins(case: &Case, random: &mut Random) -> Result<(Numbers, bool), String> {
    let Case { kind, version, field, block, work, out, run } = case;
    let checked = check_margins(proved_margins, block, (work.1, out.1, run.1), random);
    checked.map_err(|fault| format!("{kind:?}, version {version}, damaged {field:?}: {fault}"))
}
