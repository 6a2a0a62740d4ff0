//! One converting, compared in everything.

use crate::Conversion;
use crate::check::hexadecimal;
use crate::rooms::Room;
use blocks::Random;
use solver::Numbers;

/// A converting as document 02 has it: block, output.
pub type Convert = fn(&[u8], &mut [u8]) -> Numbers;

/// The proved converting.
pub fn proved_convert(block: &[u8], out: &mut [u8]) -> Numbers {
    let numbers = velejume::convert_in(block, out);
    (numbers.number, numbers.second)
}

/// What one converting is lent, with guards around it: block and output.
type Lent = (Room<u8>, Room<u8>);

/// What a converting returns, and what it was lent afterwards.
fn converted(convert: Convert, before: &Lent) -> (Numbers, Lent) {
    let mut lent = before.clone();
    let numbers = convert(lent.0.lent(), lent.1.lent());
    (numbers, lent)
}

/// A converting must leave as it was: the block always, and all on a refusal.
fn kept(before: &Lent, (numbers, after): &(Numbers, Lent)) -> Result<(), String> {
    match after.0 == before.0 && (numbers.0 == 0 || after.1 == before.1) {
        true => Ok(()),
        false => Err(format!("{numbers:?}, and something is written that is to be kept")),
    }
}

/// Compares a converting with the independent one, in an output of this size. Gives the numbers, or what differs.
pub fn check_convert(convert: Convert, block: &[u8], out: usize, random: &mut Random) -> Result<Numbers, String> {
    let before = (Room::holding(block, random), Room::filled(out, || random.number() as u8));
    let fault = |fault: String| format!("{fault}; out {out}, block {}", hexadecimal(block));
    let given = converted(convert, &before);
    kept(&before, &given).map_err(fault)?;
    let wanted = converted(solver::convert, &before);
    if given.0 != wanted.0 {
        return Err(fault(format!("gives {:?}, the solver {:?}", given.0, wanted.0)));
    }
    if let Some(place) = given.1.1.difference(&wanted.1.1) {
        return Err(fault(format!("{:?}, output byte {place} is not as by the solver", given.0)));
    }
    Ok(given.0)
}

/// The proved converting, compared on a case.
pub fn check_conversion(case: &Conversion, random: &mut Random) -> Result<Numbers, String> {
    let Conversion { kind, version, field, block, out } = case;
    let checked = check_convert(proved_convert, block, out.1, random);
    checked.map_err(|fault| format!("{kind:?}, version {version}, damaged {field:?}: {fault}"))
}
