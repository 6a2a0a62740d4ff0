//! The safe wrapper against the independent solver.

use blocks::{Field, Kind, Random};
use differential::{Builder, Case, Judging};
use matrix::VERSIONS;
use solver::{Mode, Numbers};
use velejume::{Answer, Refusal};

/// What the solver gives in rooms of just the size: the table and the answer block, or the numbers.
fn solved(mode: Mode, block: &[u8]) -> Result<(Vec<u32>, Vec<u8>), Numbers> {
    let (entries, length) = solver::rooms(block)?;
    let (mut work, mut out) = (vec![0; entries], vec![0; length]);
    assert_eq!(solver::columns(mode, block, &mut work, &mut out).0, 0, "the rooms suffice");
    Ok((work, out))
}

/// What the wrapper gives.
fn wrapped(mode: Mode, block: &[u8]) -> Result<Answer, Refusal> {
    match mode {
        Mode::General => velejume::phase(block),
        Mode::Heterozygous => velejume::phase_heterozygous(block),
    }
}

#[test]
fn the_wrapper_gives_the_solvers_answers_and_refusals() {
    let mut random = Random::new(7);
    let (mut answers, mut refusals) = (0, [0; 39]);
    for i in 0..6000 {
        let kind = if i % 100 == 0 { random.pick(&Kind::LARGE) } else { random.pick(&Kind::SMALL) };
        let field = random.one_in(2).then(|| random.pick(&Field::ALL));
        let block = Case::random(kind, random.pick(&VERSIONS), field, &mut random).block;
        for mode in Mode::ALL {
            match (wrapped(mode, &block), solved(mode, &block)) {
                (Ok(answer), Ok((table, bytes))) => {
                    answers += 1;
                    assert_eq!(answer.table.entries(), table, "{mode:?}: {block:?}");
                    assert_eq!(answer.block(), bytes, "{mode:?}: {block:?}");
                }
                (Err(refusal), Err(numbers)) => {
                    refusals[numbers.0 as usize] += 1;
                    assert_eq!((refusal.number(), refusal.second()), numbers, "{mode:?}: {block:?}");
                }
                (given, solved) => panic!("{mode:?}: {given:?}, not {solved:?} of {block:?}"),
            }
        }
    }
    println!("{answers} answers, refusals 1 to 9: {:?}, 38: {}", &refusals[1..10], refusals[38]);
    assert!(answers > 2000 && refusals[1..10].iter().chain(&refusals[38..]).all(|&count| count > 0));
}

/// The margins that the solver gives in rooms of just the size.
fn solved_margins(block: &[u8]) -> Result<Vec<u32>, Numbers> {
    let (mut work, mut out) = solved(Mode::General, block)?;
    let mut margins = Vec::new();
    if let (13, need) = solver::margins(solver::columns, block, &mut work, &mut out, &mut []) {
        margins.resize(need as usize, 0);
    }
    assert_eq!(solver::margins(solver::columns, block, &mut work, &mut out, &mut margins).0, 0, "the rooms suffice");
    Ok(margins)
}

#[test]
fn the_wrapper_gives_the_solvers_margins_and_refusals() {
    let mut random = Random::new(60);
    let (mut answers, mut refusals) = (0, 0);
    for i in 0..3000 {
        let kind = if i % 100 == 0 { random.pick(&Kind::LARGE) } else { random.pick(&Kind::SMALL) };
        let field = random.one_in(2).then(|| random.pick(&Field::ALL));
        let block = Case::random(kind, random.pick(&VERSIONS), field, &mut random).block;
        match (velejume::phase_margins(&block), solved_margins(&block)) {
            (Ok(sure), Ok(margins)) => {
                assert_eq!(sure.margins.concat(), margins, "{block:?}");
                assert_eq!(Ok(sure.answer), velejume::phase(&block));
                answers += 1;
            }
            (Err(refusal), Err(numbers)) => {
                assert_eq!((refusal.number(), refusal.second()), numbers, "{block:?}");
                refusals += 1;
            }
            (given, solved) => panic!("{given:?}, not {solved:?} of {block:?}"),
        }
    }
    println!("{answers} answers, {refusals} refusals");
    assert!(answers > 1000 && refusals > 1000, "{answers}, {refusals}");
}

#[test]
fn the_wrapper_gives_the_solvers_verdicts_and_refusals() {
    let mut random = Random::new(17);
    let mut counts = [0; 58];
    for i in 0..4000 {
        let kind = if i % 100 == 0 { random.pick(&Kind::LARGE) } else { random.pick(&Kind::SMALL) };
        let field = random.one_in(3).then(|| random.pick(&Field::ALL));
        let (version, builder) = (random.pick(&VERSIONS), random.pick(&Builder::ALL));
        let Judging { block, answer, .. } = Judging::random(kind, version, field, builder, &mut random);
        let mut work = vec![0; solver::rooms(&block).map_or(0, |need| need.0)];
        let wanted = solver::judge(solver::columns, &block, &answer, &mut work);
        let given = match velejume::judge(&block, &answer) {
            Ok(verdict) => (verdict.number(), verdict.second()),
            Err(refusal) => (refusal.number(), refusal.second()),
        };
        assert_eq!(given, wanted, "{answer:?} to {block:?}");
        counts[given.0 as usize] += 1;
    }
    println!("refusals 1 to 9: {:?}, 38: {}, verdicts 50 to 57: {:?}", &counts[1..10], counts[38], &counts[50..]);
    assert!(counts[1..10].iter().chain(&counts[38..39]).chain(&counts[50..]).all(|&count| count > 0));
}

#[test]
fn the_wrapper_gives_the_solvers_converted_blocks_and_refusals() {
    let mut random = Random::new(22);
    let (mut converted, mut refusals) = (0, [0; 9]);
    for i in 0..4000 {
        let kind = if i % 100 == 0 { random.pick(&Kind::LARGE) } else { random.pick(&Kind::SMALL) };
        let field = random.one_in(2).then(|| random.pick(&Field::ALL));
        let block = Case::random(kind, random.pick(&[1, 1, 1, 2]), field, &mut random).block;
        match (velejume::convert(&block), solver::convert(&block, &mut [])) {
            (Ok(wide), (39, need)) => {
                let mut wanted = vec![0; need as usize];
                assert_eq!(solver::convert(&block, &mut wanted), (0, 0), "the room suffices");
                assert_eq!(wide, wanted, "{block:?}");
                converted += 1;
            }
            (Err(refusal), numbers) => {
                assert_eq!((refusal.number(), refusal.second()), numbers, "{block:?}");
                refusals[numbers.0 as usize] += 1;
            }
            (given, solved) => panic!("{given:?}, not {solved:?} of {block:?}"),
        }
    }
    println!("{converted} converted, refusals 1 to 8: {:?}", &refusals[1..]);
    assert!(converted > 1000 && refusals[1..].iter().all(|&count| count > 0));
}
