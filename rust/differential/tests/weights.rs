//! Solvers that are wrong about weights of two bytes in one thing each: the cases tell every one.

use blocks::{Field, Kind, Random};
use differential::{Builder, Case, Judge, Judging, check, check_judge, choices, sums};
use matrix::{Matrix, Row};
use solver::{Mode, Numbers, Phase, columns};
use std::cmp::Ordering;

/// A block of version 2 with every cell changed by a function, as far as its reads can be followed; others as they are.
fn changed(block: &[u8], change: fn(&mut [u8])) -> Vec<u8> {
    let mut block = block.to_vec();
    let mut at = 9;
    while block.first() == Some(&2) && at + 4 <= block.len() {
        let end = at + 2 + usize::from(u16::from_be_bytes([block[at], block[at + 1]]));
        if end < at + 4 || end > block.len() {
            break;
        }
        block[at + 4..end].chunks_exact_mut(3).for_each(change);
        at = end;
    }
    block
}

/// Keeps the low byte of a weight only.
fn low_byte(mode: Mode, block: &[u8], work: &mut [u32], out: &mut [u8]) -> Numbers {
    columns(mode, &changed(block, |cell| cell[1] = 0), work, out)
}

/// Keeps the high byte of a weight only.
fn high_byte(mode: Mode, block: &[u8], work: &mut [u32], out: &mut [u8]) -> Numbers {
    columns(mode, &changed(block, |cell| cell[2] = 0), work, out)
}

/// Reads a weight with its low byte first.
fn exchanged(mode: Mode, block: &[u8], work: &mut [u32], out: &mut [u8]) -> Numbers {
    columns(mode, &changed(block, |cell| cell.swap(1, 2)), work, out)
}

/// Does not see the high byte of a hole's weight.
fn hole_by_low_byte(mode: Mode, block: &[u8], work: &mut [u32], out: &mut [u8]) -> Numbers {
    columns(mode, &changed(block, |cell| cell[1] = if cell[0] == 2 { 0 } else { cell[1] }), work, out)
}

/// Does not see the low byte of a hole's weight.
fn hole_by_high_byte(mode: Mode, block: &[u8], work: &mut [u32], out: &mut [u8]) -> Numbers {
    columns(mode, &changed(block, |cell| cell[2] = if cell[0] == 2 { 0 } else { cell[2] }), work, out)
}

/// Refuses an odd length in version 2 as in version 1.
fn refuses_odd_lengths(mode: Mode, block: &[u8], work: &mut [u32], out: &mut [u8]) -> Numbers {
    let odd = |block: &Matrix| block.rows.iter().position(|row| row.cells.len() % 2 == 1);
    match Matrix::read(block).ok().filter(|matrix| matrix.version == 2).and_then(|matrix| odd(&matrix)) {
        Some(read) => (5, read as u32),
        None => columns(mode, block, work, out),
    }
}

/// Knows version 1 alone.
fn knows_version_1(mode: Mode, block: &[u8], work: &mut [u32], out: &mut [u8]) -> Numbers {
    match block {
        [2, ..] if block.len() >= 9 => (2, 0),
        _ => columns(mode, block, work, out),
    }
}

/// Takes every version above 1 for version 2.
fn takes_later_versions(mode: Mode, block: &[u8], work: &mut [u32], out: &mut [u8]) -> Numbers {
    let mut block = block.to_vec();
    block.iter_mut().take(1).for_each(|version| *version = (*version).min(2));
    columns(mode, &block, work, out)
}

/// A number as so many bits hold it.
fn held<const BITS: u32>(number: u32) -> u32 {
    number & ((1 << BITS) - 1)
}

/// The letter that is chosen from sums of so many bits.
fn letter<const BITS: u32>([zeros, ones]: [u32; 2]) -> u8 {
    match held::<BITS>(zeros).cmp(&held::<BITS>(ones)) {
        Ordering::Greater => 0,
        Ordering::Less => 1,
        Ordering::Equal => 2,
    }
}

/// Holds the sums that letters are chosen by in so many bits.
fn narrow_letters<const BITS: u32>(mode: Mode, block: &[u8], work: &mut [u32], out: &mut [u8]) -> Numbers {
    let numbers = columns(mode, block, work, out);
    if let (0, Ok(matrix)) = (numbers.0, Matrix::read(block)) {
        let (sides, letters) = out[17..].split_at_mut(matrix.rows.len());
        let choices = choices(mode, sums(&matrix, sides)).concat();
        letters.iter_mut().zip(choices).for_each(|(narrow, sums)| *narrow = letter::<BITS>(sums));
    }
    numbers
}

/// The charge of a column with all its entries on side 0, by sums of so many bits.
fn charge<const BITS: u32>(rows: &[Row]) -> u32 {
    let mut sums = [0; 2];
    for &(letter, weight) in rows.iter().flat_map(|row| row.cells.iter().take(1).flatten()) {
        sums[usize::from(letter)] += u32::from(weight);
    }
    held::<BITS>(sums[0]).min(held::<BITS>(sums[1]))
}

/// Holds the sums of the first column, with all reads on side 0, in so many bits.
fn narrow_sums<const BITS: u32>(mode: Mode, block: &[u8], work: &mut [u32], out: &mut [u8]) -> Numbers {
    let numbers = columns(mode, block, work, out);
    if let (0, Ok(matrix)) = (numbers.0, Matrix::read(block)) {
        let rows: Vec<Row> = matrix.rows.into_iter().filter(|row| row.first == 0).collect();
        work[0] = charge::<BITS>(&rows);
    }
    numbers
}

/// Holds the entries of the table in so many bits.
fn narrow_entries<const BITS: u32>(mode: Mode, block: &[u8], work: &mut [u32], out: &mut [u8]) -> Numbers {
    let numbers = columns(mode, block, work, out);
    if let (0, Ok((entries, _))) = (numbers.0, solver::rooms(block)) {
        work[..entries].iter_mut().for_each(|entry| *entry = held::<BITS>(*entry));
    }
    numbers
}

/// A small kind; every third case is of one where sums are heavy.
fn kind(i: usize, random: &mut Random) -> Kind {
    if i.is_multiple_of(3) { random.pick(&[Kind::Crowded, Kind::Ties]) } else { random.pick(&Kind::SMALL) }
}

/// How many of so many cases of small kinds in version 2, whole and damaged, tell a call from the independent solver, by mode.
fn told(call: Phase) -> [usize; 2] {
    let mut random = Random::new(20);
    let mut told = |mode: Mode, i: usize| {
        let field = [None, None, Some(Field::Version), Some(Field::Weight)][i % 4];
        let case = Case::random(kind(i, &mut random), 2, field, &mut random);
        check(call, mode, &case.block, case.rooms(), &mut random).is_err()
    };
    Mode::ALL.map(|mode| (0..4000).filter(|&i| told(mode, i)).count())
}

#[test]
fn each_wrong_solver_is_told() {
    assert_eq!(told(columns), [0; 2], "the solver itself is right");
    assert_eq!(told(narrow_sums::<20>), [0; 2], "20 bits hold what 12 reads weigh");
    assert_eq!(told(narrow_letters::<20>), [0; 2], "20 bits hold what 12 reads weigh");
    let wrong: [(&str, Phase); 15] = [
        ("keeps the low byte", low_byte),
        ("keeps the high byte", high_byte),
        ("exchanges the bytes", exchanged),
        ("sees the low byte of a hole only", hole_by_low_byte),
        ("sees the high byte of a hole only", hole_by_high_byte),
        ("refuses odd lengths", refuses_odd_lengths),
        ("knows version 1 alone", knows_version_1),
        ("takes later versions", takes_later_versions),
        ("holds sums in 16 bits", narrow_sums::<16>),
        ("holds sums in 18 bits", narrow_sums::<18>),
        ("holds sums in 19 bits", narrow_sums::<19>),
        ("chooses letters by 16 bits", narrow_letters::<16>),
        ("chooses letters by 18 bits", narrow_letters::<18>),
        ("holds entries in 16 bits", narrow_entries::<16>),
        ("holds entries in 18 bits", narrow_entries::<18>),
    ];
    for (name, call) in wrong {
        let told = told(call);
        println!("{name}: {told:?}");
        assert!(told.iter().all(|&told| told > 0), "a solver that {name} passes: {told:?}");
    }
}

/// The independent judging.
fn judge(block: &[u8], answer: &[u8], work: &mut [u32]) -> Numbers {
    solver::judge(columns, block, answer, work)
}

/// Judges by the low bytes of the weights.
fn judges_low_bytes(block: &[u8], answer: &[u8], work: &mut [u32]) -> Numbers {
    let numbers = judge(block, answer, work);
    let low = judge(&changed(block, |cell| cell[1] = 0), answer, &mut work.to_vec());
    if numbers.0 < 50 { numbers } else { low }
}

/// Weighs the disagreeing entries in so many bits.
fn weighs_in<const BITS: u32>(block: &[u8], answer: &[u8], work: &mut [u32]) -> Numbers {
    let numbers = judge(block, answer, work);
    let stated = answer.get(5..9).map_or(0, |cost| u32::from_be_bytes([cost[0], cost[1], cost[2], cost[3]]));
    if numbers.0 >= 55 && held::<BITS>(stated) != stated { (54, 0) } else { numbers }
}

/// How many of so many answers to small blocks of version 2 tell a judging from the independent one.
fn told_judge(judge: Judge) -> usize {
    let mut random = Random::new(21);
    let mut case = |i: usize| {
        let (kind, builder) = (kind(i, &mut random), random.pick(&Builder::ALL));
        let case = Judging::random(kind, 2, None, builder, &mut random);
        check_judge(judge, &case.block, &case.answer, case.work.1, &mut random).is_err()
    };
    (0..4000).filter(|&i| case(i)).count()
}

#[test]
fn each_wrong_judging_is_told() {
    assert_eq!(told_judge(judge), 0, "the judging itself is right");
    let wrong: [(&str, Judge); 3] = [
        ("weighs low bytes", judges_low_bytes),
        ("weighs in 16 bits", weighs_in::<16>),
        ("weighs in 18 bits", weighs_in::<18>),
    ];
    for (name, judge) in wrong {
        let told = told_judge(judge);
        println!("{name}: {told}");
        assert!(told > 0, "a judging that {name} passes");
    }
}
