//! Reads without cells, which version 2 refuses by 38: where it stands among the other refusals, and solvers that are wrong about
//! it in one thing each.

use blocks::{Field, Kind, Random};
use differential::{Case, check, check_judge, proved, proved_judge};
use matrix::{Matrix, Row, cell_bytes, set_length};
use solver::{Mode, Numbers, Phase, columns};
use velejume::OUTPUT_BYTES;

/// The numbers of a block from phasing in both modes and from judging, once all agree on them; a verdict is none of the block's.
fn numbers(block: &[u8]) -> Numbers {
    let random = &mut Random::new(9);
    let [phased, heterozygous] = Mode::ALL.map(|mode| {
        let checked = check(proved, mode, block, (4096, OUTPUT_BYTES), random);
        checked.unwrap_or_else(|fault| panic!("{fault}")).0
    });
    assert_eq!(phased, heterozygous);
    let (judged, _) =
        check_judge(proved_judge, block, b"no answer", 4096, random).unwrap_or_else(|fault| panic!("{fault}"));
    assert_eq!(judged, if phased.0 == 0 { (50, 0) } else { phased });
    phased
}

/// A read as it stands in a block.
enum Read {
    Right,
    /// without cells, from this column on
    Empty(u16),
    /// its L is below 2
    Short,
    /// it passes the last column
    Past,
    /// it begins with a hole
    Hole,
}

impl Read {
    fn bytes(&self, version: u8) -> Vec<u8> {
        let weight = vec![0; cell_bytes(version) - 1];
        let cell = |letter: u8| [&[letter], &weight[..]].concat();
        let length = 2 + cell_bytes(version) as u8;
        match self {
            Read::Right => [vec![0, length, 0, 0], cell(1)].concat(),
            Read::Empty(first) => [[0, 2], first.to_be_bytes()].concat(),
            Read::Short => [vec![0, 1, 0, 0], cell(1)].concat(),
            Read::Past => [vec![0, length, 0, 3], cell(1)].concat(),
            Read::Hole => [vec![0, length, 0, 0], cell(2)].concat(),
        }
    }
}

/// A block of three columns with these reads.
fn block(version: u8, reads: &[Read]) -> Vec<u8> {
    let head = [version, 0, 0, 0, 0, 0, 3, 0, reads.len() as u8];
    let mut block = [&head[..], &reads.iter().flat_map(|read| read.bytes(version)).collect::<Vec<u8>>()].concat();
    set_length(&mut block);
    block
}

#[test]
fn they_are_refused_between_5_and_6_read_by_read() {
    use Read::*;
    let cases: [(&[Read], Numbers, Numbers); 12] = [
        (&[Empty(0)], (0, 0), (38, 0)),
        (&[Empty(7)], (6, 0), (38, 0)),
        (&[Empty(65535)], (6, 0), (38, 0)),
        (&[Right, Right, Empty(0), Right], (0, 0), (38, 2)),
        (&[Right, Empty(0), Empty(0)], (0, 0), (38, 1)),
        (&[Right, Empty(0), Empty(1)], (6, 2), (38, 1)),
        (&[Empty(0), Short], (5, 1), (38, 0)),
        (&[Empty(0), Past], (6, 1), (38, 0)),
        (&[Empty(0), Hole], (7, 1), (38, 0)),
        (&[Short, Empty(0)], (5, 0), (5, 0)),
        (&[Past, Empty(0)], (6, 0), (6, 0)),
        (&[Hole, Empty(0)], (7, 0), (7, 0)),
    ];
    for (reads, narrow, wide) in cases {
        assert_eq!(numbers(&block(1, reads)), narrow);
        assert_eq!(numbers(&block(2, reads)), wide);
    }
}

#[test]
fn they_are_refused_before_8_and_after_4() {
    let mut remain = [&block(2, &[Read::Empty(0)])[..], &[0]].concat();
    assert_eq!(numbers(&remain), (3, 0));
    set_length(&mut remain);
    assert_eq!(numbers(&remain), (38, 0));
    remain[5..7].copy_from_slice(&[4, 1]);
    assert_eq!(numbers(&remain), (4, 0));
    let crowd = [(); 13].map(|_| Read::Right);
    assert_eq!(numbers(&block(2, &crowd)), (9, 0));
    let crowd: Vec<Read> = crowd.into_iter().chain([Read::Empty(0)]).collect();
    assert_eq!([1, 2].map(|version| numbers(&block(version, &crowd))), [(9, 0), (38, 13)]);
}

/// The reads without cells of a block, with their first columns, as far as its reads can be followed.
fn empty_reads(block: &[u8]) -> Vec<(u32, u16)> {
    let (mut at, mut empty) = (9, Vec::new());
    for read in 0.. {
        let Some(&[high, low, first, last]) = block.get(at..at + 4) else {
            break;
        };
        match u16::from_be_bytes([high, low]) {
            0..2 => break,
            2 => empty.push((read, u16::from_be_bytes([first, last]))),
            _ => (),
        }
        at += 2 + usize::from(u16::from_be_bytes([high, low]));
    }
    empty
}

/// Accepts them in version 2 as in version 1.
fn keeps_them(mode: Mode, block: &[u8], work: &mut [u32], out: &mut [u8]) -> Numbers {
    match columns(mode, block, work, out) {
        (38, _) => (0, 0),
        numbers => numbers,
    }
}

/// Refuses them in version 1 too.
fn refuses_them_always(mode: Mode, block: &[u8], work: &mut [u32], out: &mut [u8]) -> Numbers {
    match (solver::rooms(block), empty_reads(block).first()) {
        (Ok(_), Some((read, _))) => (38, *read),
        _ => columns(mode, block, work, out),
    }
}

/// Looks for 6 first.
fn finds_6_first(mode: Mode, block: &[u8], work: &mut [u32], out: &mut [u8]) -> Numbers {
    match (columns(mode, block, work, out), empty_reads(block).first()) {
        ((38, read), Some((_, 1..))) => (6, read),
        (numbers, _) => numbers,
    }
}

/// Looks for them before it looks at any read otherwise.
fn finds_them_first(mode: Mode, block: &[u8], work: &mut [u32], out: &mut [u8]) -> Numbers {
    match (columns(mode, block, work, out), empty_reads(block).first()) {
        ((5..=7, _), Some((read, _))) if block[0] == 2 => (38, *read),
        (numbers, _) => numbers,
    }
}

/// Looks for them after all reads.
fn finds_them_last(mode: Mode, block: &[u8], work: &mut [u32], out: &mut [u8]) -> Numbers {
    match (columns(mode, block, work, out), Matrix::read(&block_without(block))) {
        ((38, _), Err(refusal @ (5..=7, _))) => refusal,
        (numbers, _) => numbers,
    }
}

/// The block without its reads without cells, as far as its reads can be followed.
fn block_without(block: &[u8]) -> Vec<u8> {
    let Some(head) = block.get(..9) else {
        return block.to_vec();
    };
    let (mut without, mut at) = (head.to_vec(), 9);
    while let Some(&[high, low]) = block.get(at..at + 2) {
        let end = (at + 2 + usize::from(u16::from_be_bytes([high, low]))).min(block.len());
        if end != at + 4 {
            without.extend(&block[at..end]);
        }
        at = end;
    }
    let count = u16::from_be_bytes([head[7], head[8]]).saturating_sub(empty_reads(block).len() as u16);
    without[7..9].copy_from_slice(&count.to_be_bytes());
    set_length(&mut without);
    without
}

/// Names the last of them.
fn names_the_last(mode: Mode, block: &[u8], work: &mut [u32], out: &mut [u8]) -> Numbers {
    match (columns(mode, block, work, out), empty_reads(block).last()) {
        ((38, _), Some((read, _))) => (38, *read),
        (numbers, _) => numbers,
    }
}

/// Names no read.
fn names_none(mode: Mode, block: &[u8], work: &mut [u32], out: &mut [u8]) -> Numbers {
    match columns(mode, block, work, out) {
        (38, _) => (38, 0),
        numbers => numbers,
    }
}

/// How many of so many small blocks of a version, whole and damaged, tell a call from the independent solver, by mode.
fn told(call: Phase, version: u8) -> [usize; 2] {
    let mut random = Random::new(23);
    let mut told = |mode: Mode, i: usize| {
        let field = [None, Some(Field::Cells), Some(Field::Letter), Some(Field::First), Some(Field::ReadLength)][i % 5];
        let case = Case::random(random.pick(&Kind::SMALL), version, field, &mut random);
        check(call, mode, &case.block, case.rooms(), &mut random).is_err()
    };
    Mode::ALL.map(|mode| (0..3000).filter(|&i| told(mode, i)).count())
}

#[test]
fn each_wrong_solver_is_told() {
    assert_eq!([1, 2].map(|version| told(columns, version)), [[0; 2]; 2], "the solver itself is right");
    let wrong: [(&str, Phase, u8); 7] = [
        ("keeps them in version 2", keeps_them, 2),
        ("refuses them in version 1", refuses_them_always, 1),
        ("looks for 6 first", finds_6_first, 2),
        ("looks for them first", finds_them_first, 2),
        ("looks for them last", finds_them_last, 2),
        ("names the last of them", names_the_last, 2),
        ("names no read", names_none, 2),
    ];
    for (name, call, version) in wrong {
        let told = told(call, version);
        println!("{name}: {told:?}");
        assert!(told.iter().all(|&told| told > 0), "a solver that {name} passes: {told:?}");
    }
}

#[test]
fn the_same_matrix_without_them_is_accepted() {
    let rows = |empty: usize| [vec![Row::default(); empty], vec![Row { first: 1, cells: vec![Some((1, 5))] }]].concat();
    for empty in 0..3 {
        let matrix = Matrix { version: 2, columns: 2, rows: rows(empty) };
        assert_eq!(numbers(&matrix.block()), if empty == 0 { (0, 0) } else { (38, 0) });
    }
}
