//! The proved converter against the independent one, what a converted block keeps, and converters that are wrong in one thing each.

use blocks::{Field, Kind, Random};
use differential::{Conversion, Convert, Size, Tally, check_conversion, check_convert, proved_convert};
use matrix::{Matrix, Row};
use solver::Numbers;
use velejume::{Answer, BLOCK_BYTES, Letter, Refusal, convert, phase, phase_heterozygous};

/// The numbers of a block in an output of this size, once both agree on them.
fn numbers(block: &[u8], out: usize) -> Numbers {
    match check_convert(proved_convert, block, out, &mut Random::new(9)) {
        Ok(numbers) => numbers,
        Err(fault) => panic!("{fault}"),
    }
}

/// So many cases of each kind with each damage, in one version.
fn tally(seed: u64, version: u8, kinds: &[Kind], fields: &[Option<Field>], times: usize) -> Tally {
    let mut random = Random::new(seed);
    let mut tally = Tally::default();
    for (&kind, &field) in kinds.iter().flat_map(|kind| fields.iter().map(move |field| (kind, field))) {
        for _ in 0..times {
            let case = Conversion::random(kind, version, field, &mut random);
            tally.note_conversion(&case, check_conversion(&case, &mut random));
        }
    }
    println!("{tally}");
    tally
}

#[test]
fn whole_blocks_are_converted_alike() {
    for (kinds, times) in [(&Kind::SMALL[..], 1000), (&Kind::LARGE[..], 100)] {
        let narrow = tally(31, 1, kinds, &[None], times);
        narrow.require("kind", kinds);
        narrow.require("number", [0, 39]);
        narrow.require("output", Size::ALL);
        tally(32, 2, kinds, &[None], 30).require("number", [2]);
    }
}

#[test]
fn blocks_damaged_in_each_field_are_converted_alike() {
    for (kinds, times) in [(&Kind::SMALL[..], 100), (&Kind::LARGE[..], 20)] {
        let narrow = tally(33, 1, kinds, &Field::ALL.map(Some), times);
        narrow.require("damaged", Field::ALL);
        narrow.require("number", (0..=8).chain([39]));
        tally(34, 2, kinds, &Field::ALL.map(Some), 20).require("number", [1, 2]);
    }
}

#[test]
fn outputs_of_every_size_get_what_they_should() {
    let mut random = Random::new(35);
    for kind in Kind::SMALL.into_iter().filter(|kind| *kind != Kind::Long) {
        for _ in 0..20 {
            let block = kind.matrix(1, &mut random).block();
            let (39, need) = numbers(&block, 0) else { panic!("no block fits into no room") };
            for out in 0..need as usize + 3 {
                let expected = if out < need as usize { (39, need) } else { (0, 0) };
                assert_eq!(numbers(&block, out), expected, "{out} bytes for a need of {need}");
            }
        }
    }
}

/// So many reads over all columns.
fn full(version: u8, columns: usize, reads: usize) -> Matrix {
    let row = Row { first: 0, cells: vec![Some((1, 255)); columns] };
    Matrix { version, columns, rows: vec![row; reads] }
}

#[test]
fn the_largest_block_the_smallest_and_one_of_empty_reads() {
    let largest = full(1, 1024, 1024).block();
    assert_eq!(numbers(&largest, BLOCK_BYTES - 1), (39, BLOCK_BYTES as u32));
    assert_eq!(numbers(&largest, BLOCK_BYTES), (0, 0), "thirteen and more active reads are converted");
    let mut empty = full(1, 1024, 0);
    for reads in [0, 1, 1023, 1024] {
        empty.rows = vec![Row::default(); reads];
        assert_eq!(numbers(&empty.block(), 8), (39, 9));
        assert_eq!(numbers(&empty.block(), 9), (0, 0));
        assert_eq!(convert(&empty.block()).unwrap(), [2, 0, 0, 0, 4, 4, 0, 0, 0]);
    }
}

#[test]
fn no_version_but_1_is_converted() {
    for version in (0..=255).filter(|version| *version != 1) {
        let mut block = full(1, 2, 2).block();
        block[0] = version;
        assert_eq!(numbers(&block, 100), (2, 0), "version {version}");
        assert_eq!(numbers(&block[..20], 100), (2, 0), "before its length is looked at");
        assert_eq!(numbers(&block[..8], 100), (1, 0), "but not before there are 9 bytes");
    }
    let lawful = full(2, 2, 2).block();
    assert_eq!((numbers(&lawful, 100), phase(&lawful).is_ok()), ((2, 0), true));
    assert_eq!(numbers(&convert(&full(1, 2, 2).block()).unwrap(), 100), (2, 0), "nor what was converted already");
}

/// The reads that have cells, in version 2.
fn kept(matrix: &Matrix) -> Matrix {
    let rows = matrix.rows.iter().filter(|row| !row.cells.is_empty()).cloned().collect();
    Matrix { version: 2, columns: matrix.columns, rows }
}

/// What both versions of a block get, but for the sides.
fn rest(answer: &Answer) -> (u32, u32, &[Vec<Letter>; 2], &[u32]) {
    (answer.cost, answer.flips, &answer.haplotypes, answer.table.entries())
}

#[test]
fn the_kept_reads_keep_their_sides_and_the_block_its_cost_letters_and_table_in_both_modes() {
    let mut random = Random::new(36);
    let (mut accepted, mut shorter, mut crowded) = (0, 0, 0);
    for i in 0..3000 {
        let kind = if i % 50 == 0 { random.pick(&Kind::LARGE) } else { random.pick(&Kind::SMALL) };
        let matrix = kind.matrix(1, &mut random);
        let (narrow, wide) = (matrix.block(), convert(&matrix.block()).unwrap());
        assert_eq!(Matrix::read(&wide), Ok(kept(&matrix)));
        for phase in [phase, phase_heterozygous] {
            match (phase(&narrow), phase(&wide)) {
                (Ok(narrow), Ok(wide)) => {
                    assert_eq!(rest(&narrow), rest(&wide), "{matrix}");
                    let sides = narrow.sides.iter().zip(&matrix.rows).filter(|(_, row)| !row.cells.is_empty());
                    assert!(sides.map(|(side, _)| side).eq(&wide.sides), "{matrix}");
                    accepted += 1;
                    shorter += usize::from(wide.sides.len() < narrow.sides.len());
                }
                (Err(narrow @ Refusal::Active { .. }), Err(wide)) => {
                    assert_eq!(narrow, wide, "{matrix}");
                    crowded += 1;
                }
                (narrow, wide) => panic!("{narrow:?}, but converted {wide:?}: {matrix}"),
            }
        }
    }
    println!("{accepted} accepted, {shorter} of them with empty reads, {crowded} crowded");
    assert!(accepted > 4000 && shorter > 400 && crowded > 100, "{accepted}, {shorter}, {crowded}");
}

/// Converts, but writes what a function makes of the matrix.
fn writing(block: &[u8], out: &mut [u8], written: impl Fn(&Matrix) -> Vec<u8>) -> Numbers {
    let (39, _) = solver::convert(block, &mut []) else {
        return solver::convert(block, out);
    };
    let wide = written(&Matrix::read(block).expect("a lawful block"));
    match out.get_mut(..wide.len()) {
        Some(room) => {
            room.copy_from_slice(&wide);
            (0, 0)
        }
        None => (39, wide.len() as u32),
    }
}

fn rightly(block: &[u8], out: &mut [u8]) -> Numbers {
    writing(block, out, |matrix| kept(matrix).block())
}

/// Writes the low byte of a weight first.
fn exchanges_bytes(block: &[u8], out: &mut [u8]) -> Numbers {
    writing(block, out, |matrix| {
        let mut wide = kept(matrix);
        let entries = wide.rows.iter_mut().flat_map(|row| row.cells.iter_mut().flatten());
        entries.for_each(|(_, weight)| *weight = weight.swap_bytes());
        wide.block()
    })
}

/// Leaves the high byte of each weight as it was lent.
fn loses_the_high_byte(block: &[u8], out: &mut [u8]) -> Numbers {
    let before = out.to_vec();
    let numbers = solver::convert(block, out);
    if let (0, Ok(matrix)) = (numbers.0, Matrix::read(block)) {
        let mut at = 9;
        for row in kept(&matrix).rows {
            (0..row.cells.len()).map(|i| at + 5 + 3 * i).for_each(|byte| out[byte] = before[byte]);
            at += 4 + 3 * row.cells.len();
        }
    }
    numbers
}

/// Writes cells of two bytes under version 2.
fn keeps_narrow_cells(block: &[u8], out: &mut [u8]) -> Numbers {
    writing(block, out, |matrix| {
        let mut narrow = Matrix { version: 1, ..kept(matrix) }.block();
        narrow[0] = 2;
        narrow
    })
}

/// Keeps the first read without cells.
fn keeps_an_empty_read(block: &[u8], out: &mut [u8]) -> Numbers {
    writing(block, out, |matrix| {
        let mut wide = kept(matrix);
        if let Some(read) = matrix.rows.iter().position(|row| row.cells.is_empty()) {
            wide.rows.insert(read, Row::default());
        }
        wide.block()
    })
}

/// Leaves out reads that have one cell alone too.
fn drops_short_reads(block: &[u8], out: &mut [u8]) -> Numbers {
    writing(block, out, |matrix| {
        let mut wide = kept(matrix);
        wide.rows.retain(|row| row.cells.len() > 1);
        wide.block()
    })
}

/// Puts the reads in order of their first columns.
fn reorders_reads(block: &[u8], out: &mut [u8]) -> Numbers {
    writing(block, out, |matrix| {
        let mut wide = kept(matrix);
        wide.rows.sort_by_key(|row| row.first);
        wide.block()
    })
}

/// Leaves the number of reads as it was.
fn keeps_the_count(block: &[u8], out: &mut [u8]) -> Numbers {
    let numbers = solver::convert(block, out);
    if numbers.0 == 0 {
        out[7..9].copy_from_slice(&block[7..9]);
    }
    numbers
}

/// Leaves the length field as it was.
fn keeps_the_length(block: &[u8], out: &mut [u8]) -> Numbers {
    let numbers = solver::convert(block, out);
    if numbers.0 == 0 {
        out[1..5].copy_from_slice(&block[1..5]);
    }
    numbers
}

/// Asks for the room of the empty reads too.
fn counts_empty_reads(block: &[u8], out: &mut [u8]) -> Numbers {
    let (39, need) = solver::convert(block, &mut []) else {
        return solver::convert(block, out);
    };
    let matrix = Matrix::read(block).expect("a lawful block");
    let empty = matrix.rows.iter().filter(|row| row.cells.is_empty()).count();
    let need = need as usize + 4 * empty;
    if out.len() < need { (39, need as u32) } else { solver::convert(block, out) }
}

/// Looks for room before bytes that remain.
fn looks_for_room_first(block: &[u8], out: &mut [u8]) -> Numbers {
    match solver::convert(block, out) {
        (8, 0) if out.len() < 9 => (39, 9),
        numbers => numbers,
    }
}

/// Takes version 2 as it is.
fn takes_version_2(block: &[u8], out: &mut [u8]) -> Numbers {
    if let (Ok(Matrix { version: 2, .. }), true) = (Matrix::read(block), block.len() <= out.len()) {
        out[..block.len()].copy_from_slice(block);
        return (0, 0);
    }
    solver::convert(block, out)
}

/// Looks at the length before the version.
fn looks_at_the_length_first(block: &[u8], out: &mut [u8]) -> Numbers {
    match (solver::convert(block, out), solver::rooms(&[&[1], &block[1.min(block.len())..]].concat())) {
        ((2, 0), Err((3, 0))) => (3, 0),
        (numbers, _) => numbers,
    }
}

/// Refuses crowds as a phasing does.
fn refuses_crowds(block: &[u8], out: &mut [u8]) -> Numbers {
    match (block.first(), solver::rooms(block)) {
        (Some(1), Err(crowd @ (9, _))) => crowd,
        _ => solver::convert(block, out),
    }
}

/// Clears what lies beyond the block.
fn clears_the_rest(block: &[u8], out: &mut [u8]) -> Numbers {
    let need = solver::convert(block, &mut []).1 as usize;
    let numbers = solver::convert(block, out);
    if numbers.0 == 0 {
        out[need..].fill(0);
    }
    numbers
}

/// Writes as much as there is room for.
fn writes_on_refusal(block: &[u8], out: &mut [u8]) -> Numbers {
    let numbers = solver::convert(block, out);
    if numbers.0 == 39 {
        out.iter_mut().take(1).for_each(|version| *version = 2);
    }
    numbers
}

/// How many of so many cases of small kinds, whole and damaged, tell a converting from the independent one.
fn told(convert: Convert) -> usize {
    let mut random = Random::new(37);
    let mut case = |i: usize| {
        let field = [None, None, Some(Field::Version), Some(Field::Length), Some(Field::More)][i % 5];
        let version = if i.is_multiple_of(7) { 2 } else { 1 };
        let case = Conversion::random(random.pick(&Kind::SMALL), version, field, &mut random);
        check_convert(convert, &case.block, case.out.1, &mut random).is_err()
    };
    (0..3000).filter(|&i| case(i)).count()
}

#[test]
fn each_wrong_converter_is_told() {
    assert_eq!([told(solver::convert), told(rightly), told(proved_convert)], [0; 3], "these are right");
    let wrong: [(&str, Convert); 15] = [
        ("exchanges the bytes of a weight", exchanges_bytes),
        ("loses the high byte of a weight", loses_the_high_byte),
        ("keeps cells of two bytes", keeps_narrow_cells),
        ("keeps an empty read", keeps_an_empty_read),
        ("drops short reads", drops_short_reads),
        ("reorders reads", reorders_reads),
        ("keeps the count of reads", keeps_the_count),
        ("keeps the length", keeps_the_length),
        ("counts empty reads into the size", counts_empty_reads),
        ("looks for room first", looks_for_room_first),
        ("takes version 2", takes_version_2),
        ("looks at the length first", looks_at_the_length_first),
        ("refuses crowds", refuses_crowds),
        ("clears the rest", clears_the_rest),
        ("writes on refusal", writes_on_refusal),
    ];
    for (name, convert) in wrong {
        let told = told(convert);
        println!("{name}: {told}");
        assert!(told > 0, "a converter that {name} passes");
    }
}
