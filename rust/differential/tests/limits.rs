//! Both sides of each limit of documents 01 and 02, in both versions and both modes and with margins, with the numbers that they give.

use blocks::{Gaps, Random, Style, Weights};
use differential::{check, check_margins, modes_and_versions, proved, proved_margins};
use matrix::{Matrix, Row, VERSIONS, cell_bytes, set_length};
use solver::{Mode, Numbers};
use velejume::{MARGINS, OUTPUT_BYTES, WORK_ENTRIES, phase_margins};

/// The numbers of a block in a mode and in rooms of these sizes, once all agree on them.
fn numbers_in(mode: Mode, block: &[u8], work: usize, out: usize) -> Numbers {
    match check(proved, mode, block, (work, out), &mut Random::new(9)) {
        Ok((numbers, _)) => numbers,
        Err(fault) => panic!("{fault}"),
    }
}

/// The numbers with margins, in a run of this size, once all agree on them.
fn numbers_with(block: &[u8], work: usize, out: usize, run: usize) -> Numbers {
    match check_margins(proved_margins, block, (work, out, run), &mut Random::new(9)) {
        Ok((numbers, _)) => numbers,
        Err(fault) => panic!("{fault}"),
    }
}

/// The numbers in the general mode, which are those with margins. The other has the same refusals, and costs that are not below.
fn numbers(block: &[u8], work: usize, out: usize) -> Numbers {
    let [general, heterozygous] = Mode::ALL.map(|mode| numbers_in(mode, block, work, out));
    match (general, heterozygous) {
        ((0, least), (0, cost)) => assert!(least <= cost, "{least}, {cost}"),
        _ => assert_eq!(general, heterozygous),
    }
    assert_eq!(numbers_with(block, work, out, MARGINS), general);
    general
}

/// The numbers in rooms that suffice for every block.
fn ample(block: &[u8]) -> Numbers {
    numbers(block, WORK_ENTRIES, OUTPUT_BYTES)
}

/// The heaviest weight of a version.
fn heaviest(version: u8) -> u16 {
    if version == 1 { 255 } else { 65535 }
}

/// So many reads over all columns, of entries of letter 1 at the heaviest weight.
fn full(version: u8, columns: usize, reads: usize) -> Matrix {
    let row = Row { first: 0, cells: vec![Some((1, heaviest(version))); columns] };
    Matrix { version, columns, rows: vec![row; reads] }
}

#[test]
fn columns_1024_and_1025() {
    for version in VERSIONS {
        assert_eq!(ample(&full(version, 1024, 2).block()), (0, 0));
        assert_eq!(ample(&full(version, 1025, 2).block()), (4, 0));
        assert_eq!(ample(&full(version, 1, 1).block()), (0, 0));
        assert_eq!(ample(&full(version, 0, 0).block()), (4, 0));
    }
}

#[test]
fn reads_1024_and_1025() {
    for version in VERSIONS {
        let row = |read: usize| Row { first: read % 1024, cells: vec![Some((1, heaviest(version)))] };
        let reads = |n| Matrix { version, columns: 1024, rows: (0..n).map(row).collect() };
        assert_eq!(ample(&reads(1024).block()), (0, 0));
        assert_eq!(ample(&reads(1025).block()), (4, 0));
    }
}

#[test]
fn reads_without_cells_1024_and_1025() {
    for (version, columns) in VERSIONS.into_iter().flat_map(|version| [1, 3, 1024].map(|m| (version, m))) {
        let reads = |n| Matrix { version, columns, rows: vec![Row::default(); n] };
        assert_eq!(ample(&reads(1024).block()), if version == 1 { (0, 0) } else { (38, 0) });
        assert_eq!(ample(&reads(1025).block()), (4, 0));
    }
}

#[test]
fn active_reads_12_and_13_the_last_only_by_its_gap() {
    for version in VERSIONS {
        let pair = Style { gaps: Gaps::Pair, weights: Weights::Always(heaviest(version)) };
        let mut matrix = full(version, 9, 11);
        matrix.rows.iter_mut().for_each(|row| (row.first, row.cells) = (4, vec![Some((0, 1))]));
        matrix.rows.push(pair.row(&mut Random::new(1), 0, 9));
        assert_eq!(ample(&matrix.block()).0, 0);
        matrix.rows.push(pair.row(&mut Random::new(2), 1, 7));
        assert_eq!(ample(&matrix.block()), (9, 4));
        matrix.rows[12] = pair.row(&mut Random::new(2), 0, 4);
        assert_eq!(ample(&matrix.block()).0, 0);
    }
}

#[test]
fn crowds_of_13_to_1024_reads() {
    for reads in [13, 255, 256, 257, 268, 512, 1024] {
        for version in VERSIONS {
            assert_eq!(ample(&full(version, 2, reads).block()), (9, 0));
        }
    }
}

#[test]
fn bytes_8_and_9() {
    for block in VERSIONS.map(|version| full(version, 1, 0).block()) {
        assert_eq!(ample(&block), (0, 0));
        assert_eq!(ample(&block[..8]), (1, 0));
    }
    assert_eq!(ample(&[]), (1, 0));
}

#[test]
fn versions_0_to_3() {
    let mut block = full(1, 1, 0).block();
    for (version, numbers) in [(0, (2, 0)), (1, (0, 0)), (2, (0, 0)), (3, (2, 0)), (255, (2, 0))] {
        block[0] = version;
        assert_eq!(ample(&block), numbers, "version {version}");
    }
}

#[test]
fn a_cell_in_the_last_column_and_one_past_it() {
    for version in VERSIONS {
        let rows = |first, cells| vec![Row { first, cells: vec![Some((1, 1)); cells] }];
        let block = |first, cells| Matrix { version, columns: 3, rows: rows(first, cells) }.block();
        assert_eq!(ample(&block(1, 2)), (0, 0));
        assert_eq!(ample(&block(2, 2)), (6, 0));
        assert_eq!(ample(&block(65535, 1)), (6, 0));
        let [at_0, at_1] = if version == 1 { [(0, 0), (6, 0)] } else { [(38, 0); 2] };
        assert_eq!(ample(&block(0, 0)), at_0);
        assert_eq!([1, 3, 7, 65535].map(|first| ample(&block(first, 0))), [at_1; 4]);
    }
}

#[test]
fn a_read_that_ends_with_the_block_and_one_past_it() {
    for version in VERSIONS {
        let mut block = full(version, 2, 2).block();
        assert_eq!(ample(&block), (0, 0));
        block.pop();
        set_length(&mut block);
        assert_eq!(ample(&block), (5, 1));
        block.truncate(block.len() - 2 - 2 * cell_bytes(version));
        set_length(&mut block);
        assert_eq!(ample(&block), (5, 1), "one byte of its length field is left");
        block.extend([0; 9]);
        set_length(&mut block);
        assert_eq!(ample(&block), (5, 1));
    }
}

#[test]
fn every_length_field_is_lawful_exactly_where_it_is_a_number_of_cells() {
    for version in VERSIONS {
        let (whole, cell) = (full(version, 1024, 1).block(), cell_bytes(version));
        for length in 0..=2 + cell * 1024 + 8 {
            let mut block = whole.clone();
            block[9..11].copy_from_slice(&(length as u16).to_be_bytes());
            let expected = match length {
                0..2 => (5, 0),
                _ if (length - 2) % cell != 0 || length > 2 + cell * 1024 => (5, 0),
                2 if version == 2 => (38, 0),            // the read has no cells
                _ if length < 2 + cell * 1024 => (8, 0), // the read is shorter, and bytes remain
                _ => (0, 0),
            };
            assert_eq!(numbers(&block, 1024, 17 + 1 + 2048), expected, "version {version}, L = {length}");
        }
    }
}

#[test]
fn a_hole_has_no_weight_in_either_byte() {
    for version in VERSIONS {
        let cells = vec![Some((0, 1)), None, Some((1, 1))];
        let block = Matrix { version, columns: 3, rows: vec![Row { first: 0, cells }] }.block();
        let hole = 13 + cell_bytes(version);
        assert_eq!((block[hole], ample(&block)), (2, (0, 0)));
        for at in hole + 1..hole + cell_bytes(version) {
            for byte in [1, 128, 255] {
                let mut weighted = block.clone();
                weighted[at] = byte;
                assert_eq!(ample(&weighted), (7, 0), "version {version}, byte {at}");
            }
        }
        for (at, letter) in [(13, 2), (13, 3), (hole, 3), (hole, 255), (hole + cell_bytes(version), 2)] {
            let mut other = block.clone();
            other[at..at + cell_bytes(version)].fill(0);
            other[at] = letter;
            assert_eq!(ample(&other), (7, 0), "version {version}, letter {letter} at {at}");
        }
    }
}

#[test]
fn rooms_just_large_enough_and_one_less() {
    for version in VERSIONS {
        let (large, larger) = (full(version, 128, 8).block(), full(version, 129, 8).block());
        assert_eq!(numbers(&large, 16384, 281), (0, 0));
        assert_eq!(numbers(&large, 16383, 281), (10, 16384));
        assert_eq!(numbers(&large, 16384, 280), (11, 281));
        assert_eq!(numbers(&larger, 16384, 4096), (10, 16512));
    }
}

/// 1,024 reads in 12 layers, each of which covers 1,024 columns.
fn longest(version: u8) -> Matrix {
    let layer = |reads: usize| (0..reads).map(move |i| i * 1024 / reads..(i + 1) * 1024 / reads);
    let places = [85, 85, 85, 85, 85, 85, 85, 85, 86, 86, 86, 86].into_iter().flat_map(layer);
    let cell = |column: usize| Some(((column / 7 % 2) as u8, heaviest(version)));
    let rows = places.map(|place| Row { first: place.start, cells: place.map(cell).collect() });
    Matrix { version, columns: 1024, rows: rows.collect() }
}

#[test]
fn the_longest_blocks_with_12_active_reads() {
    for (version, bytes) in VERSIONS.into_iter().zip([28_681, 40_969]) {
        let block = longest(version).block();
        assert_eq!((block.len(), block[7..9].to_vec()), (bytes, vec![4, 0]));
        assert_eq!(ample(&block).0, 0);
    }
}

#[test]
fn the_largest_block_takes_all_of_the_rooms_that_suffice_for_every_one() {
    for block in VERSIONS.map(|version| longest(version).block()) {
        assert_eq!(ample(&block).0, 0);
        assert_eq!(numbers(&block, WORK_ENTRIES - 1, OUTPUT_BYTES), (10, WORK_ENTRIES as u32));
        assert_eq!(numbers(&block, WORK_ENTRIES, OUTPUT_BYTES - 1), (11, OUTPUT_BYTES as u32));
    }
}

#[test]
fn runs_of_margins_just_large_enough_and_one_less() {
    for version in VERSIONS {
        for columns in [1, 2, 255, 256, 1023, 1024] {
            let block = full(version, columns, 2).block();
            let numbers = |run| numbers_with(&block, WORK_ENTRIES, OUTPUT_BYTES, run);
            let need = 2 * columns;
            assert_eq!([0, columns, need - 1].map(numbers), [(13, need as u32); 3]);
            assert_eq!([need, need + 1].map(numbers), [(0, 0); 2]);
        }
        let block = longest(version).block();
        assert_eq!(numbers_with(&block, WORK_ENTRIES, OUTPUT_BYTES, MARGINS - 1), (13, MARGINS as u32));
        assert_eq!(numbers_with(&block, WORK_ENTRIES, OUTPUT_BYTES - 1, 0), (11, OUTPUT_BYTES as u32));
        assert_eq!(numbers_with(&block, WORK_ENTRIES - 1, OUTPUT_BYTES - 1, 0), (10, WORK_ENTRIES as u32));
        assert_eq!(numbers_with(&block, WORK_ENTRIES, OUTPUT_BYTES, MARGINS).0, 0);
    }
}

#[test]
fn the_largest_margins() {
    for (version, largest) in VERSIONS.into_iter().zip([3_060, 786_420]) {
        let mut matrix = full(version, 1024, 12);
        assert_eq!(phase_margins(&matrix.block()).unwrap().margins, [[largest; 1024], [0; 1024]]);
        // half of the reads have the other letter at the first column, so they are on the other side
        matrix.rows[..6].iter_mut().for_each(|row| row.cells[0] = Some((0, heaviest(version))));
        let sure = phase_margins(&matrix.block()).unwrap();
        let half = largest / 2;
        assert_eq!((sure.answer.cost, sure.margins.each_ref().map(|run| [run[0], run[1]])), (0, [[half; 2]; 2]));
        matrix.rows[..6].iter_mut().for_each(|row| row.cells[0] = Some((0, heaviest(version) - 1)));
        let sure = phase_margins(&matrix.block()).unwrap();
        assert_eq!(sure.margins.map(|run| [run[0], run[1]]), [[half - 6, half], [half; 2]]);
    }
}

/// The least cost of the largest table with one weight in every entry, letters by read and column.
fn cost_of(mode: Mode, version: u8, weight: u16, letter: fn(usize, usize) -> usize) -> u32 {
    let cells = |i: usize| (0..1024).map(|j| Some((letter(i, j) as u8, weight))).collect();
    let rows = (0..12).map(|i| Row { first: 0, cells: cells(i) }).collect();
    let block = Matrix { version, columns: 1024, rows }.block();
    let (number, cost) = numbers_in(mode, &block, WORK_ENTRIES, OUTPUT_BYTES);
    assert_eq!(number, 0);
    cost
}

/// 0 or 1, without a pattern that a division could serve.
fn any(i: usize, j: usize) -> usize {
    ((1024 * i + j) as u32).wrapping_mul(2_654_435_761) as usize >> 20 & 1
}

#[test]
fn the_heaviest_weight_in_every_entry_of_the_largest_table() {
    let letters: [fn(usize, usize) -> usize; 3] = [|i, _| usize::from(i >= 6), |i, j| j >> (i % 4) & 1, any];
    for letter in letters {
        let light = Mode::ALL.map(|mode| cost_of(mode, 1, 1, letter));
        println!("{light:?} entries disagree");
        for ((mode, version), light) in modes_and_versions().zip(light.into_iter().flat_map(|light| [light; 2])) {
            assert_eq!(cost_of(mode, version, heaviest(version), letter), light * u32::from(heaviest(version)));
        }
    }
    assert!(Mode::ALL.iter().all(|mode| cost_of(*mode, 2, 65535, any) > 1 << 27), "a cost that needs four bytes");
}
