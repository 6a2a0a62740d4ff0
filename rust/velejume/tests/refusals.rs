//! Each refusal with its words and its second number.

use matrix::{VERSIONS, cell_bytes, parse};
use velejume::{
    Refusal, convert, convert_in, judge, phase, phase_heterozygous, phase_heterozygous_in, phase_in, phase_margins,
    phase_margins_in,
};

/// The block of `0:5 . 1:3 / 0:7` in a version, and where its second read begins.
fn example(version: u8) -> (Vec<u8>, usize) {
    let matrix = parse("0:5 . 1:3 / 0:7", None).unwrap().in_version(version).unwrap();
    (matrix.block(), 13 + 3 * cell_bytes(version))
}

/// A block with one byte changed.
fn changed(block: &[u8], at: usize, byte: u8) -> Vec<u8> {
    let mut block = block.to_vec();
    block[at] = byte;
    block
}

/// A block for every refusal from 1 to 9, with the words.
fn refused(version: u8) -> [(Vec<u8>, Refusal, &'static str); 9] {
    let (whole, second) = example(version);
    let change = |at, byte| changed(&whole, at, byte);
    let hole = 13 + cell_bytes(version);
    let crowd = parse(&vec!["0:1 . 0:1"; 13].join("/"), None).unwrap().in_version(version).unwrap();
    [
        (whole[..8].to_vec(), Refusal::Short, "fewer than 9 bytes"),
        (change(0, 3), Refusal::Version, "version neither 1 nor 2"),
        (change(4, whole[4] + 1), Refusal::Length, "length field differs from bytes present after byte 4"),
        (change(5, 5), Refusal::Size, "m = 0, m > 1,024 or n > 1,024"),
        (
            change(second + 1, whole[second + 1] - 1),
            Refusal::ReadLength { read: 1 },
            "read 1: length field is cut off, L < 2, L is odd (in version 2: L − 2 is no multiple of 3), \
             or L runs past the block",
        ),
        (
            change(second + 3, 3),
            Refusal::Columns { read: 1 },
            "read 1: c = 0 with first column not 0, or first + c > m",
        ),
        (
            change(hole + 1, 1),
            Refusal::Cell { read: 0 },
            "read 0: letter above 2, a hole with weight, first or last cell a hole",
        ),
        ([&change(4, whole[4] + 1)[..], &[0]].concat(), Refusal::Remain, "bytes remain after the last read"),
        (crowd.block(), Refusal::Active { column: 0 }, "column 0 has more than 12 active reads"),
    ]
}

#[test]
fn each_refusal_of_a_block_has_its_words() {
    for (i, (block, refusal, words)) in
        VERSIONS.into_iter().flat_map(|version| refused(version).into_iter().enumerate())
    {
        assert_eq!(phase(&block), Err(refusal), "{block:?}");
        assert_eq!(phase_heterozygous(&block), Err(refusal), "{block:?}");
        assert_eq!(phase_margins(&block), Err(refusal), "{block:?}");
        assert_eq!(refusal.number(), i as u32 + 1);
        assert_eq!(refusal.to_string(), words);
    }
}

#[test]
fn a_read_without_cells_is_refused_in_version_2() {
    // the second read loses its cell
    let without = |version: u8| {
        let (mut block, second) = example(version);
        block.truncate(second + 4);
        block[second + 1] = 2;
        matrix::set_length(&mut block);
        block
    };
    let refusal = phase(&without(2)).unwrap_err();
    assert_eq!((refusal, refusal.number(), refusal.second()), (Refusal::NoCells { read: 1 }, 38, 1));
    assert_eq!(refusal.to_string(), "read 1: c = 0 in version 2");
    assert_eq!(phase_heterozygous(&without(2)), Err(refusal));
    assert_eq!(phase_margins(&without(2)), Err(refusal));
    assert_eq!(judge(&without(2), b"no answer"), Err(refusal));
    assert_eq!(phase(&without(1)).unwrap().sides, [0, 0]);
}

#[test]
fn a_converting_refuses_as_a_phasing_but_for_versions_and_crowds() {
    for (block, refusal, _) in refused(1) {
        let converted = match refusal {
            Refusal::Version => Err(Refusal::NotVersion1),
            Refusal::Active { .. } => Ok(()),
            refusal => Err(refusal),
        };
        assert_eq!(convert(&block).map(|_| ()), converted, "{block:?}");
    }
    let refusal = convert(&example(2).0).unwrap_err();
    assert_eq!((refusal, refusal.number(), refusal.second()), (Refusal::NotVersion1, 2, 0));
    assert_eq!(refusal.to_string(), "version not 1");
}

#[test]
fn an_output_that_is_too_small_for_a_converting_is_refused_with_its_need() {
    let [(narrow, _), (wide, _)] = VERSIONS.map(example);
    let mut out = [9; 30];
    for room in [0, 28] {
        let refusal = convert_in(&narrow, &mut out[..room]).converted().unwrap_err();
        assert_eq!((refusal, refusal.number(), refusal.second()), (Refusal::ConvertRoom { need: 29 }, 39, 29));
        assert_eq!(refusal.to_string(), "output below the 29 bytes of the converted block");
        assert_eq!(out, [9; 30]);
    }
    let numbers = convert_in(&narrow, &mut out);
    assert_eq!((numbers.number, numbers.second, numbers.converted()), (0, 0, Ok(())));
    assert_eq!((&out[..29], out[29]), (&wide[..], 9));
}

#[test]
fn rooms_that_are_too_small_are_refused_with_their_need() {
    for ((block, _), call) in
        VERSIONS.into_iter().flat_map(|version| [phase_in, phase_heterozygous_in].map(|call| (example(version), call)))
    {
        let work = call(&block, &mut [0; 5], &mut [0; 25]).cost().unwrap_err();
        assert_eq!((work, work.number(), work.second()), (Refusal::WorkRoom { need: 6 }, 10, 6));
        assert_eq!(work.to_string(), "work room below m × T = 6 entries");
        let out = call(&block, &mut [0; 6], &mut [0; 24]).cost().unwrap_err();
        assert_eq!((out, out.number(), out.second()), (Refusal::OutputRoom { need: 25 }, 11, 25));
        assert_eq!(out.to_string(), "output below 17 + n + 2m = 25 bytes");
        assert!(call(&block, &mut [0; 6], &mut [0; 25]).cost().is_ok());
    }
}

#[test]
fn margin_rooms_that_are_too_small_are_refused_last_and_nothing_is_written() {
    for (block, _) in VERSIONS.map(example) {
        let (mut work, mut out, mut margins) = ([9; 7], [9; 26], [9; 7]);
        let mut refused = |work_len: usize, out_len: usize, room: usize| {
            let rooms = (&mut work[..work_len], &mut out[..out_len], &mut margins[..room]);
            let refusal = phase_margins_in(&block, rooms.0, rooms.1, rooms.2).cost().unwrap_err();
            assert_eq!((work, out, margins), ([9; 7], [9; 26], [9; 7]), "{refusal:?}");
            refusal
        };
        for room in 0..6 {
            let refusal = refused(7, 26, room);
            assert_eq!((refusal, refusal.number(), refusal.second()), (Refusal::MarginRoom { need: 6 }, 13, 6));
            assert_eq!(refusal.to_string(), "margin room below 2m = 6 numbers");
            assert_eq!(refused(6, 24, room), Refusal::OutputRoom { need: 25 });
            assert_eq!(refused(5, 24, room), Refusal::WorkRoom { need: 6 });
        }
        let numbers = phase_margins_in(&block, &mut work, &mut out, &mut margins);
        assert_eq!((numbers.cost(), margins), (Ok(0), [12, 0, 3, 0, 0, 0, 9]));
        assert_eq!((work[6], out[25]), (9, 9));
    }
}

#[test]
fn a_block_of_a_matrix_has_no_more_bytes_than_is_said() {
    let rows = vec![vec!["0:1"; 1024].join(" "); 1024].join("/");
    let matrix = parse(&rows, None).unwrap();
    let [narrow, wide] = VERSIONS.map(|version| matrix.clone().in_version(version).unwrap().block());
    assert!(narrow.len() < wide.len());
    assert_eq!(wide.len(), velejume::BLOCK_BYTES);
    assert_eq!(phase(&narrow), Err(Refusal::Active { column: 0 }), "it passes the checks before");
    assert_eq!(phase(&wide), Err(Refusal::Active { column: 0 }), "it passes the checks before");
}
