//! P1 to P9 in both versions and both modes, with and without margins, as `phase` prints them, and the tables of P1 and P2. P9 has a
//! read without cells, which version 2 has not.

use matrix::{VERSIONS, parse};
use std::fmt::Debug;
use velejume::{Answer, Refusal, convert, phase, phase_heterozygous, phase_margins};

/// A call that phases.
type Phase<T> = fn(&[u8]) -> Result<T, Refusal>;

/// The answer to a matrix whose reads have cells, which is the same in both versions. Its block of version 1 is converted into
/// that of version 2.
fn answer<T: PartialEq + Debug>(phase: Phase<T>, text: &str) -> T {
    let matrix = parse(text, text.is_empty().then_some(1)).unwrap();
    let [narrow, wide] = VERSIONS.map(|version| matrix.clone().in_version(version).unwrap().block());
    assert_eq!(convert(&narrow).as_ref(), Ok(&wide), "{text}");
    let [narrow, wide] = [narrow, wide].map(|block| phase(&block).unwrap());
    assert_eq!(narrow, wide, "{text}");
    wide
}

/// What `phase` prints: cost, flips, sides and both haplotypes; with margins also these.
fn lines(values: &str) -> String {
    let names = ["cost", "flips", "sides", "hap1", "hap2", "margin1", "margin2"];
    names.iter().zip(values.split(", ")).map(|(name, value)| format!("{name} {value}\n")).collect()
}

#[test]
fn p1_to_p8_get_their_answers() {
    let examples = [
        ("0:5 . / 1:3 0:2 / 1:6 1:1 / . 0:2", "1, 1, 1000, 10, 0-"),
        ("0:4 . 1:3 / 0:5 0:5 0:5 / 1:5 1:5 1:5", "3, 1, 001, 000, 111"),
        ("", "0, 0, none, -, -"),
        ("0:7", "0, 0, 0, 0, -"),
        ("0:5 / 1:5", "0, 0, 01, 0, 1"),
        ("0:3 / 0:3", "0, 0, 00, 0, -"),
        ("0:0 / 1:0", "0, 1, 00, -, -"),
        ("1:4 .", "0, 0, 0, 1-, --"),
    ];
    for (text, expected) in examples {
        assert_eq!(answer(phase, text).to_string(), lines(expected), "{text}");
    }
}

#[test]
fn p1_to_p8_and_two_more_get_their_margins() {
    let examples = [
        ("0:5 . / 1:3 0:2 / 1:6 1:1 / . 0:2", "1, 1, 1000, 10, 0-, 9 3, 5 0"),
        ("0:4 . 1:3 / 0:5 0:5 0:5 / 1:5 1:5 1:5", "3, 1, 001, 000, 111, 9 5 2, 5 5 5"),
        ("", "0, 0, none, -, -, 0, 0"),
        ("0:7", "0, 0, 0, 0, -, 7, 0"),
        ("0:5 / 1:5", "0, 0, 01, 0, 1, 5, 5"),
        ("0:3 / 0:3", "0, 0, 00, 0, -, 6, 0"),
        ("0:0 / 1:0", "0, 1, 00, -, -, 0, 0"),
        ("1:4 .", "0, 0, 0, 1-, --, 4 0, 0 0"),
        // the first two reads weigh as much for 0 as for 1 at the second column
        ("0:9 1:5 / 0:9 0:5 / 1:9 .", "5, 1, 001, 0-, 1-, 18 0, 9 0"),
        ("0:2 1:1 / 0:2 1:1 / 0:2 0:3", "0, 0, 001, 01, 00, 4 2, 2 3"),
    ];
    for (text, expected) in examples {
        let sure = answer(phase_margins, text);
        assert_eq!(sure.to_string(), lines(expected), "{text}");
        assert_eq!(sure.answer, answer(phase, text), "{text}");
    }
}

#[test]
fn p1_to_p8_and_two_more_get_their_answers_in_the_all_heterozygous_mode() {
    let examples = [
        ("0:5 . / 1:3 0:2 / 1:6 1:1 / . 0:2", "1, 1, 1000, 10, 01"),
        ("0:4 . 1:3 / 0:5 0:5 0:5 / 1:5 1:5 1:5", "3, 1, 001, 000, 111"),
        ("", "0, 0, none, -, -"),
        ("0:7", "0, 0, 0, 0, 1"),
        ("0:5 / 1:5", "0, 0, 01, 0, 1"),
        ("0:3 / 0:3", "0, 0, 00, 0, 1"),
        ("0:0 / 1:0", "0, 1, 00, -, -"),
        ("1:4 .", "0, 0, 0, 1-, 0-"),
        ("0:9 0:9 0:5 / 1:9 1:9 0:5", "5, 1, 01, 00-, 11-"),
        ("0:1 1:1 / 1:4 1:4", "1, 1, 00, 11, 00"),
    ];
    for (text, expected) in examples {
        assert_eq!(answer(phase_heterozygous, text).to_string(), lines(expected), "{text}");
    }
}

#[test]
fn p9_has_its_answer_in_version_1_and_is_converted_without_its_empty_read() {
    let mut p9 = parse(". / 0:7", None).unwrap();
    let wide = convert(&p9.block()).unwrap();
    assert_eq!(wide, parse("0:7", None).unwrap().in_version(2).unwrap().block());
    let sure = phase_margins(&p9.block()).unwrap();
    assert_eq!((sure.margins, &sure.answer.sides[..]), ([vec![7], vec![0]], &[0, 0][..]));
    for (phase, second) in [(phase as Phase<Answer>, "-"), (phase_heterozygous, "1")] {
        p9.version = 1;
        assert_eq!(phase(&p9.block()).unwrap().to_string(), lines(&format!("0, 0, 00, 0, {second}")));
        assert_eq!(phase(&wide).unwrap().to_string(), lines(&format!("0, 0, 0, 0, {second}")));
        p9.version = 2;
        assert_eq!(phase(&p9.block()), Err(Refusal::NoCells { read: 0 }));
    }
}

#[test]
fn weights_of_two_bytes_count_whole() {
    let block = parse("0:1025 . 1:768 / 0:1280 0:1280 0:1280 / 1:1280 1:1280 1:1280", None).unwrap().block();
    let answer = phase(&block).unwrap();
    assert_eq!(answer.to_string(), "cost 768\nflips 1\nsides 001\nhap1 000\nhap2 111\n");
    assert_eq!(answer.table.column(0), [1280, 1025, 0, 1280]);
    assert_eq!(phase_margins(&block).unwrap().margins, [[2305, 1280, 512], [1280; 3]]);
}

#[test]
fn p1_and_p2_have_the_tables_of_document_000() {
    let p1 = answer(phase, "0:5 . / 1:3 0:2 / 1:6 1:1 / . 0:2").table;
    assert_eq!(p1.entries(), [5, 3, 0, 5, 1, 3, 1, 4]);
    assert_eq!(p1.column(0), [5, 3, 0, 5]);
    let p2 = answer(phase, "0:4 . 1:3 / 0:5 0:5 0:5 / 1:5 1:5 1:5").table;
    assert_eq!(p2.entries(), [5, 4, 0, 5, 10, 4, 0, 10, 15, 4, 3, 15]);
    assert_eq!(p2.column(2), [15, 4, 3, 15]);
}

#[test]
fn tables_of_the_all_heterozygous_mode_hold_its_charge() {
    let tables: [(&str, &[u32]); 4] = [
        ("0:5 . / 1:3 0:2 / 1:6 1:1 / . 0:2", &[5, 3, 0, 6, 1, 3, 2, 5]),
        ("0:4 . 1:3 / 0:5 0:5 0:5 / 1:5 1:5 1:5", &[5, 4, 0, 5, 10, 4, 0, 10, 15, 4, 3, 15]),
        ("0:9 0:9 0:5 / 1:9 1:9 0:5", &[9, 0, 18, 0, 18, 5]),
        ("0:1 1:1 / 1:4 1:4", &[1, 0, 1, 1]),
    ];
    for (text, entries) in tables {
        assert_eq!(answer(phase_heterozygous, text).table.entries(), entries, "{text}");
    }
}
