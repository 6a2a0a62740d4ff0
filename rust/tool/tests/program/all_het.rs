//! `--all-het` of `velejume phase` and `velejume answers`: haplotypes that differ at every column.

use crate::common::{P2, P2_LINES, P2_OURS, answer, block, folder, run};
use crate::words;
use std::fs;

/// The reads differ in two columns and agree in the last: there one of them has to be corrected, whichever.
const AGREE: &str = "0:9 0:9 0:5 / 1:9 1:9 0:5";
const AGREE_LINES: &str = "cost 5\nflips 1\nsides 01\nhap1 00-\nhap2 11-\n";
const AGREE_OURS: &str = "5, 1, 01, 00-, 11-";

#[test]
fn phase_prints_the_lines_of_the_mode() {
    let folder = folder("all-het-phase");
    let [agree, pair, cut] = ["agree.block", "pair.block", "cut.block"].map(|name| folder.join(name));
    fs::write(&agree, block(AGREE)).unwrap();
    fs::write(&pair, block(P2)).unwrap();
    fs::write(&cut, &block(P2)[..38]).unwrap();
    let general = "cost 0\nflips 0\nsides 01\nhap1 000\nhap2 110\n".to_string();
    assert_eq!(run(&words!["phase", &agree]), (general, String::new(), 0));
    assert_eq!(run(&words!["phase", "--all-het", &agree]), (AGREE_LINES.to_string(), String::new(), 0));
    let refused = "refused 3 at 0: length field differs from bytes present after byte 4\n";
    let [first, second, third] = [&agree, &cut, &pair].map(|path| path.display());
    let lines = format!("block {first}\n{AGREE_LINES}block {second}\n{refused}block {third}\n{P2_LINES}");
    assert_eq!(run(&words!["phase", &agree, &cut, &pair, "--all-het"]), (lines, String::new(), 1));
}

#[test]
fn answers_of_the_mode_are_written_and_judged_by_the_general_one() {
    let folder = folder("all-het-answer");
    fs::write(folder.join("a.block"), block(AGREE)).unwrap();
    let path = folder.join("a.block");
    assert_eq!(run(&words!["phase", "--all-het", "--answer", &path]), (AGREE_LINES.to_string(), String::new(), 0));
    assert_eq!(fs::read(folder.join("a.answer")).unwrap(), answer(AGREE_OURS));
    let (output, error, status) = run(&words!["phase", "--answer", &path]);
    assert!(output.starts_with("cost 0\n") && error.ends_with(": another answer is there and is kept\n"), "{error}");
    assert_eq!((fs::read(folder.join("a.answer")).unwrap(), status), (answer(AGREE_OURS), 1));
    let verdict = "53 a - where that side's sums differ\n".to_string();
    assert_eq!(run(&words!["judge", &path, folder.join("a.answer")]), (verdict, String::new(), 1));
}

#[test]
fn a_folder_gets_the_answers_of_the_mode() {
    let folder = folder("all-het-answers");
    fs::write(folder.join("agree.block"), block(AGREE)).unwrap();
    fs::write(folder.join("pair.block"), block(P2)).unwrap();
    let written = |count: usize| format!("{count} written, {} there already, 0 not ours\n", 2 - count);
    assert_eq!(run(&words!["answers", &folder, "--all-het"]), (written(2), String::new(), 0));
    assert_eq!(fs::read(folder.join("agree.answer")).unwrap(), answer(AGREE_OURS));
    assert_eq!(fs::read(folder.join("pair.answer")).unwrap(), answer(P2_OURS));
    assert_eq!(run(&words!["answers", "--all-het", &folder]), (written(0), String::new(), 0));
    let lines = "agree: another answer is there and is kept\n0 written, 1 there already, 1 not ours\n";
    assert_eq!(run(&words!["answers", &folder]), (lines.to_string(), String::new(), 1));
}

#[test]
fn the_largest_table_finds_room() {
    let folder = folder("all-het-largest");
    let path = folder.join("a.block");
    fs::write(&path, block(&vec![vec!["1:65535"; 1024].join(" "); 12].join("/"))).unwrap();
    let [ones, zeros] = ["1", "0"].map(|letter| letter.repeat(1024));
    let lines = format!("cost 0\nflips 0\nsides 000000000000\nhap1 {ones}\nhap2 {zeros}\n");
    assert_eq!(run(&words!["phase", "--all-het", &path]), (lines, String::new(), 0));
}
