//! `velejume judge BLOCK ANSWER`: one verdict in words.

use crate::common::{P2, P2_OURS, answer, block, folder, run};
use crate::words;
use std::fs;

#[test]
fn each_verdict_is_one_line_and_only_the_least_get_status_0() {
    let folder = folder("judge-one");
    let (at, answer_at) = (folder.join("a.block"), folder.join("a.answer"));
    fs::write(&at, block(P2)).unwrap();
    let answers = [
        ("3, 1, 001, 000, 111, version 1", "50 malformed", 1),
        ("0, 0, 0001, 000, 111", "51 other n or m", 1),
        ("3, 1, 002, 000, 111", "52 a side above 1 or a letter above 2", 1),
        ("3, 1, 001, 00-, 111", "53 a - where that side's sums differ", 1),
        ("0, 1, 001, 000, 111", "54 stated cost not the weight of disagreeing entries", 1),
        ("4, 1, 101, 000, 111", "55 not least: the least cost is 3", 1),
        ("3, 1, 110, 111, 000", "56 least but other sides or letters than ours", 0),
        (P2_OURS, "57 ours", 0),
    ];
    for (words, verdict, status) in answers {
        fs::write(&answer_at, answer(words)).unwrap();
        assert_eq!(run(&words!["judge", &at, &answer_at]), (format!("{verdict}\n"), String::new(), status));
    }
}

#[test]
fn a_refused_block_comes_before_the_answer() {
    let folder = folder("judge-refused");
    let (at, answer_at) = (folder.join("a.block"), folder.join("a.answer"));
    fs::write(&at, block(&vec!["0:1"; 13].join("/"))).unwrap();
    fs::write(&answer_at, "").unwrap();
    let line = "refused 9 at 0: column 0 has more than 12 active reads\n";
    assert_eq!(run(&words!["judge", &at, &answer_at]), (line.to_string(), String::new(), 1));
}

#[test]
fn a_file_that_cannot_be_read_gets_its_name_and_status_2() {
    let folder = folder("judge-unreadable");
    let (at, answer_at) = (folder.join("a.block"), folder.join("a.answer"));
    fs::write(&at, block(P2)).unwrap();
    for (block, answer, name) in [(&at, &answer_at, &answer_at), (&answer_at, &at, &answer_at), (&at, &folder, &folder)]
    {
        let (output, error, status) = run(&words!["judge", block, answer]);
        assert_eq!((output.as_str(), status), ("", 2));
        assert!(error.starts_with(&format!("velejume judge: {}: cannot be read: ", name.display())), "{error}");
    }
}
