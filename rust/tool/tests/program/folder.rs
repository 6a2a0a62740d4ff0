//! `velejume judge FOLDER`: lines, the table, the status.

use crate::common::{P2, P2_OURS, answer, block, folder, put, run};
use crate::words;
use std::ffi::OsStr;
use std::fs;
use std::os::unix::ffi::OsStrExt;

/// The counts of the table at the end, from verdict 50 on, then refused, without answer, without block, unreadable.
fn counts(output: &str) -> Vec<usize> {
    let rows: Vec<&str> = output.lines().collect();
    let (total, rows) = rows.split_last().unwrap();
    assert!(total.ends_with("are least (56 or 57)"), "{total}");
    rows[rows.len() - 12..].iter().map(|row| row.split_whitespace().last().unwrap().parse().unwrap()).collect()
}

#[test]
fn our_answers_get_no_line_and_status_0() {
    let folder = folder("all-ours");
    put(&folder, "one", P2, P2_OURS);
    put(&folder, "two", "0:7", "0, 9, 0, 0, -");
    fs::write(folder.join("notes.txt"), "neither block nor answer").unwrap();
    let (output, error, status) = run(&words!["judge", &folder]);
    let table = "\
50 malformed                                                0
51 other n or m                                             0
52 a side above 1 or a letter above 2                       0
53 a - where that side's sums differ                        0
54 stated cost not the weight of disagreeing entries        0
55 not least                                                0
56 least but other sides or letters than ours               0
57 ours                                                     2
block refused                                               0
block without an answer                                     0
answer without a block                                      0
cannot be read                                              0
2 of 2 are least (56 or 57)
";
    assert_eq!((output.as_str(), error.as_str(), status), (table, "", 0));
}

#[test]
fn other_least_answers_get_a_line_and_status_0() {
    let folder = folder("others");
    put(&folder, "exchanged", P2, "3, 1, 110, 111, 000");
    put(&folder, "ours", P2, P2_OURS);
    let (output, error, status) = run(&words!["judge", &folder]);
    assert!(output.starts_with("exchanged: 56 least but other sides or letters than ours\n\n50 "), "{output}");
    assert_eq!(counts(&output), [0, 0, 0, 0, 0, 0, 1, 1, 0, 0, 0, 0]);
    assert_eq!((error.as_str(), status), ("", 0));
}

#[test]
fn each_fault_gets_its_line_in_order_of_names_and_status_1() {
    let folder = folder("faults");
    let answers = [
        ("a", "3, 1, 001, 000, 111, version 1"),
        ("b", "0, 0, 0001, 000, 111"),
        ("c", "3, 1, 002, 000, 111"),
        ("d", "3, 1, 001, 00-, 111"),
        ("e", "0, 1, 001, 000, 111"),
        ("f", "4, 1, 101, 000, 111"),
    ];
    answers.iter().for_each(|(name, words)| put(&folder, name, P2, words));
    fs::write(folder.join("g.block"), &block(P2)[..38]).unwrap();
    fs::write(folder.join("g.answer"), answer(P2_OURS)).unwrap();
    let crowd = block(&vec!["0:1"; 13].join("/"));
    fs::write(folder.join("h.block"), crowd).unwrap();
    fs::write(folder.join("h.answer"), "").unwrap();
    fs::write(folder.join("i.block"), block(P2)).unwrap();
    fs::write(folder.join("j.answer"), answer(P2_OURS)).unwrap();
    fs::create_dir(folder.join("k.block")).unwrap();
    fs::write(folder.join("k.answer"), answer(P2_OURS)).unwrap();
    let (output, error, status) = run(&words!["judge", &folder]);
    let lines = "\
a: 50 malformed
b: 51 other n or m
c: 52 a side above 1 or a letter above 2
d: 53 a - where that side's sums differ
e: 54 stated cost not the weight of disagreeing entries
f: 55 not least: the least cost is 3
g: refused 3 at 0: length field differs from bytes present after byte 4
h: refused 9 at 0: column 0 has more than 12 active reads
i: a block without an answer
j: an answer without a block
k: the block cannot be read: ";
    assert!(output.starts_with(lines), "{output}");
    assert_eq!(counts(&output), [1, 1, 1, 1, 1, 1, 0, 0, 2, 1, 1, 1]);
    assert_eq!((error.as_str(), status), ("", 1));
}

#[test]
fn one_fault_of_any_kind_is_enough_for_status_1() {
    let kinds: [(&str, &[u8]); 4] = [
        ("x.answer", &answer(P2_OURS)),
        ("x.block", &block(P2)),
        ("ours.answer", &answer("4, 1, 101, 000, 111")),
        ("ours.block", &[]),
    ];
    for (i, (file, bytes)) in kinds.into_iter().enumerate() {
        let folder = folder(&format!("one-fault-{i}"));
        put(&folder, "ours", P2, P2_OURS);
        assert_eq!(run(&words!["judge", &folder]).2, 0);
        fs::write(folder.join(file), bytes).unwrap();
        assert_eq!(run(&words!["judge", &folder]).2, 1, "{file}");
    }
}

#[test]
fn many_answers_on_all_cores_each_get_their_own_line() {
    let folder = folder("many");
    for i in 0..500 {
        let (matrix, cost) = (format!("0:5 / 1:{}", 5 + i % 200), 5);
        let words = if i % 5 == 0 { format!("{cost}, 1, 00, 1, -") } else { "0, 0, 01, 0, 1".to_string() };
        put(&folder, &format!("{i:03}"), &matrix, &words);
    }
    let (output, _, status) = run(&words!["judge", &folder]);
    let lines: Vec<&str> = output.lines().take_while(|line| !line.is_empty()).collect();
    let wanted: Vec<String> =
        (0..500).step_by(5).map(|i| format!("{i:03}: 55 not least: the least cost is 0")).collect();
    assert_eq!(lines, wanted);
    assert_eq!(counts(&output), [0, 0, 0, 0, 0, 100, 0, 400, 0, 0, 0, 0]);
    assert_eq!(status, 1);
}

#[test]
fn the_largest_block_finds_room() {
    let folder = folder("largest");
    let mut rows = vec![vec!["1:1"; 1024].join(" "); 12];
    rows.resize(1024, ".".to_string());
    let ones = "1".repeat(1024);
    let words = format!("0, 0, {}, {ones}, {}", "0".repeat(1024), "-".repeat(1024));
    put(&folder, "largest", &rows.join("/"), &words);
    let (output, _, status) = run(&words!["judge", &folder]);
    assert_eq!((counts(&output)[7], status), (1, 0), "{output}");
}

#[test]
fn a_name_stays_on_its_line() {
    let folder = folder("names");
    put(&folder, "two\nlines \u{202e}turned", P2, "0, 1, 001, 000, 111");
    let (output, _, _) = run(&words!["judge", &folder]);
    assert!(output.starts_with("two\\u{a}lines \\u{202e}turned: 54 "), "{output}");
}

#[test]
fn names_that_are_no_utf_8_are_told_apart() {
    let folder = folder("names-no-utf-8");
    for name in [&b"caf\xe9"[..], b"caf\xe8", b"caf\\xe9"] {
        let at = |ending: &[u8]| folder.join(OsStr::from_bytes(&[name, ending].concat()));
        fs::write(at(b".block"), block(P2)).unwrap();
        fs::write(at(b".answer"), answer("0, 1, 001, 000, 111")).unwrap();
    }
    let (output, _, _) = run(&words!["judge", &folder]);
    let names: Vec<&str> = output.lines().take(3).map(|line| line.split_once(": 54 ").unwrap().0).collect();
    assert_eq!(names, ["caf\\\\xe9", "caf\\xe8", "caf\\xe9"]);
    let missing = folder.join(OsStr::from_bytes(b"\xff\n"));
    let (_, error, status) = run(&words!["judge", &missing]);
    assert!(error.contains("\\xff\\u{a}: cannot be read: ") && status == 2, "{error}");
}

#[test]
fn a_folder_that_cannot_be_read_and_one_with_nothing_in_it_get_status_2() {
    let (output, error, status) = run(&["judge", "no such folder"]);
    assert_eq!((output.as_str(), status), ("", 2));
    assert!(error.starts_with("velejume judge: no such folder: cannot be read: "), "{error}");
    let folder = folder("nothing");
    let (output, error, status) = run(&words!["judge", &folder]);
    assert_eq!((output.as_str(), status), ("", 2));
    assert!(error.ends_with("nothing: holds no NAME.block and no NAME.answer\n"), "{error}");
}
