//! `velejume phase`: five lines for each block, refusals, answers beside.

use crate::common::{P2, P2_LINES, P2_OURS, answer, block, folder, run};
use crate::words;
use matrix::Matrix;
use std::fs;
use std::ops::Range;

#[test]
fn one_block_gets_five_lines() {
    let folder = folder("phase-one");
    for (matrix, lines) in [(P2, P2_LINES), ("0:0 / 1:0", "cost 0\nflips 1\nsides 00\nhap1 -\nhap2 -\n")] {
        fs::write(folder.join("a.block"), block(matrix)).unwrap();
        assert_eq!(run(&words!["phase", folder.join("a.block")]), (lines.to_string(), String::new(), 0));
    }
    let none = matrix::parse("", Some(1)).unwrap().block();
    fs::write(folder.join("a.block"), none).unwrap();
    assert!(run(&words!["phase", folder.join("a.block")]).0.contains("\nsides none\n"));
    assert!(!folder.join("a.answer").exists());
}

#[test]
fn several_blocks_get_their_names_in_the_order_given() {
    let folder = folder("phase-several");
    fs::write(folder.join("b.block"), block(P2)).unwrap();
    fs::write(folder.join("a.block"), &block(P2)[..38]).unwrap();
    fs::write(folder.join("c"), block("0:7")).unwrap();
    let [a, b, c] = ["a.block", "b.block", "c"].map(|name| folder.join(name));
    let lines = format!(
        "block {}\n{P2_LINES}block {}\nrefused 3 at 0: length field differs from bytes present after byte 4\n\
         block {}\ncost 0\nflips 0\nsides 0\nhap1 0\nhap2 -\n",
        b.display(),
        a.display(),
        c.display()
    );
    assert_eq!(run(&words!["phase", &b, &a, &c]), (lines, String::new(), 1));
}

#[test]
fn more_blocks_than_are_phased_at_once_come_in_order() {
    let folder = folder("phase-many");
    let paths: Vec<_> = (0..600).map(|i| folder.join(format!("{i:03}.block"))).collect();
    for (i, path) in paths.iter().enumerate() {
        fs::write(path, block(&format!("0:{} / 1:200 / 0:100 1:1", i % 100))).unwrap();
    }
    let all = [words!["phase"].to_vec(), paths.iter().map(|path| path.clone().into_os_string()).collect()].concat();
    let (output, error, status) = run(&all);
    let named: Vec<&str> = output.lines().filter_map(|line| line.strip_prefix("block ")).collect();
    assert_eq!(named, paths.iter().map(|path| path.to_str().unwrap()).collect::<Vec<_>>());
    assert_eq!((output.lines().count(), error.as_str(), status), (6 * 600, "", 0));
}

#[test]
fn a_block_that_cannot_be_read_does_not_stop_the_others() {
    let folder = folder("phase-unreadable");
    fs::write(folder.join("b.block"), block(P2)).unwrap();
    let [a, b] = ["a.block", "b.block"].map(|name| folder.join(name));
    let (output, error, status) = run(&words!["phase", &a, &b]);
    assert_eq!((output, status), (format!("block {}\n{P2_LINES}", b.display()), 2));
    let message = format!("velejume phase: {}: cannot be read: No such file", a.display());
    assert!(error.starts_with(&message) && error.lines().count() == 1, "{error}");
}

#[test]
fn answers_are_written_beside_the_blocks_and_kept_where_they_are() {
    let folder = folder("phase-answers");
    for name in ["a.block", "b.data", "c.block", "d.block"] {
        fs::write(folder.join(name), block(P2)).unwrap();
    }
    fs::write(folder.join("c.answer"), answer("0, 1, 001, 000, 111")).unwrap();
    fs::create_dir(folder.join("d.answer")).unwrap();
    let [a, b, c, d] = ["a.block", "b.data", "c.block", "d.block"].map(|name| folder.join(name));
    assert_eq!(run(&words!["phase", &a, "--answer"]), (P2_LINES.to_string(), String::new(), 0));
    assert_eq!(run(&words!["phase", "--answer", &a, &b]).2, 0, "the same answer is there already");
    assert_eq!(fs::read(folder.join("a.answer")).unwrap(), answer(P2_OURS));
    assert_eq!(fs::read(folder.join("b.answer")).unwrap(), answer(P2_OURS));
    for path in [c, d] {
        let (output, error, status) = run(&words!["phase", "--answer", &path]);
        assert_eq!((output.as_str(), status), (P2_LINES, 1));
        assert_eq!(error, format!("velejume phase: {}: another answer is there and is kept\n", path.display()));
    }
    assert_eq!(fs::read(folder.join("c.answer")).unwrap(), answer("0, 1, 001, 000, 111"));
}

/// 1,024 rows of such entries, in 12 layers over 1,024 columns.
fn layers(entry: &str) -> Vec<String> {
    let row = |place: Range<usize>| [vec!["."; place.start], vec![entry; place.len()]].concat().join(" ");
    let layer = |rows: usize| (0..rows).map(move |i| i * 1024 / rows..(i + 1) * 1024 / rows);
    [85, 85, 85, 85, 85, 85, 85, 85, 86, 86, 86, 86].into_iter().flat_map(layer).map(row).collect()
}

#[test]
fn a_read_without_cells_is_refused_in_version_2_alone() {
    let folder = folder("phase-empty");
    let matrix = matrix::parse("0:7 / .", None).unwrap();
    let lines = ["cost 0\nflips 0\nsides 00\nhap1 0\nhap2 -\n", "refused 38 at 1: read 1: c = 0 in version 2\n"];
    for (version, lines) in matrix::VERSIONS.into_iter().zip(lines) {
        fs::write(folder.join("a.block"), Matrix { version, ..matrix.clone() }.block()).unwrap();
        let status = i32::from(version == 2);
        assert_eq!(run(&words!["phase", folder.join("a.block")]), (lines.to_string(), String::new(), status));
    }
}

#[test]
fn the_largest_block_finds_room() {
    let folder = folder("phase-largest");
    let mut narrow = vec![vec!["1:255"; 1024].join(" "); 12];
    narrow.resize(1024, ".".to_string());
    for (rows, name) in [(narrow, "narrow"), (layers("1:65535"), "wide")] {
        let path = folder.join(format!("{name}.block"));
        fs::write(&path, block(&rows.join("/"))).unwrap();
        let (output, error, status) = run(&words!["phase", &path, "--answer"]);
        let (sides, ones, ties) = ("0".repeat(1024), "1".repeat(1024), "-".repeat(1024));
        assert_eq!(output, format!("cost 0\nflips 0\nsides {sides}\nhap1 {ones}\nhap2 {ties}\n"));
        assert_eq!((error.as_str(), status), ("", 0));
        assert_eq!(fs::read(path.with_extension("answer")).unwrap().len(), 3089);
    }
}
