//! `velejume draw`: the same bytes for the same words, a manifest that is true, and blocks that show a fault.

use crate::common::{block, folder, names, run};
use crate::words;
use std::collections::BTreeMap;
use std::ffi::OsString;
use std::fs;
use std::path::{Path, PathBuf};

const KINDS: [&str; 8] = ["gapless", "pairs", "inside", "holes", "ties", "weightless", "empty", "apart"];

/// Those of blocks of version 2, which has no empty reads.
const WIDE_KINDS: [&str; 7] = ["gapless", "pairs", "inside", "holes", "ties", "weightless", "apart"];

/// Draws into a new folder with these words.
fn drawn(name: &str, more: &[&str]) -> PathBuf {
    let folder = folder(name);
    let words = [words!["draw", &folder].to_vec(), more.iter().map(|word| word.into()).collect()].concat();
    let (output, error, status) = run(&words);
    assert_eq!((error.as_str(), status), ("", 0), "{output}");
    folder
}

/// The names and the bytes of all files of a folder but the manifest.
fn files(folder: &Path) -> BTreeMap<OsString, Vec<u8>> {
    let names = names(folder).into_iter().filter(|name| name != "manifest.tsv");
    names.map(|name| (name.clone(), fs::read(folder.join(name)).unwrap())).collect()
}

/// The lines of a manifest below its two heads, in their fields.
fn manifest(folder: &Path) -> Vec<Vec<String>> {
    let text = fs::read_to_string(folder.join("manifest.tsv")).unwrap();
    let mut lines = text.lines().skip(1);
    assert_eq!(lines.next(), Some("name\tkind\tm\tn\tA\tgaps\tleast\tforgetful\tmarked"));
    lines.map(|line| line.split('\t').map(String::from).collect()).collect()
}

/// A read as it stands in a block: its first column and its letters, 2 for a hole.
type Read = (usize, Vec<u8>);

/// The columns and the reads of a block of either version, read byte by byte.
fn taken_apart(block: &[u8]) -> (usize, Vec<Read>) {
    let word = |at: usize| 256 * usize::from(block[at]) + usize::from(block[at + 1]);
    let cell = 1 + usize::from(block[0]);
    let mut at = 9;
    let mut reads = Vec::new();
    for _ in 0..word(7) {
        let (length, first) = (word(at), word(at + 2));
        reads.push((first, block[at + 4..at + 2 + length].iter().step_by(cell).copied().collect()));
        at += 2 + length;
    }
    assert_eq!(at, block.len());
    (word(5), reads)
}

/// m, n, A and the reads with gaps of a block.
fn counts(block: &[u8]) -> [usize; 4] {
    let (columns, reads) = taken_apart(block);
    let covers =
        |column: usize| reads.iter().filter(move |(first, cells)| (*first..first + cells.len()).contains(&column));
    let active = (0..columns).map(|column| covers(column).count()).max().unwrap();
    [columns, reads.len(), active, reads.iter().filter(|(_, cells)| cells.contains(&2)).count()]
}

/// The block in which every run of entries without a hole is a read of its own.
fn split(bytes: &[u8]) -> Vec<u8> {
    let text = matrix::Matrix::read(bytes).unwrap().to_string();
    let mut rows = Vec::new();
    for row in text.lines().map(|line| line.trim_end_matches(" /")) {
        let words: Vec<&str> = row.split(' ').collect();
        let starts = (0..words.len()).filter(|&i| words[i] != "." && (i == 0 || words[i - 1] == "."));
        for start in starts {
            let run = words[start..].iter().take_while(|word| **word != ".");
            rows.push([vec!["."; start], run.copied().collect()].concat().join(" "));
        }
    }
    let columns = usize::from(bytes[5]) << 8 | usize::from(bytes[6]);
    matrix::parse(&rows.join("\n"), Some(columns)).unwrap().block()
}

#[test]
fn the_same_words_draw_the_same_bytes_and_a_smaller_count_the_first_of_them() {
    let more = ["--seed", "7", "--count", "64", "--answers", "ours"];
    let (one, two) = (drawn("draw-one", &more), drawn("draw-two", &more));
    assert_eq!(files(&one), files(&two));
    assert_eq!(fs::read(one.join("manifest.tsv")).unwrap(), fs::read(two.join("manifest.tsv")).unwrap());
    let some = files(&drawn("draw-some", &["--seed=7", "--count=20", "--answers=ours"]));
    assert_eq!(some.len(), 40);
    let all = files(&one);
    assert!(some.iter().all(|(name, bytes)| all[name] == *bytes));
    let other = files(&drawn("draw-other", &["--seed", "8", "--count", "64"]));
    let blocks = all.iter().filter(|(name, _)| name.to_str().unwrap().ends_with(".block"));
    assert!(blocks.zip(other.values()).all(|((_, one), other)| one != other), "another seed draws other blocks");
}

/// The checksum of 200 blocks of seed 2026.
const PINNED: &str = "099179e45f78802aade3beb3efa4da9b019aba69f7f1197a41d1c4a5f1455e4b";

#[test]
fn the_bytes_are_these_on_every_machine() {
    let folder = drawn("draw-pinned", &["--seed", "2026", "--count", "200"]);
    let all: Vec<u8> = files(&folder).into_values().flatten().collect();
    let sum = corpus::hexadecimal(&corpus::sha256(&all));
    assert_eq!(sum, PINNED);
}

#[test]
fn version_1_is_what_is_drawn_without_the_option() {
    let folder = drawn("draw-version", &["--seed", "2026", "--count", "200", "--version", "1"]);
    let all: Vec<u8> = files(&folder).into_values().flatten().collect();
    assert_eq!(corpus::hexadecimal(&corpus::sha256(&all)), PINNED);
}

#[test]
fn version_2_has_the_same_reads_with_weights_of_two_bytes() {
    let more = ["--seed", "2026", "--count", "200"];
    let kinds = WIDE_KINDS.join(",");
    let folders = [
        drawn("draw-version-1", &[&more[..], &["--kind", &kinds]].concat()),
        drawn("draw-version-2", &[&more[..], &["--version", "2"]].concat()),
    ];
    let [narrow, wide] = folders.each_ref().map(|folder| files(folder));
    assert!(narrow.keys().eq(wide.keys()), "without the kind of empty reads");
    for (narrow, wide) in narrow.values().zip(wide.values()) {
        assert_eq!((narrow[0], wide[0]), (1, 2));
        assert_eq!(taken_apart(narrow), taken_apart(wide));
    }
    let heavy = |block: &&Vec<u8>| block[0] == 2 && matrix::Matrix::read(block).unwrap().in_version(1).is_err();
    assert!(wide.values().filter(heavy).count() > 150, "most have a weight above 255");
    let text = fs::read_to_string(folders[1].join("manifest.tsv")).unwrap();
    assert!(text.lines().next().unwrap().ends_with(" draw --seed 2026 --count 200 --version 2"), "{text}");
}

#[test]
fn the_manifest_says_what_the_blocks_have() {
    check_manifest("1");
    check_manifest("2");
}

fn check_manifest(version: &str) {
    let name = format!("draw-manifest-{version}");
    let folder = drawn(&name, &["--seed", "11", "--count", "160", "--version", version]);
    let lines = manifest(&folder);
    assert_eq!(lines.len(), 160);
    for (number, line) in lines.iter().enumerate() {
        let kind = if version == "1" { KINDS[number % 8] } else { WIDE_KINDS[number % 7] };
        assert_eq!(line[..2], [format!("{number:06}-{kind}"), kind.to_string()]);
        let bytes = fs::read(folder.join(format!("{}.block", line[0]))).unwrap();
        assert_eq!(line[2..6], counts(&bytes).map(|count| count.to_string()), "{}", line[0]);
        let costs = [&bytes, &split(&bytes)].map(|block| velejume::phase(block).unwrap().cost);
        assert_eq!(line[6..8], costs.map(|cost| cost.to_string()), "{}", line[0]);
        assert_eq!(line[8], if costs[0] == costs[1] { "no" } else { "yes" });
    }
    let text = fs::read_to_string(folder.join("manifest.tsv")).unwrap();
    let drawn = if version == "1" { "\n" } else { " --version 2\n" };
    let origin = format!("# velejume {} draw --seed 11 --count 160{drawn}", env!("CARGO_PKG_VERSION"));
    assert!(text.starts_with(&origin), "{text}");
}

#[test]
fn columns_depth_and_kinds_are_those_asked_for() {
    let more = ["--seed", "5", "--count", "30", "--columns", "17", "--depth", "5", "--kind", "pairs,apart,inside"];
    let folder = drawn("draw-asked", &more);
    for (number, line) in manifest(&folder).iter().enumerate() {
        assert_eq!(line[1], ["pairs", "apart", "inside"][number % 3]);
        assert_eq!((line[2].as_str(), line[4].as_str()), ("17", "5"), "{line:?}");
    }
    let text = fs::read_to_string(folder.join("manifest.tsv")).unwrap();
    assert!(text.lines().next().unwrap().ends_with(&format!(" draw {}", more.join(" "))), "{text}");
}

#[test]
fn our_answers_are_ours() {
    for version in ["1", "2"] {
        let more = ["--seed", "3", "--count", "80", "--answers", "ours", "--version", version];
        let folder = drawn(&format!("draw-ours-{version}"), &more);
        let (output, _, status) = run(&words!["judge", &folder]);
        assert!(output.starts_with("50 malformed ") && output.ends_with("80 of 80 are least (56 or 57)\n"), "{output}");
        assert_eq!(status, 0);
        assert_eq!(run(&words!["answers", &folder]).0, "0 written, 80 there already, 0 not ours\n");
    }
}

#[test]
fn a_forgetful_solver_fails_on_every_marked_block_and_on_none_without_gaps() {
    check_forgetful("1");
    check_forgetful("2");
}

fn check_forgetful(version: &str) {
    let more = ["--seed", "9", "--count", "240", "--answers", "forgetful", "--version", version];
    let folder = drawn(&format!("draw-forgetful-{version}"), &more);
    let file = folder.join("lines.tsv");
    assert_eq!(run(&words!["judge", &folder, "--tsv", &file]).2, 1);
    let judged = fs::read_to_string(file).unwrap();
    let judged: Vec<Vec<&str>> = judged.lines().map(|line| line.split('\t').collect()).collect();
    let (mut marked, mut gapless) = (0, 0);
    for (drawn, judged) in manifest(&folder).iter().zip(&judged) {
        assert_eq!([&drawn[0], &drawn[2], &drawn[3], &drawn[4]], [judged[0], judged[1], judged[2], judged[3]]);
        assert_eq!([&drawn[7], &drawn[6]], [judged[5], judged[6]], "stated and least cost");
        if drawn[8] == "yes" {
            assert!(["53", "54"].contains(&judged[4]), "{drawn:?} got {}", judged[4]);
            marked += 1;
        }
        if drawn[5] == "0" {
            assert_eq!(judged[4], "57", "{drawn:?}");
            gapless += 1;
        }
    }
    assert!(marked > 60 && gapless > 30, "{marked} marked, {gapless} without gaps");
}

#[test]
fn what_is_printed_is_a_table_of_the_kinds() {
    let folder = folder("draw-printed");
    let words = words!["draw", folder.join("new/deep"), "--seed", "1", "--count", "10"];
    let (output, error, status) = run(&words);
    assert_eq!((error.as_str(), status), ("", 0));
    let lines: Vec<Vec<&str>> = output.lines().map(|line| line.split_whitespace().collect()).collect();
    assert_eq!(lines[0], ["kind", "blocks", "reads", "gaps", "marked"]);
    assert_eq!(lines[1..9].iter().map(|line| line[0]).collect::<Vec<_>>(), KINDS);
    assert_eq!((lines[1][1], lines[3][1], lines[9][0], lines[9][1]), ("2", "1", "all", "10"));
    let manifest = manifest(&folder.join("new/deep"));
    let sum = |field: usize| manifest.iter().map(|line| line[field].parse::<usize>().unwrap()).sum::<usize>();
    let marked = manifest.iter().filter(|line| line[8] == "yes").count();
    assert_eq!(lines[9][2..], [sum(3), sum(5), marked].map(|number| number.to_string()));
}

#[test]
fn the_help_names_every_kind() {
    let help = run(&["draw", "--help"]).0;
    assert!(KINDS.iter().all(|kind| help.lines().any(|line| line.trim_start().starts_with(&format!("{kind} ")))));
    let (_, error, _) = run(&["draw", "a", "--seed", "1", "--count", "1", "--kind", ""]);
    assert!(error.contains(&format!("--kind : it should be one or more of {}\n", KINDS.join(", "))), "{error}");
}

#[test]
fn a_folder_that_is_not_empty_is_left_as_it_is() {
    let folder = folder("draw-full");
    fs::write(folder.join("a.block"), block("0:7")).unwrap();
    let (output, error, status) = run(&words!["draw", &folder, "--seed", "1", "--count", "1"]);
    assert_eq!((output.as_str(), status), ("", 2));
    assert_eq!(error, format!("velejume draw: {}: the folder is not empty\n", folder.display()));
    assert_eq!(names(&folder), ["a.block"]);
    let file = folder.join("a.block");
    let (output, error, status) = run(&words!["draw", &file, "--seed", "1", "--count", "1"]);
    assert_eq!((output.as_str(), status), ("", 2));
    assert!(error.starts_with(&format!("velejume draw: {}: File exists", file.display())), "{error}");
}
