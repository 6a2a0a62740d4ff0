//! `velejume matrix`: the notation to a block and back.

use crate::common::{folder, run_with};
use crate::words;
use std::ffi::OsString;
use std::fs;

/// What `velejume matrix` writes with these words and this input.
fn run(words: &[&str], input: &[u8]) -> (Vec<u8>, String, i32) {
    let words: Vec<OsString> = ["matrix"].iter().chain(words).map(OsString::from).collect();
    run_with(&words, input)
}

const BLOCK: [u8; 21] = [1, 0, 0, 0, 16, 0, 2, 0, 2, 0, 4, 0, 0, 0, 5, 0, 4, 0, 1, 1, 7];

#[test]
fn a_text_becomes_a_block() {
    assert_eq!(run(&["--block"], b"0:5 / . 1:7"), (BLOCK.to_vec(), String::new(), 0));
    assert_eq!(run(&["--block", "--columns", "1"], b""), (vec![1, 0, 0, 0, 4, 0, 1, 0, 0], String::new(), 0));
}

#[test]
fn a_block_becomes_a_text() {
    assert_eq!(run(&["--text"], &BLOCK), (b"0:5 . /\n. 1:7\n".to_vec(), String::new(), 0));
}

/// `0:5 / . 1:7` in version 2.
const WIDE: [u8; 23] = [2, 0, 0, 0, 18, 0, 2, 0, 2, 0, 5, 0, 0, 0, 0, 5, 0, 5, 0, 1, 1, 0, 7];

#[test]
fn the_version_is_the_one_given_or_needed() {
    assert_eq!(run(&["--block", "--version", "2"], b"0:5 / . 1:7"), (WIDE.to_vec(), String::new(), 0));
    assert_eq!(run(&["--block", "--version=1"], b"0:5 / . 1:7"), (BLOCK.to_vec(), String::new(), 0));
    assert_eq!(run(&["--text"], &WIDE), (b"0:5 . /\n. 1:7\n".to_vec(), String::new(), 0));
    let heavy = [2, 0, 0, 0, 11, 0, 1, 0, 1, 0, 5, 0, 0, 1, 1, 0].to_vec();
    assert_eq!(run(&["--block"], b"1:256"), (heavy.clone(), String::new(), 0));
    assert_eq!(run(&["--text"], &heavy), (b"1:256\n".to_vec(), String::new(), 0));
    let said = "velejume matrix: standard input: row 1, entry 1: weight 256 is above 255, which takes version 2\n";
    assert_eq!(run(&["--block", "--version", "1"], b"1:256"), (Vec::new(), said.to_string(), 1));
}

#[test]
fn a_read_without_cells_is_an_error_in_version_2() {
    let block = [1, 0, 0, 0, 14, 0, 1, 0, 2, 0, 2, 0, 0, 0, 4, 0, 0, 0, 7];
    assert_eq!(run(&["--block"], b". / 0:7"), (block.to_vec(), String::new(), 0));
    let said = "velejume matrix: standard input: row 1 has no entry: \
                version 2, which weights above 255 take, has no reads without cells\n";
    assert_eq!(run(&["--block", "--version", "2"], b". / 0:7"), (Vec::new(), said.to_string(), 1));
    assert_eq!(run(&["--block"], b". / 0:256"), (Vec::new(), said.to_string(), 1));
    let refused = "velejume matrix: standard input: refused 38 at 0\n".to_string();
    let wide = [2, 0, 0, 0, 15, 0, 1, 0, 2, 0, 2, 0, 0, 0, 5, 0, 0, 0, 0, 7];
    assert_eq!(run(&["--text"], &wide), (Vec::new(), refused, 1));
}

#[test]
fn rows_are_separated_by_a_newline_as_well() {
    assert_eq!(run(&["--block"], b"0:5\n. 1:7\n"), (BLOCK.to_vec(), String::new(), 0));
    let text = run(&["--text"], &BLOCK).0;
    assert_eq!(run(&["--block"], &text), (BLOCK.to_vec(), String::new(), 0));
}

#[test]
fn a_file_is_read_in_place_of_standard_input() {
    let folder = folder("matrix-files");
    let (text, block) = (folder.join("a.txt"), folder.join("a.block"));
    fs::write(&text, "0:5 / . 1:7").unwrap();
    fs::write(&block, BLOCK).unwrap();
    assert_eq!(run_with(&words!["matrix", "--block", &text], b"0:9"), (BLOCK.to_vec(), String::new(), 0));
    let lines = b"0:5 . /\n. 1:7\n".to_vec();
    assert_eq!(run_with(&words!["matrix", &block, "--text"], b""), (lines, String::new(), 0));
    let (output, error, status) = run_with(&words!["matrix", "--text", &text], b"");
    let said = format!("velejume matrix: {}: refused 2 at 0\n", text.display());
    assert_eq!((output.len(), error, status), (0, said, 1));
}

#[test]
fn a_fault_is_said_and_nothing_written() {
    let refused = (Vec::new(), "velejume matrix: standard input: refused 3 at 0\n".to_string(), 1);
    assert_eq!(run(&["--text"], &BLOCK[..20]), refused);
    let (output, message, status) = run(&["--block"], b"0:5 / 3:7");
    assert_eq!((output.len(), status), (0, 1));
    assert!(message.starts_with("velejume matrix: standard input: row 2, entry 1: '3:7'"), "{message}");
    assert_eq!(run(&["--block"], &[0xff]).1, "velejume matrix: standard input: it is no text\n");
}

#[test]
fn no_more_is_read_than_a_matrix_can_have() {
    let (output, error, status) = run(&["--text"], &vec![1; 3_149_834]);
    let said = "velejume matrix: standard input: cannot be read: it has more than 3149833 bytes, which no block has\n";
    assert_eq!((output.len(), error.as_str(), status), (0, said, 2));
    let (output, error, status) = run(&["--block"], &vec![b' '; 16 * 1024 * 1024 + 1]);
    let said = "velejume matrix: standard input: cannot be read: it has more than 16777216 bytes, which no text has\n";
    assert_eq!((output.len(), error.as_str(), status), (0, said, 2));
}
