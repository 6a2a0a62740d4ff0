//! `velejume answers`: our answers written for a folder of blocks.

use crate::common::{P2, P2_OURS, answer, block, folder, run};
use crate::words;
use std::fs;
use std::path::Path;

fn make(folder: &Path) -> (String, String, i32) {
    run(&words!["answers", folder])
}

#[test]
fn the_answers_written_are_ours() {
    let folder = folder("made");
    fs::write(folder.join("p2.block"), block(P2)).unwrap();
    fs::write(folder.join("empty.block"), block(". / 0:7")).unwrap();
    assert_eq!(make(&folder), ("2 written, 0 there already, 0 not ours\n".to_string(), String::new(), 0));
    assert_eq!(fs::read(folder.join("p2.answer")).unwrap(), answer(P2_OURS));
    assert_eq!(fs::read(folder.join("empty.answer")).unwrap(), answer("0, 0, 00, 0, -"));
    let (output, _, status) = run(&words!["judge", &folder]);
    assert!(output.ends_with("2 of 2 are least (56 or 57)\n") && status == 0, "{output}");
    assert_eq!(make(&folder), ("0 written, 2 there already, 0 not ours\n".to_string(), String::new(), 0));
}

#[test]
fn a_refused_block_is_said_and_gets_no_answer() {
    let folder = folder("made-refused");
    fs::write(folder.join("a.block"), &block(P2)[..38]).unwrap();
    fs::write(folder.join("b.block"), block(P2)).unwrap();
    let lines = "a: refused 3 at 0: length field differs from bytes present after byte 4\n\
                 1 written, 0 there already, 1 not ours\n";
    assert_eq!(make(&folder), (lines.to_string(), String::new(), 1));
    assert!(!folder.join("a.answer").exists());
    assert_eq!(fs::read(folder.join("b.answer")).unwrap(), answer(P2_OURS));
}

#[test]
fn a_builders_answer_is_kept() {
    let folder = folder("made-kept");
    let theirs = answer("0, 1, 001, 000, 111");
    fs::write(folder.join("a.block"), block(P2)).unwrap();
    fs::write(folder.join("a.answer"), &theirs).unwrap();
    fs::write(folder.join("b.answer"), &theirs).unwrap();
    let lines = "a: another answer is there and is kept\n0 written, 0 there already, 1 not ours\n";
    assert_eq!(make(&folder), (lines.to_string(), String::new(), 1));
    assert_eq!(fs::read(folder.join("a.answer")).unwrap(), theirs);
    assert_eq!(fs::read(folder.join("b.answer")).unwrap(), theirs);
}

#[test]
fn a_folder_without_blocks_gets_status_2() {
    let folder = folder("made-nothing");
    fs::write(folder.join("b.answer"), answer(P2_OURS)).unwrap();
    let (output, error, status) = make(&folder);
    assert_eq!((output.as_str(), status), ("", 2));
    assert!(error.ends_with("made-nothing: holds no NAME.block\n"), "{error}");
    assert_eq!(make(Path::new("no such folder")).2, 2);
}
