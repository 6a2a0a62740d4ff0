//! Output that nobody reads any more ends quietly, and output that cannot be written is said.

use crate::common::{P2, answer, block, command, folder, put, run};
use crate::words;
use std::ffi::OsString;
use std::fs::{self, OpenOptions};
use std::io::{BufRead, BufReader};
use std::process::Stdio;

/// What the program says on standard error, and its status, if nobody reads its output.
fn unread(words: &[OsString]) -> (String, i32) {
    let mut program = command(words).stdin(Stdio::null()).spawn().unwrap();
    drop(program.stdout.take());
    let output = program.wait_with_output().unwrap();
    (String::from_utf8(output.stderr).unwrap(), output.status.code().unwrap())
}

/// The same if one line is read; gives that line too.
fn read_one(words: &[OsString]) -> (String, String, i32) {
    let mut program = command(words).stdin(Stdio::null()).spawn().unwrap();
    let mut line = String::new();
    BufReader::new(program.stdout.take().unwrap()).read_line(&mut line).unwrap();
    let output = program.wait_with_output().unwrap();
    (line, String::from_utf8(output.stderr).unwrap(), output.status.code().unwrap())
}

#[test]
fn a_closed_pipe_is_no_fault() {
    let folder = folder("pipes");
    put(&folder, "a", P2, "0, 1, 001, 000, 111");
    put(&folder, "b", P2, "3, 1, 001, 000, 111");
    let at = folder.join("a.block");
    assert_eq!(unread(&words!["phase", &at]), (String::new(), 0));
    assert_eq!(unread(&words!["judge", &at, folder.join("a.answer")]), (String::new(), 1));
    assert_eq!(unread(&words!["judge", &folder]), (String::new(), 1));
    assert_eq!(unread(&words!["answers", &folder]), (String::new(), 1));
    assert_eq!(unread(&words!["convert", &at]), (String::new(), 0));
    assert_eq!(unread(&words!["convert", &folder, "--to", folder.join("wide")]), (String::new(), 0));
    assert_eq!(unread(&words!["matrix", "--text", &at]), (String::new(), 0));
    assert_eq!(unread(&words!["draw", folder.join("new"), "--seed", "1", "--count", "1"]), (String::new(), 0));
    for words in [words!["--help"], words!["--version"]] {
        assert_eq!(unread(&words), (String::new(), 0));
    }
}

#[test]
fn one_line_of_much_output_is_enough() {
    let folder = folder("pipes-much");
    let long = vec!["0:1"; 1024].join(" ");
    let paths: Vec<_> = (0..600).map(|i| folder.join(format!("{i:03}.block"))).collect();
    for path in &paths {
        fs::write(path, block(&long)).unwrap();
        fs::write(path.with_extension("answer"), answer("9, 0, 0, 0, -")).unwrap();
    }
    let all = [words!["phase"].to_vec(), paths.iter().map(|path| path.clone().into_os_string()).collect()].concat();
    assert_eq!(read_one(&all), (format!("block {}\n", paths[0].display()), String::new(), 0));
    assert_eq!(read_one(&words!["judge", &folder]), ("000: 51 other n or m\n".to_string(), String::new(), 1));
}

#[test]
fn answers_are_written_though_nobody_reads() {
    let folder = folder("pipes-answers");
    let paths: Vec<_> = (0..600).map(|i| folder.join(format!("{i:03}.block"))).collect();
    paths.iter().for_each(|path| fs::write(path, block(P2)).unwrap());
    let names = paths.iter().map(|path| path.clone().into_os_string()).collect();
    let all = [words!["phase", "--answer"].to_vec(), names].concat();
    assert_eq!(unread(&all), (String::new(), 0));
    assert!(paths.iter().all(|path| path.with_extension("answer").is_file()));
}

#[test]
fn output_that_cannot_be_written_gets_status_2() {
    let full = || OpenOptions::new().write(true).open("/dev/full").unwrap();
    let folder = folder("pipes-full");
    put(&folder, "a", P2, "3, 1, 001, 000, 111");
    for words in [words!["judge", &folder].to_vec(), words!["--help"].to_vec()] {
        let output = command(&words).stdout(full()).output().unwrap();
        let error = String::from_utf8(output.stderr).unwrap();
        assert!(error.contains(": standard output: No space left on device"), "{error}");
        assert_eq!(output.status.code(), Some(2));
    }
    let status = command(&words!["what"]).stderr(full()).output().unwrap().status;
    assert_eq!(status.code(), Some(2), "nor does a message that cannot be written end in a panic");
    assert_eq!(run(&words!["judge", &folder]).2, 0);
}
