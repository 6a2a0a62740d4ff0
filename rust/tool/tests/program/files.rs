//! Files that are no regular ones, or longer than a lawful one: every command says what they are, and waits for none.

use crate::common::{P2, block, folder, pipe, run};
use crate::words;
use std::ffi::OsString;
use std::fs;
use std::os::unix::fs::symlink;
use std::os::unix::net::UnixListener;
use std::path::{Path, PathBuf};

/// The most bytes that a fragment block and an answer block can have.
const BLOCK: usize = 3_149_833;
const ANSWER: usize = 3_089;

/// A folder with a file of each sort that is no block, and how what is said of it begins.
fn others(name: &str) -> (PathBuf, Vec<(PathBuf, &'static str)>) {
    let folder = folder(name);
    let at = |name: &str| folder.join(name);
    fs::create_dir(at("dir.block")).unwrap();
    pipe(&at("pipe.block"));
    drop(UnixListener::bind(at("socket.block")).unwrap());
    symlink("/dev/zero", at("device.block")).unwrap();
    symlink("loop.block", at("loop.block")).unwrap();
    symlink("/proc/self/mem", at("mem.block")).unwrap();
    fs::write(at("long.block"), vec![1; BLOCK + 1]).unwrap();
    let others = [
        ("device.block", "it is a device, no regular file"),
        ("dir.block", "it is a folder, no regular file"),
        ("long.block", "it has more than 3149833 bytes, which no block has"),
        ("loop.block", "Too many levels of symbolic links (os error 40)"),
        ("mem.block", ""),
        ("missing.block", "No such file or directory (os error 2)"),
        ("pipe.block", "it is a pipe, no regular file"),
        ("socket.block", "it is a socket, no regular file"),
    ];
    let others = others.map(|(name, said)| (at(name), said)).to_vec();
    (folder, others)
}

/// Runs a command that cannot read a file: it prints nothing, says so in one line, and ends with status 2.
fn unreadable(words: &[OsString], path: &Path, said: &str) {
    let (output, error, status) = run(words);
    assert_eq!((output.as_str(), error.lines().count(), status), ("", 1, 2), "{error}");
    let command = words[0].display();
    assert!(error.starts_with(&format!("velejume {command}: {}: cannot be read: {said}", path.display())), "{error}");
}

#[test]
fn phase_says_what_they_are() {
    for (path, said) in others("files-phase").1 {
        unreadable(&words!["phase", &path], &path, said);
    }
}

#[test]
fn judge_convert_and_matrix_say_what_they_are() {
    let (folder, others) = others("files-judge");
    fs::write(folder.join("x.answer"), "").unwrap();
    for (path, said) in others {
        unreadable(&words!["judge", &path, folder.join("x.answer")], &path, said);
        unreadable(&words!["matrix", "--text", &path], &path, said);
        if !path.is_dir() {
            unreadable(&words!["convert", &path], &path, said);
        }
    }
}

#[test]
fn a_folder_of_them_is_judged_and_answered_with_a_line_for_each() {
    let (folder, others) = others("files-folder");
    for (path, _) in &others {
        fs::write(path.with_extension("answer"), "").unwrap();
    }
    let name = |path: &PathBuf| path.file_stem().unwrap().to_str().unwrap().to_string();
    let line = |(path, said): &(PathBuf, &str)| match name(path).as_str() {
        "missing" => "missing: an answer without a block".to_string(),
        name => format!("{name}: the block cannot be read: {said}"),
    };
    let wanted: Vec<String> = others.iter().map(line).collect();
    let begin = |lines: &[&str], wanted: &[String]| {
        assert!(lines.iter().zip(wanted).all(|(line, wanted)| line.starts_with(wanted)), "{lines:?}");
    };
    let (output, error, status) = run(&words!["judge", &folder]);
    let lines: Vec<&str> = output.lines().collect();
    begin(&lines[..8], &wanted);
    assert_eq!((lines[8], error.as_str(), status), ("", "", 1));
    let (output, error, status) = run(&words!["answers", &folder]);
    let lines: Vec<&str> = output.lines().collect();
    begin(&lines[..7], &wanted.into_iter().filter(|line| !line.starts_with("missing")).collect::<Vec<_>>());
    assert_eq!((lines[7], error.as_str(), status), ("0 written, 0 there already, 7 not ours", "", 1));
    let (output, error, status) = run(&words!["convert", &folder, "--to", folder.join("wide")]);
    let sum = "\n0 written, 0 there already, 7 not converted; 0 reads without cells left out\n";
    assert!(output.lines().take(7).all(|line| line.contains(".block: the block cannot be read: ")), "{output}");
    assert!(output.ends_with(sum) && error.is_empty() && status == 1, "{output}{error}");
}

#[test]
fn the_longest_block_and_the_longest_answer_are_read_and_one_byte_more_is_not() {
    let folder = folder("files-longest");
    let (at, answer) = (folder.join("a.block"), folder.join("a.answer"));
    let judge = |block: &[u8], bytes: usize| {
        fs::write(&at, block).unwrap();
        fs::write(&answer, vec![2; bytes]).unwrap();
        run(&words!["judge", &at, &answer])
    };
    let longest = block(&vec![vec!["0:256"; 1024].join(" "); 1024].join("/"));
    assert_eq!(longest.len(), BLOCK);
    assert!(judge(&longest, 0).0.starts_with("refused 9 at 0: "));
    assert!(
        judge(&[&longest[..], &[0]].concat(), 0).1.contains("a.block: cannot be read: it has more than 3149833 bytes")
    );
    assert_eq!(judge(&block(P2), ANSWER), ("50 malformed\n".to_string(), String::new(), 1));
    let said = "a.answer: cannot be read: it has more than 3089 bytes, which no answer has\n";
    assert!(judge(&block(P2), ANSWER + 1).1.ends_with(said));
}

#[test]
fn a_folder_given_for_a_file_and_a_file_for_a_folder_are_said() {
    let folder = folder("files-exchanged");
    fs::write(folder.join("a.block"), block(P2)).unwrap();
    for command in ["judge", "answers"] {
        let (output, error, status) = run(&words![command, folder.join("a.block")]);
        assert_eq!((output.as_str(), status), ("", 2));
        let file = folder.join("a.block");
        assert!(
            error.starts_with(&format!("velejume {command}: {}: cannot be read: Not a dir", file.display())),
            "{error}"
        );
    }
}
