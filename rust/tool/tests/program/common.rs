//! What the tests have in common: folders, blocks, answers, and the program run.

use std::ffi::{OsStr, OsString};
use std::fs;
use std::io::Write;
use std::path::{Path, PathBuf};
use std::process::{Command, Stdio};

pub const P2: &str = "0:4 . 1:3 / 0:5 0:5 0:5 / 1:5 1:5 1:5";
pub const P2_OURS: &str = "3, 1, 001, 000, 111";
pub const P2_LINES: &str = "cost 3\nflips 1\nsides 001\nhap1 000\nhap2 111\n";

/// An empty folder.
pub fn folder(name: &str) -> PathBuf {
    let folder = Path::new(env!("CARGO_TARGET_TMPDIR")).join(name);
    if folder.exists() {
        fs::remove_dir_all(&folder).unwrap();
    }
    fs::create_dir_all(&folder).unwrap();
    folder
}

pub fn block(matrix: &str) -> Vec<u8> {
    matrix::parse(matrix, None).unwrap().block()
}

/// The answer block for `cost, flips, sides, haplotype 1, haplotype 2`, of another version where one is named behind.
pub fn answer(words: &str) -> Vec<u8> {
    let words: Vec<&str> = words.split(", ").collect();
    let version = words.get(5).map_or(2, |word| word.strip_prefix("version ").unwrap().parse().unwrap());
    let number = |i: usize| words[i].parse::<u32>().unwrap().to_be_bytes();
    let counts = [words[2].len() as u16, words[3].len() as u16].map(u16::to_be_bytes).concat();
    let marks = words[2..5].concat();
    let marks = marks.bytes().map(|mark| if mark == b'-' { 2 } else { mark - b'0' }).collect();
    let rest = [number(0).to_vec(), number(1).to_vec(), counts, marks].concat();
    [&[version], &(rest.len() as u32).to_be_bytes()[..], &rest].concat()
}

/// Puts a block and an answer into a folder.
pub fn put(folder: &Path, name: &str, matrix: &str, words: &str) {
    fs::write(folder.join(format!("{name}.block")), block(matrix)).unwrap();
    fs::write(folder.join(format!("{name}.answer")), answer(words)).unwrap();
}

/// Words of different types, one behind the other.
#[macro_export]
macro_rules! words {
    ($($word:expr),* $(,)?) => { [$(std::ffi::OsString::from($word)),*] };
}

/// What the program writes to standard output and to standard error, and its exit status.
pub fn run<S: AsRef<OsStr>>(words: &[S]) -> (String, String, i32) {
    let (output, error, status) = run_with(words, b"");
    (String::from_utf8(output).unwrap(), error, status)
}

/// The same with something on standard input.
pub fn run_with<S: AsRef<OsStr>>(words: &[S], input: &[u8]) -> (Vec<u8>, String, i32) {
    let mut program = command(words).stdin(Stdio::piped()).spawn().unwrap();
    // a program that needs no input may end before it
    let _ = program.stdin.take().unwrap().write_all(input);
    let output = program.wait_with_output().unwrap();
    (output.stdout, String::from_utf8(output.stderr).unwrap(), output.status.code().unwrap())
}

/// The program with these words, both outputs to be read.
pub fn command<S: AsRef<OsStr>>(words: &[S]) -> Command {
    let mut command = Command::new(env!("CARGO_BIN_EXE_velejume"));
    command.args(words).stdout(Stdio::piped()).stderr(Stdio::piped());
    command
}

/// A pipe in a folder, as the command `mkfifo` makes it.
pub fn pipe(path: &Path) {
    assert!(Command::new("mkfifo").arg(path).status().unwrap().success());
}

/// The names of a folder's files.
pub fn names(folder: &Path) -> Vec<OsString> {
    let mut names: Vec<OsString> = fs::read_dir(folder).unwrap().map(|entry| entry.unwrap().file_name()).collect();
    names.sort();
    names
}
