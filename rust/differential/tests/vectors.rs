//! The outside vectors of tests/vectors, from solvers that share nothing with the project's, through the proved calls and the
//! independent solver: both numbers, every entry of the work room, every byte of the output, every margin.

use differential::{Convert, Judge, Margins, proved, proved_convert, proved_judge, proved_margins, searchable};
use solver::{Mode, Phase};
use std::collections::{BTreeMap, BTreeSet};
use std::path::Path;

/// Every byte of a lent room.
const LENT: u8 = 0xa5;

/// What a line says, by its keys: what is lent, and behind the arrow what is found. The numbers are `number` and `second`.
struct Line {
    lent: BTreeMap<String, String>,
    found: BTreeMap<String, String>,
}

fn fields<'a>(words: impl Iterator<Item = &'a str>) -> BTreeMap<String, String> {
    words.map(|word| word.split_once('=').expect("a key and a value")).map(|(k, v)| (k.into(), v.into())).collect()
}

/// The lines of a file that are no comments.
fn lines(name: &str) -> Vec<Line> {
    let path = Path::new(env!("CARGO_MANIFEST_DIR")).join("../../tests/vectors").join(name);
    let text = std::fs::read_to_string(&path).unwrap_or_else(|fault| panic!("{}: {fault}", path.display()));
    let line = |line: &str| {
        let (lent, found) = line.split_once(" -> ").expect("an arrow");
        let mut words = found.split(' ');
        let numbers = ["number", "second"].map(|name| format!("{name}={}", words.next().expect("two numbers")));
        Line { lent: fields(lent.split(' ')), found: fields(numbers.iter().map(String::as_str).chain(words)) }
    };
    text.lines().filter(|line| !line.starts_with('#')).map(line).collect()
}

fn number(text: &str) -> u32 {
    text.parse().expect("a number")
}

fn bytes(text: &str) -> Vec<u8> {
    let digits = if text == "." { "" } else { text };
    (0..digits.len()).step_by(2).map(|at| u8::from_str_radix(&digits[at..at + 2], 16).expect("a byte")).collect()
}

fn entries(text: &str) -> Vec<u32> {
    if text == "." { Vec::new() } else { text.split(',').map(number).collect() }
}

impl Line {
    fn numbers(&self) -> (u32, u32) {
        (number(&self.found["number"]), number(&self.found["second"]))
    }

    /// A room of numbers as it is lent.
    fn room(&self, name: &str) -> Vec<u32> {
        vec![u32::from_ne_bytes([LENT; 4]); number(&self.lent[name]) as usize]
    }

    /// An output as it is lent.
    fn out(&self) -> Vec<u8> {
        vec![LENT; number(&self.lent["out"]) as usize]
    }

    fn mode(&self) -> Mode {
        match self.lent["mode"].as_str() {
            "general" => Mode::General,
            "het" => Mode::Heterozygous,
            other => panic!("there is no mode {other}"),
        }
    }

    fn phase(&self, name: &str, call: Phase) {
        let block = bytes(&self.lent["block"]);
        let (mut work, mut out) = (self.room("work"), self.out());
        let numbers = call(self.mode(), &block, &mut work, &mut out);
        self.phased(name, (numbers, work, out));
    }

    /// Numbers, work room and output must be as found.
    fn phased(&self, name: &str, (numbers, work, out): ((u32, u32), Vec<u32>, Vec<u8>)) {
        assert_eq!(numbers, self.numbers(), "{name}: {}", self.lent["block"]);
        assert_eq!(work, entries(&self.found["work"]), "{name}: {}", self.lent["block"]);
        assert_eq!(out, bytes(&self.found["out"]), "{name}: {}", self.lent["block"]);
    }

    fn margins(&self, name: &str, call: Margins) {
        let block = bytes(&self.lent["block"]);
        let (mut work, mut out, mut run) = (self.room("work"), self.out(), self.room("margins"));
        let numbers = call(&block, &mut work, &mut out, &mut run);
        self.phased(name, (numbers, work, out));
        assert_eq!(run, entries(&self.found["margins"]), "{name}: {}", self.lent["block"]);
    }

    fn convert(&self, name: &str, convert: Convert) {
        let (block, mut out) = (bytes(&self.lent["block"]), self.out());
        assert_eq!(convert(&block, &mut out), self.numbers(), "{name}: {}", self.lent["block"]);
        assert_eq!(out, bytes(&self.found["out"]), "{name}: {}", self.lent["block"]);
    }

    fn judge(&self, name: &str, judge: Judge) {
        let (block, answer, mut work) = (bytes(&self.lent["block"]), bytes(&self.lent["answer"]), self.room("work"));
        let numbers = judge(&block, &answer, &mut work);
        assert_eq!(numbers, self.numbers(), "{name}: {}", self.lent["block"]);
        assert_eq!(work, entries(&self.found["work"]), "{name}: {}", self.lent["block"]);
    }
}

/// The numbers that are met with blocks whose first byte is this.
fn met<'a>(lines: impl IntoIterator<Item = &'a Line>, version: u8) -> BTreeSet<u32> {
    let of = |line: &&Line| bytes(&line.lent["block"]).first() == Some(&version);
    lines.into_iter().filter(of).map(|line| line.numbers().0).collect()
}

#[test]
fn blocks_of_both_versions_are_phased_as_outside_in_both_modes() {
    // 13 is of calls with margins
    let lines: Vec<Line> = lines("solve.txt").into_iter().filter(|line| line.numbers().0 != 13).collect();
    let solvers: [(&str, Phase); 3] = [("proved", proved), ("columns", solver::columns), ("walk", solver::walk)];
    for line in &lines {
        solvers.iter().for_each(|(name, call)| line.phase(name, *call));
        if searchable(&bytes(&line.lent["block"])) {
            line.phase("plain search", solver::exhaustive);
        }
    }
    let (general, heterozygous): (Vec<&Line>, _) = lines.iter().partition(|line| line.mode() == Mode::General);
    assert_eq!((general.len(), heterozygous.len()), (170, 115));
    assert!(met(general.clone(), 1).is_superset(&[0, 1, 3, 4, 5, 8, 10, 11].into()));
    assert!(met(general, 2).is_superset(&[0, 1, 7, 8, 10, 11].into()));
    assert!(met(heterozygous.clone(), 1).is_superset(&[0, 5, 7, 10, 11].into()));
    assert!(met(heterozygous, 2).is_superset(&[0, 1, 3, 4, 5, 7, 8, 10, 11, 38].into()));
}

#[test]
fn margins_of_blocks_of_both_versions_are_as_outside() {
    let lines: Vec<Line> = lines("solve.txt").into_iter().filter(|line| line.mode() == Mode::General).collect();
    for line in &lines {
        line.margins("proved", proved_margins);
        line.margins("columns", |block, work, out, run| solver::margins(solver::columns, block, work, out, run));
        if searchable(&bytes(&line.lent["block"])) {
            let searched = |block: &[u8], work: &mut [u32], out: &mut [u8], run: &mut [u32]| {
                solver::margins(solver::exhaustive, block, work, out, run)
            };
            line.margins("plain search", searched);
        }
    }
    assert_eq!((lines.len(), lines.iter().filter(|line| line.numbers().0 == 13).count()), (185, 15));
    assert!(met(&lines, 1).is_superset(&[0, 1, 3, 4, 5, 8, 10, 11, 13].into()));
    assert!(met(&lines, 2).is_superset(&[0, 1, 7, 8, 10, 11, 13].into()));
}

fn by_columns(block: &[u8], answer: &[u8], work: &mut [u32]) -> (u32, u32) {
    solver::judge(solver::columns, block, answer, work)
}

fn by_plain_search(block: &[u8], answer: &[u8], work: &mut [u32]) -> (u32, u32) {
    solver::judge(solver::exhaustive, block, answer, work)
}

#[test]
fn answers_to_blocks_of_both_versions_are_judged_as_outside() {
    let lines = lines("judge.txt");
    for line in &lines {
        line.judge("proved", proved_judge);
        line.judge("columns", by_columns);
        if searchable(&bytes(&line.lent["block"])) {
            line.judge("plain search", by_plain_search);
        }
    }
    assert_eq!(lines.len(), 300);
    assert!(met(&lines, 1).is_superset(&[1, 3, 5, 6, 7, 9, 10, 50, 51, 52, 53, 54, 55, 56, 57].into()));
    assert!(met(&lines, 2).is_superset(&[1, 3, 4, 5, 7, 8, 9, 10, 38, 50, 51, 52, 53, 54, 55, 56, 57].into()));
}

#[test]
fn blocks_are_converted_as_outside() {
    let lines = lines("convert.txt");
    for line in &lines {
        line.convert("proved", proved_convert);
        line.convert("solver", solver::convert);
    }
    assert_eq!(lines.len(), 150);
    assert!(met(&lines, 1).is_superset(&[0, 1, 3, 4, 5, 6, 7, 8, 39].into()));
    assert!(met(&lines, 2).is_superset(&[2].into()));
}
