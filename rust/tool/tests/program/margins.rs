//! `velejume phase --margins`: two lines more, that say how sure each letter is.

use crate::common::{P2, P2_LINES, P2_OURS, answer, block, folder, run};
use crate::words;
use std::fs;

const P2_MARGINS: &str = "margin1 9 5 2\nmargin2 5 5 5\n";

#[test]
fn two_lines_follow_the_five() {
    let folder = folder("margins-phase");
    let [pair, cut, tie] = ["pair.block", "cut.block", "tie.block"].map(|name| folder.join(name));
    fs::write(&pair, block(P2)).unwrap();
    fs::write(&cut, &block(P2)[..38]).unwrap();
    fs::write(&tie, block("0:0 / 1:0")).unwrap();
    assert_eq!(run(&words!["phase", "--margins", &pair]), (format!("{P2_LINES}{P2_MARGINS}"), String::new(), 0));
    let refused = "refused 3 at 0: length field differs from bytes present after byte 4\n";
    let weightless = "cost 0\nflips 1\nsides 00\nhap1 -\nhap2 -\nmargin1 0\nmargin2 0\n";
    let [first, second, third] = [&tie, &cut, &pair].map(|path| path.display());
    let lines = format!("block {first}\n{weightless}block {second}\n{refused}block {third}\n{P2_LINES}{P2_MARGINS}");
    assert_eq!(run(&words!["phase", &tie, &cut, &pair, "--margins"]), (lines, String::new(), 1));
}

#[test]
fn answers_beside_are_those_without_margins() {
    let folder = folder("margins-answer");
    let path = folder.join("a.block");
    fs::write(&path, block(P2)).unwrap();
    let lines = format!("{P2_LINES}{P2_MARGINS}");
    assert_eq!(run(&words!["phase", "--answer", "--margins", &path]), (lines, String::new(), 0));
    assert_eq!(fs::read(folder.join("a.answer")).unwrap(), answer(P2_OURS));
    assert_eq!(run(&words!["phase", "--answer", &path]), (P2_LINES.to_string(), String::new(), 0));
}

#[test]
fn the_heaviest_columns_have_the_largest_margins() {
    let folder = folder("margins-largest");
    let path = folder.join("a.block");
    fs::write(&path, block(&vec![vec!["1:65535"; 1024].join(" "); 12].join("/"))).unwrap();
    let (output, error, status) = run(&words!["phase", "--margins", &path]);
    let [largest, none] = [" 786420", " 0"].map(|margin| margin.repeat(1024));
    assert!(output.ends_with(&format!("-\nmargin1{largest}\nmargin2{none}\n")), "{output}");
    assert_eq!((output.lines().count(), error.as_str(), status), (7, "", 0));
}
