//! `velejume judge --tsv`: a line for each answer, and shares that make up the whole.

use crate::common::{P2, P2_OURS, answer, block, folder, names, put, run};
use crate::words;
use std::ffi::OsStr;
use std::fs;
use std::os::unix::ffi::OsStrExt;
use std::path::Path;

/// The lines that a judging writes.
fn lines(folder: &Path, file: &Path, more: &[&str]) -> String {
    let more = more.iter().map(|word| word.into()).collect();
    let (_, error, status) = run(&[words!["judge", folder, "--tsv", file].to_vec(), more].concat());
    assert!(error.is_empty() && status < 2, "{error}");
    fs::read_to_string(file).unwrap()
}

/// A folder with everything that can come of an answer.
fn everything(name: &str) -> std::path::PathBuf {
    let folder = folder(name);
    let answers = [
        ("a", "3, 1, 001, 000, 111, version 1"),
        ("b", "7, 0, 0001, 000, 111"),
        ("c", "3, 1, 002, 000, 111"),
        ("d", "3, 1, 001, 00-, 111"),
        ("e", "0, 1, 001, 000, 111"),
        ("f", "4, 1, 101, 000, 111"),
        ("g", "3, 1, 110, 111, 000"),
        ("h", P2_OURS),
    ];
    answers.iter().for_each(|(name, words)| put(&folder, name, P2, words));
    fs::write(folder.join("i.block"), &block(P2)[..38]).unwrap();
    fs::write(folder.join("i.answer"), answer(P2_OURS)).unwrap();
    fs::write(folder.join("j.block"), block(&vec!["0:1 . 1:1"; 13].join("/"))).unwrap();
    fs::write(folder.join("j.answer"), answer("5, 0, 0, 0, 0")).unwrap();
    fs::write(folder.join("k.block"), block(P2)).unwrap();
    fs::write(folder.join("l.answer"), answer(P2_OURS)).unwrap();
    fs::create_dir(folder.join("m.block")).unwrap();
    fs::write(folder.join("m.answer"), answer(P2_OURS)).unwrap();
    put(&folder, "tab\there", "0:5 / 1:5", "5, 1, 00, -, -");
    fs::write(folder.join(OsStr::from_bytes(b"z\xff.block")), block(P2)).unwrap();
    fs::write(folder.join(OsStr::from_bytes(b"z\xfe.answer")), answer(P2_OURS)).unwrap();
    folder
}

#[test]
fn each_line_has_seven_fields_in_order_of_names() {
    let folder = everything("tsv-lines");
    let wanted = "\
a\t3\t3\t3\t50\t.\t3
b\t3\t3\t3\t51\t7\t3
c\t3\t3\t3\t52\t3\t3
d\t3\t3\t3\t53\t3\t3
e\t3\t3\t3\t54\t0\t3
f\t3\t3\t3\t55\t4\t3
g\t3\t3\t3\t56\t3\t3
h\t3\t3\t3\t57\t3\t3
i\t.\t.\t.\t3\t3\t.
j\t3\t13\t13\t9\t5\t.
k\t3\t3\t3\tno-answer\t.\t.
l\t.\t.\t.\tno-block\t3\t.
m\t.\t.\t.\tunreadable\t3\t.
tab\\u{9}here\t1\t2\t2\t55\t5\t0
z\\xfe\t.\t.\t.\tno-block\t3\t.
z\\xff\t3\t3\t3\tno-answer\t.\t.
";
    for file in ["one.tsv", "two"] {
        assert_eq!(lines(&folder, &folder.join(file), &[]), wanted);
    }
}

#[test]
fn shares_one_behind_the_other_are_the_whole() {
    let folder = everything("tsv-parts");
    let whole = lines(&folder, &folder.join("whole.tsv"), &[]);
    for of in [1, 2, 3, 5, 16, 40] {
        let part = |i: usize| lines(&folder, &folder.join(format!("{i}.tsv")), &["--part", &format!("{i}/{of}")]);
        assert_eq!((1..=of).map(part).collect::<String>(), whole, "{of} shares");
    }
}

#[test]
fn what_is_printed_of_a_share_is_of_its_answers() {
    let folder = everything("tsv-printed");
    let (output, _, status) = run(&words!["judge", &folder, "--part", "1/4"]);
    assert!(output.starts_with("a: 50 malformed\nb: 51 other n or m\nc: 52 "), "{output}");
    assert!(output.ends_with("\n0 of 4 are least (56 or 57)\n") && status == 1, "{output}");
    let (output, _, status) = run(&words!["judge", &folder, "--part=8/16"]);
    assert!(output.starts_with("50 malformed ") && status == 0, "{output}");
    let (output, _, status) = run(&words!["judge", &folder, "--part", "1/40"]);
    assert!(output.ends_with("\n0 of 0 are least (56 or 57)\n") && status == 0, "{output}");
}

#[test]
fn lines_that_cannot_be_written_get_status_2_and_nothing_is_left_behind() {
    let folder = folder("tsv-unwritable");
    put(&folder, "a", P2, P2_OURS);
    let before = names(&folder);
    for (file, said) in [
        (folder.join("no such/lines.tsv"), "cannot be written: No such file or directory (os error 2)\n"),
        (folder.clone(), "cannot be written: it is no regular file\n"),
        ("/dev/null".into(), "cannot be written: it is no regular file\n"),
    ] {
        let (output, error, status) = run(&words!["judge", &folder, "--tsv", &file]);
        assert_eq!((output.as_str(), status), ("", 2));
        assert_eq!(error, format!("velejume judge: {}: {said}", file.display()));
    }
    for name in ["a.block", "a.answer"] {
        let (output, error, status) = run(&words!["judge", &folder, "--tsv", folder.join(name)]);
        assert_eq!((output.as_str(), status), ("", 2));
        assert!(error.contains(&format!("{name}: is the name of a block or answer\nusage: ")), "{error}");
    }
    let unreadable = run(&words!["judge", folder.join("none"), "--tsv", folder.join("lines.tsv")]);
    assert_eq!((unreadable.2, names(&folder)), (2, before));
}

#[test]
fn lines_that_are_there_are_replaced() {
    let folder = folder("tsv-replaced");
    put(&folder, "a", P2, P2_OURS);
    fs::write(folder.join("lines.tsv"), "what was there, which is longer than what comes").unwrap();
    assert_eq!(lines(&folder, &folder.join("lines.tsv"), &[]), "a\t3\t3\t3\t57\t3\t3\n");
}
