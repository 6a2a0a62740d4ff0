//! `velejume convert`: blocks of version 1 into version 2, one or a folder of them.

use crate::common::{P2, block, folder, names, run, run_with};
use crate::words;
use std::fs;

/// `. / 0:7 / .` of version 1, and `0:7` of version 2.
const NARROW: [u8; 23] = [1, 0, 0, 0, 18, 0, 1, 0, 3, 0, 2, 0, 0, 0, 4, 0, 0, 0, 7, 0, 2, 0, 0];
const WIDE: [u8; 16] = [2, 0, 0, 0, 11, 0, 1, 0, 1, 0, 5, 0, 0, 0, 0, 7];

/// A matrix in version 2.
fn wide(matrix: &str) -> Vec<u8> {
    matrix::parse(matrix, None).unwrap().in_version(2).unwrap().block()
}

#[test]
fn a_block_goes_from_standard_input_or_a_file_to_standard_output() {
    assert_eq!(run_with(&["convert"], &NARROW), (WIDE.to_vec(), String::new(), 0));
    assert_eq!(run_with(&["convert"], &block(P2)), (wide(P2), String::new(), 0));
    let folder = folder("convert-one");
    fs::write(folder.join("a.block"), NARROW).unwrap();
    assert_eq!(run_with(&words!["convert", folder.join("a.block")], b""), (WIDE.to_vec(), String::new(), 0));
    assert_eq!(names(&folder), ["a.block"]);
}

#[test]
fn a_refused_block_is_said_and_nothing_written() {
    let refused = [
        (NARROW[..8].to_vec(), "refused 1 at 0: fewer than 9 bytes"),
        (WIDE.to_vec(), "refused 2 at 0: version not 1"),
        (NARROW[..22].to_vec(), "refused 3 at 0: length field differs from bytes present after byte 4"),
    ];
    let folder = folder("convert-refused");
    for (block, said) in refused {
        let line = |name: &str| format!("velejume convert: {name}: {said}\n");
        assert_eq!(run_with(&["convert"], &block), (Vec::new(), line("standard input"), 1));
        let path = folder.join("a.block");
        fs::write(&path, block).unwrap();
        assert_eq!(run(&words!["convert", &path]), (String::new(), line(path.to_str().unwrap()), 1));
    }
}

#[test]
fn no_more_is_read_than_a_block_can_have() {
    let (output, error, status) = run_with(&["convert"], &vec![1; 3_149_834]);
    let said = "velejume convert: standard input: cannot be read: it has more than 3149833 bytes, which no block has\n";
    assert_eq!((output.len(), error.as_str(), status), (0, said, 2));
}

#[test]
fn the_largest_block_is_converted() {
    let rows = vec![vec!["1:255"; 1024].join(" "); 1024].join("/");
    let (output, error, status) = run_with(&["convert"], &block(&rows));
    assert_eq!((output.len(), error.as_str(), status), (3_149_833, "", 0));
    assert!(output == wide(&rows));
}

#[test]
fn a_folder_is_converted_into_another() {
    let folder = folder("convert-folder");
    let (from, to) = (folder.join("from"), folder.join("new/to"));
    fs::create_dir(&from).unwrap();
    fs::write(from.join("a.block"), NARROW).unwrap();
    fs::write(from.join("b.block"), block(P2)).unwrap();
    fs::write(from.join("b.answer"), "an answer").unwrap();
    fs::write(from.join("notes.txt"), "neither").unwrap();
    let line = "2 written, 0 there already, 0 not converted; 2 reads without cells left out\n";
    assert_eq!(run(&words!["convert", &from, "--to", &to]), (line.to_string(), String::new(), 0));
    assert_eq!(names(&to), ["a.block", "b.block"], "no answers, and nothing else");
    assert_eq!(fs::read(to.join("a.block")).unwrap(), WIDE);
    assert_eq!(fs::read(to.join("b.block")).unwrap(), wide(P2));
    assert_eq!(fs::read(from.join("a.block")).unwrap(), NARROW, "what is given is kept");
    let line = "0 written, 2 there already, 0 not converted; 2 reads without cells left out\n";
    assert_eq!(run(&words!["convert", "--to", &to, &from]), (line.to_string(), String::new(), 0));
}

#[test]
fn each_block_of_a_folder_that_is_not_converted_gets_a_line() {
    let folder = folder("convert-faults");
    let (from, to) = (folder.join("from"), folder.join("to"));
    fs::create_dir_all(&from).unwrap();
    fs::create_dir_all(&to).unwrap();
    let blocks = [("a", &NARROW[..]), ("b", &NARROW[..22]), ("c", &WIDE), ("d", &NARROW)];
    blocks.iter().for_each(|(name, bytes)| fs::write(from.join(format!("{name}.block")), bytes).unwrap());
    fs::create_dir(from.join("e.block")).unwrap();
    fs::write(to.join("d.block"), NARROW).unwrap();
    let (output, error, status) = run(&words!["convert", &from, "--to", &to]);
    let at = from.display();
    let lines = format!(
        "{at}/b.block: refused 3 at 0: length field differs from bytes present after byte 4\n\
         {at}/c.block: refused 2 at 0: version not 1\n\
         {at}/d.block: another block is there and is kept\n\
         {at}/e.block: the block cannot be read: it is a folder, no regular file\n\
         1 written, 0 there already, 4 not converted; 2 reads without cells left out\n"
    );
    assert_eq!((output, error.as_str(), status), (lines, "", 1));
    assert_eq!(names(&to), ["a.block", "d.block"]);
    assert_eq!(fs::read(to.join("d.block")).unwrap(), NARROW);
    let itself = run(&words!["convert", &to, "--to", &to]);
    assert_eq!(itself.2, 1, "a folder is not written over: {}", itself.0);
    assert_eq!(fs::read(to.join("d.block")).unwrap(), NARROW);
}

#[test]
fn several_files_are_converted_into_a_folder() {
    let folder = folder("convert-several");
    let [a, b, none, to] = ["a.block", "b", "none.block", "to"].map(|name| folder.join(name));
    fs::write(&a, NARROW).unwrap();
    fs::write(&b, block(P2)).unwrap();
    let line = "2 written, 0 there already, 0 not converted; 2 reads without cells left out\n";
    assert_eq!(run(&words!["convert", &a, &b, "--to", &to]), (line.to_string(), String::new(), 0));
    assert_eq!(names(&to), ["a.block", "b"]);
    let (output, error, status) = run(&words!["convert", &a, &none, "--to", &to]);
    let line = "0 written, 1 there already, 1 not converted; 2 reads without cells left out\n";
    assert_eq!((output.as_str(), status), (line, 2));
    let said = format!("velejume convert: {}: the block cannot be read: No such file", none.display());
    assert!(error.starts_with(&said) && error.lines().count() == 1, "{error}");
}

#[test]
fn a_folder_that_cannot_be_made_and_one_without_blocks_get_status_2() {
    let folder = folder("convert-unwritable");
    let (a, empty) = (folder.join("a.block"), folder.join("empty"));
    fs::write(&a, NARROW).unwrap();
    fs::create_dir(&empty).unwrap();
    let (output, error, status) = run(&words!["convert", &a, "--to", &a]);
    assert_eq!((output.as_str(), status), ("", 2));
    assert!(error.starts_with(&format!("velejume convert: {}: cannot be made: File exists", a.display())), "{error}");
    let (output, error, status) = run(&words!["convert", &empty, "--to", folder.join("to")]);
    assert_eq!((output.as_str(), status), ("", 2));
    assert!(error.contains("empty: holds no NAME.block"), "{error}");
    assert!(!folder.join("to").exists(), "nothing is made for nothing");
}

#[test]
fn a_drawn_corpus_keeps_its_costs_and_its_haplotypes() {
    let folder = folder("convert-drawn");
    let (from, to) = (folder.join("from"), folder.join("to"));
    assert_eq!(run(&words!["draw", &from, "--seed", "5", "--count", "80"]).2, 0);
    let (output, error, status) = run(&words!["convert", &from, "--to", &to]);
    assert!(output.starts_with("80 written, 0 there already, 0 not converted; "), "{output}");
    assert_eq!((error.as_str(), status), ("", 0));
    let mut shorter = 0;
    for name in names(&to) {
        let [narrow, wide] =
            [&from, &to].map(|folder| velejume::phase(&fs::read(folder.join(&name)).unwrap()).unwrap());
        assert_eq!((narrow.cost, narrow.flips, &narrow.haplotypes), (wide.cost, wide.flips, &wide.haplotypes));
        let is_empty = name.to_str().unwrap().ends_with("-empty.block");
        assert_eq!(wide.sides.len() < narrow.sides.len(), is_empty, "{name:?}");
        shorter += narrow.sides.len() - wide.sides.len();
    }
    assert!(output.ends_with(&format!("; {shorter} reads without cells left out\n")), "{output}");
    assert_eq!(run(&words!["answers", &to]).2, 0);
}
