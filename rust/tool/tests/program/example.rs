//! The example corpus against its README, whose verdicts are worked out by hand.

use crate::common::{answer, block, run};
use crate::words;
use std::collections::BTreeSet;
use std::fs;
use std::path::{Path, PathBuf};

fn folder() -> PathBuf {
    Path::new(env!("CARGO_MANIFEST_DIR")).join("../../examples/corpus")
}

/// The rows of the README's tables: name, matrix, answer, verdict.
fn rows() -> Vec<[String; 4]> {
    let readme = fs::read_to_string(folder().join("README.md")).unwrap();
    let row = |line: &str| -> Option<[String; 4]> {
        let mut cells = line.strip_prefix("| `")?.split(" | ").map(|cell| cell.replace('`', ""));
        Some(std::array::from_fn(|_| cells.next().unwrap()))
    };
    readme.lines().filter_map(row).collect()
}

#[test]
fn each_answer_gets_the_verdict_that_the_readme_gives_it() {
    for [name, matrix, words, verdict] in rows() {
        let file = |ending: &str| fs::read(folder().join(format!("{name}.{ending}"))).unwrap();
        assert_eq!(file("block"), block(&matrix), "{name}.block is the matrix of the README");
        assert_eq!(file("answer"), answer(&words), "{name}.answer is the answer of the README");
        let judged = velejume::judge(&file("block"), &file("answer")).unwrap();
        assert_eq!(judged.number().to_string(), verdict, "{name}");
    }
}

#[test]
fn the_readme_has_every_file_and_every_verdict_and_half_have_gaps() {
    let rows = rows();
    let names: BTreeSet<String> = rows.iter().map(|row| row[0].clone()).collect();
    let files = fs::read_dir(folder()).unwrap().map(|entry| entry.unwrap().path());
    let files = files.filter(|path| path.extension().is_some_and(|ending| ending != "md"));
    let stems: BTreeSet<String> = files.map(|path| path.file_stem().unwrap().to_str().unwrap().to_string()).collect();
    assert_eq!(names, stems);
    let verdicts: BTreeSet<&str> = rows.iter().map(|row| row[3].as_str()).collect();
    assert_eq!(verdicts.into_iter().collect::<Vec<_>>(), ["50", "51", "52", "53", "54", "55", "56", "57"]);
    let gaps = |matrix: &str| matrix::parse(matrix, None).unwrap().rows.iter().any(|row| row.cells.contains(&None));
    assert_eq!(2 * rows.iter().filter(|row| gaps(&row[1])).count(), rows.len());
}

#[test]
fn the_program_says_the_same_of_the_folder() {
    let (output, error, status) = run(&words!["judge", folder()]);
    let ours = rows().iter().filter(|row| row[3] == "57").count();
    let lines: Vec<&str> = output.lines().take_while(|line| !line.is_empty()).collect();
    assert_eq!(lines.len(), rows().len() - ours);
    for [name, _, _, verdict] in rows() {
        let said = lines.iter().any(|line| line.starts_with(&format!("{name}: {verdict} ")));
        assert_eq!(said, verdict != "57", "{name}");
    }
    assert_eq!((error.as_str(), status), ("", 1));
}
