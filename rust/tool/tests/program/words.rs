//! Help, version, and words that are not as they should be.

use crate::common::{P2, P2_LINES, block, folder, run};
use std::collections::BTreeSet;
use std::fs;
use std::path::Path;
use std::process::Command;

const COMMANDS: [&str; 6] = ["phase", "judge", "answers", "convert", "draw", "matrix"];

/// The options that a text names.
fn options(text: &str) -> BTreeSet<String> {
    let parts = text.split("--").skip(1);
    let named = |letter: &char| letter.is_ascii_lowercase() || *letter == '-';
    let names = parts.map(|part| part.chars().take_while(named).collect::<String>());
    names.filter(|name| !name.is_empty()).collect()
}

#[test]
fn the_tool_and_each_command_have_help() {
    let (all, error, status) = run(&["--help"]);
    assert!(all.starts_with("usage: velejume phase ") && error.is_empty() && status == 0);
    for command in COMMANDS {
        let (output, error, status) = run(&[command, "--help"]);
        assert_eq!((error.as_str(), status), ("", 0), "{command}");
        assert!(output.starts_with(&format!("usage: velejume {command} ")), "{output}");
        assert!(output.contains("\nThe exit status is 0 if "), "{output}");
        assert!(output.lines().all(|line| line.len() <= 80), "{output}");
        let (usage, _) = output["usage: ".len()..].split_once("\n\n").unwrap();
        assert!(all.contains(usage), "the tool's usage has {usage}");
        assert_eq!(run(&[command, "a", "b", "--help", "c"]).0, output);
    }
}

#[test]
fn the_version_is_that_of_the_package() {
    let version = format!("velejume {}\n", env!("CARGO_PKG_VERSION"));
    assert_eq!(run(&["--version"]), (version, String::new(), 0));
}

#[test]
fn words_that_are_not_as_they_should_be_get_the_usage_and_status_2() {
    let wrong: [(&[&str], &str); 44] = [
        (&[], "no command is given"),
        (&["what"], "there is no command what"),
        (&["two\nlines"], "there is no command two\\u{a}lines"),
        (&["--what"], "there is no command --what"),
        (&["phase"], "no block is given"),
        (&["phase", "--what"], "there is no option --what"),
        (&["phase", "--answer=x", "a"], "--answer takes no value"),
        (&["phase", "--answer", "--answer", "a"], "--answer is given twice"),
        (&["phase", "--all-het"], "no block is given"),
        (&["phase", "--all-het=x", "a"], "--all-het takes no value"),
        (&["phase", "--margins"], "no block is given"),
        (&["phase", "--margins=x", "a"], "--margins takes no value"),
        (&["phase", "--margins", "--answer", "--all-het", "a"], "--margins does not go with --all-het"),
        (&["judge"], "neither a folder nor a block and an answer are given"),
        (&["judge", "a", "b", "c"], "one folder, or one block and one answer"),
        (&["judge", "--report"], "--report needs a file"),
        (&["judge", "--report", "page.html"], "neither a folder nor"),
        (&["judge", "a", "b", "--tsv", "c"], "--tsv goes with a folder"),
        (&["judge", "a", "--part", "3/2"], "--part 3/2: it should be I/N, with I from 1 to N"),
        (&["answers"], "one folder"),
        (&["answers", "a", "b"], "one folder"),
        (&["answers", "--all-het"], "one folder"),
        (&["answers", "a", "--make"], "there is no option --make"),
        (&["convert", "a", "b"], "several blocks, or a folder, go with --to"),
        (&["convert", "."], "several blocks, or a folder, go with --to"),
        (&["convert", "--to", "a"], "no block is given"),
        (&["convert", "--to", "a", "b/c", "d/c"], "d/c: another block of this name is given"),
        (&["draw", "--seed", "1", "--count", "1"], "one folder"),
        (&["draw", "a", "--count", "1"], "--seed has to be given"),
        (&["draw", "a", "--seed", "1"], "--count has to be given"),
        (&["draw", "a", "--seed", "-1", "--count", "1"], "--seed -1: it should be a number below 2 to the power 64"),
        (&["draw", "a", "--seed", "1", "--count", "0"], "--count 0: it should be a number from 1 to 1000000"),
        (&["draw", "a", "--seed", "1", "--count", "+1"], "--count +1: it should be a number from 1 to 1000000"),
        (&["draw", "a", "--seed=1", "--count=1", "--columns=2"], "--columns 2: it should be a number from 3 to 1024"),
        (&["draw", "a", "--seed=1", "--count=1", "--depth=13"], "--depth 13: it should be a number from 2 to 12"),
        (
            &["draw", "a", "--seed=1", "--count=1", "--kind=pairs,x"],
            "--kind pairs,x: it should be one or more of gapless, ",
        ),
        (&["draw", "a", "--seed=1", "--count=1", "--version=3"], "--version 3: it should be 1 or 2"),
        (
            &["draw", "a", "--seed=1", "--count=1", "--version=2", "--kind=ties,empty"],
            "--kind empty goes with version 1",
        ),
        (&["matrix"], "either --block or --text"),
        (&["matrix", "--version"], "--version needs 1 or 2"),
        (&["matrix", "--block", "--version", "02"], "--version 02: it should be 1 or 2"),
        (&["matrix", "--text", "--version", "2"], "--version goes with --block"),
        (&["matrix", "--text", "--columns", "1"], "--columns goes with --block"),
        (&["matrix", "--block", "--columns", "x"], "--columns x: it should be a number from 1 to 1024"),
    ];
    for (words, message) in wrong {
        let (output, error, status) = run(words);
        assert_eq!((output.as_str(), status), ("", 2), "{words:?}");
        let name = match words.first() {
            Some(command) if COMMANDS.contains(command) => format!("velejume {command}"),
            _ => "velejume".to_string(),
        };
        assert!(error.starts_with(&format!("{name}: {message}")), "{error}");
        assert!(error.contains(&format!("\nusage: {name} ")) && !error.contains("\n\n"), "{error}");
    }
}

#[test]
fn words_behind_two_dashes_are_no_options() {
    let folder = folder("dashes");
    fs::write(folder.join("--answer"), block(P2)).unwrap();
    let output = Command::new(env!("CARGO_BIN_EXE_velejume"))
        .args(["phase", "--", "--answer"])
        .current_dir(&folder)
        .output()
        .unwrap();
    assert_eq!(String::from_utf8(output.stdout).unwrap(), P2_LINES);
    assert!(output.stderr.is_empty() && output.status.success());
    assert!(run(&["phase", "--", "--help"]).1.starts_with("velejume phase: --help: cannot be read: "));
}

#[test]
fn the_manual_page_has_every_command_and_every_option() {
    let page = Path::new(env!("CARGO_MANIFEST_DIR")).join("../../man/velejume.1");
    let page = fs::read_to_string(page).unwrap().replace("\\-", "-");
    for command in COMMANDS {
        assert!(page.contains(&format!("velejume {command}")), "{command}");
        for option in options(&run(&[command, "--help"]).0) {
            assert!(page.contains(&format!("--{option}")), "{command} --{option}");
        }
    }
    let helps = COMMANDS.map(|command| run(&[command, "--help"]).0).concat();
    let known = options(&(helps + "--help --version"));
    assert_eq!(options(&page), known, "and no other");
}
