//! velejume: one tool over the proved library. It phases blocks, judges answers, writes ours, converts blocks of version 1, draws
//! corpora, and turns the matrix notation into blocks and back.

mod answers;
mod command;
mod convert;
mod draw;
mod folder;
mod input;
mod judge;
mod matrix;
mod output;
mod phase;
mod words;

use command::{COMMANDS, Command, Fault, Status};
use std::ffi::OsString;
use std::process::ExitCode;
use words::Words;

/// The name and the version of this program.
pub const VERSION: &str = concat!("velejume ", env!("CARGO_PKG_VERSION"));

const HELP: &str = "\
usage: velejume phase [--all-het | --margins] [--answer] BLOCK..
       velejume judge BLOCK ANSWER
       velejume judge FOLDER [--report PAGE.html] [--tsv FILE] [--part I/N]
       velejume answers FOLDER [--all-het]
       velejume convert [BLOCK]
       velejume convert BLOCK.. --to FOLDER
       velejume convert FOLDER --to FOLDER
       velejume draw FOLDER --seed S --count N [--columns M] [--depth A]
                     [--kind K,..] [--version V] [--answers WHOSE]
       velejume matrix --block [--columns M] [--version V] [TEXT]
       velejume matrix --text [BLOCK]

  phase    divide the reads of blocks at the least cost
  judge    say what a builder's answer is worth, or all answers of a folder
  answers  write our answers for a folder of blocks
  convert  turn blocks of version 1 into version 2, without empty reads
  draw     make a corpus: blocks of many kinds, the same for the same seed
  matrix   turn the notation 0:5 . / 1:3 0:2 into a block, or a block into it

velejume COMMAND --help says more of each, velejume --version which one this is.
The exit status is 0 if all is well, 1 if a block or an answer is not, 2 if the
work could not be done.
";

/// Whether the words ask for help, before those that are no options.
fn asks_for_help(words: &[OsString]) -> bool {
    words.iter().take_while(|word| *word != "--").any(|word| word == "--help")
}

/// Does what a subcommand is for.
fn done(command: &Command, words: &[OsString]) -> Result<Status, Fault> {
    if asks_for_help(words) {
        return output::print(command.help.as_bytes()).map(|_| Status::Fine);
    }
    let words = Words::read(words, command.options).map_err(Fault::Usage)?;
    (command.run)(&words)
}

/// The first lines of a help, which say how a command goes.
fn usage(help: &str) -> &str {
    help.split_once("\n\n").map_or(help, |(usage, _)| usage)
}

/// Does what the words say; says on standard error what is wrong.
fn run(words: &[OsString]) -> Status {
    let first = words.first().and_then(|word| word.to_str());
    let command = COMMANDS.iter().find(|command| first == Some(command.name));
    let (name, help) = command.map_or(("velejume".to_string(), HELP), |c| (format!("velejume {}", c.name), c.help));
    let done = match (command, first) {
        (Some(command), _) => done(command, &words[1..]),
        (None, Some("--help")) => output::print(HELP.as_bytes()).map(|_| Status::Fine),
        (None, Some("--version")) => output::print(format!("{VERSION}\n").as_bytes()).map(|_| Status::Fine),
        (None, _) => Err(Fault::Usage(match words.first() {
            Some(word) => format!("there is no command {}", corpus::shown(word)),
            None => "no command is given".to_string(),
        })),
    };
    match done {
        Ok(status) => return status,
        Err(Fault::Usage(fault)) => output::say(&format!("{name}: {fault}\n{}", usage(help))),
        Err(Fault::Failed(fault)) => output::say(&format!("{name}: {fault}")),
    }
    Status::Failed
}

fn main() -> ExitCode {
    let words: Vec<OsString> = std::env::args_os().skip(1).collect();
    ExitCode::from(run(&words) as u8)
}
