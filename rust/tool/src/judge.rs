//! velejume judge: what a builder's answer is worth, or all answers of a folder.

use crate::command::{Command, Fault, Status};
use crate::output::{at, print};
use crate::words::Words;
use crate::{VERSION, folder};
use corpus::{About, Judged, NewFile, Outcome, Part, Tally, Wanted, judge, line, read_answer, read_block, report};
use std::path::{Path, PathBuf};

pub const COMMAND: Command = Command {
    name: "judge",
    help: "\
usage: velejume judge BLOCK ANSWER
       velejume judge FOLDER [--report PAGE.html] [--tsv FILE] [--part I/N]

Judges a builder's answer to a fragment block, and prints the first verdict that
applies. Of a folder, judges each NAME.answer beside its NAME.block on all
cores, prints a line for each that is not our answer, and then how many got each
verdict.

  --report PAGE.html  also write a page that draws each answer that is not ours
                      beside ours; more than 200 of them are drawn on
                      PAGE-1.html, PAGE-2.html and so on, and PAGE.html is
                      their index
  --tsv FILE          also write a line for each answer, by name: name, m, n, A,
                      verdict, stated cost, least cost, with tabs between and
                      '.' for what there is not; the verdict is 50 to 57, the
                      number of the block's refusal, or no-answer, no-block or
                      unreadable
  --part I/N          judge one of N shares of the folder, counted from 1; the
                      --tsv files of all, one behind the other, are that of the
                      whole

The exit status is 0 if every answer is least (verdict 56 or 57); 1 if one is
not, a block is refused, or one half of a pair is missing or cannot be read; 2
if a file or the folder that is named here cannot be read, the page or the lines
cannot be written, or this usage is not kept.
",
    options: &[("--report", Some("a file")), ("--tsv", Some("a file")), ("--part", Some("I/N"))],
    run,
};

/// The files that a judging writes, begun before it.
struct Files {
    page: Option<(PathBuf, NewFile)>,
    lines: Option<(PathBuf, NewFile)>,
}

/// Begins a file that an option names; it must have this ending, or if none is given neither of those that a corpus has.
fn begun(words: &Words, name: &str, ending: Option<&str>) -> Result<Option<(PathBuf, NewFile)>, Fault> {
    let Some(path) = words.path(name) else {
        return Ok(None);
    };
    let has = |wanted: &str| path.extension().is_some_and(|ending| ending == wanted);
    match ending {
        Some(ending) if !has(ending) => return Err(Fault::Usage(at(&path, format!("does not end in .{ending}")))),
        None if has("block") || has("answer") => {
            return Err(Fault::Usage(at(&path, "is the name of a block or answer")));
        }
        _ => (),
    }
    match NewFile::create(&path) {
        Ok(file) => Ok(Some((path, file))),
        Err(fault) => Err(Fault::Failed(at(&path, format!("cannot be written: {fault}")))),
    }
}

impl Files {
    /// Writes what is asked for.
    fn write(self, about: &About, judged: &[Judged], tally: &Tally) -> Result<(), Fault> {
        if let Some((path, file)) = self.lines {
            let lines: String = judged.iter().map(line).collect();
            let written = file.write(lines.as_bytes());
            written.map_err(|fault| Fault::Failed(at(&path, format!("cannot be written: {fault}"))))?;
        }
        if let Some((path, file)) = self.page {
            let written = report(file, &path, about, judged, tally);
            written.map_err(|fault| Fault::Failed(at(&path, format!("cannot be written: {fault}"))))?;
        }
        Ok(())
    }
}

/// The name of a folder as the title of its page.
fn title(folder: &Path) -> String {
    let whole = folder.canonicalize().unwrap_or_default();
    corpus::shown(whole.file_name().unwrap_or(folder.as_os_str()))
}

/// Judges a folder.
fn judge_folder(folder: &Path, words: &Words) -> Result<Status, Fault> {
    let part = words.read_as("--part", "I/N, with I from 1 to N", Part::read).map_err(Fault::Usage)?;
    let items = folder::items(folder)?;
    let items = &items[part.map_or(0..items.len(), |part| part.range(items.len()))];
    let files = Files { page: begun(words, "--report", Some("html"))?, lines: begun(words, "--tsv", None)? };
    let judged = judge(items, Wanted { page: files.page.is_some(), numbers: files.lines.is_some() });
    let tally = Tally::of(&judged);
    let about = About { title: title(folder), part, maker: VERSION.to_string() };
    files.write(&about, &judged, &tally)?;
    let others = judged.iter().filter(|judged| !judged.outcome.is_ours());
    let lines: String = others.map(|judged| format!("{}: {}\n", judged.name, judged.outcome)).collect();
    let gap = if lines.is_empty() { "" } else { "\n" };
    print(format!("{lines}{gap}{tally}").as_bytes())?;
    Ok(Status::of(tally.fine()))
}

/// Judges one answer.
fn judge_answer(block: &Path, answer: &Path) -> Result<Status, Fault> {
    let unreadable = |path: &Path, why: String| Fault::Failed(at(path, format!("cannot be read: {why}")));
    let block = read_block(block).map_err(|why| unreadable(block, why))?;
    let answer = read_answer(answer).map_err(|why| unreadable(answer, why))?;
    let outcome = match velejume::judge(&block, &answer) {
        Ok(verdict) => Outcome::Judged(verdict),
        Err(refusal) => Outcome::Refused(refusal),
    };
    print(format!("{outcome}\n").as_bytes())?;
    Ok(Status::of(outcome.is_least()))
}

fn run(words: &Words) -> Result<Status, Fault> {
    let option = COMMAND.options.iter().find(|(name, _)| words.has(name));
    match (&words.rest()[..], option) {
        ([folder], _) => judge_folder(folder, words),
        ([block, answer], None) => judge_answer(block, answer),
        ([_, _], Some((name, _))) => Err(Fault::Usage(format!("{name} goes with a folder"))),
        ([], _) => Err(Fault::Usage("neither a folder nor a block and an answer are given".to_string())),
        _ => Err(Fault::Usage("one folder, or one block and one answer".to_string())),
    }
}
