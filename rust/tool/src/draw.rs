//! velejume draw: a corpus of blocks of many kinds.

use crate::VERSION;
use crate::command::{Command, Fault, Status};
use crate::output::print;
use crate::words::Words;
use draw::{Answers, COLUMNS, COUNT, DEPTH, Drawn, Kind, Plan};

pub const COMMAND: Command = Command {
    name: "draw",
    help: "\
usage: velejume draw FOLDER --seed S --count N [--columns M] [--depth A]
                     [--kind K,..] [--version V] [--answers WHOSE]

Draws N fragment blocks into a new or an empty folder, and manifest.tsv, which
says of each block its name, kind, m, n, A, how many reads have gaps, the least
cost, the cost by a solver that forgets a read in its gap, and whether these two
differ: such blocks are marked. The same words give the same bytes on every
machine, and a smaller N the first of them.

  --seed S         a number from 0 to 18446744073709551615
  --count N        how many blocks, 1 to 1000000
  --columns M      columns m of every block, 3 to 1024; without it each block
                   has its own
  --depth A        A of every block, the reads active in one column at most, 2
                   to 12; without it each block has its own
  --kind K,..      these kinds in turn; without it all of them:
                     gapless     reads without gaps, for comparison
                     pairs       reads of two ends with a long gap between
                     inside      a read inside another's gap
                     holes       holes anywhere inside reads
                     ties        equal weights, reads repeated or with every
                                 letter exchanged
                     weightless  nearly all weights 0
                     empty       reads without cells between the others, in
                                 version 1 alone
                     apart       parts that do not touch, with a column between
                                 that no read covers
  --version V      version of the blocks, 1 or 2; without it 1. In version 2
                   blocks of one kind have the same reads, with weights up to
                   65535; the kind 'empty' is not drawn: version 2 has no reads
                   without cells
  --answers WHOSE  also write answers: 'ours', or 'forgetful' for those of a
                   solver that forgets a read in its gap

The exit status is 0 if all is written; 2 if it cannot be, or this usage is not
kept.
",
    options: &[
        ("--seed", Some("a number")),
        ("--count", Some("a number")),
        ("--columns", Some("a number")),
        ("--depth", Some("a number")),
        ("--kind", Some("kinds")),
        ("--version", Some("1 or 2")),
        ("--answers", Some("'ours' or 'forgetful'")),
    ],
    run,
};

/// Kinds with commas between.
fn kinds(text: &str) -> Option<Vec<Kind>> {
    text.split(',').map(Kind::named).collect()
}

fn whose(text: &str) -> Option<Answers> {
    match text {
        "ours" => Some(Answers::Ours),
        "forgetful" => Some(Answers::Forgetful),
        _ => None,
    }
}

/// The kinds that the words ask for, all that the version has if they ask for none.
fn kinds_of(words: &Words, version: u8) -> Result<Vec<Kind>, String> {
    let names = Kind::ALL.map(Kind::name).join(", ");
    let (asked, all) = (words.read_as("--kind", &format!("one or more of {names}"), kinds)?, Kind::of(version));
    match asked.iter().flatten().find(|kind| !all.contains(kind)) {
        Some(kind) => Err(format!("--kind {} goes with version 1", kind.name())),
        None => Ok(asked.unwrap_or(all)),
    }
}

/// What the words ask for, or what is wrong with them.
fn plan(words: &Words) -> Result<Plan, String> {
    let version = words.block_version()?.unwrap_or(1);
    let digits = |text: &str| text.bytes().all(|byte| byte.is_ascii_digit()).then(|| text.parse().ok()).flatten();
    Ok(Plan {
        seed: words.read_as("--seed", "a number below 2 to the power 64", digits)?.ok_or("--seed has to be given")?,
        count: words.number("--count", COUNT)?.ok_or("--count has to be given")?,
        columns: words.number("--columns", COLUMNS)?,
        depth: words.number("--depth", DEPTH)?,
        kinds: kinds_of(words, version)?,
        version,
    })
}

/// The command that draws the same blocks again.
fn origin(plan: &Plan) -> String {
    let mut text = format!("{VERSION} draw --seed {} --count {}", plan.seed, plan.count);
    let numbers = [("columns", plan.columns), ("depth", plan.depth)];
    for (name, number) in numbers {
        text += &number.map(|number| format!(" --{name} {number}")).unwrap_or_default();
    }
    if plan.kinds != Kind::of(plan.version) {
        text += &format!(" --kind {}", plan.kinds.iter().map(|kind| kind.name()).collect::<Vec<_>>().join(","));
    }
    if plan.version != 1 {
        text += &format!(" --version {}", plan.version);
    }
    text
}

/// How many blocks there are of each kind, how many reads of them have gaps, and how many blocks are marked.
fn table(drawn: &[Drawn]) -> String {
    let mut text = format!("{:<12}{:>9}{:>9}{:>9}{:>9}\n", "kind", "blocks", "reads", "gaps", "marked");
    let row = |name: &str, drawn: &[&Drawn]| {
        let sum = |number: fn(&Drawn) -> usize| drawn.iter().map(|drawn| number(drawn)).sum::<usize>();
        let (reads, gaps, marked) = (sum(|d| d.reads), sum(|d| d.gaps), sum(|d| usize::from(d.marked())));
        format!("{name:<12}{:>9}{reads:>9}{gaps:>9}{marked:>9}\n", drawn.len())
    };
    for kind in Kind::ALL {
        let of: Vec<&Drawn> = drawn.iter().filter(|drawn| drawn.kind == kind).collect();
        text += &if of.is_empty() { String::new() } else { row(kind.name(), &of) };
    }
    text + &row("all", &drawn.iter().collect::<Vec<_>>())
}

fn run(words: &Words) -> Result<Status, Fault> {
    let [folder] = &words.rest()[..] else {
        return Err(Fault::Usage("one folder".to_string()));
    };
    let plan = plan(words).map_err(Fault::Usage)?;
    let answers = words.read_as("--answers", "'ours' or 'forgetful'", whose).map_err(Fault::Usage)?;
    let drawn = draw::draw(&plan, folder, answers, &origin(&plan)).map_err(Fault::Failed)?;
    print(table(&drawn).as_bytes())?;
    Ok(Status::Fine)
}
