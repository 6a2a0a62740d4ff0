//! One answer that is not ours: its verdict, and both divisions side by side.

use super::columns::{Place, places};
use super::division::Division;
use super::drawing::Drawing;
use super::{counted, escaped, fields};
use matrix::Matrix;
use velejume::Verdict;

/// What a verdict means for its reader.
fn meaning(verdict: &Verdict) -> &'static str {
    match verdict {
        Verdict::Malformed => "These bytes are no answer block of version 2, so only our answer is drawn.",
        Verdict::OtherCounts => {
            "The answer is to a block of other numbers of reads or columns, so only our answer is drawn."
        }
        Verdict::UnknownMark => {
            "The answer has marks that stand for no side or no letter, so only our answer is drawn."
        }
        Verdict::FalseDash => {
            "A - says that either letter costs its side the same. At a marked - one letter costs less than the other."
        }
        Verdict::WrongCost => {
            "The entries that disagree with the answer's own haplotypes do not weigh what it states as its cost."
        }
        Verdict::NotLeast { .. } => "The answer costs what it states, but that is not the least cost.",
        Verdict::OtherAnswer => {
            "The answer costs as little as ours. It has other sides or letters, and that is no fault."
        }
        Verdict::Ours => "The answer is ours.",
    }
}

/// What is left out of both drawings.
fn left_out(drawing: &Drawing) -> String {
    let drawn = drawing.places.iter().filter(|place| matches!(place, Place::Column(_))).count();
    let reads = drawing.matrix.rows.iter().filter(|row| !row.cells.is_empty() && !drawing.draws(row)).count();
    match drawing.matrix.columns - drawn {
        0 => String::new(),
        columns => format!(
            "<p>Left out: {} of {}, and {} active in these only.</p>\n",
            columns,
            counted(drawing.matrix.columns, "column"),
            counted(reads, "read")
        ),
    }
}

/// What disagrees in a division, in all columns.
fn disagreeing(drawing: &Drawing) -> String {
    let marks = drawing.marks;
    let entries = match marks.entries {
        0 => "No entry disagrees.".to_string(),
        1 => format!("1 entry disagrees, weight {}.", marks.weight),
        count => format!("{count} entries disagree, weight {}.", marks.weight),
    };
    let dashes = match marks.at_dashes {
        0 => String::new(),
        weight => format!(" At - either letter costs {weight} in all."),
    };
    entries + &dashes
}

fn figure(caption: &str, drawing: &Drawing) -> String {
    let (table, below) = (drawing.table(), disagreeing(drawing));
    format!("<figure>\n<figcaption>{caption}</figcaption>\n{table}<p>{below}</p>\n</figure>\n")
}

/// How the builder's division differs from ours.
fn differences(builder: &Division, ours: &Division) -> String {
    let differ = |a: &[u8], b: &[u8]| a.iter().zip(b).filter(|(a, b)| a != b).count();
    let reads = differ(&builder.sides, &ours.sides);
    let letters: usize = (0..2).map(|side| differ(&builder.letters[side], &ours.letters[side])).sum();
    format!("Reads on another side than in ours: {reads}. Letters other than ours: {letters}.")
}

/// The builder's division, drawn beside ours.
fn builder_figure(matrix: &Matrix, builder: &Division, ours: &Division, places: &[Place]) -> String {
    let marks = builder.marks(matrix);
    let drawing = Drawing { matrix, division: builder, marks: &marks, beside: Some(ours), places };
    let caption = format!("The answer: stated cost {}, stated flips {} (not judged)", builder.cost, builder.flips);
    figure(&caption, &drawing)
}

/// Both answers side by side. Where the builder's cannot be drawn, its fields stand there.
fn pair(matrix: &Matrix, builder: Option<&Division>, fields: &str, ours: &Division) -> String {
    let places = places(matrix, builder, ours);
    let left = match builder {
        Some(builder) => builder_figure(matrix, builder, ours, &places),
        None => format!("<figure>\n<figcaption>The answer</figcaption>\n{fields}</figure>\n"),
    };
    let marks = ours.marks(matrix);
    let drawing = Drawing { matrix, division: ours, marks: &marks, beside: builder, places: &places };
    let right = figure(&format!("Ours: least cost {}, flips {}", ours.cost, ours.flips), &drawing);
    format!("<div class=\"pair\">\n{left}{right}</div>\n{}", left_out(&drawing))
}

/// The sheet of one answer, which the library judged.
pub fn sheet(number: usize, name: &str, verdict: &Verdict, block: &[u8], answer: &[u8]) -> String {
    let matrix = Matrix::read(block).expect("the block was judged");
    let ours = Division::ours(block);
    let builder = (verdict.number() > 52).then(|| Division::stated(answer));
    let fields = fields::fields(verdict, answer, &ours);
    let differences = builder.as_ref().map(|builder| differences(builder, &ours)).unwrap_or_default();
    let (reads, columns) = (counted(matrix.rows.len(), "read"), counted(matrix.columns, "column"));
    format!(
        "<section id=\"a{number}\">\n<h2>{}</h2>\n<p class=\"{}\"><b>{}</b> {}</p>\n<p>{}</p>\n\
         <p>{reads}, {columns}. {differences}</p>\n{}</section>\n",
        escaped(name),
        if verdict.is_least() { "fine" } else { "fault" },
        verdict.number(),
        escaped(&verdict.to_string()),
        escaped(meaning(verdict)),
        pair(&matrix, builder.as_ref(), &fields, &ours)
    )
}
