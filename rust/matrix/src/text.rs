//! A matrix as text.

use crate::{Cell, Matrix, Row};
use std::fmt;

/// Why a text is no matrix. Rows and entries are counted from 1 here, as a reader of the text counts them.
#[derive(Clone, Debug, PartialEq, Eq)]
pub enum Fault {
    Entry { row: usize, entry: usize, word: String },
    Weight { row: usize, entry: usize, weight: u16 },
    NoCells { row: usize },
    EmptyRow { row: usize },
    LongRow { row: usize, entries: usize, columns: usize },
    NoColumns,
    Columns(usize),
    Rows(usize),
}

impl fmt::Display for Fault {
    fn fmt(&self, f: &mut fmt::Formatter) -> fmt::Result {
        match self {
            Fault::Entry { row, entry, word } => write!(
                f,
                "row {row}, entry {entry}: '{word}' is neither '.' nor a letter 0 or 1, ':' and a weight 0 to 65535"
            ),
            Fault::Weight { row, entry, weight } => {
                write!(f, "row {row}, entry {entry}: weight {weight} is above 255, which takes version 2")
            }
            Fault::NoCells { row } => {
                write!(f, "row {row} has no entry: version 2, which weights above 255 take, has no reads without cells")
            }
            Fault::EmptyRow { row } => write!(f, "row {row} is empty: a read without cells is written '.'"),
            Fault::LongRow { row, entries, columns } => {
                write!(f, "row {row} has {entries} entries, columns given: {columns}")
            }
            Fault::NoColumns => write!(f, "no row says how many columns there are: give them by --columns"),
            Fault::Columns(columns) => write!(f, "{columns} columns: a block has 1 to 1024"),
            Fault::Rows(rows) => write!(f, "{rows} rows: a block has at most 1024 reads"),
        }
    }
}

impl std::error::Error for Fault {}

/// A number without sign and without needless zeros.
fn weight(digits: &str) -> Option<u16> {
    let plain = digits.bytes().all(|b| b.is_ascii_digit()) && (digits == "0" || !digits.starts_with('0'));
    if plain { digits.parse().ok() } else { None }
}

/// A word of the text; None where it is no entry.
fn cell(word: &str) -> Option<Cell> {
    match word.split_once(':') {
        None => (word == ".").then_some(None),
        Some(("0", digits)) => Some(Some((0, weight(digits)?))),
        Some(("1", digits)) => Some(Some((1, weight(digits)?))),
        Some(_) => None,
    }
}

/// The cells of a row, dots before the first and after the last entry included.
fn line(row: usize, text: &str) -> Result<Vec<Cell>, Fault> {
    let mut cells = Vec::new();
    for word in text.split_whitespace() {
        let fault = || Fault::Entry { row, entry: cells.len() + 1, word: word.to_string() };
        let cell = cell(word).ok_or_else(fault)?;
        cells.push(cell);
    }
    if cells.is_empty() { Err(Fault::EmptyRow { row }) } else { Ok(cells) }
}

/// A row without the dots around its entries.
fn row(cells: &[Cell]) -> Row {
    let first = cells.iter().position(Option::is_some);
    let last = cells.iter().rposition(Option::is_some);
    match first.zip(last) {
        Some((first, last)) => Row { first, cells: cells[first..=last].to_vec() },
        None => Row::default(),
    }
}

/// The rows of a text: `/`, a newline or both lie between two. A blank line between rows is no row, nothing between two `/` an
/// empty one.
fn rows(text: &str) -> Vec<&str> {
    let mut rows = Vec::new();
    for part in text.split('/') {
        let before = rows.len();
        rows.extend(part.lines().filter(|line| !line.trim().is_empty()));
        if rows.len() == before {
            rows.push("");
        }
    }
    rows
}

/// The matrix that a text stands for, in the version that its weights need. Columns that no row reaches have to be given.
pub fn parse(text: &str, columns: Option<usize>) -> Result<Matrix, Fault> {
    let texts = if text.trim().is_empty() { Vec::new() } else { rows(text) };
    let lines = texts.iter().enumerate().map(|(i, text)| line(i + 1, text));
    let lines = lines.collect::<Result<Vec<_>, _>>()?;
    let longest = lines.iter().map(Vec::len).max();
    let columns = columns.or(longest).ok_or(Fault::NoColumns)?;
    if columns == 0 || columns > 1024 {
        return Err(Fault::Columns(columns));
    }
    if lines.len() > 1024 {
        return Err(Fault::Rows(lines.len()));
    }
    if let Some(i) = lines.iter().position(|line| line.len() > columns) {
        return Err(Fault::LongRow { row: i + 1, entries: lines[i].len(), columns });
    }
    let matrix = Matrix::new(columns, lines.iter().map(|line| row(line)).collect());
    let version = matrix.version;
    matrix.in_version(version)
}

impl fmt::Display for Matrix {
    /// A line for each read, each with all columns. A matrix without reads prints nothing.
    fn fmt(&self, f: &mut fmt::Formatter) -> fmt::Result {
        for (i, row) in self.rows.iter().enumerate() {
            let words = (0..self.columns).map(|column| {
                let cell = column.checked_sub(row.first).and_then(|i| row.cells.get(i));
                match cell.copied().flatten() {
                    Some((letter, weight)) => format!("{letter}:{weight}"),
                    None => ".".to_string(),
                }
            });
            let end = if i + 1 < self.rows.len() { " /" } else { "" };
            writeln!(f, "{}{end}", words.collect::<Vec<_>>().join(" "))?;
        }
        Ok(())
    }
}
