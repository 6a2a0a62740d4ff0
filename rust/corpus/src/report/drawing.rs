//! One division of a matrix, drawn: both sides with their haplotypes and their reads.

use super::columns::Place;
use super::division::{Division, Marks};
use super::{cell, counted};
use matrix::{Matrix, Row};

/// How many reads without cells are named at most.
const NAMED: usize = 12;

/// What is drawn.
pub struct Drawing<'a> {
    pub matrix: &'a Matrix,
    pub division: &'a Division,
    /// what is read off the division
    pub marks: &'a Marks,
    /// the one that it stands beside
    pub beside: Option<&'a Division>,
    pub places: &'a [Place],
}

/// Whether a read is active in one of these columns.
fn active(row: &Row, columns: &std::ops::Range<usize>) -> bool {
    row.first < columns.end && columns.start < row.first + row.cells.len()
}

impl Drawing<'_> {
    /// Whether a read is active in a column that is drawn.
    pub fn draws(&self, row: &Row) -> bool {
        let drawn = |place: &Place| matches!(place, Place::Column(column) if active(row, &(*column..column + 1)));
        self.places.iter().any(drawn)
    }

    /// Whether a read is on another side than beside.
    fn moved(&self, read: usize) -> bool {
        self.beside.is_some_and(|beside| beside.sides[read] != self.division.sides[read])
    }

    /// A read's name, marked if it is on another side than beside.
    fn name(&self, read: usize) -> String {
        if self.moved(read) { format!("<b>read {read} ⇄</b>") } else { format!("read {read}") }
    }

    /// The column numbers; `⋯` where some are left out.
    fn head(&self) -> String {
        let heads = self.places.iter().map(|place| match place {
            Place::Column(column) => format!("<th>{column}"),
            Place::LeftOut(columns) => {
                format!("<th class=\"out\" title=\"{} left out\">⋯", counted(columns.len(), "column"))
            }
        });
        format!("<thead><tr><th>column{}\n", heads.collect::<String>())
    }

    /// A haplotype's letters. One that differs from the letter beside is marked, and so is a `-` where the sums differ.
    fn haplotype(&self, side: usize) -> String {
        let letters = self.places.iter().map(|place| match *place {
            Place::LeftOut(_) => cell::left_out(false),
            Place::Column(column) => {
                let letter = self.division.letters[side][column];
                let other = self.beside.is_some_and(|beside| beside.letters[side][column] != letter);
                cell::letter(letter, other, self.marks.false_dashes.contains(&(side, column)))
            }
        });
        format!("<tr class=\"hap\"><th>haplotype {}{}\n", side + 1, letters.collect::<String>())
    }

    /// The margins of a haplotype's letters, where they are known. Weak ones are marked.
    fn margins(&self, side: usize) -> String {
        let Some(margins) = &self.division.margins else {
            return String::new();
        };
        let numbers = self.places.iter().map(|place| match *place {
            Place::LeftOut(_) => cell::left_out(false),
            Place::Column(column) => cell::margin(margins[side][column], self.marks.weak.contains(&(side, column))),
        });
        format!("<tr class=\"margin\"><th>margin{}\n", numbers.collect::<String>())
    }

    /// One cell of a read: an entry, marked if it disagrees; a bar in a hole; nothing where there is no cell.
    fn cell(&self, read: usize, column: usize) -> String {
        let row = &self.matrix.rows[read];
        match column.checked_sub(row.first).and_then(|i| row.cells.get(i)) {
            None => cell::nothing(),
            Some(None) => cell::hole(),
            Some(&Some((letter, weight))) => cell::entry(letter, weight, self.division.disagrees(read, column, letter)),
        }
    }

    fn read(&self, read: usize) -> String {
        let cells = self.places.iter().map(|place| match place {
            Place::Column(column) => self.cell(read, *column),
            Place::LeftOut(columns) => cell::left_out(active(&self.matrix.rows[read], columns)),
        });
        format!("<tr><th>{}{}\n", self.name(read), cells.collect::<String>())
    }

    /// The reads of a side that have no cells, those on another side than beside first.
    fn empty(&self, side: u8) -> Option<String> {
        let rows = self.matrix.rows.iter().enumerate();
        let empty = rows.filter(|&(read, row)| row.cells.is_empty() && self.division.sides[read] == side);
        let mut reads: Vec<usize> = empty.map(|(read, _)| read).collect();
        reads.sort_by_key(|&read| !self.moved(read));
        let named: Vec<String> = reads.iter().take(NAMED).map(|&read| self.name(read)).collect();
        let more = if reads.len() > NAMED { format!(" and {} more", reads.len() - NAMED) } else { String::new() };
        (!reads.is_empty()).then(|| format!("without cells: {}{more}", named.join(", ")))
    }

    fn side(&self, side: u8) -> String {
        let width = self.places.len() + 1;
        let mut rows = format!("<tbody><tr class=\"side\"><th colspan=\"{width}\">side {side}\n");
        rows += &self.haplotype(usize::from(side));
        rows += &self.margins(usize::from(side));
        let here = |read: &usize| self.division.sides[*read] == side && self.draws(&self.matrix.rows[*read]);
        let reads: Vec<usize> = (0..self.matrix.rows.len()).filter(here).collect();
        rows.extend(reads.iter().map(|&read| self.read(read)));
        let none = reads.is_empty().then(|| "no reads".to_string());
        if let Some(words) = self.empty(side).or(none) {
            rows += &format!("<tr class=\"none\"><th colspan=\"{width}\"><div>{words}</div>\n");
        }
        rows
    }

    /// The drawing as a table.
    pub fn table(&self) -> String {
        format!("<table class=\"matrix\">\n{}{}{}</table>\n", self.head(), self.side(0), self.side(1))
    }
}
