//! The page that shows every answer that is not ours, beside ours. It needs no script and no picture, and up to so many answers
//! no other file; more are cut into pages, with an index.
//!
//! Verdicts and costs are the library's, and so are our sides and letters. What a drawing marks, and what is added up below it,
//! is read off the block and the answers.

mod cell;
mod columns;
mod division;
mod drawing;
mod fields;
mod files;
mod page;
mod sheet;

use crate::{Judged, NewFile, Outcome, Progress, Tally, cores, list};
use files::{Files, Link};
use page::Page;
use std::io;
use std::path::Path;

pub use page::About;

/// How many answers one page draws at most.
pub const SHEETS: usize = 200;

/// Text as it may stand in a page.
fn escaped(text: &str) -> String {
    let mut safe = String::new();
    for c in text.chars() {
        match c {
            '&' => safe.push_str("&amp;"),
            '<' => safe.push_str("&lt;"),
            '>' => safe.push_str("&gt;"),
            '"' => safe.push_str("&quot;"),
            '\'' => safe.push_str("&#39;"),
            _ => safe.push(c),
        }
    }
    safe
}

/// `1 read`, `2 reads`.
fn counted(count: usize, what: &str) -> String {
    format!("{count} {what}{}", if count == 1 { "" } else { "s" })
}

/// The sheet of an answer that is to be drawn.
fn sheet((number, judged): &(usize, &Judged)) -> String {
    match (&judged.outcome, &judged.bytes) {
        (Outcome::Judged(verdict), Some((block, answer))) => {
            sheet::sheet(*number, &judged.name, verdict, block, answer)
        }
        _ => String::new(),
    }
}

/// The answers that are not ours, those that are not least first.
fn others(judged: &[Judged]) -> Vec<&Judged> {
    let mut others: Vec<&Judged> = judged.iter().filter(|judged| !judged.outcome.is_ours()).collect();
    others.sort_by_key(|judged| judged.outcome.is_least());
    others
}

/// What is reported, and where.
struct Report<'a> {
    about: &'a About,
    others: &'a [&'a Judged],
    /// those that are drawn, numbered
    drawn: Vec<(usize, &'a Judged)>,
    files: Files,
    progress: Progress,
}

impl Report<'_> {
    /// The sheets of a page, counted from 1.
    fn sheets(&mut self, number: usize) -> String {
        let drawn = self.drawn.chunks(SHEETS).nth(number - 1).unwrap_or_default();
        cores::each(drawn, &mut self.progress, |drawn, _| sheet(drawn)).concat()
    }

    /// Draws all on the page itself.
    fn on_one(&mut self, page: &mut Page, sums: &str) {
        page.sums(sums, None);
        page.contents(self.others, &self.files);
        page.sheets(&self.sheets(1));
    }

    /// Makes the page an index, and draws on pages beside it.
    fn on_many(&mut self, page: &mut Page, sums: &str) -> io::Result<()> {
        page.sums(sums, Some(&self.files.href(Link::Sums)));
        page.list(&self.files);
        page.contents(self.others, &self.files);
        NewFile::create(&self.files.path(Link::Sums))?.write(sums.as_bytes())?;
        for number in 1..=self.files.pages() {
            let file = NewFile::create(&self.files.path(Link::Page(number)))?;
            let mut page = Page::new(self.about, Some((number, self.files.pages())));
            page.ways(&self.files, number);
            page.sheets(&self.sheets(number));
            page.ways(&self.files, number);
            file.write(page.end().as_bytes())?;
        }
        Ok(())
    }
}

/// Writes the page of a folder into a file that was begun at this path, and the pages that it leads to beside it.
pub fn report(file: NewFile, path: &Path, about: &About, judged: &[Judged], tally: &Tally) -> io::Result<()> {
    let others = others(judged);
    let drawn: Vec<(usize, &Judged)> =
        others.iter().copied().filter(|judged| judged.bytes.is_some()).enumerate().collect();
    let (files, progress) = (Files::new(path, drawn.len()), Progress::new(drawn.len()));
    let mut report = Report { about, others: &others, drawn, files, progress };
    let (mut page, sums) = (Page::new(about, None), list(judged));
    page.counts(tally);
    match report.files.pages() {
        1 => report.on_one(&mut page, &sums),
        _ => report.on_many(&mut page, &sums)?,
    }
    file.write(page.end().as_bytes())
}
