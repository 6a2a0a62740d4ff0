//! One page: its head, its lists, its drawings.

use super::files::{Files, Link};
use super::{counted, escaped};
use crate::{Judged, Part, Tally, hexadecimal, sha256, utc};
use std::fmt::Write;
use std::time::{SystemTime, UNIX_EPOCH};

const STYLE: &str = include_str!("page.css");
const LEGEND: &str = include_str!("legend.html");

/// What a page is about.
pub struct About {
    /// the folder, as it is shown
    pub title: String,
    pub part: Option<Part>,
    /// what made the page, with its version
    pub maker: String,
}

/// A page as it grows.
pub struct Page {
    text: String,
}

/// The moment at which this is asked.
fn now() -> String {
    utc(SystemTime::now().duration_since(UNIX_EPOCH).map_or(0, |since| since.as_secs()))
}

impl Page {
    /// A page that has its head; of several, one by its number.
    pub fn new(about: &About, number: Option<(usize, usize)>) -> Self {
        let part = about.part.map(|part| format!(", {part}")).unwrap_or_default();
        let number = number.map(|(number, of)| format!(", page {number} of {of}")).unwrap_or_default();
        let title = format!("Answers judged: {}{part}{number}", escaped(&about.title));
        let text = format!(
            "<!DOCTYPE html>\n<html lang=\"en\">\n<meta charset=\"utf-8\">\n\
             <meta http-equiv=\"Content-Security-Policy\" content=\"default-src 'none'; style-src 'unsafe-inline'\">\n\
             <meta name=\"viewport\" content=\"width=device-width, initial-scale=1\">\n<title>{title}</title>\n\
             <style>\n{STYLE}</style>\n<h1>{title}</h1>\n<p>Made {} by {}.</p>\n",
            now(),
            escaped(&about.maker)
        );
        Page { text }
    }

    /// How many got each verdict; those that none got are left out.
    pub fn counts(&mut self, tally: &Tally) {
        let rows = tally.rows().filter(|(_, count)| *count > 0);
        let rows: String = rows.map(|(words, count)| format!("<tr><td>{}<td>{count}\n", escaped(words))).collect();
        let Tally { least, total, .. } = tally;
        let _ = write!(
            self.text,
            "<p>{least} of {total} are least (56 or 57).</p>\n<table class=\"counts\">\n{rows}</table>\n"
        );
    }

    /// The checksum of the list of checksums, and the list or the way to it.
    pub fn sums(&mut self, list: &str, elsewhere: Option<&str>) {
        let files = counted(list.lines().count(), "file");
        let sum = hexadecimal(&sha256(list.as_bytes()));
        let _ = writeln!(
            self.text,
            "<p>Judged from {files}. SHA-256 of the list of their checksums:\n<code>{sum}</code></p>"
        );
        let command = "<code>sha256sum *.answer *.block</code>";
        let _ = match elsewhere {
            Some(href) => writeln!(self.text, "<p><a href=\"{href}\">The list</a>, as {command} prints it.</p>"),
            None => writeln!(
                self.text,
                "<details><summary>The list, as {command} prints it</summary>\n<pre>{}</pre></details>",
                escaped(list)
            ),
        };
    }

    /// The ways to all pages with drawings.
    pub fn list(&mut self, files: &Files) {
        let link = |number: usize| format!("<a href=\"{}\">{number}</a>", files.href(Link::Page(number)));
        let links: Vec<String> = (1..=files.pages()).map(link).collect();
        let _ = writeln!(self.text, "<p class=\"ways\">Pages with drawings: {}</p>", links.join(" "));
    }

    /// The ways from one page with drawings to those beside it and to the index.
    pub fn ways(&mut self, files: &Files, number: usize) {
        let mut ways = vec![format!("<a href=\"{}\">index</a>", files.href(Link::Index))];
        let beside = [("page before", number - 1), ("next page", number + 1)];
        for (words, number) in beside.into_iter().filter(|(_, number)| (1..=files.pages()).contains(number)) {
            ways.push(format!("<a href=\"{}\">{words}</a>", files.href(Link::Page(number))));
        }
        let _ = writeln!(self.text, "<p class=\"ways\">{}</p>", ways.join(" "));
    }

    /// A line for each answer that is not ours, with the way to its drawing.
    pub fn contents(&mut self, others: &[&Judged], files: &Files) {
        if others.is_empty() {
            self.text += "<p>Every answer is ours.</p>\n";
            return;
        }
        self.text += "<h2>Not ours</h2>\n<table class=\"contents\">\n";
        let mut drawn = 0;
        for judged in others {
            let (mut name, outcome) = (escaped(&judged.name), escaped(&judged.outcome.to_string()));
            if judged.bytes.is_some() {
                name = format!("<a href=\"{}\">{name}</a>", files.drawing(drawn));
                drawn += 1;
            }
            let _ = writeln!(self.text, "<tr><td>{name}<td>{outcome}");
        }
        self.text += "</table>\n";
    }

    /// Drawings, and how they are read.
    pub fn sheets(&mut self, sheets: &str) {
        if !sheets.is_empty() {
            self.text += LEGEND;
            self.text += sheets;
        }
    }

    /// The whole page.
    pub fn end(self) -> String {
        self.text + "</html>\n"
    }
}
