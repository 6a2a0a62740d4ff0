//! The files that a report is cut into, and the way from one to another.

use super::SHEETS;
use std::ffi::{OsStr, OsString};
use std::os::unix::ffi::OsStrExt;
use std::path::{Path, PathBuf};

/// What a link leads to.
#[derive(Clone, Copy)]
pub enum Link {
    Index,
    /// counted from 1
    Page(usize),
    /// the checksums
    Sums,
}

/// `PAGE.html`, and where more is drawn than one page holds `PAGE-1.html`, `PAGE-2.html` and so on, and `PAGE.sha256`.
pub struct Files {
    index: PathBuf,
    pages: usize,
}

/// A file's name as a link takes it.
fn encoded(name: &OsStr) -> String {
    let safe = |byte: u8| byte.is_ascii_alphanumeric() || b"-._~".contains(&byte);
    name.as_bytes().iter().map(|&b| if safe(b) { char::from(b).to_string() } else { format!("%{b:02X}") }).collect()
}

impl Files {
    /// For an index at this path, and so many answers to draw.
    pub fn new(index: &Path, drawn: usize) -> Self {
        Files { index: index.to_owned(), pages: drawn.div_ceil(SHEETS).max(1) }
    }

    /// How many pages with drawings there are.
    pub fn pages(&self) -> usize {
        self.pages
    }

    fn name(&self, link: Link) -> OsString {
        let mut name = self.index.file_stem().unwrap_or_default().to_owned();
        match link {
            Link::Index => name.push(".html"),
            Link::Page(number) => name.push(format!("-{number}.html")),
            Link::Sums => name.push(".sha256"),
        }
        name
    }

    pub fn path(&self, link: Link) -> PathBuf {
        self.index.with_file_name(self.name(link))
    }

    pub fn href(&self, link: Link) -> String {
        encoded(&self.name(link))
    }

    /// The way from the index to the drawing of an answer, by its number among those that are drawn.
    pub fn drawing(&self, number: usize) -> String {
        match self.pages {
            1 => format!("#a{number}"),
            _ => format!("{}#a{number}", self.href(Link::Page(number / SHEETS + 1))),
        }
    }
}
