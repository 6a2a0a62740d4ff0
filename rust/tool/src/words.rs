//! The words behind a subcommand: its options with their values, and the rest.

use std::ffi::{OsStr, OsString};
use std::ops::RangeInclusive;
use std::os::unix::ffi::{OsStrExt, OsStringExt};
use std::path::PathBuf;

/// An option: its name, and what its value is, if it has one.
pub type Known = (&'static str, Option<&'static str>);

/// The words of a call, sorted.
pub struct Words {
    options: Vec<(&'static str, OsString)>,
    rest: Vec<OsString>,
}

/// A word as an option's name and the value behind `=`.
fn split(word: &OsStr) -> (&OsStr, Option<OsString>) {
    let bytes = word.as_bytes();
    match bytes.iter().position(|&byte| byte == b'=') {
        Some(at) => (OsStr::from_bytes(&bytes[..at]), Some(OsString::from_vec(bytes[at + 1..].to_vec()))),
        None => (word, None),
    }
}

/// The option of a name and its value: the one behind `=`, or the word that follows.
fn option(
    name: &OsStr,
    value: Option<OsString>,
    known: &[Known],
    words: &mut std::slice::Iter<OsString>,
) -> Result<(&'static str, OsString), String> {
    let found = known.iter().find(|(known, _)| name == *known);
    let &(name, wanted) = found.ok_or_else(|| format!("there is no option {}", corpus::shown(name)))?;
    match (wanted, value) {
        (None, None) => Ok((name, OsString::new())),
        (None, Some(_)) => Err(format!("{name} takes no value")),
        (Some(_), Some(value)) => Ok((name, value)),
        (Some(wanted), None) => words.next().map(|value| (name, value.clone())).ok_or(format!("{name} needs {wanted}")),
    }
}

impl Words {
    /// Sorts the words of a command that has these options. Words behind `--` are none.
    pub fn read(words: &[OsString], known: &[Known]) -> Result<Self, String> {
        let (mut options, mut rest) = (Vec::new(), Vec::new());
        let mut words = words.iter();
        while let Some(word) = words.next() {
            if word == "--" {
                rest.extend(words.by_ref().cloned());
            } else if word.as_bytes().starts_with(b"-") && word != "-" {
                let (name, value) = split(word);
                options.push(option(name, value, known, &mut words)?);
            } else {
                rest.push(word.clone());
            }
        }
        let again = (1..options.len()).find(|&i| options[..i].iter().any(|(name, _)| *name == options[i].0));
        match again {
            Some(i) => Err(format!("{} is given twice", options[i].0)),
            None => Ok(Words { options, rest }),
        }
    }

    /// Whether an option is given.
    pub fn has(&self, name: &str) -> bool {
        self.value(name).is_some()
    }

    /// The value of an option that is given.
    pub fn value(&self, name: &str) -> Option<&OsStr> {
        self.options.iter().find(|(given, _)| *given == name).map(|(_, value)| value.as_os_str())
    }

    /// The file that an option names.
    pub fn path(&self, name: &str) -> Option<PathBuf> {
        self.value(name).map(PathBuf::from)
    }

    /// The value of an option, if it is what a function reads; what it should be is said if it is not.
    pub fn read_as<T>(&self, name: &str, what: &str, read: impl Fn(&str) -> Option<T>) -> Result<Option<T>, String> {
        let Some(value) = self.value(name) else {
            return Ok(None);
        };
        let wrong = || format!("{name} {}: it should be {what}", corpus::shown(value));
        value.to_str().and_then(read).map(Some).ok_or_else(wrong)
    }

    /// The value of an option that is a number of this range.
    pub fn number(&self, name: &str, range: RangeInclusive<usize>) -> Result<Option<usize>, String> {
        let what = format!("a number from {} to {}", range.start(), range.end());
        let digits = |text: &str| text.bytes().all(|byte| byte.is_ascii_digit());
        self.read_as(name, &what, |text| text.parse().ok().filter(|number| digits(text) && range.contains(number)))
    }

    /// The version of blocks that are written, if it is given.
    pub fn block_version(&self) -> Result<Option<u8>, String> {
        let version = |text: &str| matrix::VERSIONS.into_iter().find(|version| text == version.to_string());
        self.read_as("--version", "1 or 2", version)
    }

    /// The words that are no options.
    pub fn rest(&self) -> Vec<PathBuf> {
        self.rest.iter().map(PathBuf::from).collect()
    }
}
