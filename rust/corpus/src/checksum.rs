//! The checksums of a folder's files.

use crate::{Judged, hexadecimal, sha256, shown};
use std::ffi::{OsStr, OsString};
use std::path::Path;

/// The SHA-256 of a block or an answer.
pub struct Checksum {
    pub file: OsString,
    pub sum: [u8; 32],
}

impl Checksum {
    /// That of a file that holds these bytes.
    pub fn of(path: &Path, bytes: &[u8]) -> Self {
        Checksum { file: path.file_name().unwrap_or_default().to_owned(), sum: sha256(bytes) }
    }
}

/// A line for each file that could be read, as `sha256sum *.answer *.block` prints them where LC_ALL is C.
pub fn list(judged: &[Judged]) -> String {
    let mut sums: Vec<&Checksum> = judged.iter().flat_map(|judged| &judged.checksums).collect();
    let ending = |sum: &Checksum| Path::new(&sum.file).extension().map(OsStr::to_owned);
    sums.sort_by_cached_key(|sum| (ending(sum), sum.file.clone()));
    sums.iter().map(|sum| format!("{}  {}\n", hexadecimal(&sum.sum), shown(&sum.file))).collect()
}
