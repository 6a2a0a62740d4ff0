//! The blocks and the answers of a folder.

use crate::shown;
use std::collections::BTreeMap;
use std::ffi::OsString;
use std::path::{Path, PathBuf};
use std::{fs, io};

/// A block, `NAME.block`, and the answer to it, `NAME.answer`; one of them may be missing.
pub struct Item {
    /// the file name without its ending, as it is shown
    pub name: String,
    pub block: Option<PathBuf>,
    pub answer: Option<PathBuf>,
}

/// All blocks and answers of a folder, by name. Files with other endings are passed over.
pub fn items(folder: &Path) -> io::Result<Vec<Item>> {
    let mut items = BTreeMap::<OsString, Item>::new();
    for entry in fs::read_dir(folder)? {
        let path = entry?.path();
        let (Some(name), Some(ending)) = (path.file_stem(), path.extension()) else {
            continue;
        };
        if ending == "block" || ending == "answer" {
            let empty = || Item { name: shown(name), block: None, answer: None };
            let item = items.entry(name.to_owned()).or_insert_with(empty);
            let file = if ending == "block" { &mut item.block } else { &mut item.answer };
            *file = Some(path);
        }
    }
    Ok(items.into_values().collect())
}
