//! The folder that a command is about.

use crate::Fault;
use crate::output::at;
use corpus::Item;
use std::path::Path;

/// What is in a folder, at least one file of one ending.
pub fn items(folder: &Path) -> Result<Vec<Item>, Fault> {
    let items = corpus::items(folder).map_err(|fault| Fault::Failed(at(folder, format!("cannot be read: {fault}"))))?;
    match items.is_empty() {
        true => Err(Fault::Failed(at(folder, "holds no NAME.block and no NAME.answer"))),
        false => Ok(items),
    }
}
