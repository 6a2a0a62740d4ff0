//! Writing blocks of version 1 as blocks of version 2.

use crate::{Made, Outcome, Progress, cores, put, read_block};
use std::path::{Path, PathBuf};

/// What came of a block that was to be converted.
pub struct Converted {
    pub made: Made,
    /// how many reads without cells were left out of what is there now
    pub left_out: usize,
}

/// The number of reads in the head of a lawful block.
fn reads(block: &[u8]) -> usize {
    usize::from(u16::from_be_bytes([block[7], block[8]]))
}

fn converted(path: &Path, folder: &Path) -> Converted {
    let not = |outcome| Converted { made: Made::Not(outcome), left_out: 0 };
    let block = match read_block(path) {
        Ok(block) => block,
        Err(why) => return not(Outcome::unreadable("block", why)),
    };
    match velejume::convert(&block) {
        Ok(wide) => {
            let made = put(&folder.join(path.file_name().unwrap_or_default()), &wide, "block");
            let left_out = if made.fine() { reads(&block) - reads(&wide) } else { 0 };
            Converted { made, left_out }
        }
        Err(refusal) => not(Outcome::Refused(refusal)),
    }
}

/// Writes each block under its name into a folder, in version 2 and without its reads without cells, on all cores. A file that
/// is there is kept.
pub fn convert(blocks: &[PathBuf], folder: &Path) -> Vec<Converted> {
    let mut progress = Progress::new(blocks.len());
    cores::each(blocks, &mut progress, |block, _| converted(block, folder))
}
