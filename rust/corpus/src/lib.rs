//! A folder of fragment blocks, `NAME.block`, and builders' answers to them, `NAME.answer`: answered, judged and converted through
//! the proved library, and shown beside our answers on a page.

mod answers;
mod checksum;
mod convert;
mod cores;
mod date;
mod file;
mod folder;
mod judge;
mod made;
mod new_file;
mod numbers;
mod outcome;
mod part;
mod progress;
mod report;
mod sha256;
mod shown;
mod tally;
mod tsv;

pub use answers::{Phase, answers, put_answer};
pub use checksum::{Checksum, list};
pub use convert::{Converted, convert};
pub use cores::each;
pub use date::utc;
pub use file::{read_answer, read_block, read_regular};
pub use folder::{Item, items};
pub use judge::{Judged, Wanted, judge};
pub use made::{Made, put};
pub use new_file::NewFile;
pub use numbers::Numbers;
pub use outcome::Outcome;
pub use part::Part;
pub use progress::{Progress, bar};
pub use report::{About, SHEETS, report};
pub use sha256::{hexadecimal, sha256};
pub use shown::shown;
pub use tally::Tally;
pub use tsv::line;
