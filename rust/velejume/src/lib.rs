//! Haplotype phasing whose answer is proved to be the answer.
//!
//! [`phase`] takes a fragment block and gives the least cost, a side for each read, both haplotypes and the table, or says
//! why the block is refused; [`phase_margins`] says beside it how sure each letter is, and [`phase_heterozygous`] phases for
//! haplotypes that differ at every column. [`judge`] takes a builder's answer beside the block and gives the first verdict that
//! applies. [`convert`] turns a block of version 1 into one of version 2 without its reads without cells. [`phase_in`],
//! [`phase_margins_in`], [`phase_heterozygous_in`], [`judge_in`] and [`convert_in`] are the proved calls themselves, for callers
//! that lend their own rooms.
//!
//! ```
//! // the matrix of the WhatsHap paper's Figure 1: 0:5 . / 1:3 0:2 / 1:6 1:1 / . 0:2
//! let block = [
//!     1, 0, 0, 0, 32, 0, 2, 0, 4, // version, length, columns, reads
//!     0, 4, 0, 0, 0, 5, //
//!     0, 6, 0, 0, 1, 3, 0, 2, //
//!     0, 6, 0, 0, 1, 6, 1, 1, //
//!     0, 4, 0, 1, 0, 2,
//! ];
//! let answer = velejume::phase(&block).unwrap();
//! assert_eq!(answer.cost, 1);
//! assert_eq!(answer.to_string(), "cost 1\nflips 1\nsides 1000\nhap1 10\nhap2 0-\n");
//! assert_eq!(answer.table.column(1), [1, 3, 1, 4]);
//!
//! let refusal = velejume::phase(&block[..36]).unwrap_err();
//! assert_eq!(refusal, velejume::Refusal::Length);
//!
//! // in version 2 a weight has two bytes: 0:256 / 1:65535
//! let wide = [2, 0, 0, 0, 18, 0, 1, 0, 2, 0, 5, 0, 0, 0, 1, 0, 0, 5, 0, 0, 1, 255, 255];
//! let answer = velejume::phase(&wide).unwrap();
//! assert_eq!((answer.cost, answer.table.column(0)), (0, &[256, 0][..]));
//! ```

mod answer;
mod call;
mod refusal;
mod verdict;

pub use answer::{Answer, AnswerWithMargins, Letter, Table};
pub use call::{Numbers, convert_in, judge_in, phase_heterozygous_in, phase_in, phase_margins_in};
pub use refusal::Refusal;
pub use verdict::Verdict;

/// Work entries that suffice for every block: 1,024 columns with 12 active reads.
pub const WORK_ENTRIES: usize = 1024 * 2048;

/// Output bytes that suffice for every block: 1,024 reads and 1,024 columns.
pub const OUTPUT_BYTES: usize = 17 + 1024 + 2 * 1024;

/// Margins that suffice for every block: two for each of 1,024 columns.
pub const MARGINS: usize = 2 * 1024;

/// Bytes that no fragment block of a matrix exceeds: 1,024 reads of 1,024 cells, three bytes a cell in version 2. With at most 12
/// active reads a block has at most 40,969.
pub const BLOCK_BYTES: usize = 9 + 1024 * (4 + 3 * 1024);

/// Phases a fragment block. The rooms are as large as the call itself says that it needs.
///
/// ```
/// let no_reads = [1, 0, 0, 0, 4, 0, 1, 0, 0];
/// let answer = velejume::phase(&no_reads).unwrap();
/// assert_eq!((answer.cost, answer.flips), (0, 0));
/// assert!(answer.sides.is_empty());
///
/// let refusal = velejume::phase(b"no block").unwrap_err();
/// assert_eq!((refusal.number(), refusal.second()), (1, 0));
/// assert_eq!(refusal.to_string(), "fewer than 9 bytes");
/// ```
pub fn phase(block: &[u8]) -> Result<Answer, Refusal> {
    answered(|work, out| phase_in(block, work, out))
}

/// Phases a fragment block as [`phase`] does, and gives the margin of each letter: the distance between the two sums that it is
/// chosen from, which is what the other letter would cost more. It is 0 exactly where there is no letter. Refusals are the same.
///
/// ```
/// let block = [1, 0, 0, 0, 16, 0, 1, 0, 2, 0, 4, 0, 0, 0, 5, 0, 4, 0, 0, 0, 3]; // 0:5 / 0:3
/// let sure = velejume::phase_margins(&block).unwrap();
/// assert_eq!(sure.answer, velejume::phase(&block).unwrap());
/// assert_eq!(sure.margins, [[8], [0]]);
/// assert_eq!(sure.to_string(), "cost 0\nflips 0\nsides 00\nhap1 0\nhap2 -\nmargin1 8\nmargin2 0\n");
/// ```
pub fn phase_margins(block: &[u8]) -> Result<AnswerWithMargins, Refusal> {
    let mut margins = Vec::new();
    let answer = answered(|work, out| match phase_margins_in(block, work, out, &mut margins) {
        Numbers { number: 13, second } => {
            margins.resize(second as usize, 0);
            phase_margins_in(block, work, out, &mut margins)
        }
        numbers => numbers,
    })?;
    Ok(AnswerWithMargins::read(answer, margins))
}

/// Phases a fragment block in the all-heterozygous mode: the haplotypes differ at every column. A column is charged the lesser of
/// what it costs to write 0 on haplotype 1 and 1 on haplotype 2 and what the other way round costs; both have [`Letter::Tie`] where
/// these are equal. The cost is never below that of [`phase`], and refusals are the same.
///
/// ```
/// let block = [1, 0, 0, 0, 16, 0, 1, 0, 2, 0, 4, 0, 0, 0, 5, 0, 4, 0, 0, 1, 3]; // 0:5 / 1:3
/// let answer = velejume::phase_heterozygous(&block).unwrap();
/// assert_eq!(answer.to_string(), "cost 0\nflips 0\nsides 01\nhap1 0\nhap2 1\n");
///
/// // the first column wants the reads apart, and at the second they then agree: 0:5 0:4 / 1:5 0:3
/// let block = [1, 0, 0, 0, 20, 0, 2, 0, 2, 0, 6, 0, 0, 0, 5, 0, 4, 0, 6, 0, 0, 1, 5, 0, 3];
/// assert_eq!(velejume::phase(&block).unwrap().cost, 0);
/// assert_eq!(velejume::phase_heterozygous(&block).unwrap().cost, 3);
/// ```
pub fn phase_heterozygous(block: &[u8]) -> Result<Answer, Refusal> {
    answered(|work, out| phase_heterozygous_in(block, work, out))
}

/// The answer of a call that phases, in rooms as large as the call itself says that it needs.
fn answered(mut call: impl FnMut(&mut [u32], &mut [u8]) -> Numbers) -> Result<Answer, Refusal> {
    let mut work = match call(&mut [], &mut []).cost() {
        Err(Refusal::WorkRoom { need }) => vec![0; need as usize],
        other => return Err(other.expect_err("no table fits into no room")),
    };
    let mut out = match call(&mut work, &mut []).cost() {
        Err(Refusal::OutputRoom { need }) => vec![0; need as usize],
        other => return Err(other.expect_err("no answer fits into no room")),
    };
    call(&mut work, &mut out).cost()?;
    Ok(Answer::read(&out, work))
}

/// Judges a builder's answer to a fragment block. The room is as large as the call itself says that it needs.
///
/// ```
/// use velejume::Verdict;
///
/// let block = [1, 0, 0, 0, 10, 0, 1, 0, 1, 0, 4, 0, 0, 0, 7]; // 0:7
/// let mut answer = [2, 0, 0, 0, 15, 0, 0, 0, 0, 0, 0, 0, 0, 0, 1, 0, 1, 0, 0, 2]; // cost 0, side 0, haplotypes 0 and -
/// assert_eq!(velejume::judge(&block, &answer), Ok(Verdict::Ours));
///
/// answer[18] = 1;
/// let verdict = velejume::judge(&block, &answer).unwrap();
/// assert_eq!((verdict.number(), verdict.second()), (54, 0));
/// assert_eq!(verdict.to_string(), "stated cost not the weight of disagreeing entries");
/// ```
pub fn judge(block: &[u8], answer: &[u8]) -> Result<Verdict, Refusal> {
    let mut work = match judge_in(block, answer, &mut []).verdict() {
        Err(Refusal::WorkRoom { need }) => vec![0; need as usize],
        other => return other,
    };
    judge_in(block, answer, &mut work).verdict()
}

/// Converts a fragment block of version 1 into one of version 2 without its reads without cells; the others keep their order,
/// letters and weights, and so their sides, the haplotypes, the cost and the table. The room is as large as the call itself
/// says that it needs.
///
/// ```
/// let block = [1, 0, 0, 0, 14, 0, 1, 0, 2, 0, 2, 0, 0, 0, 4, 0, 0, 0, 7]; // . / 0:7
/// let wide = velejume::convert(&block).unwrap();
/// assert_eq!(wide, [2, 0, 0, 0, 11, 0, 1, 0, 1, 0, 5, 0, 0, 0, 0, 7]);
///
/// let refusal = velejume::convert(&wide).unwrap_err();
/// assert_eq!((refusal.number(), refusal.second()), (2, 0));
/// assert_eq!(refusal.to_string(), "version not 1");
/// ```
pub fn convert(block: &[u8]) -> Result<Vec<u8>, Refusal> {
    let mut out = match convert_in(block, &mut []).converted() {
        Err(Refusal::ConvertRoom { need }) => vec![0; need as usize],
        other => return Err(other.expect_err("no block fits into no room")),
    };
    convert_in(block, &mut out).converted()?;
    Ok(out)
}
