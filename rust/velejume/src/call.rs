//! The proved calls, under their C names.

use crate::{Refusal, Verdict};

unsafe extern "C" {
    fn velejume_phase(
        block: *const u8,
        block_len: usize,
        work: *mut u32,
        work_len: usize,
        out: *mut u8,
        out_len: usize,
        second: *mut u32,
    ) -> u32;

    fn velejume_phase_heterozygous(
        block: *const u8,
        block_len: usize,
        work: *mut u32,
        work_len: usize,
        out: *mut u8,
        out_len: usize,
        second: *mut u32,
    ) -> u32;

    fn velejume_phase_margins(
        block: *const u8,
        block_len: usize,
        work: *mut u32,
        work_len: usize,
        out: *mut u8,
        out_len: usize,
        margins: *mut u32,
        margins_len: usize,
        second: *mut u32,
    ) -> u32;

    fn velejume_judge(
        block: *const u8,
        block_len: usize,
        answer: *const u8,
        answer_len: usize,
        work: *mut u32,
        work_len: usize,
        second: *mut u32,
    ) -> u32;

    fn velejume_convert(block: *const u8, block_len: usize, out: *mut u8, out_len: usize, second: *mut u32) -> u32;
}

/// What a call returns: 0 on acceptance or success, a verdict's number, or that of a refusal; and the second number.
#[derive(Clone, Copy, Debug, PartialEq, Eq)]
pub struct Numbers {
    pub number: u32,
    pub second: u32,
}

impl Numbers {
    /// Of [`phase_in`], [`phase_heterozygous_in`] and [`phase_margins_in`]: the cost on acceptance, else the refusal.
    pub fn cost(self) -> Result<u32, Refusal> {
        match self.number {
            0 => Ok(self.second),
            _ => Err(Refusal::read(self)),
        }
    }

    /// Of [`judge_in`]: the verdict, or the refusal of the block.
    pub fn verdict(self) -> Result<Verdict, Refusal> {
        Verdict::read(self)
    }

    /// Of [`convert_in`]: nothing on success, else the refusal.
    pub fn converted(self) -> Result<(), Refusal> {
        match self.number {
            0 => Ok(()),
            2 => Err(Refusal::NotVersion1),
            _ => Err(Refusal::read(self)),
        }
    }
}

/// Phases a fragment block in rooms that the caller lends, of any size.
///
/// On acceptance the first m × T entries of `work` hold the table and the first 17 + n + 2m bytes of `out` the answer
/// block; what lies beyond is kept. A refusal writes to neither.
///
/// ```
/// use velejume::{Refusal, phase_in};
///
/// let block = [1, 0, 0, 0, 10, 0, 1, 0, 1, 0, 4, 0, 0, 0, 7]; // 0:7
/// let (mut work, mut out) = ([9; 2], [9; 21]);
/// assert_eq!(phase_in(&block, &mut work, &mut out).cost(), Ok(0));
/// assert_eq!((work, out[20]), ([0, 9], 9));
///
/// let refusal = phase_in(&block, &mut work, &mut out[..19]).cost();
/// assert_eq!(refusal, Err(Refusal::OutputRoom { need: 20 }));
/// ```
pub fn phase_in(block: &[u8], work: &mut [u32], out: &mut [u8]) -> Numbers {
    // SAFETY: the call is proved to stay within what it is lent
    unsafe { phased(velejume_phase, block, work, out) }
}

/// Phases a fragment block in the all-heterozygous mode, where the haplotypes differ at every column, in rooms that the caller
/// lends, of any size. Refusals, rooms and layouts are those of [`phase_in`].
///
/// ```
/// use velejume::phase_heterozygous_in;
///
/// let block = [1, 0, 0, 0, 10, 0, 1, 0, 1, 0, 4, 0, 0, 0, 7]; // 0:7
/// let (mut work, mut out) = ([9; 2], [9; 21]);
/// assert_eq!(phase_heterozygous_in(&block, &mut work, &mut out).cost(), Ok(0));
/// assert_eq!((work, &out[17..]), ([0, 9], &[0, 0, 1, 9][..])); // side 0, haplotypes 0 and 1
/// ```
pub fn phase_heterozygous_in(block: &[u8], work: &mut [u32], out: &mut [u8]) -> Numbers {
    // SAFETY: the call is proved to stay within what it is lent
    unsafe { phased(velejume_phase_heterozygous, block, work, out) }
}

/// A call that phases, under its C name.
type Phase = unsafe extern "C" fn(*const u8, usize, *mut u32, usize, *mut u8, usize, *mut u32) -> u32;

/// Lends a call that phases a block and two rooms.
///
/// # Safety
/// The call stays within what it is lent, for every block and every length.
unsafe fn phased(call: Phase, block: &[u8], work: &mut [u32], out: &mut [u8]) -> Numbers {
    let mut second = 0;
    // SAFETY: each pointer stands with the length of its slice, and the slices do not overlap
    let number = unsafe {
        call(block.as_ptr(), block.len(), work.as_mut_ptr(), work.len(), out.as_mut_ptr(), out.len(), &mut second)
    };
    Numbers { number, second }
}

/// Phases a fragment block in rooms that the caller lends, of any size, and writes the margins of its letters.
///
/// Numbers, `work` and `out` are those of [`phase_in`], but for refusal 13, which comes last. On acceptance the first 2m numbers of
/// `margins` hold m margins of haplotype 1, then m of haplotype 2: what the other letter would cost more, 0 exactly where there is no
/// letter. What lies beyond is kept. A refusal writes nothing.
///
/// ```
/// use velejume::{Refusal, phase_margins_in};
///
/// let block = [1, 0, 0, 0, 10, 0, 1, 0, 1, 0, 4, 0, 0, 0, 7]; // 0:7
/// let (mut work, mut out, mut margins) = ([9; 2], [9; 21], [9; 3]);
/// assert_eq!(phase_margins_in(&block, &mut work, &mut out, &mut margins).cost(), Ok(0));
/// assert_eq!((&out[17..], margins), (&[0, 0, 2, 9][..], [7, 0, 9])); // side 0, haplotypes 0 and -
///
/// let refusal = phase_margins_in(&block, &mut work, &mut out, &mut margins[..1]).cost();
/// assert_eq!(refusal, Err(Refusal::MarginRoom { need: 2 }));
/// ```
pub fn phase_margins_in(block: &[u8], work: &mut [u32], out: &mut [u8], margins: &mut [u32]) -> Numbers {
    let mut second = 0;
    // SAFETY: each pointer stands with the length of its slice, and the slices do not overlap. The call is proved to stay
    // within them for every block and every length.
    let number = unsafe {
        velejume_phase_margins(
            block.as_ptr(),
            block.len(),
            work.as_mut_ptr(),
            work.len(),
            out.as_mut_ptr(),
            out.len(),
            margins.as_mut_ptr(),
            margins.len(),
            &mut second,
        )
    };
    Numbers { number, second }
}

/// Judges a builder's answer to a fragment block in a work room that the caller lends, of any size.
///
/// Under each verdict the first m × T entries of `work` hold the table; what lies beyond is kept. A refusal of the block comes
/// first and writes nothing.
///
/// ```
/// use velejume::{Refusal, Verdict, judge_in};
///
/// let block = [1, 0, 0, 0, 10, 0, 1, 0, 1, 0, 4, 0, 0, 0, 7]; // 0:7
/// let answer = [2, 0, 0, 0, 15, 0, 0, 0, 7, 0, 0, 0, 1, 0, 1, 0, 1, 0, 1, 2]; // cost 7, side 0, haplotypes 1 and -
/// let mut work = [9; 2];
/// assert_eq!(judge_in(&block, &answer, &mut work).verdict(), Ok(Verdict::NotLeast { least: 0 }));
/// assert_eq!(work, [0, 9]);
///
/// let refusal = judge_in(&block, &answer, &mut []).verdict();
/// assert_eq!(refusal, Err(Refusal::WorkRoom { need: 1 }));
/// ```
pub fn judge_in(block: &[u8], answer: &[u8], work: &mut [u32]) -> Numbers {
    let mut second = 0;
    // SAFETY: each pointer stands with the length of its slice, and the work room does not overlap the others. The call is
    // proved to stay within them for every block, every answer and every length.
    let number = unsafe {
        velejume_judge(
            block.as_ptr(),
            block.len(),
            answer.as_ptr(),
            answer.len(),
            work.as_mut_ptr(),
            work.len(),
            &mut second,
        )
    };
    Numbers { number, second }
}

/// Converts a fragment block of version 1 into one of version 2 without its reads without cells, in an output that the
/// caller lends, of any size.
///
/// On success `out` starts with the block of version 2; what lies beyond is kept. A refusal writes nothing.
///
/// ```
/// use velejume::{Refusal, convert_in};
///
/// let block = [1, 0, 0, 0, 14, 0, 1, 0, 2, 0, 2, 0, 0, 0, 4, 0, 0, 0, 7]; // . / 0:7
/// let mut out = [9; 17];
/// assert_eq!(convert_in(&block, &mut out).converted(), Ok(()));
/// assert_eq!(out, [2, 0, 0, 0, 11, 0, 1, 0, 1, 0, 5, 0, 0, 0, 0, 7, 9]);
///
/// let refusal = convert_in(&block, &mut out[..15]).converted();
/// assert_eq!(refusal, Err(Refusal::ConvertRoom { need: 16 }));
/// ```
pub fn convert_in(block: &[u8], out: &mut [u8]) -> Numbers {
    let mut second = 0;
    // SAFETY: each pointer stands with the length of its slice, and the slices do not overlap. The call is proved to stay
    // within them for every block and every length.
    let number = unsafe { velejume_convert(block.as_ptr(), block.len(), out.as_mut_ptr(), out.len(), &mut second) };
    Numbers { number, second }
}
