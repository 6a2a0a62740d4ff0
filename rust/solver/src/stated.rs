//! What an answer block of version 2 states.

/// The parts of an answer block whose length is what its own counts make it. Sides and letters may be any bytes.
pub struct Stated<'a> {
    pub cost: u32,
    pub flips: u32,
    /// by read number
    pub sides: &'a [u8],
    /// of haplotype 1, of side 0, and of haplotype 2, of side 1, each by column
    pub letters: [&'a [u8]; 2],
}

impl<'a> Stated<'a> {
    /// The parts; None where the answer is malformed: under 17 bytes, version not 2, or a length field that is not both the
    /// bytes after byte 4 and 12 + n + 2m.
    pub fn read(answer: &'a [u8]) -> Option<Self> {
        let (head, marks) = answer.split_first_chunk::<17>()?;
        let long = |at: usize| u32::from_be_bytes([head[at], head[at + 1], head[at + 2], head[at + 3]]);
        let word = |at: usize| usize::from(u16::from_be_bytes([head[at], head[at + 1]]));
        let (length, reads, columns) = (long(1) as usize, word(13), word(15));
        if head[0] != 2 || length != answer.len() - 5 || length != 12 + reads + 2 * columns {
            return None;
        }
        let (sides, letters) = marks.split_at(reads);
        Some(Stated { cost: long(5), flips: long(9), sides, letters: letters.split_at(columns).into() })
    }
}
