//! A block, a builder's answer and a work room to judge it in.

use crate::case::size;
use crate::{Builder, Fault, Size};
use blocks::{Field, Kind, Random};
use matrix::Matrix;

pub struct Judging {
    pub kind: Kind,
    /// of the block before it is damaged
    pub version: u8,
    /// what is damaged in the block
    pub field: Option<Field>,
    pub builder: Builder,
    pub faults: Vec<Fault>,
    pub block: Vec<u8>,
    pub answer: Vec<u8>,
    pub work: (Size, usize),
}

/// No fault in half of all answers, else one to three, of different verdicts.
fn faults(random: &mut Random) -> Vec<Fault> {
    let count = if random.one_in(2) { 0 } else { random.within(1, 3) };
    let picked: Vec<Fault> = (0..count).map(|_| random.pick(&Fault::ALL)).collect();
    let mut faults: Vec<Fault> = Fault::ALL.into_iter().filter(|fault| picked.contains(fault)).collect();
    faults.dedup_by_key(|fault| fault.verdict());
    faults
}

/// The answer of a builder with these faults; those without a place are left out.
fn answer(builder: Builder, faults: &mut Vec<Fault>, matrix: &Matrix, random: &mut Random) -> Option<Vec<u8>> {
    let mut parts = builder.answer(matrix, random)?;
    faults.retain(|fault| fault.put_into_parts(&mut parts, matrix, random).is_some());
    let mut bytes = parts.laid();
    faults.iter().for_each(|fault| fault.put_into_bytes(&mut bytes, random));
    Some(bytes)
}

impl Judging {
    /// An answer of this builder, or one with any sides where it has none, to a block of a kind in a version, whole or damaged.
    pub fn random(kind: Kind, version: u8, field: Option<Field>, builder: Builder, random: &mut Random) -> Self {
        let matrix = kind.matrix(version, random);
        let damaged = field.and_then(|field| Some((field, field.damaged(&matrix, random)?)));
        let (field, block) = damaged.map_or((None, matrix.block()), |(field, block)| (Some(field), block));
        let mut faults = faults(random);
        let (builder, answer) = match answer(builder, &mut faults, &matrix, random) {
            Some(answer) => (builder, answer),
            None => (Builder::AnySides, answer(Builder::AnySides, &mut faults, &matrix, random).expect("any sides")),
        };
        let (entries, _) = solver::rooms(&block).unwrap_or((60, 40));
        Judging { kind, version, field, builder, faults, block, answer, work: size(entries, random) }
    }

    /// Whether a number can be, by how the case was made.
    pub fn possible(&self, number: u32) -> bool {
        let verdict = self.faults.iter().rev().find_map(|fault| fault.verdict());
        match (solver::rooms(&self.block), verdict) {
            (Err(refusal), _) => number == refusal.0,
            (Ok((entries, _)), _) if self.work.1 < entries => number == 10,
            (Ok(_), _) if self.field.is_some() => (50..=57).contains(&number),
            (Ok(_), Some(verdict)) => number == verdict,
            (Ok(_), None) => self.builder.verdicts().contains(&number),
        }
    }
}
