//! Solvers that are wrong about the all-heterozygous mode in one thing each: the cases tell every one.

use blocks::{Kind, Random};
use differential::{Case, Sums, check, choices, counts, proved, sums};
use matrix::{Matrix, VERSIONS};
use solver::{Mode, Numbers, Phase, columns};

/// A column of a division: by side and letter what its entries weigh and how many they are; what it costs to write it with 0 on
/// haplotype 1, and with 1.
struct Column {
    weights: [[u32; 2]; 2],
    counts: [[u32; 2]; 2],
    as_zero: u32,
    as_one: u32,
}

impl Column {
    fn tie(&self) -> bool {
        self.as_zero == self.as_one
    }

    /// The letters that entries are held against, also where none are reported.
    fn chosen(&self) -> [u8; 2] {
        if self.as_zero < self.as_one { [0, 1] } else { [1, 0] }
    }

    /// The letters that are reported.
    fn letters(&self) -> [u8; 2] {
        if self.tie() { [2, 2] } else { self.chosen() }
    }

    /// How many entries differ from these letters.
    fn differ(&self, letters: [u8; 2]) -> u32 {
        (0..2).map(|side| self.counts[side][usize::from(1 - letters[side])]).sum()
    }

    fn flips(&self) -> u32 {
        self.differ(self.chosen())
    }

    /// The flips, counted against these letters at a tie.
    fn flips_at_tie(&self, letters: [u8; 2]) -> u32 {
        self.differ(if self.tie() { letters } else { self.chosen() })
    }

    /// Whether a side's own sums are equal.
    fn own_tie(&self, side: usize) -> bool {
        self.weights[side][0] == self.weights[side][1]
    }

    /// The letters by each side's own sums.
    fn own_letters(&self) -> [u8; 2] {
        [0, 1].map(|side| if self.own_tie(side) { 2 } else { u8::from(self.weights[side][0] < self.weights[side][1]) })
    }

    /// The letters with `-` where a side's own sums are equal.
    fn own_dashes(&self) -> [u8; 2] {
        [0, 1].map(|side| if self.own_tie(side) { 2 } else { self.chosen()[side] })
    }
}

/// Phases rightly, but writes the letters and the flips that a function makes of each column.
fn writing(block: &[u8], work: &mut [u32], out: &mut [u8], written: fn(&Column) -> ([u8; 2], u32)) -> Numbers {
    let numbers = columns(Mode::Heterozygous, block, work, out);
    let (0, Ok(matrix)) = (numbers.0, Matrix::read(block)) else {
        return numbers;
    };
    let (head, marks) = out.split_at_mut(17);
    let (sides, letters) = marks.split_at_mut(matrix.rows.len());
    let [weights, counts] = [sums, counts].map(|sums| sums(&matrix, sides));
    let choices = choices(Mode::Heterozygous, weights.clone());
    let mut all = 0;
    for column in 0..matrix.columns {
        let [as_one, as_zero] = choices[0][column];
        let of = |sums: &Sums| [sums[0][column], sums[1][column]];
        let (both, flips) = written(&Column { weights: of(&weights), counts: of(&counts), as_zero, as_one });
        [letters[column], letters[matrix.columns + column]] = both;
        all += flips;
    }
    head[9..13].copy_from_slice(&all.to_be_bytes());
    numbers
}

/// A solver that writes what a function makes of each column.
macro_rules! writes {
    ($written:expr) => {
        |_, block, work, out| writing(block, work, out, $written)
    };
}

/// Charges each side for itself.
fn charges_apart(_: Mode, block: &[u8], work: &mut [u32], out: &mut [u8]) -> Numbers {
    columns(Mode::General, block, work, out)
}

/// Leaves the general mode's table.
fn leaves_the_general_table(mode: Mode, block: &[u8], work: &mut [u32], out: &mut [u8]) -> Numbers {
    let numbers = columns(mode, block, work, out);
    columns(Mode::General, block, work, &mut out.to_vec());
    numbers
}

/// Gives the general mode's cost.
fn gives_the_general_cost(mode: Mode, block: &[u8], work: &mut [u32], out: &mut [u8]) -> Numbers {
    let general = columns(Mode::General, block, work, out);
    columns(mode, block, work, out);
    general
}

/// Puts every read on its other side, and exchanges the haplotypes.
fn exchanges_sides(mode: Mode, block: &[u8], work: &mut [u32], out: &mut [u8]) -> Numbers {
    let numbers = columns(mode, block, work, out);
    if let (0, Ok(matrix)) = (numbers.0, Matrix::read(block)) {
        let (sides, letters) = out[17..].split_at_mut(matrix.rows.len());
        sides.iter_mut().for_each(|side| *side ^= 1);
        letters[..2 * matrix.columns].rotate_left(matrix.columns);
    }
    numbers
}

/// How many of so many small blocks of a version tell a call from the independent solver.
fn told(call: Phase, version: u8) -> usize {
    let mut random = Random::new(43);
    let mut told = || {
        let case = Case::random(random.pick(&Kind::SMALL), version, None, &mut random);
        check(call, Mode::Heterozygous, &case.block, case.rooms(), &mut random).is_err()
    };
    (0..600).filter(|_| told()).count()
}

#[test]
fn each_wrong_solver_is_told() {
    let right: [(&str, Phase); 3] =
        [("columns", columns), ("proved", proved), ("writing", writes!(|it| (it.letters(), it.flips())))];
    let wrong: [(&str, Phase); 13] = [
        ("charges each side for itself", charges_apart),
        ("leaves the general table", leaves_the_general_table),
        ("gives the general cost", gives_the_general_cost),
        ("exchanges the sides", exchanges_sides),
        ("writes letters at a tie", writes!(|it| (it.chosen(), it.flips()))),
        ("writes dashes by each side's sums", writes!(|it| (it.own_dashes(), it.flips()))),
        ("writes one dash at a tie", writes!(|it| ([it.letters()[0], it.chosen()[1]], it.flips()))),
        ("writes letters by each side's sums", writes!(|it| (it.own_letters(), it.flips()))),
        ("writes one letter twice", writes!(|it| ([it.letters()[0]; 2], it.flips()))),
        ("exchanges the haplotypes", writes!(|it| ([it.letters()[1], it.letters()[0]], it.flips()))),
        ("counts against 1 on both sides of a tie", writes!(|it| (it.letters(), it.flips_at_tie([1, 1])))),
        ("counts against 0 on side 0 of a tie", writes!(|it| (it.letters(), it.flips_at_tie([0, 1])))),
        ("counts nothing at a tie", writes!(|it| (it.letters(), if it.tie() { 0 } else { it.flips() }))),
    ];
    for version in VERSIONS {
        for (name, call) in right {
            assert_eq!(told(call, version), 0, "{name} is right");
        }
        for (name, call) in wrong {
            let told = told(call, version);
            println!("version {version}, {name}: {told}");
            assert!(told > 0, "a solver that {name} passes in version {version}");
        }
    }
}
