//! Phasings with margins that are wrong in one thing each: the cases tell every one.

use blocks::{Kind, Random};
use differential::{Case, Margins, Sums, check_margins, choices, counts, proved_margins, sums};
use matrix::{Matrix, VERSIONS};
use solver::{Block, Mode, Numbers, columns};

/// The independent phasing with margins.
fn right(block: &[u8], work: &mut [u32], out: &mut [u8], run: &mut [u32]) -> Numbers {
    solver::margins(columns, block, work, out, run)
}

/// What is known of a division: the weights of its entries and their numbers.
struct Division {
    matrix: Matrix,
    weights: Sums,
    counts: Sums,
}

/// Phases rightly, but writes the run that a function makes of the division.
fn writing(
    block: &[u8],
    work: &mut [u32],
    out: &mut [u8],
    run: &mut [u32],
    written: fn(Division) -> Vec<u32>,
) -> Numbers {
    let numbers = right(block, work, out, run);
    if let (0, Ok(matrix)) = (numbers.0, Matrix::read(block)) {
        let sides = &out[17..][..matrix.rows.len()];
        let [weights, counts] = [sums, counts].map(|sums| sums(&matrix, sides));
        let margins = written(Division { matrix, weights, counts });
        run[..margins.len()].copy_from_slice(&margins);
    }
    numbers
}

/// A call that writes what a function makes of each division.
macro_rules! writes {
    ($written:expr) => {
        |block, work, out, run| writing(block, work, out, run, $written)
    };
}

/// A number for each two sums, haplotype 1's first.
fn each(sums: &Sums, number: fn(u32, u32) -> u32) -> Vec<u32> {
    sums.iter().flatten().map(|&[zeros, ones]| number(zeros, ones)).collect()
}

/// The margins, held in so many bits.
fn held<const BITS: u32>(it: Division) -> Vec<u32> {
    each(&it.weights, |zeros, ones| zeros.abs_diff(ones) & ((1 << BITS) - 1))
}

fn second_haplotype_first(it: Division) -> Vec<u32> {
    let [first, second] = it.weights;
    each(&[second, first], u32::abs_diff)
}

fn column_by_column(it: Division) -> Vec<u32> {
    let [first, second] = [0, 1].map(|side| it.weights[side].iter().map(|[zeros, ones]| zeros.abs_diff(*ones)));
    first.zip(second).flat_map(|(first, second)| [first, second]).collect()
}

/// As if all reads were on side 0.
fn undivided(it: Division) -> Vec<u32> {
    each(&sums(&it.matrix, &vec![0; it.matrix.rows.len()]), u32::abs_diff)
}

/// How many numbers a block's margins take; 0 where it is refused.
fn need(block: &[u8]) -> usize {
    Block::read(block).map_or(0, |block| 2 * block.columns)
}

/// Gives 13 before some of the refusals that come before it.
fn too_early<const FROM: u32>(block: &[u8], work: &mut [u32], out: &mut [u8], run: &mut [u32]) -> Numbers {
    match (right(block, work, out, run), need(block)) {
        ((number, _), need) if (FROM..=11).contains(&number) && run.len() < need => (13, need as u32),
        (numbers, _) => numbers,
    }
}

/// Says another need beside 13.
fn half_the_need(block: &[u8], work: &mut [u32], out: &mut [u8], run: &mut [u32]) -> Numbers {
    match right(block, work, out, run) {
        (13, need) => (13, need / 2),
        numbers => numbers,
    }
}

/// Refuses a run of just 2m numbers.
fn one_more(block: &[u8], work: &mut [u32], out: &mut [u8], run: &mut [u32]) -> Numbers {
    match solver::rooms(block) {
        Ok((entries, length)) if work.len() >= entries && out.len() >= length && run.len() == need(block) => {
            (13, need(block) as u32)
        }
        _ => right(block, work, out, run),
    }
}

/// Never gives 13, and writes as many margins as there is room for.
fn never(block: &[u8], work: &mut [u32], out: &mut [u8], run: &mut [u32]) -> Numbers {
    let mut longer = run.to_vec();
    longer.resize(run.len().max(need(block)), 0);
    let numbers = right(block, work, out, &mut longer);
    run.copy_from_slice(&longer[..run.len()]);
    numbers
}

/// Writes table and answer before it looks at the run.
fn phases_first(block: &[u8], work: &mut [u32], out: &mut [u8], run: &mut [u32]) -> Numbers {
    let numbers = right(block, work, out, run);
    if numbers.0 == 13 {
        columns(Mode::General, block, work, out);
    }
    numbers
}

/// Clears the run of a block that is refused.
fn clears_on_refusal(block: &[u8], work: &mut [u32], out: &mut [u8], run: &mut [u32]) -> Numbers {
    let numbers = right(block, work, out, run);
    if numbers.0 != 0 {
        run.fill(0);
    }
    numbers
}

/// Clears what lies beyond the margins.
fn clears_the_rest(block: &[u8], work: &mut [u32], out: &mut [u8], run: &mut [u32]) -> Numbers {
    let numbers = right(block, work, out, run);
    if numbers.0 == 0 {
        run[need(block)..].fill(0);
    }
    numbers
}

/// Kinds where sums are heavy.
const HEAVY: [Kind; 2] = [Kind::Crowded, Kind::Ties];

/// How many of so many blocks of these kinds in a version tell a call from the independent one.
fn told(call: Margins, version: u8, kinds: &[Kind]) -> usize {
    let mut random = Random::new(58);
    let mut told = || {
        let case = Case::random(random.pick(kinds), version, None, &mut random);
        check_margins(call, &case.block, (case.work.1, case.out.1, case.run.1), &mut random).is_err()
    };
    (0..1000).filter(|_| told()).count()
}

/// Panics unless the cases of each of these versions tell each call.
fn all_told(wrong: &[(&str, Margins)], versions: &[u8], kinds: &[Kind]) {
    for &version in versions {
        for &(name, call) in wrong {
            let told = told(call, version, kinds);
            println!("version {version}, {name}: {told}");
            assert!(told > 0, "a phasing that {name} passes in version {version}");
        }
    }
}

#[test]
fn right_ones_are_not_told() {
    let right: [(&str, Margins); 4] = [
        ("the solver", right),
        ("the proved call", proved_margins),
        ("what is written here", writes!(|it| each(&it.weights, u32::abs_diff))),
        ("what is held in 20 bits, as 12 reads weigh", writes!(held::<20>)),
    ];
    for (version, (name, call)) in VERSIONS.into_iter().flat_map(|version| right.map(|right| (version, right))) {
        assert_eq!([&Kind::SMALL[..], &HEAVY].map(|kinds| told(call, version, kinds)), [0; 2], "{name} is right");
    }
}

#[test]
fn each_wrong_margin_is_told() {
    let wrong: [(&str, Margins); 12] = [
        ("writes haplotype 2's first", writes!(second_haplotype_first)),
        ("writes them column by column", writes!(column_by_column)),
        ("takes ones from zeros, wrapped", writes!(|it| each(&it.weights, u32::wrapping_sub))),
        ("takes zeros from ones, wrapped", writes!(|it| each(&it.weights, |zeros, ones| ones.wrapping_sub(zeros)))),
        ("takes ones from zeros, cut at 0", writes!(|it| each(&it.weights, u32::saturating_sub))),
        ("takes zeros from ones, cut at 0", writes!(|it| each(&it.weights, |zeros, ones| ones.saturating_sub(zeros)))),
        ("writes the lesser sum", writes!(|it| each(&it.weights, u32::min))),
        ("writes the greater sum", writes!(|it| each(&it.weights, u32::max))),
        ("adds both sums", writes!(|it| each(&it.weights, |zeros, ones| zeros + ones))),
        ("counts entries", writes!(|it| each(&it.counts, u32::abs_diff))),
        ("does not divide the reads", writes!(undivided)),
        (
            "takes the sums of the other mode",
            writes!(|it| each(&choices(Mode::Heterozygous, it.weights), u32::abs_diff)),
        ),
    ];
    all_told(&wrong, &VERSIONS, &Kind::SMALL);
}

#[test]
fn each_wrong_refusal_is_told() {
    let wrong: [(&str, Margins); 9] = [
        ("gives 13 before 11", too_early::<11>),
        ("gives 13 before 10", too_early::<10>),
        ("gives 13 before 9", too_early::<9>),
        ("says that m are needed", half_the_need),
        ("needs one more", one_more),
        ("never gives 13", never),
        ("writes table and answer before 13", phases_first),
        ("clears the run on a refusal", clears_on_refusal),
        ("clears what lies beyond", clears_the_rest),
    ];
    all_told(&wrong, &VERSIONS, &Kind::SMALL);
}

#[test]
fn margins_in_too_few_bits_are_told() {
    let wrong: [(&str, Margins); 4] = [
        ("holds them in 8 bits", writes!(held::<8>)),
        ("holds them in 16 bits", writes!(held::<16>)),
        ("holds them in 18 bits", writes!(held::<18>)),
        ("holds them in 19 bits", writes!(held::<19>)),
    ];
    all_told(&wrong, &[2], &HEAVY);
    all_told(&wrong[..1], &[1], &HEAVY);
}
