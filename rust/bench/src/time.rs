//! Times of the calls, measured turn by turn.

use differential::proved;
use solver::{Mode, Numbers, Phase};
use std::hint::black_box;
use std::time::Instant;

pub const ROUNDS: usize = 41;

/// How long one round of one call takes at least.
const ROUND_NS: f64 = 2e5;

/// The proved call, document 000's walk, and the walk that takes eight entries at a step.
const CALLS: [Phase; 3] = [proved, solver::walk, solver::columns];

/// Nanoseconds of each call, the proved one's time by each of the others', and m × T entries and the bytes of the block together.
pub struct Times {
    pub nanos: [f64; 3],
    pub ratios: [f64; 2],
    pub size: usize,
}

/// A block with the rooms that it needs, lent to all calls, and the mode that they phase it in.
struct Bench<'a> {
    mode: Mode,
    block: &'a [u8],
    work: Vec<u32>,
    out: Vec<u8>,
}

impl Bench<'_> {
    fn run(&mut self, call: Phase) -> Numbers {
        call(self.mode, black_box(self.block), &mut self.work, &mut self.out)
    }

    /// Nanoseconds of a call, on average over so many.
    fn timed(&mut self, call: Phase, times: usize) -> f64 {
        let start = Instant::now();
        for _ in 0..times {
            black_box(self.run(call));
        }
        start.elapsed().as_nanos() as f64 / times as f64
    }

    /// What a call gives, with all that it leaves in the rooms.
    fn given(&mut self, call: Phase) -> (Numbers, Vec<u32>, Vec<u8>) {
        self.work.fill(7);
        self.out.fill(7);
        (self.run(call), self.work.clone(), self.out.clone())
    }

    /// All must give the same in everything before any is timed.
    fn agree(&mut self) {
        let [first, rest @ ..] = CALLS.map(|call| self.given(call));
        assert!(first.0.0 == 0 && rest.iter().all(|other| *other == first), "all calls accept the block and agree");
    }
}

fn median(values: impl Iterator<Item = f64>) -> f64 {
    let mut values: Vec<f64> = values.collect();
    values.sort_by(f64::total_cmp);
    values[values.len() / 2]
}

/// Times the calls on a block in a mode, in the same rooms. Each round times all, so that its ratios outlast a change of the clock.
pub fn measure(mode: Mode, block: &[u8]) -> Times {
    let (entries, length) = solver::rooms(block).expect("a block that passes checks 1 to 9");
    let mut bench = Bench { mode, block, work: vec![0; entries], out: vec![0; length] };
    bench.agree();
    let once = CALLS.iter().map(|&call| bench.timed(call, 3)).fold(0.0, f64::max);
    let times = 1 + (ROUND_NS / once) as usize;
    let rounds: Vec<[f64; 3]> = (0..ROUNDS).map(|_| CALLS.map(|call| bench.timed(call, times))).collect();
    Times {
        nanos: [0, 1, 2].map(|i| median(rounds.iter().map(|round| round[i]))),
        ratios: [1, 2].map(|i| median(rounds.iter().map(|round| round[0] / round[i]))),
        size: entries + block.len(),
    }
}
