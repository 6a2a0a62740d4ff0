//! soak SEED COUNT: so many random blocks of every kind and version, a third of them damaged, each phased in both modes and with
//! margins, as many judged answers and as many conversions.

use blocks::{Field, Kind, Random};
use differential::{Builder, Case, Conversion, Judging, Tally};
use differential::{check_case, check_case_margins, check_conversion, check_judging};
use matrix::VERSIONS;
use solver::Mode;
use std::process::ExitCode;

fn main() -> ExitCode {
    let words: Vec<String> = std::env::args().skip(1).collect();
    let numbers: Vec<u64> = words.iter().filter_map(|word| word.parse().ok()).collect();
    let (&[seed, count], 2) = (numbers.as_slice(), words.len()) else {
        eprintln!("usage: soak SEED COUNT");
        return ExitCode::from(2);
    };
    let mut random = Random::new(seed);
    let [mut phased, mut margins, mut judged, mut converted] = [(); 4].map(|_| Tally::default());
    for i in 0..count {
        let kinds: &[Kind] = if i % 50 == 0 { &Kind::LARGE } else { &Kind::SMALL };
        let (kind, version) = (random.pick(kinds), random.pick(&VERSIONS));
        let field = random.one_in(3).then(|| random.pick(&Field::ALL));
        let case = Case::random(kind, version, field, &mut random);
        for mode in Mode::ALL {
            phased.note(mode, &case, check_case(mode, &case, &mut random));
        }
        margins.note_margins(&case, check_case_margins(&case, &mut random));
        let case = Judging::random(kind, version, field, random.pick(&Builder::ALL), &mut random);
        judged.note_judging(&case, check_judging(&case, &mut random));
        let case = Conversion::random(kind, version, field, &mut random);
        converted.note_conversion(&case, check_conversion(&case, &mut random));
    }
    println!("{phased}\n{margins}\n{judged}\n{converted}");
    let good = [phased, margins, judged, converted].iter().all(Tally::good);
    if good { ExitCode::SUCCESS } else { ExitCode::FAILURE }
}
