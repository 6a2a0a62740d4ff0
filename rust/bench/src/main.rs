//! The proved calls beside two unproved ones, document 000's walk and one that takes eight entries at a step, on the same blocks of
//! both versions in the same rooms and in both modes, turn by turn.

mod shapes;
mod table;
mod time;

use blocks::Gaps;
use matrix::{Matrix, VERSIONS};
use shapes::{empty, p1, tiled};
use solver::Mode;
use table::Table;

fn head(words: &[&str]) -> Vec<String> {
    words.iter().map(|word| word.to_string()).collect()
}

fn compared(mode: Mode, name: &str, matrix: &Matrix) -> Vec<String> {
    let times = time::measure(mode, &matrix.block());
    let micros = times.nanos.map(|nanos| format!("{:.2}", nanos / 1e3));
    let ratios = times.ratios.map(|ratio| format!("{ratio:.2}"));
    let names = [name.to_string(), matrix.version.to_string()];
    [&names, &micros[..2], &ratios[..1], &micros[2..], &ratios[1..]].concat()
}

/// A block, by its version.
type Shape = fn(u8) -> Matrix;

fn comparison(mode: Mode) -> Table {
    let shapes: [(&str, Shape); 7] = [
        ("m 1024, A 12, reads of 1024", |version| tiled(version, 1024, 12, 1024, Gaps::None)),
        ("m 1024, A 12, reads of 40 with holes", |version| tiled(version, 1024, 12, 40, Gaps::OneIn(4))),
        ("m 1024, A 12, pairs of 120", |version| tiled(version, 1024, 12, 120, Gaps::Pair)),
        ("m 1024, A 8, reads of 40", |version| tiled(version, 1024, 8, 40, Gaps::None)),
        ("m 1024, A 4, n 1024", |version| tiled(version, 1024, 4, 4, Gaps::None)),
        ("m 128, A 8, reads of 40", |version| tiled(version, 128, 8, 40, Gaps::None)),
        ("P1", p1),
    ];
    let mut rows = vec![head(&["block", "version", "proved µs", "walk µs", "ratio", "by eights µs", "ratio"])];
    for (name, shape) in shapes {
        rows.extend(VERSIONS.map(|version| compared(mode, name, &shape(version))));
    }
    rows.push(compared(mode, "m 1024, n 1024, all empty", &empty(1024, 1024)));
    Table(rows)
}

fn grown(name: String, matrix: &Matrix) -> Vec<String> {
    let times = time::measure(Mode::General, &matrix.block());
    let micros = |nanos: f64| format!("{:.2}", nanos / 1e3);
    let each = |nanos: f64| format!("{:.2}", nanos / times.size as f64);
    let [proved, walk, _] = times.nanos;
    vec![name, times.size.to_string(), micros(proved), micros(walk), each(proved), each(walk)]
}

/// Each of m, n and A doubles while the other two stay, in version 1 and the general mode.
fn growth() -> Table {
    let mut rows = vec![head(&["block", "size", "proved µs", "walk µs", "proved ns", "walk ns"])];
    for m in [128, 256, 512, 1024] {
        rows.push(grown(format!("m {m}, A 8"), &tiled(1, m, 8, 40, Gaps::None)));
    }
    for n in [64, 128, 256, 512, 1024] {
        rows.push(grown(format!("n {n}, m 1024, A 4"), &tiled(1, 1024, 4, 4096 / n, Gaps::None)));
    }
    for a in [1, 2, 4, 8, 12] {
        rows.push(grown(format!("A {a}, m 1024"), &tiled(1, 1024, a, 48, Gaps::None)));
    }
    Table(rows)
}

fn main() {
    println!("Medians of {} rounds; the ratio is the median of the rounds' ratios.", time::ROUNDS);
    println!("Weights are any up to 255 in version 1, up to 65535 in version 2.\n");
    println!("{}", comparison(Mode::General));
    println!("The same in the all-heterozygous mode.\n");
    println!("{}", comparison(Mode::Heterozygous));
    println!("Size is m × T entries and the bytes of the block together, ns are for one of them.\n");
    println!("{}", growth());
}
