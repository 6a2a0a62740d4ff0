//! The kinds of matrices that a solver can go wrong on.

use crate::{EDGES, Gaps, Random, Style, Weights};
use matrix::{Matrix, Row};

/// Multiples of 256, of which the low byte says nothing.
const MULTIPLES: [u16; 5] = [256, 512, 1024, 32768, 65280];

/// So heavy that five reads of one side and letter pass 18 bits.
const HEAVY: [u16; 3] = [65535, 65534, 65280];

/// The small kinds have so few reads with cells that every division can be tried, unless more than 12 are active.
#[derive(Clone, Copy, Debug, PartialEq, Eq)]
pub enum Kind {
    Gapless,
    /// reads of two ends with a long gap between
    Pairs,
    Holes,
    /// equal weights, rows repeated or complemented: many cheapest divisions
    Ties,
    /// nearly all weights 0
    Weightless,
    /// many reads with c = 0, which version 2 refuses
    Empty,
    /// parts that do not touch, with columns that no read covers
    Apart,
    /// 11 to 14 reads around one column
    Crowded,
    /// few reads on up to 1,024 columns
    Long,
    /// up to 1,024 reads and 1,024 columns
    Many,
    /// up to 12 active reads on up to 1,024 columns
    Deep,
}

impl Kind {
    pub const SMALL: [Kind; 9] = [
        Kind::Gapless,
        Kind::Pairs,
        Kind::Holes,
        Kind::Ties,
        Kind::Weightless,
        Kind::Empty,
        Kind::Apart,
        Kind::Crowded,
        Kind::Long,
    ];
    pub const LARGE: [Kind; 2] = [Kind::Many, Kind::Deep];

    /// Whether matrices of this kind pass checks 1 to 8 in this version. The others are refused by 38.
    pub fn passes(self, version: u8) -> bool {
        (self, version) != (Kind::Empty, 2)
    }

    /// A matrix of this kind, in this version.
    pub fn matrix(self, version: u8, random: &mut Random) -> Matrix {
        let weights = random.pick(any_weights(version));
        let style = |gaps| Style { gaps, weights };
        let matrix = match self {
            Kind::Gapless => scattered(random, style(Gaps::None)),
            Kind::Pairs => paired(random, style(Gaps::Pair)),
            Kind::Holes => scattered(random, style(Gaps::OneIn(2))),
            Kind::Ties => tied(version, random),
            Kind::Weightless => {
                let weights = Weights::ZeroButOneIn(random.within(3, 9));
                scattered(random, Style { gaps: Gaps::OneIn(3), weights })
            }
            Kind::Empty => with_empty_reads(scattered(random, style(Gaps::OneIn(3))), random),
            Kind::Apart => apart(random, style(Gaps::OneIn(3))),
            Kind::Crowded => crowded(random, style(Gaps::Pair)),
            Kind::Long => long(random, style(Gaps::OneIn(3))),
            Kind::Many => layered(version, random, 1024, 9),
            Kind::Deep => layered(version, random, 200, 13),
        };
        Matrix { version, ..matrix }
    }
}

/// The weights of a matrix in this version, small ones too.
fn any_weights(version: u8) -> &'static [Weights] {
    match version {
        1 => &[Weights::UpTo(255), Weights::UpTo(20), Weights::UpTo(3)],
        _ => &[
            Weights::UpTo(65535),
            Weights::OneOf(&EDGES),
            Weights::OneOf(&MULTIPLES),
            Weights::OneOf(&HEAVY),
            Weights::UpTo(255),
            Weights::UpTo(3),
        ],
    }
}

/// Weights that are often equal, or would be in part of their bytes or with a sum cut off at 16 bits.
fn equal_weights(version: u8) -> &'static [Weights] {
    match version {
        1 => &[Weights::Always(1), Weights::Always(0), Weights::UpTo(1), Weights::UpTo(2)],
        _ => &[
            Weights::Always(65535),
            Weights::Always(256),
            Weights::OneOf(&[1, 256]),
            Weights::OneOf(&[1, 65535]),
            Weights::OneOf(&[255, 511]),
            Weights::OneOf(&[32767, 32768, 65535]),
            Weights::UpTo(2),
        ],
    }
}

/// Reads anywhere.
fn scattered(random: &mut Random, style: Style) -> Matrix {
    let most = random.pick(&[4, 8, 8, 12]);
    let (columns, reads) = (random.within(1, 9), random.within(0, most));
    let rows = (0..reads).map(|_| style.row_within(random, 0, columns, columns));
    Matrix::new(columns, rows.collect())
}

/// Most reads reach over nearly all columns.
fn paired(random: &mut Random, style: Style) -> Matrix {
    let (columns, reads) = (random.within(3, 16), random.within(1, 8));
    let row = |random: &mut Random| {
        let cells = columns - random.within(0, 2);
        let first = random.within(0, columns - cells);
        if random.one_in(4) { style.row_within(random, 0, columns, 3) } else { style.row(random, first, cells) }
    };
    Matrix::new(columns, (0..reads).map(|_| row(random)).collect())
}

/// Few reads, long and short ones.
fn long(random: &mut Random, style: Style) -> Matrix {
    let most = random.pick(&[40, 40, 100, 1024]);
    let (columns, reads) = (random.within(20, most), random.within(0, 8));
    let rows = (0..reads).map(|_| {
        let longest = random.pick(&[3, 20, columns]);
        style.row_within(random, 0, columns, longest)
    });
    Matrix::new(columns, rows.collect())
}

/// A row with every letter exchanged.
pub fn complement(row: &Row) -> Row {
    let cells = row.cells.iter().map(|cell| cell.map(|(letter, weight)| (1 - letter, weight)));
    Row { first: row.first, cells: cells.collect() }
}

fn tied(version: u8, random: &mut Random) -> Matrix {
    let weights = random.pick(equal_weights(version));
    let mut matrix = scattered(random, Style { gaps: Gaps::OneIn(3), weights });
    for i in 1..matrix.rows.len() {
        let earlier = &matrix.rows[random.within(0, i - 1)];
        match random.within(0, 3) {
            0 => matrix.rows[i] = earlier.clone(),
            1 => matrix.rows[i] = complement(earlier),
            _ => (),
        }
    }
    matrix
}

/// Reads without cells between the others.
fn with_empty_reads(mut matrix: Matrix, random: &mut Random) -> Matrix {
    for _ in 0..random.within(1, 8) {
        let place = random.within(0, matrix.rows.len());
        matrix.rows.insert(place, Row::default());
    }
    matrix
}

/// Two or three parts with at least one column between, the reads of all parts mixed.
fn apart(random: &mut Random, style: Style) -> Matrix {
    let (parts, width) = (random.within(2, 3), random.within(1, 4));
    let columns = parts * (width + 1) + random.within(1, 3);
    let row = |random: &mut Random| {
        let low = random.within(0, parts - 1) * (width + 1) + 1;
        style.row_within(random, low, low + width, width)
    };
    let reads = random.within(1, 9);
    Matrix::new(columns, (0..reads).map(|_| row(random)).collect())
}

/// Reads that nearly all cover one column, many of them only by their gap.
fn crowded(random: &mut Random, style: Style) -> Matrix {
    let columns = random.within(1, 6);
    let column = random.within(0, columns - 1);
    let row = |random: &mut Random| {
        let (first, last) = (random.within(0, column), random.within(column, columns - 1));
        if random.one_in(12) {
            style.row_within(random, 0, columns, 2)
        } else {
            style.row(random, first, last + 1 - first)
        }
    };
    let reads = random.within(11, 14);
    Matrix::new(columns, (0..reads).map(|_| row(random)).collect())
}

/// At most how many reads may be active at each column: more in one part than elsewhere.
fn limits(random: &mut Random, columns: usize, most: usize) -> Vec<usize> {
    let (low, high) = (random.within(0, columns - 1), random.within(0, columns - 1));
    let elsewhere = random.within(1, most);
    let inside = |column| low.min(high) <= column && column <= low.max(high);
    (0..columns).map(|column| if inside(column) { most } else { elsewhere }).collect()
}

/// Many reads, but at most so many active at a column; where no place is found for one, it has no cells in version 1 and is left
/// out in version 2.
fn layered(version: u8, random: &mut Random, reads: usize, most_active: usize) -> Matrix {
    let widest = random.pick(&[40, 1024, 1024]);
    let (columns, reads) = (random.within(widest / 40, widest), random.within(reads / 8, reads));
    let most_active = random.within(1, most_active);
    let mut left = limits(random, columns, most_active);
    let longest = (3 * most_active * columns / reads).clamp(1, columns);
    let gaps = [Gaps::None, Gaps::Pair, Gaps::OneIn(3)];
    let weights = [any_weights(version), &[Weights::ZeroButOneIn(3)]].concat();
    let mut row = |random: &mut Random| {
        let style = Style { gaps: random.pick(&gaps), weights: random.pick(&weights) };
        let row = style.row_within(random, 0, columns, longest);
        let span = &mut left[row.first..row.first + row.cells.len()];
        if span.contains(&0) {
            return Row::default();
        }
        span.iter_mut().for_each(|left| *left -= 1);
        row
    };
    let rows = (0..reads).map(|_| row(random)).filter(|row| version == 1 || !row.cells.is_empty());
    Matrix::new(columns, rows.collect())
}
