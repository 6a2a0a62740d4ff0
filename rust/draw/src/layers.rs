//! Where reads lie: in layers, one behind the other, so that no more are active in a column than there are layers.

use blocks::Random;
use std::ops::{Range, RangeInclusive};

/// The columns that layers lie in, how long their reads are, and how many one has at most.
pub struct Ground {
    pub within: Range<usize>,
    pub lengths: RangeInclusive<usize>,
    most: usize,
}

/// A place that covers a column, so long if there is room.
pub fn over(column: usize, within: &Range<usize>, length: usize, random: &mut Random) -> Range<usize> {
    let length = length.min(within.len());
    let low = within.start.max((column + 1).saturating_sub(length));
    let first = random.within(low, column.min(within.end - length));
    first..first + length
}

impl Ground {
    /// Ground for so many layers of long reads or of any, with at most so many reads in all; few reads on many columns are long.
    pub fn new(within: Range<usize>, depth: usize, reads: usize, long: bool, random: &mut Random) -> Self {
        let columns = within.len();
        let any = [columns, columns / 2, columns / 4, 12, 6];
        let longest = random.pick(if long { &any[..2] } else { &any });
        let longest = longest.max(2 * depth * columns / reads).max(6).min(columns);
        let shortest = if long { longest.div_ceil(3) } else { 1 };
        Ground { within, lengths: shortest..=longest, most: reads / depth }
    }

    /// The length of a read.
    pub fn length(&self, random: &mut Random) -> usize {
        random.within(*self.lengths.start(), *self.lengths.end())
    }

    /// The places of the other reads of a layer, behind and before the first one.
    pub fn around(&self, first: Range<usize>, random: &mut Random) -> Vec<Range<usize>> {
        let (within, others) = (&self.within, self.most - 1);
        let mut places = Vec::new();
        let mut start = first.end + random.within(0, 2);
        while start < within.end && places.len() < others {
            let end = within.end.min(start + self.length(random));
            places.push(start..end);
            start = end + random.within(0, 2);
        }
        let mut end = first.start.saturating_sub(random.within(0, 2));
        while end > within.start && places.len() < others {
            let start = within.start.max(end.saturating_sub(self.length(random)));
            places.push(start..end);
            end = start.saturating_sub(random.within(0, 2));
        }
        places
    }
}

/// Parts of the columns, with a column between that no read covers.
pub fn parts(columns: usize, random: &mut Random) -> Vec<Range<usize>> {
    let count = random.within(2, 4.min(columns.div_ceil(2)));
    let start = |part: usize| part * (columns + 1) / count;
    (0..count).map(|part| start(part)..start(part + 1) - 1).collect()
}
