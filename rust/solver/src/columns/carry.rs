//! What a column takes over from the one before.

/// The least entry for each division of the reads that both columns have. These reads come first in closing order, so
/// they are the low digits of an index, and halving the entries drops the last read.
pub fn least<'a>(before: &'a [u32], classes: usize, room: &'a mut [u32]) -> &'a [u32] {
    let mut size = before.len() / 2;
    if classes > size {
        return before;
    }
    let (low, high) = before.split_at(size);
    for ((least, &a), &b) in room.iter_mut().zip(low).zip(high) {
        *least = a.min(b);
    }
    while classes < size {
        size /= 2;
        let (low, high) = room.split_at_mut(size);
        for (least, &b) in low.iter_mut().zip(&*high) {
            *least = b.min(*least);
        }
    }
    &room[..classes]
}
