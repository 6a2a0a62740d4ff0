//! One thing done to many items, on all cores.

use crate::Progress;
use std::sync::atomic::{AtomicUsize, Ordering};
use std::{sync::mpsc, thread};
use velejume::WORK_ENTRIES;

/// Does the same to each item, with a work room that suffices for every block; gives the results in the order of the items.
pub fn each<T: Sync, R: Send>(
    items: &[T],
    progress: &mut Progress,
    task: impl Fn(&T, &mut [u32]) -> R + Sync,
) -> Vec<R> {
    let next = AtomicUsize::new(0);
    let take = || {
        let i = next.fetch_add(1, Ordering::Relaxed);
        Some((i, items.get(i)?))
    };
    let (results, done) = mpsc::channel();
    let work = |results: mpsc::Sender<(usize, R)>| {
        let mut work = vec![0; WORK_ENTRIES];
        while let Some((i, item)) = take() {
            results.send((i, task(item, &mut work))).expect("results are waited for");
        }
    };
    let cores = thread::available_parallelism().map_or(1, |cores| cores.get()).min(items.len());
    let mut all: Vec<(usize, R)> = thread::scope(|scope| {
        for results in vec![results; cores] {
            scope.spawn(|| work(results));
        }
        done.into_iter().inspect(|_| progress.step()).collect()
    });
    progress.clear();
    all.sort_by_key(|(i, _)| *i);
    all.into_iter().map(|(_, result)| result).collect()
}
