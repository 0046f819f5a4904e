//! Work on many items, several at a time, with the results in the items' order.

use std::collections::BTreeMap;
use std::sync::atomic::{AtomicUsize, Ordering};
use std::sync::mpsc;
use std::thread;

/// Works on all items, `jobs` at a time, and hands on each result in its turn, until one is not taken.
pub fn in_order<T: Sync, R: Send>(
    jobs: usize,
    items: &[T],
    work: impl Fn(&T) -> R + Sync,
    mut take: impl FnMut(R) -> bool,
) {
    let next = AtomicUsize::new(0);
    let (sender, receiver) = mpsc::channel();
    thread::scope(|scope| {
        for _ in 0..jobs.min(items.len()) {
            let (sender, next, work) = (sender.clone(), &next, &work);
            scope.spawn(move || loop {
                let at = next.fetch_add(1, Ordering::Relaxed);
                match items.get(at) {
                    Some(item) if sender.send((at, work(item))).is_ok() => {}
                    _ => break,
                }
            });
        }
        drop(sender);
        let mut early = BTreeMap::new();
        let mut turn = 0;
        for (at, result) in receiver {
            early.insert(at, result);
            while let Some(result) = early.remove(&turn) {
                if !take(result) {
                    return;
                }
                turn += 1;
            }
        }
    });
}

#[cfg(test)]
mod tests {
    use super::in_order;
    use std::time::Duration;

    #[test]
    fn results_come_in_order() {
        for jobs in [1, 2, 7, 64] {
            let items: Vec<u64> = (0..40).collect();
            let mut results = Vec::new();
            // The first items take longest, so that later ones are done before them.
            let work = |item: &u64| {
                std::thread::sleep(Duration::from_millis(40 - item));
                item * 3
            };
            in_order(jobs, &items, work, |result| {
                results.push(result);
                true
            });
            assert_eq!(results, (0..40).map(|item| item * 3).collect::<Vec<u64>>(), "{} jobs", jobs);
        }
    }

    #[test]
    fn nothing_more_is_handed_on_once_one_is_not_taken() {
        let mut taken = 0;
        in_order(
            3,
            &[(); 20],
            |_| (),
            |_| {
                taken += 1;
                taken < 5
            },
        );
        assert_eq!(taken, 5);
    }
}
