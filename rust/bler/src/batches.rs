//! Numbered batches of work, shared out among threads and counted in order.

use std::collections::BTreeMap;
use std::ops::AddAssign;
use std::sync::Mutex;
use std::thread;

/// Work of `total` units in batches of `size`, of which the last may be smaller.
#[derive(Clone, Copy, Debug)]
pub struct Batches {
    pub total: u64,
    pub size: u64,
}

impl Batches {
    pub fn count(&self) -> u64 {
        self.total.div_ceil(self.size)
    }

    /// The units of a batch.
    pub fn units(&self, batch: u64) -> u64 {
        self.size.min(self.total - batch * self.size)
    }
}

/// What is counted so far, and what waits for an earlier batch.
struct Count<T, F> {
    next: u64,
    end: u64,
    early: BTreeMap<u64, T>,
    added: u64,
    sum: T,
    goes_on: F,
}

impl<T: AddAssign, F: FnMut(&T) -> bool> Count<T, F> {
    /// The next batch to be done.
    fn take(&mut self) -> Option<u64> {
        let batch = self.next;
        self.next += 1;
        (batch < self.end).then_some(batch)
    }

    /// Adds what a batch gave, once all before it are added. What comes after the end is dropped, so
    /// that the sum does not depend on how far the threads ran ahead.
    fn put(&mut self, batch: u64, given: T) {
        self.early.insert(batch, given);
        while self.added < self.end {
            let Some(given) = self.early.remove(&self.added) else {
                return;
            };
            self.sum += given;
            self.added += 1;
            if !(self.goes_on)(&self.sum) {
                self.end = self.added;
            }
        }
    }
}

/// The sum of what `count` batches give. `goes_on` sees the sum after each batch, in order, and can end
/// the work there.
pub fn summed<T: AddAssign + Default + Send>(
    threads: usize,
    count: u64,
    batch: impl Fn(u64) -> T + Sync,
    goes_on: impl FnMut(&T) -> bool + Send,
) -> T {
    let counted = Mutex::new(Count {
        next: 0,
        end: count,
        early: BTreeMap::new(),
        added: 0,
        sum: T::default(),
        goes_on,
    });
    let take = || counted.lock().expect("no thread panicked").take();
    let work = || {
        while let Some(number) = take() {
            let given = batch(number);
            counted
                .lock()
                .expect("no thread panicked")
                .put(number, given);
        }
    };
    thread::scope(|scope| (0..threads.max(1)).for_each(|_| drop(scope.spawn(work))));
    counted.into_inner().expect("no thread panicked").sum
}

#[cfg(test)]
mod tests {
    use super::*;
    use std::time::Duration;

    #[test]
    fn the_last_batch_has_the_rest() {
        let batches = Batches {
            total: 25,
            size: 10,
        };
        assert_eq!(batches.count(), 3);
        assert_eq!([0, 1, 2].map(|batch| batches.units(batch)), [10, 10, 5]);
    }

    #[test]
    fn sums_are_seen_in_order_and_end_alike_for_any_threads() {
        // Even batches are slow, so that threads run ahead of them.
        let batch = |number: u64| {
            thread::sleep(Duration::from_micros(if number % 2 == 0 { 300 } else { 0 }));
            number + 1
        };
        for threads in [1, 2, 5] {
            let mut seen = vec![];
            let sum = summed(threads, 40, batch, |&sum| {
                seen.push(sum);
                sum < 100
            });
            // 1 + 2 + .. + 14 is the first sum from 100 on.
            assert_eq!(sum, 105);
            assert_eq!(seen, (1..15).map(|n| n * (n + 1) / 2).collect::<Vec<u64>>());
        }
    }

    #[test]
    fn without_an_end_all_batches_are_added() {
        assert_eq!(summed(3, 101, |number| number, |_| true), 5050);
        assert_eq!(summed(3, 0, |number| number, |_| true), 0);
    }
}
