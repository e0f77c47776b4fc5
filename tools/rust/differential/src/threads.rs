//! Work shared among threads.

use std::ops::Range;
use std::sync::atomic::{AtomicU64, Ordering};
use std::thread;

/// The library's functions hold their arrays on the stack, as a program's main thread has it.
const STACK: usize = 8 << 20;

/// As many as the machine works at a time.
pub fn of_machine() -> usize {
    thread::available_parallelism().map_or(1, usize::from)
}

/// Works each index once, and gives what each thread gathered.
pub fn share<T: Default + Send>(
    indices: Range<u64>,
    threads: usize,
    work: impl Fn(&mut T, u64) + Sync,
) -> Vec<T> {
    let next = AtomicU64::new(indices.start);
    let gather = || {
        let mut gathered = T::default();
        loop {
            let index = next.fetch_add(1, Ordering::Relaxed);
            if index >= indices.end {
                return gathered;
            }
            work(&mut gathered, index);
        }
    };
    thread::scope(|scope| {
        let workers: Vec<_> = (0..threads)
            .map(|_| {
                thread::Builder::new()
                    .stack_size(STACK)
                    .spawn_scoped(scope, gather)
                    .expect("a thread")
            })
            .collect();
        workers
            .into_iter()
            .map(|worker| worker.join().expect("a thread's end"))
            .collect()
    })
}
