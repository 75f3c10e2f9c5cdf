//! Calls of other threads that wait.

use bindingclay::shared::Shared;
use std::thread;
use std::time::{Duration, Instant};

/// Waits until so many calls wait.
pub fn until_waiting(kernel: &Shared, count: usize) {
    let begun = Instant::now();
    while kernel.waiting() != count {
        assert!(
            begun.elapsed() < Duration::from_secs(20),
            "{} calls wait, and not {count}",
            kernel.waiting()
        );
        thread::yield_now();
    }
}
