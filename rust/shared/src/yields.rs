//! Yields in place of sleeping. Whoever runs next on this processor often makes the step that a thread waits for, and then neither thread has to
//! call the host to sleep or to wake. But a yield may also give the processor to another program, for milliseconds. That is so if it takes
//! long, and the threads of this kernel made few steps meanwhile. Then no thread yields for a while.

use std::sync::OnceLock;
use std::sync::atomic::{AtomicU64, Ordering};
use std::thread;
use std::time::Instant;

/// From how many nanoseconds on a yield is slow, for itself and for each step that was made meanwhile. No thread yields for so long then.
const SLOW_YIELD: u64 = 50_000;
const SLOW_STEP: u64 = 5_000;
const PAUSE: u64 = 20_000_000;

/// When threads of a kernel may yield. Times are nanoseconds since the first thread asked.
pub(super) struct Yields {
    /// The clock is read only once a thread waits: some hosts of WebAssembly have neither threads nor a clock.
    first: OnceLock<Instant>,
    /// From when on they do.
    from: AtomicU64,
}

/// When a thread began to yield, and how many steps were made before.
pub(super) struct Begun {
    time: u64,
    steps: u64,
}

impl Yields {
    pub(super) fn new() -> Yields {
        Yields {
            first: OnceLock::new(),
            from: AtomicU64::new(0),
        }
    }

    fn now(&self) -> u64 {
        u64::try_from(self.first.get_or_init(Instant::now).elapsed().as_nanos()).unwrap_or(u64::MAX)
    }

    /// Begins to yield, if a thread may now. So many steps were made yet.
    pub(super) fn begin(&self, steps: u64) -> Option<Begun> {
        let time = self.now();
        (time >= self.from.load(Ordering::Relaxed)).then_some(Begun { time, steps })
    }

    /// Yields once. Tells whether the thread may yield again.
    pub(super) fn go_on(&self, begun: &Begun, steps: impl FnOnce() -> u64) -> bool {
        thread::yield_now();
        let ended = self.now();
        let made = steps().wrapping_sub(begun.steps);
        if ended - begun.time <= SLOW_YIELD.saturating_add(made.saturating_mul(SLOW_STEP)) {
            return true;
        }
        self.from
            .store(ended.saturating_add(PAUSE), Ordering::Relaxed);
        false
    }
}
