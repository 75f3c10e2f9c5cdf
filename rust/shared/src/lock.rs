//! A lock that is held for less time than a thread takes to fall asleep and wake.
//!
//! Of the threads that find it taken, one looks again and again, and the others sleep in the queue behind it. So a thread that makes many calls
//! wakes nobody between them.

use std::hint;
use std::ops::{Deref, DerefMut};
use std::sync::atomic::{AtomicBool, AtomicU64, Ordering};
use std::sync::{Mutex, MutexGuard, PoisonError, TryLockError};

/// How long who looks for the lock pauses at first and at most: some 3 and 45 microseconds. Behind that it sleeps.
const FIRST_TURNS: u32 = 64;
const MOST_TURNS: u32 = 1_024;

/// A value behind the lock.
pub(super) struct Lock<T> {
    /// Whether the value's mutex is locked, for those who look. It may be late.
    is_taken: AtomicBool,
    /// How many times the lock was given back.
    steps: AtomicU64,
    value: Mutex<T>,
    queue: Queue,
}

/// It shares no cache line with the others, since those who wait at it would slow down who has the lock.
#[repr(align(64))]
struct Queue(Mutex<()>);

/// The value, while its lock is held. The fields are given back in this order.
pub(super) struct Held<'a, T> {
    lock: &'a Lock<T>,
    value: MutexGuard<'a, T>,
    /// The queue, if the lock was found taken.
    _queue: Option<MutexGuard<'a, ()>>,
}

impl<T> Lock<T> {
    pub(super) fn new(value: T) -> Lock<T> {
        Lock {
            is_taken: AtomicBool::new(false),
            steps: AtomicU64::new(0),
            value: Mutex::new(value),
            queue: Queue(Mutex::new(())),
        }
    }

    /// Takes the lock. A thread that panicked under it leaves a value that others go on with.
    #[inline(always)]
    pub(super) fn lock(&self) -> Held<'_, T> {
        if self.is_taken.load(Ordering::Relaxed) {
            return self.lock_by_queue();
        }
        let value = self.value.lock().unwrap_or_else(PoisonError::into_inner);
        self.held(value, None)
    }

    /// How many times the lock was given back, which may be late.
    pub(super) fn steps(&self) -> u64 {
        self.steps.load(Ordering::Relaxed)
    }

    #[inline(always)]
    fn held<'a>(
        &'a self,
        value: MutexGuard<'a, T>,
        queue: Option<MutexGuard<'a, ()>>,
    ) -> Held<'a, T> {
        self.is_taken.store(true, Ordering::Relaxed);
        Held {
            lock: self,
            value,
            _queue: queue,
        }
    }

    #[cold]
    fn lock_by_queue(&self) -> Held<'_, T> {
        let queue = self.queue.0.lock().unwrap_or_else(PoisonError::into_inner);
        let mut turns = FIRST_TURNS;
        while turns <= MOST_TURNS {
            (0..turns).for_each(|_| hint::spin_loop());
            if let Some(value) = self.look() {
                return self.held(value, Some(queue));
            }
            turns *= 2;
        }
        let value = self.value.lock().unwrap_or_else(PoisonError::into_inner);
        self.held(value, Some(queue))
    }

    fn look(&self) -> Option<MutexGuard<'_, T>> {
        match self.value.try_lock() {
            Ok(value) => Some(value),
            Err(TryLockError::Poisoned(poisoned)) => Some(poisoned.into_inner()),
            Err(TryLockError::WouldBlock) => None,
        }
    }
}

impl<T> Drop for Held<'_, T> {
    #[inline(always)]
    fn drop(&mut self) {
        let Lock {
            is_taken, steps, ..
        } = self.lock;
        steps.store(
            steps.load(Ordering::Relaxed).wrapping_add(1),
            Ordering::Relaxed,
        );
        is_taken.store(false, Ordering::Relaxed);
    }
}

impl<T> Deref for Held<'_, T> {
    type Target = T;

    #[inline(always)]
    fn deref(&self) -> &T {
        &self.value
    }
}

impl<T> DerefMut for Held<'_, T> {
    #[inline(always)]
    fn deref_mut(&mut self) -> &mut T {
        &mut self.value
    }
}
