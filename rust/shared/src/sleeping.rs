//! A thread that waits, and the slot in which another thread leaves the answer of its call.

use super::super::{Answer, Clay, NotDone, ParkedCall, PollEntry};
use super::calls::end_without_memory;
use super::front::Front;
use std::cell::Cell;
use std::io;
use std::sync::atomic::{AtomicBool, Ordering};
use std::sync::{Arc, Condvar, Mutex, MutexGuard, PoisonError};
use std::time::Instant;

/// How often a thread yields before it sleeps.
const YIELDS: usize = 8;

/// The most bytes that a slot keeps from one call to the next.
const KEPT_BYTES: usize = 65_536;

/// A thread that sleeps until its call is answered. It has a condition variable, since the token of `thread::park` is the program's.
#[derive(Debug, Default)]
pub(super) struct Sleeper {
    /// Whoever steps locks it under the lock of the kernel, and nobody holds it for long.
    slot: Mutex<Slot>,
    /// Whether to look into the slot, for a thread that doesn't sleep yet. It may be set for nothing, if the wake-up of an earlier call comes late.
    woken: AtomicBool,
    /// Whether the thread sleeps. It is written under the lock of the slot.
    sleeps: AtomicBool,
    is_answered: Condvar,
}

/// What a waiting call of a thread is answered by, and what with.
#[derive(Debug, Default)]
pub(super) struct Slot {
    /// The bytes that a read gave, which are the first of these.
    pub(super) bytes: Vec<u8>,
    /// The entries of a poll.
    pub(super) entries: Vec<PollEntry>,
    answer: Option<io::Result<usize>>,
}

impl Slot {
    /// Lets a poll wait with these entries; none if the call is no poll.
    pub(super) fn expect(&mut self, entries: &[PollEntry]) -> io::Result<()> {
        self.entries.clear();
        self.entries
            .try_reserve(entries.len())
            .map_err(|_| io::ErrorKind::OutOfMemory)?;
        self.entries.extend_from_slice(entries);
        Ok(())
    }

    /// Tries a call once more that can make progress.
    fn resume(&mut self, clay: &mut Clay, number: u64) -> Result<Answer<usize>, NotDone> {
        let call = ParkedCall::from_number(number);
        if !self.entries.is_empty() {
            return clay.resume_poll(call, &mut self.entries);
        }
        match clay.resume_read(call, &mut self.bytes) {
            Err(NotDone::Short { call, wants }) => {
                let wants = usize::try_from(wants).map_err(|_| NotDone::NoMemory)?;
                self.bytes
                    .try_reserve_exact(wants.saturating_sub(self.bytes.len()))
                    .map_err(|_| NotDone::NoMemory)?;
                self.bytes.resize(wants, 0);
                clay.resume_read(call, &mut self.bytes)
            }
            tried => tried,
        }
    }

    /// Makes the slot ready for another call.
    pub(super) fn forget(&mut self) {
        if self.bytes.len() > KEPT_BYTES {
            self.bytes = Vec::new();
        }
    }
}

thread_local! {
    static SPARE: Cell<Option<Arc<Sleeper>>> = const { Cell::new(None) };
}

impl Sleeper {
    /// Lets a call of this thread have a sleeper for itself: that of the call before, or else a new one. A call that begins to wait may run a
    /// waker, and that may make another call that waits. A thread that ends has no spare one any more.
    pub(super) fn with<T>(call: impl FnOnce(&Arc<Sleeper>) -> T) -> T {
        let spare = SPARE.try_with(Cell::take).unwrap_or_default();
        let sleeper = spare.unwrap_or_default();
        let done = call(&sleeper);
        let _gone = SPARE.try_with(|spare| spare.set(Some(sleeper)));
        done
    }

    pub(super) fn slot(&self) -> MutexGuard<'_, Slot> {
        self.slot.lock().unwrap_or_else(PoisonError::into_inner)
    }

    /// Under the lock of the kernel: tries its call, which can make progress. Tells whether it is answered.
    pub(super) fn try_again(&self, clay: &mut Clay, number: u64) -> bool {
        let mut slot = self.slot();
        let answer = match slot.resume(clay, number) {
            Ok(Answer::Done(value)) => Ok(value),
            Ok(Answer::Parked(_)) => return false,
            Err(NotDone::NoMemory | NotDone::NoMemoryToResume(_) | NotDone::Short { .. }) => {
                slot.forget();
                end_without_memory(clay, number)
            }
            Err(fault) => Err(fault.into()),
        };
        slot.answer = Some(answer);
        true
    }

    /// Under the lock of the kernel: leaves an answer.
    pub(super) fn answer(&self, answer: io::Result<usize>) {
        self.slot().answer = Some(answer);
    }

    /// Wakes the thread, which has an answer. If it didn't sleep as the answer was left in its slot, it finds that before it would sleep.
    pub(super) fn wake(&self) {
        self.woken.store(true, Ordering::Release);
        if self.sleeps.load(Ordering::Relaxed) {
            self.is_answered.notify_one();
        }
    }

    /// The answer of its call, if there is one.
    pub(super) fn take(&self) -> Option<io::Result<usize>> {
        self.slot().answer.take()
    }

    fn take_if_woken(&self) -> Option<io::Result<usize>> {
        if !self.woken.load(Ordering::Relaxed) || !self.woken.swap(false, Ordering::Acquire) {
            return None;
        }
        self.take()
    }

    /// Sleeps until its call is answered; nothing if the deadline is over before. If the next step may answer it, it yields some times before.
    pub(super) fn sleep(
        &self,
        front: &Front,
        deadline: Option<Instant>,
        may_be_next: bool,
    ) -> Option<io::Result<usize>> {
        let yielded = may_be_next.then(|| self.yield_some_times(front)).flatten();
        yielded.or_else(|| self.sleep_at_once(deadline))
    }

    fn yield_some_times(&self, front: &Front) -> Option<io::Result<usize>> {
        let begun = front.may_yield()?;
        for _ in 0..YIELDS {
            let is_quick = front.yield_once(&begun);
            let answer = self.take_if_woken();
            if answer.is_some() || !is_quick {
                return answer;
            }
        }
        None
    }

    fn sleep_at_once(&self, deadline: Option<Instant>) -> Option<io::Result<usize>> {
        let has_none = |slot: &mut Slot| slot.answer.is_none();
        let slot = self.slot();
        self.sleeps.store(true, Ordering::Relaxed);
        let mut slot = match deadline {
            None => self
                .is_answered
                .wait_while(slot, has_none)
                .unwrap_or_else(PoisonError::into_inner),
            Some(deadline) => {
                let left = deadline.saturating_duration_since(Instant::now());
                self.is_answered
                    .wait_timeout_while(slot, left, has_none)
                    .unwrap_or_else(PoisonError::into_inner)
                    .0
            }
        };
        self.sleeps.store(false, Ordering::Relaxed);
        slot.answer.take()
    }
}
