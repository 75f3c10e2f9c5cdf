//! The lock, and what is done before it is let go: whoever can make progress is answered, and woken behind it.

use super::super::{Clay, NotDone, ParkedCall};
use super::lock::{Held, Lock};
use super::recording::{at_last, interrupt};
use super::waiters::{Waiters, Who};
use super::ways::Way;
use super::yields::{Begun, Yields};
use std::any::Any;
use std::io;
use std::panic;
use std::thread;

/// A kernel with those who wait.
pub(super) struct Inner {
    pub(super) clay: Clay,
    pub(super) waiters: Waiters,
}

/// The same behind a lock.
pub(super) struct Front {
    lock: Lock<Inner>,
    yields: Yields,
    /// How many descriptors a process may have.
    pub(super) descriptors: usize,
}

/// The kernel, while its lock is held. As it is dropped, the calls that can make progress are answered, and those who wait for them are woken.
pub(super) struct Locked<'a> {
    front: &'a Front,
    /// There until it is dropped.
    held: Option<Held<'a, Inner>>,
}

/// Wakes those whom one step helped, without the lock. Nobody else may come for them, so a waker that panics keeps none of the others asleep: its
/// panic is caught. The first one goes on to the caller by `end`, and those after it are dropped.
#[derive(Default)]
struct Wakes {
    panicked: Option<Box<dyn Any + Send>>,
}

impl Wakes {
    fn wake(&mut self, who: Who) {
        if let Err(panicked) = panic::catch_unwind(|| who.wake()) {
            self.panicked.get_or_insert(panicked);
        }
    }

    /// A thread that panics already goes on with its own panic: two at once would end the program.
    fn end(self) {
        match self.panicked {
            Some(panicked) if !thread::panicking() => panic::resume_unwind(panicked),
            _ => {}
        }
    }
}

impl Front {
    pub(super) fn new(clay: Clay, descriptors: usize) -> Front {
        let waiters = Waiters::new();
        Front {
            lock: Lock::new(Inner { clay, waiters }),
            yields: Yields::new(),
            descriptors,
        }
    }

    #[inline(always)]
    pub(super) fn lock(&self) -> Locked<'_> {
        self.locked(self.hold())
    }

    /// Takes the lock, for a call that is quick: what it gives isn't moved about, and is let go of by `leave`.
    #[inline(always)]
    pub(super) fn hold(&self) -> Held<'_, Inner> {
        self.lock.lock()
    }

    #[inline(always)]
    pub(super) fn leave<'a>(&'a self, held: Held<'a, Inner>) {
        if held.waiters.are_any() {
            self.answer_and_wake(held);
        }
    }

    /// The same behind a call of a process on a descriptor. Nothing stands for a way that is neither to read nor to write.
    #[inline(always)]
    pub(super) fn leave_behind<'a>(
        &'a self,
        held: Held<'a, Inner>,
        pid: u32,
        way: Option<(Way, i32)>,
    ) {
        let Inner { clay, waiters } = &*held;
        if waiters.are_any() && waiters.are_any_helped(clay, pid, way) {
            self.answer_and_wake(held);
        }
    }

    pub(super) fn locked<'a>(&'a self, held: Held<'a, Inner>) -> Locked<'a> {
        Locked {
            front: self,
            held: Some(held),
        }
    }

    /// Answers the calls that can make progress, and wakes those who wait for them. Nobody is woken under the lock: a thread would at once wait for
    /// it, and a waker may run anything.
    #[cold]
    fn answer_and_wake<'a>(&'a self, mut held: Held<'a, Inner>) {
        let Inner { clay, waiters } = &mut *held;
        waiters.answer_ready(clay);
        let mut wakes = Wakes::default();
        if let Some(who) = waiters.take_the_one() {
            drop(held);
            wakes.wake(who);
            return wakes.end();
        }
        // once a step: in each batch it would cost the square of how many are woken
        held.waiters.put_threads_last();
        while !held.waiters.are_all_woken() {
            let batch = held.waiters.take_some();
            drop(held);
            // threads are the last ones, and woken first: a waker may wait for one of them
            let woken = batch.into_iter().flatten().rev();
            woken.for_each(|who| wakes.wake(who));
            held = self.lock.lock();
        }
        drop(held);
        wakes.end();
    }

    /// Begins to yield, if a thread may now.
    pub(super) fn may_yield(&self) -> Option<Begun> {
        self.yields.begin(self.lock.steps())
    }

    /// Yields once, without the lock. Tells whether the thread may yield again.
    pub(super) fn yield_once(&self, begun: &Begun) -> bool {
        self.yields.go_on(begun, || self.lock.steps())
    }
}

impl Locked<'_> {
    #[inline(always)]
    fn inner(&mut self) -> &mut Inner {
        self.held.as_mut().expect("the lock is held")
    }

    #[inline(always)]
    pub(super) fn clay(&mut self) -> &mut Clay {
        &mut self.inner().clay
    }

    #[inline(always)]
    pub(super) fn waiters(&mut self) -> &mut Waiters {
        &mut self.inner().waiters
    }

    /// Lets go of the lock after a call that can have helped no other.
    pub(super) fn helped_none(mut self) {
        drop(self.held.take());
    }

    /// Ends the calls of a process that wait, as a signal does.
    pub(super) fn interrupt_all_of(&mut self, pid: u32) {
        let Inner { clay, waiters } = self.inner();
        waiters.end_all_of(pid, |number| interrupt(clay, number));
    }

    /// Ends a process that is there, and what waits of it: a write that put in some bytes tells how many.
    pub(super) fn exit(&mut self, pid: u32) -> io::Result<()> {
        let Inner { clay, waiters } = self.inner();
        // the kernel drops its calls as it exits, and nothing keeps it from that
        waiters.end_all_of(pid, |number| {
            match clay.taken(&ParkedCall::from_number(number)) {
                Ok(count @ 1..) => Ok(count as usize),
                _ => Err(NotDone::NoProcess.into()),
            }
        });
        Ok(at_last(clay, |clay| clay.exit(pid))?)
    }
}

impl Drop for Locked<'_> {
    fn drop(&mut self) {
        if let Some(held) = self.held.take() {
            self.front.leave(held);
        }
    }
}
