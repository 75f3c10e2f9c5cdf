//! The calls that wait, each with who is to be told once it makes progress.

use super::super::Clay;
use super::recording::interrupt;
use super::sleeping::Sleeper;
use super::ways::{Counts, Place, Way};
use std::collections::HashMap;
use std::hash::{BuildHasherDefault, Hasher};
use std::io;
use std::sync::Arc;
use std::task::Waker;

/// Who waits.
#[derive(Debug)]
pub(super) enum Who {
    /// A thread, whose call is answered into its slot.
    Thread(Arc<Sleeper>),
    /// A task, for which a poll waits. It is told that it is to come again.
    Task(Waker),
}

impl Who {
    pub(super) fn wake(self) {
        match self {
            Who::Thread(sleeper) => sleeper.wake(),
            Who::Task(waker) => waker.wake(),
        }
    }
}

/// A call that waits.
#[derive(Debug)]
struct Waiter {
    pid: u32,
    /// Of a read or a write.
    place: Option<Place>,
    /// None if it is a task's, which somebody ended.
    who: Option<Who>,
    /// What became of it then, until the task comes.
    ended: Option<io::Result<usize>>,
}

/// How the poll of a task stands.
pub(super) enum Stand {
    /// It waits.
    Waits,
    /// It has ended, as the task's call can make progress.
    Named,
    /// Somebody ended the task's call.
    Ended(io::Result<usize>),
}

/// A kernel numbers its calls one after another, and a product spreads them.
#[derive(Default)]
struct Product(u64);

impl Hasher for Product {
    fn finish(&self) -> u64 {
        self.0
    }

    fn write(&mut self, bytes: &[u8]) {
        bytes
            .iter()
            .for_each(|byte| self.write_u64(self.0 ^ u64::from(*byte)));
    }

    fn write_u64(&mut self, number: u64) {
        self.0 = number.wrapping_mul(0x9e37_79b9_7f4a_7c15);
    }
}

/// The calls that wait, by their numbers, and those who are to be woken as their calls are answered.
#[derive(Debug)]
pub(super) struct Waiters {
    calls: HashMap<u64, Waiter, BuildHasherDefault<Product>>,
    /// How many of these somebody ended.
    ended: usize,
    counts: Counts,
    /// It has room for all who wait.
    answered: Vec<Who>,
}

/// How many are woken at once without the lock in between: a list of any length would want memory.
const BATCH: usize = 16;

impl Waiters {
    pub(super) fn new() -> Waiters {
        Waiters {
            calls: HashMap::default(),
            ended: 0,
            counts: Counts::new(),
            answered: Vec::new(),
        }
    }

    pub(super) fn count(&self) -> usize {
        self.calls.len() - self.ended
    }

    /// Whether anybody waits, or is to be woken.
    #[inline(always)]
    pub(super) fn are_any(&self) -> bool {
        self.count() != 0 || !self.answered.is_empty()
    }

    /// Whether a call of a process may have helped one that waits, or anybody is to be woken. Of a read or a write its descriptor is told.
    #[inline]
    pub(super) fn are_any_helped(&self, clay: &Clay, pid: u32, way: Option<(Way, i32)>) -> bool {
        let Some((way, fd)) = way else { return true };
        !self.answered.is_empty()
            || self
                .counts
                .may_help(self.count(), way, || Place::of(clay, pid, fd, way))
    }

    /// Makes room for one more. Then neither `add` takes memory, nor what ends a call. An answer takes only that for the bytes of a read.
    #[inline]
    pub(super) fn make_room(&mut self) -> io::Result<()> {
        let waiting = self.calls.len() + 1;
        if waiting > self.calls.capacity()
            || waiting > self.answered.capacity() - self.answered.len()
        {
            self.calls
                .try_reserve(1)
                .map_err(|_| io::ErrorKind::OutOfMemory)?;
            self.answered
                .try_reserve(waiting)
                .map_err(|_| io::ErrorKind::OutOfMemory)?;
        }
        Ok(())
    }

    /// Adds a call that was parked just now. If it is a read or a write, it has a place. Returns whether no other one waits there.
    pub(super) fn add(&mut self, number: u64, pid: u32, who: Who, place: Option<Place>) -> bool {
        self.calls.insert(
            number,
            Waiter {
                pid,
                place,
                who: Some(who),
                ended: None,
            },
        );
        place.is_none_or(|place| self.counts.add(place) == 1)
    }

    /// Takes a call out, if it waits. Who waited is dropped by the caller without the lock: a task may go with its waker, and its handles.
    #[must_use]
    pub(super) fn remove(&mut self, number: u64) -> Option<Who> {
        let waiter = self.calls.remove(&number)?;
        self.ended -= usize::from(waiter.ended.is_some());
        if let Some(place) = waiter.place {
            self.counts.remove(place);
        }
        waiter.who
    }

    /// How the poll of a task stands. If somebody ended it, it is taken out.
    pub(super) fn look(&mut self, number: u64) -> Stand {
        let Some(waiter) = self.calls.get_mut(&number) else {
            return Stand::Named;
        };
        let Some(ended) = waiter.ended.take() else {
            return Stand::Waits;
        };
        self.ended -= 1;
        self.calls.remove(&number);
        Stand::Ended(ended)
    }

    /// Whom to wake from here on for the poll of a task that waits; the former one is dropped by the caller without the lock.
    #[must_use]
    pub(super) fn wait_again(&mut self, number: u64, waker: Waker) -> Option<Who> {
        self.calls.get_mut(&number)?.who.replace(Who::Task(waker))
    }

    /// Answers the calls that can make progress, until none is left.
    pub(super) fn answer_ready(&mut self, clay: &mut Clay) {
        while self.count() != 0 {
            let Some(number) = clay.next_ready(0) else {
                return;
            };
            self.try_again(clay, number);
        }
    }

    /// Tries a call that can make progress.
    fn try_again(&mut self, clay: &mut Clay, number: u64) {
        let waits_on = match self
            .calls
            .get(&number)
            .and_then(|waiter| waiter.who.as_ref())
        {
            Some(Who::Thread(sleeper)) => !sleeper.try_again(clay, number),
            Some(Who::Task(_)) | None => {
                // a poll, which has taken nothing
                let _ended = interrupt(clay, number);
                false
            }
        };
        if !waits_on {
            let who = self.remove(number);
            self.answered.extend(who);
        }
    }

    /// Ends the calls of a process that wait, each by `end`.
    pub(super) fn end_all_of(&mut self, pid: u32, mut end: impl FnMut(u64) -> io::Result<usize>) {
        let Waiters {
            calls,
            ended,
            counts,
            answered,
        } = self;
        calls.retain(|number, waiter| {
            if waiter.pid != pid {
                return true;
            }
            let Some(who) = waiter.who.take() else {
                return true;
            };
            let result = end(*number);
            let is_task = matches!(who, Who::Task(_));
            // a task has none, and a thread's call goes
            waiter
                .place
                .take()
                .into_iter()
                .for_each(|place| counts.remove(place));
            match &who {
                Who::Thread(sleeper) => sleeper.answer(result),
                Who::Task(_) => {
                    waiter.ended = Some(result);
                    *ended += 1;
                }
            }
            answered.push(who);
            is_task
        });
    }

    /// Whether nobody is to be woken.
    pub(super) fn are_all_woken(&self) -> bool {
        self.answered.is_empty()
    }

    /// Takes the one who is to be woken, if there is just one.
    pub(super) fn take_the_one(&mut self) -> Option<Who> {
        if self.answered.len() == 1 {
            self.answered.pop()
        } else {
            None
        }
    }

    /// Puts the threads of those who are to be woken behind the tasks, so that they are taken first.
    pub(super) fn put_threads_last(&mut self) {
        self.answered
            .sort_unstable_by_key(|who| matches!(who, Who::Thread(_)));
    }

    /// Takes the last of those who are to be woken, until none is left or the batch is full.
    pub(super) fn take_some(&mut self) -> [Option<Who>; BATCH] {
        let mut batch: [Option<Who>; BATCH] = Default::default();
        let first = self.answered.len().saturating_sub(BATCH);
        batch
            .iter_mut()
            .zip(self.answered.drain(first..))
            .for_each(|(place, who)| *place = Some(who));
        batch
    }
}
