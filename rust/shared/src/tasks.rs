//! Reads and writes of tasks, which are woken by a waker in place of a thread.
//!
//! A call of a task is tried once. If it would wait, a poll of its descriptor waits in its place, which takes and gives no bytes: so the
//! next try may bring other bytes or another buffer, and a task that never comes again has lost nothing. There is no timer: the first try at the
//! deadline of the handle, or later, ends the wait.

use super::super::{Answer, Clay, NotDone, PollEntry};
use super::calls::Call;
use super::descriptor::Descriptor;
use super::front::Locked;
use super::polling::{POLLIN, POLLOUT};
use super::recording::interrupt;
use super::waiters::{Stand, Who};
use std::io;
use std::task::{Context, Poll};
use std::time::Instant;

/// The most bytes of one write of a task: one that would wait has a copy of them for a moment.
const MOST_BYTES: usize = 65_536;

/// The places of the waiting polls of a descriptor, and what each waits for.
const READING: usize = 0;
const WRITING: usize = 1;
const EVENTS: [i16; 2] = [POLLIN, POLLOUT];

/// Whether the deadline of a handle is over. Without one no clock is read.
fn is_over(deadline: Option<Instant>) -> bool {
    deadline.is_some_and(|deadline| deadline <= Instant::now())
}

/// Tries a call once; nothing if it would wait. A write that would wait tells what went in.
fn try_once(clay: &mut Clay, pid: u32, call: &mut Call<'_>) -> Option<io::Result<usize>> {
    let tried = match call.begin(clay, pid) {
        Ok(Answer::Done(count)) => Ok(count),
        Ok(Answer::Parked(parked)) => interrupt(clay, parked.into_number()),
        Err(fault) => Err(fault.into()),
    };
    match tried {
        // EAGAIN comes if the description doesn't wait, or no further call may; the poll will tell which
        Err(fault)
            if matches!(
                fault.kind(),
                io::ErrorKind::Interrupted | io::ErrorKind::WouldBlock
            ) =>
        {
            None
        }
        tried => Some(tried),
    }
}

/// Lets a poll wait in place of a call, and tells its number. There is room for who waits.
fn wait_for(locked: &mut Locked<'_>, pid: u32, entry: PollEntry) -> io::Result<u64> {
    locked.waiters().make_room()?;
    match locked.clay().poll(pid, &mut [entry], true)? {
        Answer::Parked(parked) => Ok(parked.into_number()),
        // a large write, for which there is some room: it would put in a part and wait, and no further call may
        Answer::Done(_) => Err(io::ErrorKind::WouldBlock.into()),
    }
}

/// Ends a poll, if it waits. Its waker is dropped by the caller without the lock.
#[must_use]
fn end_poll(locked: &mut Locked<'_>, number: u64) -> Option<Who> {
    let who = locked.waiters().remove(number)?;
    // it had taken nothing, and nobody wants to know
    let _ended = interrupt(locked.clay(), number);
    Some(who)
}

impl Descriptor {
    pub(super) fn poll_read(
        &mut self,
        context: &mut Context<'_>,
        into: &mut [u8],
    ) -> Poll<io::Result<usize>> {
        let call = Call::Read { fd: self.fd, into };
        self.poll_call(context, READING, call)
    }

    pub(super) fn poll_write(
        &mut self,
        context: &mut Context<'_>,
        bytes: &[u8],
    ) -> Poll<io::Result<usize>> {
        let bytes = &bytes[..bytes.len().min(MOST_BYTES)];
        self.poll_call(
            context,
            WRITING,
            Call::Write {
                fd: self.fd,
                bytes,
                waits_for_room: false,
            },
        )
    }

    fn poll_call(
        &mut self,
        context: &mut Context<'_>,
        way: usize,
        mut call: Call<'_>,
    ) -> Poll<io::Result<usize>> {
        // wakers are cloned and dropped without the lock: a task may go with one, and its handles
        let waker = context.waker().clone();
        let _former;
        let deadline = self.deadline();
        let Descriptor {
            owner, fd, tasks, ..
        } = self;
        let mut locked = owner.front.lock();
        let before = tasks[way].take();
        match before.map(|number| (number, locked.waiters().look(number))) {
            Some((_, Stand::Ended(ended))) => return Poll::Ready(ended),
            // it is tried once more: a small write may have room that the poll didn't wait for
            Some((number, Stand::Waits)) if is_over(deadline) => {
                _former = end_poll(&mut locked, number);
            }
            Some((number, Stand::Waits)) => {
                _former = locked.waiters().wait_again(number, waker);
                tasks[way] = Some(number);
                return Poll::Pending;
            }
            Some((_, Stand::Named)) | None => {}
        }
        if owner.is_gone() {
            return Poll::Ready(Err(NotDone::NoProcess.into()));
        }
        if let Some(ended) = try_once(locked.clay(), owner.pid, &mut call) {
            return Poll::Ready(ended);
        }
        if is_over(deadline) {
            return Poll::Ready(Err(io::ErrorKind::TimedOut.into()));
        }
        let number = wait_for(&mut locked, owner.pid, Clay::entry(*fd, EVENTS[way]))?;
        locked
            .waiters()
            .add(number, owner.pid, Who::Task(waker), None);
        tasks[way] = Some(number);
        Poll::Pending
    }

    /// Ends the polls of tasks that wait.
    pub(super) fn end_tasks(&mut self) {
        for number in self.tasks.iter_mut().filter_map(Option::take) {
            let _waker;
            let mut locked = self.owner.front.lock();
            _waker = end_poll(&mut locked, number);
        }
    }
}
