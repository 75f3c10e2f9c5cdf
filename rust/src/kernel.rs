//! The kernel as a Rust program uses it.

mod calls;
mod facts;
mod recording;
mod waiting;

use crate::answers::{Answer, ParkedCall};
use crate::faults::NotDone;
use crate::memory::{Allocator, Global};
use crate::parts::kernel as inner;
use crate::parts::kernel::{Answered, NoMemory};
use crate::parts::recorder::Recorder;
use crate::{Limits, Reply, Step};
use core::fmt;

/// A kernel of processes that talk through pipes, in the memory of one allocator.
///
/// A step is a value, and so is what it answers. A call that would wait is parked under a number, by which it is tried again or interrupted:
/// no thread ever blocks here.
///
/// [`step`](Self::step) tells of a parked call by its number, so that steps and replies can be kept and made again. The other methods that
/// begin or resume a call tell of it by its handle, a [`ParkedCall`], and have a `Result` whose errors are [`NotDone`].
///
/// ```
/// use bindingclay::memory::{Global, Vec};
/// use bindingclay::{Bytes8, Call, Kernel, Limits, Reply, Step};
///
/// let mut kernel = Kernel::new(Global, Limits::default())?;
/// assert_eq!(kernel.step(Step::Start)?, Reply::Pid(1));
/// assert_eq!(kernel.step(Step::Begin(1, Call::Pipe { nonblock: false, direct: false }))?, Reply::Fds(0, 1));
/// // nothing is there to read, so the call waits
/// assert_eq!(kernel.step(Step::Begin(1, Call::Read { fd: 0, n: 3 }))?, Reply::Parked(1));
///
/// let bytes = Bytes8::from_vec(Vec::from_slice(Global, b"hello")?).expect("few bytes");
/// assert_eq!(kernel.step(Step::Begin(1, Call::Write { fd: 1, bytes }))?, Reply::Count { n: 5, sigpipe: false });
/// let Reply::Bytes(bytes) = kernel.step(Step::Resume(1))? else { panic!("no bytes") };
/// assert_eq!(bytes.as_slice(), b"hel");
/// # Ok::<(), Box<dyn std::error::Error>>(())
/// ```
pub struct Kernel<A: Allocator = Global> {
    inner: inner::Kernel<A>,
    alloc: A,
    limits: Limits,
    /// No process was started, and no recording begun.
    is_fresh: bool,
    /// The record, while steps are recorded.
    recorder: Option<Recorder<A>>,
}

impl<A: Allocator + Copy> Kernel<A> {
    /// Makes one step.
    #[inline(always)]
    fn make(&mut self, step: Step<A>) -> Result<Reply<A>, NoMemory> {
        if let Step::Start = step {
            self.is_fresh = false;
        }
        if self.recorder.is_some() {
            return self.step_recorded(step);
        }
        self.inner.step(step)
    }

    /// How many bytes the parked call of a number has taken; 0 if no call is parked under it.
    #[inline]
    fn taken_so_far(&self, number: u64) -> u32 {
        self.inner.taken(number).unwrap_or(0)
    }

    /// The answer of a call that waits, and had taken so many bytes before the step.
    fn parked<T>(&self, before: u32, number: u64) -> Answer<T> {
        let moved = before < self.taken_so_far(number);
        Answer::Parked(ParkedCall::with_moved(number, moved))
    }

    /// The answer of a call that had taken so many bytes before the step that replied this.
    #[inline]
    fn answer_of_reply(&self, before: u32, reply: Reply<A>) -> Result<Answer<Reply<A>>, NotDone> {
        match reply {
            Reply::Parked(number) => Ok(self.parked(before, number)),
            Reply::Fault(errno) => Err(NotDone::Fault(errno)),
            Reply::NoProcess => Err(NotDone::NoProcess),
            Reply::NoCall => Err(NotDone::NoCall),
            Reply::CallsSpent => Err(NotDone::CallsSpent),
            reply => Ok(Answer::Done(reply)),
        }
    }
}

impl<A: Allocator + Copy> fmt::Debug for Kernel<A> {
    fn fmt(&self, f: &mut fmt::Formatter<'_>) -> fmt::Result {
        f.debug_struct("Kernel")
            .field("stats", &self.stats())
            .finish_non_exhaustive()
    }
}

#[inline]
fn answer_of_call<T>(answered: Answered<T>) -> Result<Answer<T>, NotDone> {
    match answered {
        Answered::Done(given) => Ok(Answer::Done(given)),
        Answered::Parked(number) => Ok(Answer::Parked(ParkedCall::from_number(number))),
        Answered::Fault(errno) => Err(NotDone::Fault(errno)),
        Answered::NoProcess => Err(NotDone::NoProcess),
        Answered::CallsSpent => Err(NotDone::CallsSpent),
    }
}
