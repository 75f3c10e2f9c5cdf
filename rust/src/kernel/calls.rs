//! A new kernel, its steps, and calls that begin: what has to be kept is tested here, and answered with an error.

use super::{Kernel, answer_of_call};
use crate::answers::Answer;
use crate::faults::{FileMaxFault, NoMemory, NotDone};
use crate::memory::{Allocator, Vec};
use crate::parts::kernel as inner;
use crate::parts::kernel::Answered;
use crate::parts::model::numbers::{MAX_BYTES, MAX_FILE_BYTES};
use crate::{Call, Limits, Outcome, PollEntry, Reply, Step};
use core::num::NonZero;

impl<A: Allocator + Copy> Kernel<A> {
    /// A kernel with no process, whose first parked call gets the number `limits.first_call`. It takes no memory.
    ///
    /// # Errors
    ///
    /// [`FileMaxFault`] where `limits.file_max` is above 16,777,216.
    ///
    /// ```
    /// use bindingclay::memory::Global;
    /// use bindingclay::{Kernel, Limits};
    ///
    /// assert!(Kernel::new(Global, Limits { file_max: 1_000, ..Limits::DEFAULT }).is_ok());
    /// assert!(Kernel::new(Global, Limits { file_max: 100_000_000, ..Limits::DEFAULT }).is_err());
    /// ```
    pub fn new(alloc: A, limits: Limits) -> Result<Kernel<A>, FileMaxFault> {
        if limits.file_max > MAX_FILE_BYTES {
            return Err(FileMaxFault);
        }
        Ok(Kernel {
            inner: inner::Kernel::new(alloc, limits),
            alloc,
            limits,
            is_fresh: true,
            recorder: None,
        })
    }

    /// Makes one step.
    ///
    /// A step that is refused, by a fault at `Start` or `Begin`, by `NoProcess`, `NoCall` or `CallsSpent`, changes nothing, and a fault at
    /// `Resume` or `Interrupt` ends that call and nothing else.
    ///
    /// # Errors
    ///
    /// [`NoMemory`], which leaves the kernel as it was. It never comes where the reply would be an error, nor at the calls that take no
    /// memory: `Close`, `Lseek`, `GetFl`, `SetFl`, `GetPipeSz`, `Unlink`, `Exit`, and at `Interrupt`. While steps are recorded, it may come at
    /// any of them ([`record`](Self::record)).
    ///
    /// ```
    /// use bindingclay::memory::Global;
    /// use bindingclay::{Call, Errno, Kernel, Limits, Reply, Step};
    ///
    /// let mut kernel = Kernel::new(Global, Limits::default())?;
    /// assert_eq!(kernel.step(Step::Start)?, Reply::Pid(1));
    /// assert_eq!(kernel.step(Step::Begin(1, Call::Close { fd: 9 }))?, Reply::Fault(Errno::EBADF));
    /// assert_eq!(kernel.step(Step::Begin(2, Call::Fork))?, Reply::NoProcess);
    /// # Ok::<(), Box<dyn std::error::Error>>(())
    /// ```
    #[inline(always)]
    pub fn step(&mut self, step: Step<A>) -> Result<Reply<A>, NoMemory> {
        self.make(step)
    }

    /// Makes one step, as [`step`](Self::step) does, and gives its reply twice: for a caller that keeps one and hands on the other.
    ///
    /// # Errors
    ///
    /// [`NoMemory`], as of `step`. Room for the second reply is made before the step.
    ///
    /// ```
    /// use bindingclay::memory::Global;
    /// use bindingclay::{Kernel, Limits, Reply, Step};
    ///
    /// let mut kernel = Kernel::new(Global, Limits::default())?;
    /// assert_eq!(kernel.step_pair(Step::Start)?, (Reply::Pid(1), Reply::Pid(1)));
    /// # Ok::<(), Box<dyn std::error::Error>>(())
    /// ```
    #[inline(always)]
    pub fn step_pair(&mut self, step: Step<A>) -> Result<(Reply<A>, Reply<A>), NoMemory> {
        if let Step::Start = step {
            self.is_fresh = false;
        }
        if self.recorder.is_some() {
            return self.pair_recorded(step);
        }
        self.inner.step_pair(step)
    }

    /// Makes steps in order, one outcome for each. A step that found no memory is passed over, and the next one made.
    ///
    /// # Errors
    ///
    /// [`NoMemory`] where there is none for the list of outcomes, for which room is made first: no step is made then.
    ///
    /// ```
    /// use bindingclay::memory::{Global, Vec};
    /// use bindingclay::{Call, Kernel, Limits, Outcome, Reply, Step};
    ///
    /// let mut kernel = Kernel::new(Global, Limits::default())?;
    /// let steps = vec![Step::Start, Step::Begin(1, Call::Pipe { nonblock: true, direct: false })];
    /// let outcomes = kernel.run(Vec::from(steps))?;
    /// assert_eq!(outcomes[1], Outcome::Replied(Reply::Fds(0, 1)));
    /// # Ok::<(), Box<dyn std::error::Error>>(())
    /// ```
    pub fn run(&mut self, steps: Vec<Step<A>, A>) -> Result<Vec<Outcome<A>, A>, NoMemory> {
        if steps.iter().any(|step| matches!(step, Step::Start)) {
            self.is_fresh = false;
        }
        if self.recorder.is_some() {
            return self.run_recorded(steps);
        }
        self.inner.run(steps)
    }

    /// Begins a call, as `Step::Begin` does, and tells by its handle if it waits.
    ///
    /// # Errors
    ///
    /// [`NotDone::Fault`] if it failed, [`NotDone::NoProcess`] if there is no process of the pid, and [`NotDone::CallsSpent`] if it would
    /// wait and no number is left. [`NotDone::NoMemory`] comes as of [`step`](Self::step). Each of them leaves the kernel as it was. So a
    /// reply in [`Answer::Done`] is none of `Fault`, `Parked`, `NoProcess`, `NoCall` and `CallsSpent`.
    ///
    /// ```
    /// use bindingclay::memory::{Global, Vec};
    /// use bindingclay::{Answer, Call, Kernel, Limits, Mode, Name, OpenFlags, Reply, Step};
    ///
    /// let mut kernel = Kernel::new(Global, Limits::default())?;
    /// kernel.step(Step::Start)?;
    /// let name = || Vec::from_slice(Global, b"inbox").map(Name::from_vec);
    /// kernel.step(Step::Begin(1, Call::Mkfifo { name: name()? }))?;
    /// let flags = OpenFlags::empty();
    /// // a FIFO is opened once it has both ends
    /// let open = Call::OpenName { name: name()?, mode: Mode::Read, flags };
    /// let Answer::Parked(call) = kernel.begin(1, open)? else { panic!("no wait") };
    /// let open = Call::OpenName { name: name()?, mode: Mode::Write, flags };
    /// assert_eq!(kernel.begin(1, open)?, Answer::Done(Reply::Fd(0)));
    /// assert_eq!(kernel.resume(call)?, Answer::Done(Reply::Fd(1)));
    /// # Ok::<(), Box<dyn std::error::Error>>(())
    /// ```
    #[inline]
    pub fn begin(&mut self, pid: u32, call: Call<A>) -> Result<Answer<Reply<A>>, NotDone> {
        let reply = self.make(Step::Begin(pid, call))?;
        self.answer_of_reply(0, reply)
    }

    /// Begins a write of the caller's bytes, and tells how many went in. If the call is parked, it keeps a copy of them all.
    ///
    /// # Errors
    ///
    /// [`NotDone::TooLong`] if they are more than 16,777,216; all others as of [`begin`](Self::begin). Each leaves the kernel as it was.
    ///
    /// ```
    /// use bindingclay::memory::Global;
    /// use bindingclay::{Answer, Call, Kernel, Limits, NotDone, Step};
    ///
    /// let mut kernel = Kernel::new(Global, Limits::default())?;
    /// kernel.step(Step::Start)?;
    /// kernel.step(Step::Begin(1, Call::Pipe { nonblock: false, direct: false }))?;
    /// assert_eq!(kernel.write_from(1, 1, b"hello")?, Answer::Done(5));
    /// assert_eq!(kernel.write_from(1, 1, &vec![0; 100_000_000]), Err(NotDone::TooLong));
    /// # Ok::<(), Box<dyn std::error::Error>>(())
    /// ```
    #[inline]
    pub fn write_from(
        &mut self,
        pid: u32,
        fd: i32,
        bytes: &[u8],
    ) -> Result<Answer<usize>, NotDone> {
        if bytes.len() > MAX_BYTES {
            return Err(NotDone::TooLong);
        }
        let reply = if self.recorder.is_some() {
            self.write_recorded(pid, fd, bytes)?
        } else {
            self.inner.write_from(pid, fd, bytes)?
        };
        match reply {
            Answered::Parked(number) => Ok(self.parked(0, number)),
            // a write that didn't wait never tells a signal
            answered => Ok(answer_of_call(answered)?.map(|written| written.n as usize)),
        }
    }

    /// What the beginning of a write of so many bytes answers where it is refused, whatever the bytes are; `None` where it isn't, so that it
    /// may want memory. Who makes the bytes asks here before. Nothing changes, and it takes no memory.
    ///
    /// ```
    /// use bindingclay::memory::Global;
    /// use bindingclay::{Errno, Kernel, Limits, Reply, Step};
    /// use std::num::NonZero;
    ///
    /// let mut kernel = Kernel::new(Global, Limits::default())?;
    /// kernel.step(Step::Start)?;
    /// let count = NonZero::new(1_000_000).expect("a million");
    /// assert_eq!(kernel.refusal_of_write(1, 0, count), Some(Reply::Fault(Errno::EBADF)));
    /// # Ok::<(), Box<dyn std::error::Error>>(())
    /// ```
    pub fn refusal_of_write(&self, pid: u32, fd: i32, count: NonZero<usize>) -> Option<Reply<A>> {
        self.inner.refusal_of_write(pid, fd, count.get())
    }

    /// Begins a read of as many bytes as the caller's are, into the first of these; the others stay as they are. It tells how many were
    /// read; 0 at the end of the file.
    ///
    /// # Errors
    ///
    /// [`NotDone::TooLong`] if they are 2^32 or more; all others as of [`begin`](Self::begin), but [`NotDone::NoMemory`] only if the call
    /// would be parked. Each leaves the kernel as it was.
    ///
    /// ```
    /// use bindingclay::memory::Global;
    /// use bindingclay::{Answer, Call, Kernel, Limits, Step};
    ///
    /// let mut kernel = Kernel::new(Global, Limits::default())?;
    /// kernel.step(Step::Start)?;
    /// kernel.step(Step::Begin(1, Call::Pipe { nonblock: false, direct: false }))?;
    /// assert_eq!(kernel.write_from(1, 1, b"hello")?, Answer::Done(5));
    /// let mut into = *b"........";
    /// assert_eq!(kernel.read_into(1, 0, &mut into)?, Answer::Done(5));
    /// assert_eq!(&into, b"hello...");
    /// # Ok::<(), Box<dyn std::error::Error>>(())
    /// ```
    #[inline]
    pub fn read_into(
        &mut self,
        pid: u32,
        fd: i32,
        into: &mut [u8],
    ) -> Result<Answer<usize>, NotDone> {
        if u32::try_from(into.len()).is_err() {
            return Err(NotDone::TooLong);
        }
        if self.recorder.is_some() {
            return answer_of_call(self.read_recorded(pid, fd, into)?);
        }
        answer_of_call(self.inner.read_into(pid, fd, into)?)
    }

    /// Begins a poll of what the caller's entries ask. If it is answered, what was found of each is noted in it. It tells of how many
    /// entries something was found. Without `wait` it never waits.
    ///
    /// # Errors
    ///
    /// As of [`begin`](Self::begin), but [`NotDone::NoMemory`] only if the call would be parked, which keeps a copy of what is asked.
    ///
    /// ```
    /// use bindingclay::memory::Global;
    /// use bindingclay::{Answer, Call, Kernel, Limits, PollEntry, Step};
    ///
    /// let mut kernel = Kernel::new(Global, Limits::default())?;
    /// kernel.step(Step::Start)?;
    /// kernel.step(Step::Begin(1, Call::Pipe { nonblock: false, direct: false }))?;
    /// assert_eq!(kernel.write_from(1, 1, b"hello")?, Answer::Done(5));
    /// // the numbers are those of `poll.h` on Linux: `POLLIN` is 1
    /// let mut entries = [PollEntry { fd: 0, events: 1, revents: 0 }];
    /// assert_eq!(kernel.poll_into(1, &mut entries, false)?, Answer::Done(1));
    /// assert_eq!(entries[0].revents, 1);
    /// # Ok::<(), Box<dyn std::error::Error>>(())
    /// ```
    #[inline]
    pub fn poll_into(
        &mut self,
        pid: u32,
        entries: &mut [PollEntry],
        wait: bool,
    ) -> Result<Answer<usize>, NotDone> {
        let reply = if self.recorder.is_some() {
            self.poll_recorded(pid, entries, wait)?
        } else {
            self.inner.poll_into(pid, entries, wait)?
        };
        Ok(answer_of_call(reply)?.map(|count| count as usize))
    }
}
