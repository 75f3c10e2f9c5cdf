//! Parked calls: what tries them again or ends them, whose they are, and whether they can make progress.

use super::{Kernel, answer_of_call};
use crate::answers::{Answer, ParkedCall};
use crate::faults::{NoMemory, NotDone};
use crate::memory::Allocator;
use crate::parts::kernel::Resumed;
use crate::parts::numbers::answer_of;
use crate::parts::polls::mark_entries;
use crate::{PollEntry, Reply, Step};

impl<A: Allocator + Copy> Kernel<A> {
    /// Tries a parked call again: a read gives its bytes into the caller's, and a poll tells so many masks.
    #[inline]
    fn try_again(
        &mut self,
        number: u64,
        into: &mut [u8],
        masks: usize,
    ) -> Result<Resumed<A>, NoMemory> {
        if self.recorder.is_some() {
            return self.resume_recorded(number, into, masks);
        }
        self.inner.resume_into(number, into)
    }

    /// Tries a parked call again, as `Step::Resume` does. It is [`Answer::Parked`] again if it waits on.
    ///
    /// # Errors
    ///
    /// [`NotDone::NoMemoryToResume`] gives the call back, which still waits, and leaves the kernel as it was. At [`NotDone::Fault`] the call
    /// has ended. [`NotDone::NoCall`] says that no call is parked under its number.
    ///
    /// ```
    /// use bindingclay::memory::Global;
    /// use bindingclay::{Answer, Call, Kernel, Limits, Reply, Step};
    ///
    /// let mut kernel = Kernel::new(Global, Limits::default())?;
    /// kernel.step(Step::Start)?;
    /// kernel.step(Step::Begin(1, Call::Pipe { nonblock: false, direct: false }))?;
    /// let Answer::Parked(call) = kernel.write_from(1, 1, &[7; 65_537])? else { panic!("no wait") };
    /// // the pipe is still full
    /// let Answer::Parked(call) = kernel.resume(call)? else { panic!("no wait") };
    /// assert_eq!(kernel.read_into(1, 0, &mut [0; 4_096])?, Answer::Done(4_096));
    /// assert_eq!(kernel.resume(call)?, Answer::Done(Reply::Count { n: 65_537, sigpipe: false }));
    /// # Ok::<(), Box<dyn std::error::Error>>(())
    /// ```
    #[inline]
    pub fn resume(&mut self, call: ParkedCall) -> Result<Answer<Reply<A>>, NotDone> {
        let before = self.taken_so_far(call.number());
        match self.make(Step::Resume(call.number())) {
            Ok(reply) => self.answer_of_reply(before, reply),
            Err(NoMemory) => Err(NotDone::NoMemoryToResume(call.given_back())),
        }
    }

    /// Tries a parked read again, which gives its bytes into the first of the caller's. It tells how many; 0 at the end of the file. Room
    /// for 1,048,576 bytes is always enough. Any other call is resumed as by [`resume`](Self::resume), and only a number of its reply is
    /// told: a count, or a descriptor.
    ///
    /// # Errors
    ///
    /// [`NotDone::Short`] if the read would give more bytes than the caller has room for, or if the call is a poll that can make progress. It gives
    /// the call back, which still waits, and leaves the kernel as it was. All others come as of `resume`, but
    /// [`NotDone::NoMemoryToResume`] never if the call is a read, but while steps are recorded.
    ///
    /// ```
    /// use bindingclay::memory::Global;
    /// use bindingclay::{Answer, Call, Kernel, Limits, NotDone, Step};
    ///
    /// let mut kernel = Kernel::new(Global, Limits::default())?;
    /// kernel.step(Step::Start)?;
    /// kernel.step(Step::Begin(1, Call::Pipe { nonblock: false, direct: false }))?;
    /// let mut into = [0; 8];
    /// let Answer::Parked(call) = kernel.read_into(1, 0, &mut into)? else { panic!("no wait") };
    /// assert_eq!(kernel.write_from(1, 1, b"hello")?, Answer::Done(5));
    /// // too little room, and the call comes back
    /// let Err(NotDone::Short { call, wants: 5 }) = kernel.resume_read(call, &mut into[..4]) else { panic!("room") };
    /// assert_eq!(kernel.resume_read(call, &mut into)?, Answer::Done(5));
    /// # Ok::<(), Box<dyn std::error::Error>>(())
    /// ```
    #[inline]
    pub fn resume_read(
        &mut self,
        call: ParkedCall,
        into: &mut [u8],
    ) -> Result<Answer<usize>, NotDone> {
        let entries = self.inner.ready_entries(call.number());
        if entries > 0 {
            let wants = entries as u64;
            let call = call.given_back();
            return Err(NotDone::Short { call, wants });
        }
        let before = self.taken_so_far(call.number());
        match self.try_again(call.number(), into, 0) {
            Ok(Resumed::Read(reply)) => answer_of_call(reply),
            Ok(Resumed::Short(bytes)) => Err(NotDone::Short {
                call: call.given_back(),
                wants: u64::from(bytes),
            }),
            Ok(Resumed::Other(reply)) => Ok(self.answer_of_reply(before, reply)?.map(number_of)),
            Err(NoMemory) => Err(NotDone::NoMemoryToResume(call.given_back())),
        }
    }

    /// Tries a parked poll again. The entries are as many as it began with, and what was found of each is noted in it. It tells of how many
    /// entries something was found. Any other call is resumed as by [`resume`](Self::resume), and only a number of its reply is told; a
    /// read that would give bytes is [`NotDone::Short`].
    ///
    /// # Errors
    ///
    /// As of `resume`.
    ///
    /// ```
    /// use bindingclay::memory::Global;
    /// use bindingclay::{Answer, Call, Kernel, Limits, PollEntry, Step};
    ///
    /// let mut kernel = Kernel::new(Global, Limits::default())?;
    /// kernel.step(Step::Start)?;
    /// kernel.step(Step::Begin(1, Call::Pipe { nonblock: false, direct: false }))?;
    /// let mut entries = [PollEntry { fd: 0, events: 1, revents: 0 }];
    /// let Answer::Parked(call) = kernel.poll_into(1, &mut entries, true)? else { panic!("no wait") };
    /// assert_eq!(kernel.write_from(1, 1, b"hello")?, Answer::Done(5));
    /// assert_eq!(kernel.resume_poll(call, &mut entries)?, Answer::Done(1));
    /// assert_eq!(entries[0].revents, 1);
    /// # Ok::<(), Box<dyn std::error::Error>>(())
    /// ```
    pub fn resume_poll(
        &mut self,
        call: ParkedCall,
        entries: &mut [PollEntry],
    ) -> Result<Answer<usize>, NotDone> {
        let before = self.taken_so_far(call.number());
        let masks = self.inner.ready_entries(call.number());
        match self.try_again(call.number(), &mut [], masks) {
            Ok(Resumed::Read(reply)) => answer_of_call(reply),
            Ok(Resumed::Short(bytes)) => Err(NotDone::Short {
                call: call.given_back(),
                wants: u64::from(bytes),
            }),
            Ok(Resumed::Other(reply)) => {
                mark_entries(&reply, entries);
                Ok(self.answer_of_reply(before, reply)?.map(number_of))
            }
            Err(NoMemory) => Err(NotDone::NoMemoryToResume(call.given_back())),
        }
    }

    /// Ends a parked call, as `Step::Interrupt` does. Of a write that took bytes it tells how many. It takes no memory but to be recorded.
    ///
    /// # Errors
    ///
    /// [`NotDone::Fault`] with `EINTR` says that the call ended and had taken nothing; so it is with every call but such a write.
    /// [`NotDone::NoCall`] says that no call is parked under its number. [`NotDone::NoMemoryToResume`] comes only while steps are recorded,
    /// and gives the call back, which still waits.
    ///
    /// ```
    /// use bindingclay::memory::Global;
    /// use bindingclay::{Answer, Call, Kernel, Limits, Reply, Step};
    ///
    /// let mut kernel = Kernel::new(Global, Limits::default())?;
    /// kernel.step(Step::Start)?;
    /// kernel.step(Step::Begin(1, Call::Pipe { nonblock: false, direct: false }))?;
    /// let Answer::Parked(call) = kernel.write_from(1, 1, &[7; 70_000])? else { panic!("no wait") };
    /// assert_eq!(kernel.interrupt(call)?, Reply::Count { n: 65_536, sigpipe: false });
    /// # Ok::<(), Box<dyn std::error::Error>>(())
    /// ```
    pub fn interrupt(&mut self, call: ParkedCall) -> Result<Reply<A>, NotDone> {
        match self.make(Step::Interrupt(call.number())) {
            Ok(Reply::Fault(errno)) => Err(NotDone::Fault(errno)),
            Ok(Reply::NoCall) => Err(NotDone::NoCall),
            Ok(reply) => Ok(reply),
            Err(NoMemory) => Err(NotDone::NoMemoryToResume(call.given_back())),
        }
    }

    /// How many bytes a parked call has taken, as a write has that waits with some of its bytes in the pipe; `None` if no call is parked
    /// under its number.
    ///
    /// ```
    /// use bindingclay::memory::Global;
    /// use bindingclay::{Answer, Call, Kernel, Limits, Step};
    ///
    /// let mut kernel = Kernel::new(Global, Limits::default())?;
    /// kernel.step(Step::Start)?;
    /// kernel.step(Step::Begin(1, Call::Pipe { nonblock: false, direct: false }))?;
    /// let Answer::Parked(call) = kernel.write_from(1, 1, &[7; 70_000])? else { panic!("no wait") };
    /// assert_eq!(kernel.taken(&call), Some(65_536));
    /// # Ok::<(), Box<dyn std::error::Error>>(())
    /// ```
    pub fn taken(&self, call: &ParkedCall) -> Option<u32> {
        self.inner.taken(call.number())
    }

    /// Whether a parked call can make progress: tried again now it is answered, or it is a write that puts in more of its bytes. If it can't, a try
    /// is [`Answer::Parked`] and moves no byte. If no call is parked under its number, it is true, and a try is [`NotDone::NoCall`].
    /// Nothing changes, and it takes no memory.
    ///
    /// After any step, ask it for each parked call, and try those that can make progress, until none can.
    ///
    /// ```
    /// use bindingclay::memory::Global;
    /// use bindingclay::{Answer, Call, Kernel, Limits, Step};
    ///
    /// let mut kernel = Kernel::new(Global, Limits::default())?;
    /// kernel.step(Step::Start)?;
    /// kernel.step(Step::Begin(1, Call::Pipe { nonblock: false, direct: false }))?;
    /// let Answer::Parked(call) = kernel.read_into(1, 0, &mut [0])? else { panic!("no wait") };
    /// assert!(!kernel.can_progress(&call)); // there is nothing to read yet
    /// assert_eq!(kernel.write_from(1, 1, b"a")?, Answer::Done(1));
    /// assert!(kernel.can_progress(&call));
    /// # Ok::<(), Box<dyn std::error::Error>>(())
    /// ```
    pub fn can_progress(&self, call: &ParkedCall) -> bool {
        self.inner.can_progress(call.number())
    }

    /// The least number, `from` or above, of a parked call that can make progress; `None` if no call from there on can. Resume what it answers for 0
    /// until it is `None`: then no call waits that could go on, and none was tried in vain.
    ///
    /// It changes nothing that a step or another question tells. It keeps an index of the calls that wait, so it asks only those that may have
    /// got on since the last time. Without memory for the index it asks all, and answers the same.
    ///
    /// ```
    /// use bindingclay::memory::Global;
    /// use bindingclay::{Answer, Call, Kernel, Limits, Step};
    ///
    /// let mut kernel = Kernel::new(Global, Limits::default())?;
    /// kernel.step(Step::Start)?;
    /// kernel.step(Step::Begin(1, Call::Pipe { nonblock: false, direct: false }))?;
    /// let Answer::Parked(call) = kernel.read_into(1, 0, &mut [0])? else { panic!("no wait") };
    /// assert_eq!(kernel.next_ready(0), None); // there is nothing to read yet
    /// assert_eq!(kernel.write_from(1, 1, b"a")?, Answer::Done(1));
    /// assert_eq!(kernel.next_ready(0), Some(call.number()));
    /// assert_eq!(kernel.next_ready(call.number() + 1), None);
    /// # Ok::<(), Box<dyn std::error::Error>>(())
    /// ```
    pub fn next_ready(&mut self, from: u64) -> Option<u64> {
        self.inner.next_ready(from)
    }

    /// The process that began a parked call; `None` if no call is parked under its number.
    ///
    /// ```
    /// use bindingclay::memory::Global;
    /// use bindingclay::{Answer, Call, Kernel, Limits, Step};
    ///
    /// let mut kernel = Kernel::new(Global, Limits::default())?;
    /// kernel.step(Step::Start)?;
    /// kernel.step(Step::Begin(1, Call::Pipe { nonblock: false, direct: false }))?;
    /// let Answer::Parked(call) = kernel.read_into(1, 0, &mut [0])? else { panic!("no wait") };
    /// assert_eq!(kernel.owner(&call), Some(1));
    /// # Ok::<(), Box<dyn std::error::Error>>(())
    /// ```
    pub fn owner(&self, call: &ParkedCall) -> Option<u32> {
        self.inner.owner(call.number())
    }
}

/// The number of a reply that the library for C tells: a count, or a descriptor.
fn number_of<A: Allocator>(reply: Reply<A>) -> usize {
    answer_of(&reply).value as usize
}
