//! Records: when steps are recorded, how the record is handed out, and the steps that are recorded.
//!
//! The line of a step is written before the step is made, and with it room is taken for its reply. So nothing that follows a step takes memory, and
//! nor does handing out.

use super::Kernel;
use crate::faults::{NoMemory, NotDone};
use crate::memory::{Allocator, Vec};
use crate::parts::kernel::{Answered, Resumed, Written, reply_of_write};
use crate::parts::polls::{asked_of, mark_entries};
use crate::parts::recorder::{Most, Recorder};
use crate::{Bytes8, Call, Errno, MaskList, Outcome, PollEntry, PollMask, Reply, Step};

impl<A: Allocator + Copy> Kernel<A> {
    /// Begins to record the steps of this kernel, which [`recorded`](Self::recorded) hands out.
    ///
    /// A record is a script of version 2. It has a line for each step, and behind that a comment with the reply. The comment behind its first line
    /// names the limits of the kernel. `piperun --check` runs it again, and tells each reply that differs.
    ///
    /// The record is in the memory of the kernel until it is handed out. So while steps are recorded, any of them may find no memory, and has
    /// changed nothing then. A read takes memory for a copy of the bytes that it gives and for its two lines.
    ///
    /// # Errors
    ///
    /// [`NotDone::Fault`] with `EINVAL` if a process was started or a recording begun before: a record has all steps of its kernel.
    /// [`NotDone::NoMemory`] if there is none for its first lines, and then it can begin later.
    ///
    /// ```
    /// use bindingclay::memory::Global;
    /// use bindingclay::{Kernel, Limits, Step};
    ///
    /// let mut kernel = Kernel::new(Global, Limits::default())?;
    /// kernel.record()?;
    /// kernel.step(Step::Start)?;
    /// let mut record = Vec::new();
    /// kernel.write_record(&mut record)?;
    /// let lines: Vec<_> = std::str::from_utf8(&record)?.lines().collect();
    /// assert_eq!(lines[0], "piperun 2");
    /// assert!(lines[1].starts_with("# piperun --first-call 1 "));
    /// assert_eq!(lines[2..], ["start", "# => pid 1"]);
    /// # Ok::<(), Box<dyn std::error::Error>>(())
    /// ```
    pub fn record(&mut self) -> Result<(), NotDone> {
        if !self.is_fresh {
            return Err(NotDone::Fault(Errno::EINVAL));
        }
        let recorder = Recorder::new(self.alloc, self.limits).map_err(|_| NotDone::NoMemory)?;
        self.recorder = Some(recorder);
        self.is_fresh = false;
        Ok(())
    }

    /// Ends the recording, and drops what wasn't handed out. If none goes on, nothing happens.
    ///
    /// ```
    /// use bindingclay::memory::Global;
    /// use bindingclay::{Errno, Kernel, Limits, NotDone};
    ///
    /// let mut kernel = Kernel::new(Global, Limits::default())?;
    /// kernel.record()?;
    /// kernel.end_record();
    /// assert_eq!(kernel.recorded(&mut [0; 8]), Err(NotDone::Fault(Errno::EINVAL)));
    /// # Ok::<(), Box<dyn std::error::Error>>(())
    /// ```
    pub fn end_record(&mut self) {
        self.recorder = None;
    }

    /// Hands out the first bytes of the record that weren't handed out yet, and tells how many. It is 0 only if none is left, or the caller has
    /// no room: so call it until it is 0. A line may be handed out in parts.
    ///
    /// # Errors
    ///
    /// [`NotDone::Fault`] with `EINVAL` if no recording goes on. [`NotDone::NoMemory`] if nothing is left but the reply of the last step, and there
    /// is no memory for its text.
    ///
    /// ```
    /// use bindingclay::memory::Global;
    /// use bindingclay::{Kernel, Limits};
    ///
    /// let mut kernel = Kernel::new(Global, Limits::default())?;
    /// kernel.record()?;
    /// let mut into = [0; 10];
    /// assert_eq!(kernel.recorded(&mut into)?, 10);
    /// assert_eq!(&into, b"piperun 2\n");
    /// # Ok::<(), Box<dyn std::error::Error>>(())
    /// ```
    pub fn recorded(&mut self, into: &mut [u8]) -> Result<usize, NotDone> {
        let recorder = self
            .recorder
            .as_mut()
            .ok_or(NotDone::Fault(Errno::EINVAL))?;
        recorder.read(into).map_err(|_| NotDone::NoMemory)
    }

    /// Writes all of the record that wasn't handed out yet, and tells how many bytes that is. It doesn't flush.
    ///
    /// # Errors
    ///
    /// Those of [`recorded`](Self::recorded), and those of the writer. What was given to a writer that failed isn't handed out again.
    ///
    /// ```
    /// use bindingclay::memory::Global;
    /// use bindingclay::{Kernel, Limits, Step};
    /// use std::io::Write;
    ///
    /// let mut kernel = Kernel::new(Global, Limits::default())?;
    /// kernel.record()?;
    /// kernel.step(Step::Start)?;
    /// let mut file = std::io::sink(); // or a file
    /// assert!(kernel.write_record(&mut file)? > 0);
    /// assert_eq!(kernel.write_record(&mut file)?, 0);
    /// file.flush()?;
    /// # Ok::<(), Box<dyn std::error::Error>>(())
    /// ```
    #[cfg(any(feature = "script", feature = "shared"))]
    pub fn write_record<W: std::io::Write>(&mut self, mut to: W) -> std::io::Result<u64> {
        let mut bytes = [0; 4_096];
        let mut written = 0;
        loop {
            let count = self.recorded(&mut bytes)?;
            if count == 0 {
                return Ok(written);
            }
            to.write_all(&bytes[..count])?;
            written += count as u64;
        }
    }
}

/// Room for the list of a reply.
struct Room<A: Allocator> {
    bytes: Vec<u8, A>,
    masks: Vec<PollMask, A>,
}

impl<A: Allocator + Copy> Room<A> {
    /// Room for a reply that has this at most.
    fn new(alloc: A, most: Most) -> Result<Room<A>, NoMemory> {
        let (bytes, masks) = match most {
            Most::Plain => (0, 0),
            Most::Bytes(count) => (count as usize, 0),
            Most::Masks(count) => (0, count as usize),
        };
        Ok(Room {
            bytes: Vec::with_capacity(alloc, bytes).map_err(|_| NoMemory)?,
            masks: Vec::with_capacity(alloc, masks).map_err(|_| NoMemory)?,
        })
    }

    fn reply_of_bytes(mut self, bytes: &[u8]) -> Reply<A> {
        self.bytes.extend_from_slice(bytes).expect("there is room");
        Reply::Bytes(Bytes8::from_vec(self.bytes).expect("few bytes"))
    }

    /// The same reply.
    fn copy_of(mut self, reply: &Reply<A>) -> Reply<A> {
        match reply {
            Reply::Bytes(bytes) => self.reply_of_bytes(bytes.as_slice()),
            Reply::Masks { ready, masks } => {
                self.masks
                    .extend_from_slice(masks.as_slice())
                    .expect("there is room");
                let (ready, masks) = (*ready, MaskList::from_vec(self.masks));
                Reply::Masks { ready, masks }
            }
            Reply::Pid(pid) => Reply::Pid(*pid),
            Reply::Fd(fd) => Reply::Fd(*fd),
            Reply::Fds(read_end, write_end) => Reply::Fds(*read_end, *write_end),
            Reply::Count { n, sigpipe } => Reply::Count {
                n: *n,
                sigpipe: *sigpipe,
            },
            Reply::Offset(offset) => Reply::Offset(*offset),
            Reply::Flags { mode, flags } => Reply::Flags {
                mode: *mode,
                flags: *flags,
            },
            Reply::Size(size) => Reply::Size(*size),
            Reply::Unit => Reply::Unit,
            Reply::Fault(errno) => Reply::Fault(*errno),
            Reply::Parked(number) => Reply::Parked(*number),
            Reply::NoProcess => Reply::NoProcess,
            Reply::NoCall => Reply::NoCall,
            Reply::CallsSpent => Reply::CallsSpent,
        }
    }

    fn reply_of_read(self, answered: Answered<usize>, read: &[u8]) -> Reply<A> {
        match answered {
            Answered::Done(count) => self.reply_of_bytes(&read[..count]),
            _ => answered.undone(),
        }
    }
}

/// What the reply of a poll of so many entries has at most. Nobody has memory for more than can be told.
fn most_polled(entries: usize) -> Most {
    Most::Masks(u32::try_from(entries).unwrap_or(u32::MAX))
}

/// What a poll of the caller's entries told, by the reply of its step.
fn poll_answered<A: Allocator>(reply: &Reply<A>) -> Answered<u32> {
    match reply {
        Reply::Masks { ready, .. } => Answered::Done(*ready),
        Reply::Fault(errno) => Answered::Fault(*errno),
        Reply::Parked(number) => Answered::Parked(*number),
        Reply::CallsSpent => Answered::CallsSpent,
        _ => Answered::NoProcess,
    }
}

// The steps of a kernel that is recorded; without a recording they are the kernel's own.
impl<A: Allocator + Copy> Kernel<A> {
    /// Writes the line of a step that is to be made, and takes room for a reply that has this at most.
    fn begin_line(&mut self, step: &Step<A>, most: Most) -> Result<(), NoMemory> {
        match &mut self.recorder {
            Some(recorder) => recorder.begin(step, most).map_err(|_| NoMemory),
            None => Ok(()),
        }
    }

    /// What the reply of a step has at most.
    fn most_of(&self, step: &Step<A>) -> Most {
        match step {
            Step::Begin(pid, Call::Read { fd, n }) => {
                Most::Bytes(self.inner.bytes_to_read(*pid, *fd, *n) as u32)
            }
            Step::Begin(_, Call::Poll { entries, .. }) => most_polled(entries.as_slice().len()),
            Step::Resume(number) => match self.inner.ready_entries(*number) {
                0 => Most::Bytes(self.inner.bytes_to_resume(*number) as u32),
                entries => most_polled(entries),
            },
            _ => Most::Plain,
        }
    }

    /// Adds the reply of the step whose line was written.
    fn end_line(&mut self, reply: Reply<A>) {
        if let Some(recorder) = &mut self.recorder {
            recorder.end(reply);
        }
    }

    /// Takes the line of a step away that wasn't made.
    fn cancel_line(&mut self) {
        if let Some(recorder) = &mut self.recorder {
            recorder.cancel();
        }
    }

    /// What a step answered, and its line is taken away if it wasn't made.
    fn made<T>(&mut self, answered: Result<T, NoMemory>) -> Result<T, NoMemory> {
        if answered.is_err() {
            self.cancel_line();
        }
        answered
    }

    #[cold]
    pub(super) fn step_recorded(&mut self, step: Step<A>) -> Result<Reply<A>, NoMemory> {
        self.begin_line(&step, self.most_of(&step))?;
        let answered = self.inner.step_pair(step);
        let (reply, again) = self.made(answered)?;
        self.end_line(again);
        Ok(reply)
    }

    #[cold]
    pub(super) fn pair_recorded(
        &mut self,
        step: Step<A>,
    ) -> Result<(Reply<A>, Reply<A>), NoMemory> {
        let most = self.most_of(&step);
        let room = Room::new(self.alloc, most)?;
        self.begin_line(&step, most)?;
        let answered = self.inner.step_pair(step);
        let (reply, again) = self.made(answered)?;
        self.end_line(room.copy_of(&reply));
        Ok((reply, again))
    }

    #[cold]
    pub(super) fn run_recorded(
        &mut self,
        steps: Vec<Step<A>, A>,
    ) -> Result<Vec<Outcome<A>, A>, NoMemory> {
        let mut outcomes = Vec::with_capacity(self.alloc, steps.len()).map_err(|_| NoMemory)?;
        for step in steps {
            outcomes.push_reserved(match self.step(step) {
                Ok(reply) => Outcome::Replied(reply),
                Err(NoMemory) => Outcome::NoMemory,
            });
        }
        Ok(outcomes)
    }

    #[cold]
    pub(super) fn write_recorded(
        &mut self,
        pid: u32,
        fd: i32,
        bytes: &[u8],
    ) -> Result<Answered<Written>, NoMemory> {
        if let Some(recorder) = &mut self.recorder {
            recorder.begin_write(pid, fd, bytes).map_err(|_| NoMemory)?;
        }
        let answered = self.inner.write_from(pid, fd, bytes);
        let reply = self.made(answered)?;
        self.end_line(reply_of_write(reply));
        Ok(reply)
    }

    /// A read of more bytes than one gives is one of as many as it gives at most.
    #[cold]
    pub(super) fn read_recorded(
        &mut self,
        pid: u32,
        fd: i32,
        into: &mut [u8],
    ) -> Result<Answered<usize>, NoMemory> {
        let n = into.len() as u32;
        let step = Step::Begin(pid, Call::Read { fd, n });
        let most = self.most_of(&step);
        let room = Room::new(self.alloc, most)?;
        self.begin_line(&step, most)?;
        let answered = self.inner.read_into(pid, fd, into);
        let reply = self.made(answered)?;
        self.end_line(room.reply_of_read(reply, into));
        Ok(reply)
    }

    #[cold]
    pub(super) fn poll_recorded(
        &mut self,
        pid: u32,
        entries: &mut [PollEntry],
        wait: bool,
    ) -> Result<Answered<u32>, NoMemory> {
        let asked = asked_of(self.alloc, entries).map_err(|_| NoMemory)?;
        let step = Step::Begin(
            pid,
            Call::Poll {
                entries: asked,
                wait,
            },
        );
        self.begin_line(&step, most_polled(entries.len()))?;
        let answered = self.inner.step(step);
        let reply = self.made(answered)?;
        mark_entries(&reply, entries);
        let told = poll_answered(&reply);
        self.end_line(reply);
        Ok(told)
    }

    /// Tries a parked call again. A read gives its bytes into the caller's if they fit, and what a poll found is noted in the entries.
    #[cold]
    pub(super) fn resume_recorded(
        &mut self,
        number: u64,
        into: &mut [u8],
        masks: usize,
    ) -> Result<Resumed<A>, NoMemory> {
        let most = match masks {
            0 => Most::Bytes(self.inner.bytes_to_resume(number).min(into.len()) as u32),
            _ => most_polled(masks),
        };
        let room = Room::new(self.alloc, most)?;
        self.begin_line(&Step::Resume(number), most)?;
        let answered = self.inner.resume_into(number, into);
        let resumed = self.made(answered)?;
        match &resumed {
            Resumed::Read(reply) => self.end_line(room.reply_of_read(*reply, into)),
            Resumed::Other(reply) => self.end_line(room.copy_of(reply)),
            Resumed::Short(_) => self.cancel_line(),
        }
        Ok(resumed)
    }
}
