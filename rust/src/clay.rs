//! The kernel as the shared one wants it: with the methods of the wrapper over the library for C.

use crate::memory::{Allocator, Vec};
use crate::numbers::{
    mode_of_bits, open_flags_of_bits, pipe_flags_of_bits, splice_flags_of_bits, status_bits,
    whence_of_number,
};
use crate::parts::numbers::answer_of;
use crate::{
    Answer, Call, Errno, Kernel, Limits, Name, NodeFacts, NotDone, OpenFlags, ParkedCall,
    PollEntry, Reply, Step, shared,
};
use std::io;
use std::sync::atomic::{AtomicU64, Ordering};
use std::sync::{Mutex, PoisonError};

type Result<T> = core::result::Result<T, NotDone>;

/// The bytes of a name that a call looks at: 256 are too long already (POSIX.1-2017, `NAME_MAX`).
const NAME_BYTES: usize = 256;

/// How many bytes a kernel holds, and may hold. It is changed under the lock of its kernel alone.
#[derive(Debug)]
struct Counter {
    held: AtomicU64,
    most: AtomicU64,
}

impl Allocator for Counter {
    #[inline]
    fn permits(&self, from: usize, to: usize) -> bool {
        let held = self.held.load(Ordering::Relaxed) - from as u64;
        match held.checked_add(to as u64) {
            Some(held) if held <= self.most.load(Ordering::Relaxed) => {
                self.held.store(held, Ordering::Relaxed);
                true
            }
            _ => false,
        }
    }

    #[inline]
    fn shrinks(&self, from: usize, to: usize) {
        let held = self.held.load(Ordering::Relaxed) - from as u64 + to as u64;
        self.held.store(held, Ordering::Relaxed);
    }
}

/// Counters whose kernels are gone. A kernel's allocator is to be `Copy`, and so a reference that lives for ever: a later kernel takes it.
static SPARE: Mutex<std::vec::Vec<&'static Counter>> = Mutex::new(std::vec::Vec::new());

fn counter(most: u64) -> &'static Counter {
    let spare = SPARE.lock().unwrap_or_else(PoisonError::into_inner).pop();
    let counter = spare.unwrap_or_else(|| {
        Box::leak(Box::new(Counter {
            held: AtomicU64::new(0),
            most: AtomicU64::new(0),
        }))
    });
    counter.most.store(most, Ordering::Relaxed);
    counter
}

/// A kernel within a budget of bytes.
pub(crate) struct Clay {
    /// There until it is dropped.
    kernel: Option<Kernel<&'static Counter>>,
    counter: &'static Counter,
}

/// The two ends of a pipe.
pub(crate) struct Ends {
    pub(crate) read_end: i32,
    pub(crate) write_end: i32,
}

/// The number that a reply tells.
fn number(reply: Reply<&'static Counter>) -> u64 {
    answer_of(&reply).value
}

fn invalid<T>(flags: Option<T>) -> Result<T> {
    flags.ok_or(NotDone::Fault(Errno::EINVAL))
}

impl Clay {
    pub(crate) fn of_shared(limits: &shared::Limits) -> io::Result<Clay> {
        let inner = Limits {
            first_call: 1,
            file_max: limits.file_max,
            names_max: limits.names,
            waiting_max: limits.waiting_calls,
            waiting_of_each: limits.waiting_of_each,
            capacity_max: limits.capacity,
            descriptors_max: limits.descriptors_max,
            descriptions_max: limits.descriptions_max,
            processes_max: limits.processes_max,
            spare_max: match limits.spare_max {
                u64::MAX => Limits::usual_spare(limits.memory),
                spare_max => spare_max,
            },
        };
        let counter = counter(limits.memory);
        let kernel = Kernel::new(counter, inner).map_err(|_| io::ErrorKind::InvalidInput)?;
        Ok(Clay {
            kernel: Some(kernel),
            counter,
        })
    }

    #[inline(always)]
    fn kernel(&mut self) -> &mut Kernel<&'static Counter> {
        self.kernel.as_mut().expect("it isn't dropped")
    }

    fn name(&self, name: &[u8]) -> Result<Name<&'static Counter>> {
        let bytes = Vec::from_slice(self.counter, &name[..name.len().min(NAME_BYTES)]);
        Ok(Name::from_vec(bytes.map_err(|_| NotDone::NoMemory)?))
    }

    fn begin(&mut self, pid: u32, call: Call<&'static Counter>) -> Result<Answer<u64>> {
        Ok(self.kernel().begin(pid, call)?.map(number))
    }

    /// What a call answers that never waits.
    fn done(&mut self, pid: u32, call: Call<&'static Counter>) -> Result<Reply<&'static Counter>> {
        match self.kernel().begin(pid, call)? {
            Answer::Done(reply) => Ok(reply),
            Answer::Parked(call) => {
                unreachable!("call {} waits, and its like never does", call.number())
            }
        }
    }

    pub(crate) fn record(&mut self) -> Result<()> {
        self.kernel().record()
    }

    pub(crate) fn end_record(&mut self) {
        self.kernel().end_record();
    }

    pub(crate) fn recorded(&mut self, into: &mut [u8]) -> Result<usize> {
        self.kernel().recorded(into)
    }

    pub(crate) fn start(&mut self) -> Result<u32> {
        match self.kernel().step(Step::Start)? {
            Reply::Fault(errno) => Err(NotDone::Fault(errno)),
            reply => Ok(number(reply) as u32),
        }
    }

    pub(crate) fn fork(&mut self, pid: u32) -> Result<u32> {
        Ok(number(self.done(pid, Call::Fork)?) as u32)
    }

    pub(crate) fn exit(&mut self, pid: u32) -> Result<()> {
        self.done(pid, Call::Exit).map(|_| ())
    }

    pub(crate) fn pipe2(&mut self, pid: u32, flags: u32) -> Result<Ends> {
        let flags = invalid(pipe_flags_of_bits(flags))?;
        let (nonblock, direct) = (flags.nonblock, flags.direct);
        match self.done(pid, Call::Pipe { nonblock, direct })? {
            Reply::Fds(read_end, write_end) => Ok(Ends {
                read_end,
                write_end,
            }),
            reply => unreachable!("a pipe answers {reply:?}"),
        }
    }

    pub(crate) fn mkfifo(&mut self, pid: u32, name: &[u8]) -> Result<()> {
        let name = self.name(name)?;
        self.done(pid, Call::Mkfifo { name }).map(|_| ())
    }

    pub(crate) fn open_name(&mut self, pid: u32, name: &[u8], flags: u32) -> Result<Answer<i32>> {
        let mode = invalid(mode_of_bits(flags))?;
        let (name, flags) = (self.name(name)?, open_flags_of_bits(flags));
        let answer = self.begin(pid, Call::OpenName { name, mode, flags })?;
        Ok(answer.map(|fd| fd as i32))
    }

    pub(crate) fn unlink(&mut self, pid: u32, name: &[u8]) -> Result<()> {
        let name = self.name(name)?;
        self.done(pid, Call::Unlink { name }).map(|_| ())
    }

    #[inline]
    pub(crate) fn read(&mut self, pid: u32, fd: i32, into: &mut [u8]) -> Result<Answer<usize>> {
        self.kernel().read_into(pid, fd, into)
    }

    #[inline]
    pub(crate) fn write(&mut self, pid: u32, fd: i32, bytes: &[u8]) -> Result<Answer<usize>> {
        self.kernel().write_from(pid, fd, bytes)
    }

    pub(crate) fn lseek(&mut self, pid: u32, fd: i32, offset: i64, whence: i32) -> Result<u64> {
        let whence = invalid(whence_of_number(whence))?;
        Ok(number(self.done(pid, Call::Lseek { fd, offset, whence })?))
    }

    pub(crate) fn splice(
        &mut self,
        pid: u32,
        (from, from_offset): (i32, Option<u64>),
        (to, to_offset): (i32, Option<u64>),
        len: u32,
        flags: u32,
    ) -> Result<Answer<usize>> {
        let flags = invalid(splice_flags_of_bits(flags))?;
        let call = Call::Splice {
            from,
            from_offset,
            to,
            to_offset,
            len,
            flags,
        };
        Ok(self.begin(pid, call)?.map(|count| count as usize))
    }

    pub(crate) fn tee(
        &mut self,
        pid: u32,
        from: i32,
        to: i32,
        len: u32,
        flags: u32,
    ) -> Result<Answer<usize>> {
        let flags = invalid(splice_flags_of_bits(flags))?;
        let call = Call::Tee {
            from,
            to,
            len,
            flags,
        };
        Ok(self.begin(pid, call)?.map(|count| count as usize))
    }

    pub(crate) fn poll(
        &mut self,
        pid: u32,
        entries: &mut [PollEntry],
        wait: bool,
    ) -> Result<Answer<usize>> {
        self.kernel().poll_into(pid, entries, wait)
    }

    pub(crate) fn dup(&mut self, pid: u32, fd: i32) -> Result<i32> {
        Ok(number(self.done(pid, Call::Dup { fd })?) as i32)
    }

    pub(crate) fn dup2(&mut self, pid: u32, fd: i32, target: i32) -> Result<i32> {
        Ok(number(self.done(pid, Call::Dup2 { fd, target })?) as i32)
    }

    pub(crate) fn close(&mut self, pid: u32, fd: i32) -> Result<()> {
        self.done(pid, Call::Close { fd }).map(|_| ())
    }

    pub(crate) fn get_fl(&mut self, pid: u32, fd: i32) -> Result<u32> {
        match self.done(pid, Call::GetFl { fd })? {
            Reply::Flags { mode, flags } => Ok(status_bits(mode, flags)),
            reply => unreachable!("flags are {reply:?}"),
        }
    }

    pub(crate) fn set_fl(&mut self, pid: u32, fd: i32, flags: u32) -> Result<()> {
        let flags: OpenFlags = open_flags_of_bits(flags);
        self.done(pid, Call::SetFl { fd, flags }).map(|_| ())
    }

    pub(crate) fn get_pipe_sz(&mut self, pid: u32, fd: i32) -> Result<u32> {
        Ok(number(self.done(pid, Call::GetPipeSz { fd })?) as u32)
    }

    pub(crate) fn set_pipe_sz(&mut self, pid: u32, fd: i32, size: u32) -> Result<u32> {
        Ok(number(self.done(pid, Call::SetPipeSz { fd, size })?) as u32)
    }

    pub(crate) fn held(&mut self, pid: u32, fd: i32) -> Result<u32> {
        let held = self.kernel().held(pid, fd);
        held.ok_or(NotDone::Fault(Errno::EBADF))
    }

    pub(crate) fn fd_facts(&self, pid: u32, fd: i32) -> Result<NodeFacts> {
        let kernel = self.kernel.as_ref().expect("it isn't dropped");
        kernel.fd_facts(pid, fd).ok_or(NotDone::Fault(Errno::EBADF))
    }

    pub(crate) fn resume_read(
        &mut self,
        call: ParkedCall,
        into: &mut [u8],
    ) -> Result<Answer<usize>> {
        self.kernel().resume_read(call, into)
    }

    pub(crate) fn resume_poll(
        &mut self,
        call: ParkedCall,
        entries: &mut [PollEntry],
    ) -> Result<Answer<usize>> {
        self.kernel().resume_poll(call, entries)
    }

    pub(crate) fn taken(&self, call: &ParkedCall) -> Result<u32> {
        let kernel = self.kernel.as_ref().expect("it isn't dropped");
        kernel.taken(call).ok_or(NotDone::NoCall)
    }

    /// Ends the call of a number, and tells what it had taken.
    pub(crate) fn interrupt_number(&mut self, call: u64) -> Result<usize> {
        let reply = self.kernel().interrupt(ParkedCall::from_number(call))?;
        Ok(number(reply) as usize)
    }

    /// An entry of a poll that asks events.
    pub(crate) fn entry(fd: i32, events: i16) -> PollEntry {
        PollEntry {
            fd,
            events: events as u16,
            revents: 0,
        }
    }

    /// What a poll found of an entry.
    pub(crate) fn found(entry: &PollEntry) -> i16 {
        entry.revents as i16
    }

    #[inline]
    pub(crate) fn next_ready(&mut self, from: u64) -> Option<u64> {
        self.kernel().next_ready(from)
    }
}

impl Drop for Clay {
    fn drop(&mut self) {
        drop(self.kernel.take());
        let mut spare = SPARE.lock().unwrap_or_else(PoisonError::into_inner);
        spare.push(self.counter);
    }
}
