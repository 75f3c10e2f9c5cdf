//! A kernel that threads and tasks share, with pipes and files shaped as those of `std`.
//!
//! [`Shared`] has a kernel behind a lock. A [`Process`] of it makes pipes, whose ends are a [`PipeReader`] and a [`PipeWriter`] as those of
//! `std::io::pipe`, and opens a [`File`] as `std::fs` does. A call that would wait puts its thread to sleep, without the lock. Whoever
//! makes a step answers the calls of other threads that can make progress by now. It wakes these threads, the tasks that can make progress, and
//! no others.
//!
//! ```
//! use bindingclay::shared::Shared;
//! use std::io::{Read, Write};
//! use std::thread;
//!
//! let process = Shared::new()?.start()?;
//! let (mut reader, mut writer) = process.pipe()?;
//! let talker = thread::spawn(move || writer.write_all(b"hello")); // drops the writer at its end
//! let mut text = String::new();
//! reader.read_to_string(&mut text)?; // waits for the bytes, and for the end
//! assert_eq!(text, "hello");
//! talker.join().expect("no panic")?;
//! # Ok::<(), std::io::Error>(())
//! ```
//!
//! # What ends a call that waits
//!
//! - It is answered, as another call helped it.
//! - Its handle's deadline is over ([`PipeReader::set_deadline`]): [`TimedOut`](std::io::ErrorKind::TimedOut).
//! - Another thread interrupts its process ([`Process::interrupt`]): [`Interrupted`](std::io::ErrorKind::Interrupted), as `EINTR`.
//!   As over the host, `read_exact`, `read_to_end` and `write_all` of `std` begin again then.
//! - Its process exits ([`Process::exit`]): an error that holds `NotDone::NoProcess`, whose text is "no such process".
//!
//! A write that put some of its bytes into the pipe before it was ended tells how many, and no error.
//!
//! # Errors
//!
//! A call that fails has Linux's number of its error ([`raw_os_error`](std::io::Error::raw_os_error)). Without memory it is
//! [`OutOfMemory`](std::io::ErrorKind::OutOfMemory), and nothing changed. A write without a reader is
//! [`BrokenPipe`](std::io::ErrorKind::BrokenPipe): no signal comes.
//!
//! # Tasks
//!
//! [`PipeReader::poll_read`] and [`PipeWriter::poll_write`] take the [`Context`](std::task::Context) of a task in place of a thread, and
//! need no runtime. One handle has one task that reads and one that writes: others have a handle of their own by `try_clone`.
//! No timer wakes a task at the deadline of its handle: its next poll ends the wait then.
//!
//! The call that lets a task make progress runs its waker. If wakers panic, all others that the call is to wake are woken, and then the first panic goes on
//! to the caller, and the others are dropped. In a thread that panics already all of them are, because two panics at once would end the program.

#![forbid(unsafe_code)]

mod calls;
mod descriptor;
mod file;
mod front;
mod lock;
mod moving;
mod pipes;
mod polling;
mod process;
mod recording;
mod sleeping;
mod tasks;
mod vectored;
mod waiters;
mod ways;
mod yields;

pub use self::descriptor::Handle;
pub use self::file::{File, OpenOptions};
use self::front::Front;
pub use self::moving::{splice, tee};
pub use self::pipes::{PipeReader, PipeWriter};
pub use self::polling::{POLLERR, POLLHUP, POLLIN, POLLNVAL, POLLOUT, PollFd, poll};
pub use self::process::{PipeOptions, Process};
use super::Clay;
use std::fmt;
use std::io;
use std::sync::Arc;

/// The greatest limits that a kernel takes.
const MOST_CAPACITY: u32 = 1_048_576;
const MOST_FILE_BYTES: u32 = 16_777_216;
const MOST_DESCRIPTORS: u32 = 65_536;
const MOST_DESCRIPTIONS: u32 = 1_048_576;
const MOST_PROCESSES: u32 = 65_536;

/// What a shared kernel may take. `Limits::default()` are the limits where nobody sets any.
///
/// ```
/// use bindingclay::shared::{Limits, Shared};
///
/// let limits = Limits { memory: 1 << 20, waiting_calls: 64, ..Limits::default() };
/// assert!(Shared::within(&limits).is_ok());
/// ```
#[derive(Clone, Copy, Debug, PartialEq, Eq)]
pub struct Limits {
    /// The most bytes that the kernel may hold. A call that would want more is `OutOfMemory`.
    pub memory: u64,
    /// The most names of files and FIFOs at one time. One more is `ENOSPC`.
    pub names: u64,
    /// The most calls that wait at one time. A call that would wait above that is `WouldBlock`, and has taken and given nothing.
    pub waiting_calls: u64,
    /// The most calls of one process that wait at one time. One more of it that would wait is `WouldBlock` too, and those of other processes may
    /// still wait.
    pub waiting_of_each: u64,
    /// The most bytes that a pipe can be made to hold, at most 1,048,576; more are `EPERM`.
    pub capacity: u32,
    /// The most bytes of a regular file, at most 16,777,216.
    pub file_max: u32,
    /// The most descriptors of a process, numbered from 0, at most 65,536, and 256 by default. A call that would give one from there on is
    /// `EMFILE`. A poll takes as many entries, and 256 where this is less. Each process takes 8 to 16 bytes of `memory` for each descriptor up to
    /// the highest one that it opens, and 4 bytes beside it for each that it may have, from its start on.
    pub descriptors_max: u32,
    /// The most open file descriptions at one time, at most 1,048,576, and 4,096 by default. One more is `ENFILE`.
    pub descriptions_max: u32,
    /// The most processes at one time, numbered from 1, at most 65,536, and 1,024 by default. One more is `EAGAIN`.
    pub processes_max: u32,
    /// The most bytes of memory that the kernel keeps for further bytes when no pipe or file holds them any more, in segments of 4,096.
    /// `u64::MAX`: 16,777,216, but at most a sixteenth of `memory`.
    pub spare_max: u64,
}

impl Default for Limits {
    fn default() -> Limits {
        Limits {
            memory: u64::MAX,
            names: u64::MAX,
            waiting_calls: u64::MAX,
            waiting_of_each: u64::MAX,
            capacity: MOST_CAPACITY,
            file_max: MOST_FILE_BYTES,
            descriptors_max: 256,
            descriptions_max: 4_096,
            processes_max: 1_024,
            spare_max: u64::MAX,
        }
    }
}

/// A kernel that threads share. Clones are the same kernel, which goes with the last of them, of its processes and of their handles.
#[derive(Clone)]
pub struct Shared {
    front: Arc<Front>,
}

impl Shared {
    /// A kernel without processes, and without limits but those of the layer.
    ///
    /// # Errors
    ///
    /// `OutOfMemory`.
    pub fn new() -> io::Result<Shared> {
        Shared::within(&Limits::default())
    }

    /// A kernel without processes, within limits.
    ///
    /// # Errors
    ///
    /// `InvalidInput` if a limit is above its greatest, and `OutOfMemory`.
    pub fn within(limits: &Limits) -> io::Result<Shared> {
        if limits.capacity > MOST_CAPACITY
            || limits.file_max > MOST_FILE_BYTES
            || limits.descriptors_max > MOST_DESCRIPTORS
            || limits.descriptions_max > MOST_DESCRIPTIONS
            || limits.processes_max > MOST_PROCESSES
        {
            return Err(io::ErrorKind::InvalidInput.into());
        }
        let front = Front::new(Clay::of_shared(limits)?, limits.descriptors_max as usize);
        Ok(Shared {
            front: Arc::new(front),
        })
    }

    /// A new process without descriptors. It exits as the last of its clones and its handles is dropped.
    ///
    /// # Errors
    ///
    /// `EAGAIN` if there are as many processes as the limit `processes_max` allows, and `OutOfMemory`.
    pub fn start(&self) -> io::Result<Process> {
        let closes = process::no_closes(&self.front)?;
        let mut locked = self.front.lock();
        let pid = locked.clay().start()?;
        Ok(Process::of_pid(&self.front, pid, closes))
    }

    /// How many calls wait now, of threads and of tasks.
    pub fn waiting(&self) -> usize {
        self.front.lock().waiters().count()
    }
}

impl fmt::Debug for Shared {
    fn fmt(&self, out: &mut fmt::Formatter<'_>) -> fmt::Result {
        out.debug_struct("Shared")
            .field("waiting", &self.waiting())
            .finish_non_exhaustive()
    }
}
