//! A process of a shared kernel.

use super::super::NotDone;
use super::calls::{Call, run};
use super::descriptor::Descriptor;
use super::front::{Front, Locked};
use super::pipes::{PipeReader, PipeWriter};
use std::fmt;
use std::io;
use std::sync::Arc;
use std::sync::atomic::{AtomicBool, AtomicU32, Ordering};

/// The numbers of fcntl.h on Linux (x86-64).
const O_NONBLOCK: u32 = 0o4000;
const O_DIRECT: u32 = 0o40000;

/// How often each descriptor of a process was closed, by its number.
type Closes = Vec<AtomicU32>;

/// Those of a process that is to be made. They are taken before it is, so that it isn't made if there is no memory for them.
pub(super) fn no_closes(front: &Front) -> io::Result<Closes> {
    let mut closes = Vec::new();
    closes
        .try_reserve_exact(front.descriptors)
        .map_err(|_| io::ErrorKind::OutOfMemory)?;
    closes.resize_with(front.descriptors, AtomicU32::default);
    Ok(closes)
}

/// A process, for all who have it or a descriptor of it. It exits as the last of them goes.
pub(super) struct Owner {
    pub(super) front: Arc<Front>,
    pub(super) pid: u32,
    /// Whether it has exited, so that its pid may be another process's. It is written and read under the lock.
    gone: AtomicBool,
    /// How often each descriptor was closed or made to name something else. It is written and read under the lock.
    closes: Closes,
}

impl Owner {
    /// The kernel, if the process is still there.
    #[inline(always)]
    pub(super) fn lock(&self) -> io::Result<Locked<'_>> {
        let locked = self.front.lock();
        if self.is_gone() {
            return Err(NotDone::NoProcess.into());
        }
        Ok(locked)
    }

    /// Whether the process has exited, for who has the lock.
    #[inline(always)]
    pub(super) fn is_gone(&self) -> bool {
        self.gone.load(Ordering::Relaxed)
    }

    fn closes_of(&self, fd: i32) -> Option<&AtomicU32> {
        self.closes.get(usize::try_from(fd).ok()?)
    }

    /// How often a descriptor was closed, for who has the lock. As long as that stays, it names the same.
    pub(super) fn closes(&self, fd: i32) -> u32 {
        self.closes_of(fd)
            .map_or(0, |closes| closes.load(Ordering::Relaxed))
    }

    /// Counts that a descriptor was closed, for who has the lock.
    pub(super) fn count_close(&self, fd: i32) {
        if let Some(closes) = self.closes_of(fd) {
            closes.store(self.closes(fd).wrapping_add(1), Ordering::Relaxed);
        }
    }

    fn exit(&self) -> io::Result<()> {
        let mut locked = self.lock()?;
        locked.exit(self.pid)?;
        self.gone.store(true, Ordering::Relaxed);
        Ok(())
    }
}

impl Drop for Owner {
    fn drop(&mut self) {
        // the only error is that it has exited already
        let _exited = self.exit();
    }
}

/// A process, which has as many descriptors as the limits of its kernel allow. Clones are the same process.
///
/// It exits by [`exit`](Self::exit), or as the last of its clones and of its handles is dropped.
#[derive(Clone)]
pub struct Process {
    owner: Arc<Owner>,
}

/// How a pipe is made.
///
/// ```
/// use bindingclay::shared::{PipeOptions, Shared};
/// use std::io::{ErrorKind, Read, Write};
///
/// let process = Shared::new()?.start()?;
/// let (mut reader, mut writer) = process.pipe_with(PipeOptions { nonblocking: true, packets: true })?;
/// assert_eq!(reader.read(&mut [0]).unwrap_err().kind(), ErrorKind::WouldBlock);
/// writer.write_all(b"one")?;
/// writer.write_all(b"two")?;
/// assert_eq!(reader.read(&mut [0; 16])?, 3); // a read takes one packet
/// # Ok::<(), std::io::Error>(())
/// ```
#[derive(Clone, Copy, Debug, Default, PartialEq, Eq)]
pub struct PipeOptions {
    /// Whether calls on both ends answer `WouldBlock` in place of waiting (pipe2(2), `O_NONBLOCK`).
    pub nonblocking: bool,
    /// Whether it keeps the borders of writes as packets of at most 4,096 bytes (pipe2(2), `O_DIRECT`).
    pub packets: bool,
}

impl Process {
    pub(super) fn of_pid(front: &Arc<Front>, pid: u32, closes: Closes) -> Process {
        let front = Arc::clone(front);
        Process {
            owner: Arc::new(Owner {
                front,
                pid,
                gone: AtomicBool::new(false),
                closes,
            }),
        }
    }

    pub(super) fn owner(&self) -> &Arc<Owner> {
        &self.owner
    }

    /// Its number, from 1 to the limit `processes_max`. Once it has exited, another process may have it.
    pub fn id(&self) -> u32 {
        self.owner.pid
    }

    /// A new pipe, which can hold 65,536 bytes, as `std::io::pipe` has it.
    ///
    /// # Errors
    ///
    /// `EMFILE` if fewer than two of its descriptors are free, `ENFILE` if the limit `descriptions_max` allows fewer than two more open file
    /// descriptions, and `OutOfMemory`.
    pub fn pipe(&self) -> io::Result<(PipeReader, PipeWriter)> {
        self.pipe_with(PipeOptions::default())
    }

    /// A new pipe, made as the options say.
    ///
    /// # Errors
    ///
    /// As of [`pipe`](Self::pipe).
    pub fn pipe_with(&self, options: PipeOptions) -> io::Result<(PipeReader, PipeWriter)> {
        let flag = |set: bool, flag: u32| if set { flag } else { 0 };
        let flags = flag(options.nonblocking, O_NONBLOCK) | flag(options.packets, O_DIRECT);
        let ends = self.owner.lock()?.clay().pipe2(self.id(), flags)?;
        let reader = PipeReader::from_raw_fd(self, ends.read_end);
        Ok((reader, PipeWriter::from_raw_fd(self, ends.write_end)))
    }

    /// Makes a FIFO of a name.
    ///
    /// # Errors
    ///
    /// `AlreadyExists`, `ENAMETOOLONG` above 255 bytes, `NotFound` of an empty name, `ENOSPC` at the limit on names, and `OutOfMemory`.
    pub fn mkfifo(&self, name: impl AsRef<[u8]>) -> io::Result<()> {
        Ok(self.owner.lock()?.clay().mkfifo(self.id(), name.as_ref())?)
    }

    /// Takes a name away, as `std::fs::remove_file` does. Who has its file or FIFO open keeps it.
    ///
    /// # Errors
    ///
    /// `NotFound`, and `ENAMETOOLONG` above 255 bytes.
    pub fn remove_file(&self, name: impl AsRef<[u8]>) -> io::Result<()> {
        Ok(self.owner.lock()?.clay().unlink(self.id(), name.as_ref())?)
    }

    /// A child, which has each descriptor of this process by the same number. [`PipeReader::from_raw_fd`] and its like make handles of
    /// them; those for which none is made are closed as the child exits.
    ///
    /// # Errors
    ///
    /// `EAGAIN` if there are as many processes as the limit `processes_max` allows, and `OutOfMemory`.
    ///
    /// ```
    /// use bindingclay::shared::{PipeReader, Shared};
    /// use std::io::{Read, Write};
    ///
    /// let parent = Shared::new()?.start()?;
    /// let (reader, mut writer) = parent.pipe()?;
    /// let child = parent.fork()?;
    /// let mut theirs = PipeReader::from_raw_fd(&child, reader.as_raw_fd());
    /// child.close(writer.as_raw_fd())?; // or the child would keep its own pipe open
    /// writer.write_all(b"to the child")?;
    /// drop(writer);
    /// let mut text = String::new();
    /// theirs.read_to_string(&mut text)?;
    /// assert_eq!(text, "to the child");
    /// # Ok::<(), std::io::Error>(())
    /// ```
    pub fn fork(&self) -> io::Result<Process> {
        let closes = no_closes(&self.owner.front)?;
        let mut locked = self.owner.lock()?;
        let pid = locked.clay().fork(self.id())?;
        Ok(Process::of_pid(&self.owner.front, pid, closes))
    }

    /// Ends the process: all its descriptors are closed, and its calls that wait end with an error. Its handles answer errors from then on,
    /// and close nothing as they are dropped.
    ///
    /// # Errors
    ///
    /// That it has exited already: "no such process".
    pub fn exit(&self) -> io::Result<()> {
        self.owner.exit()
    }

    /// Ends all calls of the process that wait now, as a signal does that has a handler: they are `Interrupted`, and a write that put in
    /// some bytes tells how many. Calls that begin later aren't touched.
    ///
    /// # Errors
    ///
    /// That it has exited: "no such process".
    pub fn interrupt(&self) -> io::Result<()> {
        self.owner.lock()?.interrupt_all_of(self.id());
        Ok(())
    }

    /// Closes a descriptor by its number. A handle of that number is to be let go of by `into_raw_fd` and not to be dropped: it would close
    /// whatever has the number by then. A call that waits on the descriptor goes on.
    ///
    /// # Errors
    ///
    /// `EBADF` if it isn't open.
    pub fn close(&self, fd: i32) -> io::Result<()> {
        let mut locked = self.owner.lock()?;
        locked.clay().close(self.id(), fd)?;
        self.owner.count_close(fd);
        Ok(())
    }

    /// Lets a number name what a descriptor names, and closes what the number named before (POSIX.1-2017, dup2).
    ///
    /// # Errors
    ///
    /// `EBADF` if the descriptor isn't open, or the number is below 0 or not below the limit `descriptors_max`.
    pub fn dup2(&self, fd: i32, target: i32) -> io::Result<()> {
        let mut locked = self.owner.lock()?;
        locked.clay().dup2(self.id(), fd, target)?;
        if fd != target {
            self.owner.count_close(target);
        }
        Ok(())
    }

    pub(super) fn run(
        &self,
        call: Call<'_>,
        deadline: Option<std::time::Instant>,
    ) -> io::Result<usize> {
        run(&self.owner, call, deadline)
    }

    pub(super) fn of_descriptor(descriptor: &Descriptor) -> Process {
        Process {
            owner: Arc::clone(descriptor.owner()),
        }
    }
}

impl fmt::Debug for Process {
    fn fmt(&self, out: &mut fmt::Formatter<'_>) -> fmt::Result {
        out.debug_struct("Process")
            .field("id", &self.id())
            .finish_non_exhaustive()
    }
}
