//! A descriptor that is closed as it is dropped, and what all handles of one can do.

use super::calls::{Call, run};
use super::process::{Owner, Process};
use super::recording::at_last;
use std::fmt;
use std::io;
use std::sync::Arc;
use std::time::Instant;

const O_NONBLOCK: u32 = 0o4000;

/// A descriptor of a process.
pub struct Descriptor {
    pub(super) owner: Arc<Owner>,
    pub(super) fd: i32,
    /// When its calls end that wait, if ever.
    deadline: Option<Instant>,
    /// The polls by which a task waits to read, and to write.
    pub(super) tasks: [Option<u64>; 2],
}

impl Descriptor {
    pub(super) fn new(process: &Process, fd: i32) -> Descriptor {
        Descriptor {
            owner: Arc::clone(process.owner()),
            fd,
            deadline: None,
            tasks: [None; 2],
        }
    }

    pub(super) fn owner(&self) -> &Arc<Owner> {
        &self.owner
    }

    pub(super) fn fd(&self) -> i32 {
        self.fd
    }

    pub(super) fn deadline(&self) -> Option<Instant> {
        self.deadline
    }

    pub(super) fn set_deadline(&mut self, deadline: Option<Instant>) {
        self.deadline = deadline;
    }

    pub(super) fn try_clone(&self) -> io::Result<Descriptor> {
        let fd = self.owner.lock()?.clay().dup(self.owner.pid, self.fd)?;
        Ok(Descriptor {
            owner: Arc::clone(&self.owner),
            fd,
            deadline: None,
            tasks: [None; 2],
        })
    }

    #[inline]
    pub(super) fn read(&self, into: &mut [u8]) -> io::Result<usize> {
        run(&self.owner, Call::Read { fd: self.fd, into }, self.deadline)
    }

    #[inline]
    pub(super) fn write(&self, bytes: &[u8]) -> io::Result<usize> {
        run(
            &self.owner,
            Call::Write {
                fd: self.fd,
                bytes,
                waits_for_room: false,
            },
            self.deadline,
        )
    }

    pub(super) fn seek(&self, to: io::SeekFrom) -> io::Result<u64> {
        // the numbers of stdio.h on Linux
        let (offset, whence) = match to {
            io::SeekFrom::Start(offset) => (
                i64::try_from(offset).map_err(|_| io::ErrorKind::InvalidInput)?,
                0,
            ),
            io::SeekFrom::Current(offset) => (offset, 1),
            io::SeekFrom::End(offset) => (offset, 2),
        };
        Ok(self
            .owner
            .lock()?
            .clay()
            .lseek(self.owner.pid, self.fd, offset, whence)?)
    }

    pub(super) fn set_nonblocking(&self, nonblocking: bool) -> io::Result<()> {
        let mut locked = self.owner.lock()?;
        let flags = locked.clay().get_fl(self.owner.pid, self.fd)? & !O_NONBLOCK;
        let flags = if nonblocking {
            flags | O_NONBLOCK
        } else {
            flags
        };
        Ok(locked.clay().set_fl(self.owner.pid, self.fd, flags)?)
    }

    pub(super) fn capacity(&self) -> io::Result<usize> {
        Ok(self
            .owner
            .lock()?
            .clay()
            .get_pipe_sz(self.owner.pid, self.fd)? as usize)
    }

    pub(super) fn set_capacity(&self, bytes: usize) -> io::Result<usize> {
        // one that is too great for a number of 32 bits is refused as the greatest is
        let bytes = u32::try_from(bytes).unwrap_or(u32::MAX);
        Ok(self
            .owner
            .lock()?
            .clay()
            .set_pipe_sz(self.owner.pid, self.fd, bytes)? as usize)
    }

    /// Lets go of it without closing it.
    pub(super) fn into_raw_fd(mut self) -> i32 {
        self.end_tasks();
        // no descriptor has this number, and closing it does nothing
        std::mem::replace(&mut self.fd, -1)
    }
}

impl Drop for Descriptor {
    fn drop(&mut self) {
        self.end_tasks();
        if self.fd < 0 {
            return;
        }
        if let Ok(mut locked) = self.owner.lock() {
            // the only error is that somebody closed it by its number
            if at_last(locked.clay(), |clay| clay.close(self.owner.pid, self.fd)).is_ok() {
                self.owner.count_close(self.fd);
            }
        }
    }
}

impl fmt::Debug for Descriptor {
    fn fmt(&self, out: &mut fmt::Formatter<'_>) -> fmt::Result {
        let mut told = out.debug_struct("Descriptor");
        told.field("process", &self.owner.pid)
            .field("fd", &self.fd)
            .finish_non_exhaustive()
    }
}

/// A handle of a descriptor: a [`PipeReader`](super::PipeReader), a [`PipeWriter`](super::PipeWriter) or a [`File`](super::File). No other
/// type has this trait.
pub trait Handle: sealed::Has {
    /// The process of its descriptor.
    fn process(&self) -> Process {
        Process::of_descriptor(self.descriptor())
    }
}

pub(super) mod sealed {
    /// What has a descriptor.
    pub trait Has {
        #[doc(hidden)]
        fn descriptor(&self) -> &super::Descriptor;
    }
}

impl<T: sealed::Has> Handle for T {}

/// The methods that all handles have: of a type that has its descriptor as its only field.
macro_rules! handle {
    ($name:ident) => {
        impl $name {
            /// The handle of an open descriptor of a process, which closes it as it is dropped. Nothing looks whether it is open: its calls
            /// answer `EBADF` if it isn't.
            pub fn from_raw_fd(process: &Process, fd: i32) -> $name {
                $name(Descriptor::new(process, fd))
            }

            /// The number of its descriptor.
            pub fn as_raw_fd(&self) -> i32 {
                self.0.fd()
            }

            /// Lets go of the descriptor without closing it.
            pub fn into_raw_fd(self) -> i32 {
                self.0.into_raw_fd()
            }

            /// Another handle of the same open file description, without a deadline.
            ///
            /// # Errors
            ///
            /// `EMFILE` if none of its process's descriptors is free, and that the process has exited.
            pub fn try_clone(&self) -> io::Result<$name> {
                self.0.try_clone().map($name)
            }

            /// Calls of this handle that would wait later than this are `TimedOut`; with `None` they wait for ever, as at first. A call that
            /// needn't wait is answered, however late it is.
            ///
            /// A task that waits isn't woken at the deadline: its next poll at the deadline or later is `TimedOut`.
            pub fn set_deadline(&mut self, deadline: Option<Instant>) {
                self.0.set_deadline(deadline);
            }

            /// Whether calls on the open file description, by any handle, answer `WouldBlock` in place of waiting (`O_NONBLOCK`).
            ///
            /// # Errors
            ///
            /// That the process has exited.
            pub fn set_nonblocking(&self, nonblocking: bool) -> io::Result<()> {
                self.0.set_nonblocking(nonblocking)
            }
        }

        impl super::descriptor::sealed::Has for $name {
            fn descriptor(&self) -> &Descriptor {
                &self.0
            }
        }
    };
}

/// The methods of the ends of a pipe.
macro_rules! capacity {
    ($name:ident) => {
        impl $name {
            /// How many bytes its pipe can hold (fcntl(2), `F_GETPIPE_SZ`).
            ///
            /// # Errors
            ///
            /// That the process has exited.
            pub fn capacity(&self) -> io::Result<usize> {
                self.0.capacity()
            }

            /// Lets its pipe hold as many bytes or more, rounded up to a power of two of at least 4,096, and tells how many
            /// (fcntl(2), `F_SETPIPE_SZ`).
            ///
            /// # Errors
            ///
            /// `EBUSY` if it holds more, `EPERM` above the limit, and `OutOfMemory`.
            pub fn set_capacity(&self, bytes: usize) -> io::Result<usize> {
                self.0.set_capacity(bytes)
            }
        }
    };
}

pub(super) use capacity;
pub(super) use handle;
