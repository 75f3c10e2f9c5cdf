//! The ends of a pipe.

use super::descriptor::{Descriptor, capacity, handle};
use super::process::Process;
use std::io::{self, IoSlice, IoSliceMut};
use std::task::{Context, Poll};
use std::time::Instant;

/// The read end of a pipe, as `std::io::PipeReader`. It is closed as it is dropped.
///
/// ```
/// use bindingclay::shared::Shared;
/// use std::io::{ErrorKind, Read, Write};
/// use std::time::Instant;
///
/// let process = Shared::new()?.start()?;
/// let (mut reader, mut writer) = process.pipe()?;
/// reader.set_deadline(Some(Instant::now()));
/// assert_eq!(reader.read(&mut [0; 4]).unwrap_err().kind(), ErrorKind::TimedOut);
/// writer.write_all(b"abcd")?;
/// assert_eq!(reader.read(&mut [0; 4])?, 4); // needn't wait
/// # Ok::<(), std::io::Error>(())
/// ```
#[derive(Debug)]
pub struct PipeReader(Descriptor);

/// The write end of a pipe, as `std::io::PipeWriter`. It is closed as it is dropped.
#[derive(Debug)]
pub struct PipeWriter(Descriptor);

handle!(PipeReader);
handle!(PipeWriter);
capacity!(PipeReader);
capacity!(PipeWriter);

impl PipeReader {
    /// How many bytes its pipe holds, as ioctl(2) tells them by `FIONREAD`.
    ///
    /// # Errors
    ///
    /// That the process has exited.
    pub fn held(&self) -> io::Result<usize> {
        Ok(self
            .0
            .owner()
            .lock()?
            .clay()
            .held(self.0.owner().pid, self.0.fd())? as usize)
    }

    /// Reads for a task: returns `Pending` if it would wait, and then the task is woken once a read can make progress.
    ///
    /// The deadline of the handle counts, and no timer wakes the task for it. The next poll at the deadline or later ends the wait. A task that
    /// nothing else wakes asks the timer of its runtime for that poll.
    ///
    /// # Errors
    ///
    /// As a read's; `TimedOut` if it would wait and the deadline is over; `WouldBlock` if the limit of calls that wait is reached.
    ///
    /// ```
    /// use bindingclay::shared::Shared;
    /// use std::io::ErrorKind;
    /// use std::task::{Context, Poll, Waker};
    /// use std::time::Instant;
    ///
    /// let (mut reader, _writer) = Shared::new()?.start()?.pipe()?;
    /// let mut context = Context::from_waker(Waker::noop());
    /// assert!(reader.poll_read(&mut context, &mut [0]).is_pending());
    /// reader.set_deadline(Some(Instant::now()));
    /// let Poll::Ready(Err(late)) = reader.poll_read(&mut context, &mut [0]) else { panic!("it waits") };
    /// assert_eq!(late.kind(), ErrorKind::TimedOut);
    /// # Ok::<(), std::io::Error>(())
    /// ```
    pub fn poll_read(
        &mut self,
        context: &mut Context<'_>,
        into: &mut [u8],
    ) -> Poll<io::Result<usize>> {
        self.0.poll_read(context, into)
    }
}

impl PipeWriter {
    /// Writes for a task, at most 65,536 bytes: returns `Pending` if it would wait, and then the task is woken once the pipe has room for 4,096
    /// bytes, or no reader. A deadline ends the wait as it ends that of [`PipeReader::poll_read`].
    ///
    /// # Errors
    ///
    /// As a write's; `TimedOut` if it would wait and the deadline is over; `WouldBlock` if the limit of calls that wait is reached.
    pub fn poll_write(
        &mut self,
        context: &mut Context<'_>,
        bytes: &[u8],
    ) -> Poll<io::Result<usize>> {
        self.0.poll_write(context, bytes)
    }
}

impl io::Read for PipeReader {
    #[inline]
    fn read(&mut self, into: &mut [u8]) -> io::Result<usize> {
        self.0.read(into)
    }

    /// Reads into all buffers by one read (POSIX.1-2017, readv): each is filled before the next one.
    ///
    /// If several buffers have room, and for more than 4,096 bytes in all, the read takes memory for as many bytes until it returns. No limit of
    /// the kernel counts it. What `Read::is_read_vectored` asks, which `std` has for itself, is true of this type.
    ///
    /// # Errors
    ///
    /// As a read's; `OutOfMemory` without that memory, and nothing was read.
    fn read_vectored(&mut self, buffers: &mut [IoSliceMut<'_>]) -> io::Result<usize> {
        self.0.read_vectored(buffers)
    }
}

impl io::Read for &PipeReader {
    #[inline]
    fn read(&mut self, into: &mut [u8]) -> io::Result<usize> {
        self.0.read(into)
    }

    fn read_vectored(&mut self, buffers: &mut [IoSliceMut<'_>]) -> io::Result<usize> {
        self.0.read_vectored(buffers)
    }
}

impl io::Write for PipeWriter {
    #[inline]
    fn write(&mut self, bytes: &[u8]) -> io::Result<usize> {
        self.0.write(bytes)
    }

    /// Writes all buffers by one write, one after another (POSIX.1-2017, writev). Up to 4,096 bytes in all go in whole, and bytes of no other write
    /// come between them.
    ///
    /// If several buffers have bytes, and more than 4,096 in all, the write takes memory for as many bytes until it returns. No limit of the kernel
    /// counts it. What `Write::is_write_vectored` asks, which `std` has for itself, is true of this type.
    ///
    /// # Errors
    ///
    /// As a write's; `OutOfMemory` without that memory, and nothing went in.
    ///
    /// ```
    /// use bindingclay::shared::Shared;
    /// use std::io::{IoSlice, Read, Write};
    ///
    /// let (mut reader, mut writer) = Shared::new()?.start()?.pipe()?;
    /// let message = [IoSlice::new(b"5:"), IoSlice::new(b"hello")];
    /// assert_eq!(writer.write_vectored(&message)?, 7); // one write of all bytes
    /// let mut into = [0; 7];
    /// reader.read_exact(&mut into)?;
    /// assert_eq!(&into, b"5:hello");
    /// # Ok::<(), std::io::Error>(())
    /// ```
    fn write_vectored(&mut self, buffers: &[IoSlice<'_>]) -> io::Result<usize> {
        self.0.write_vectored(buffers)
    }

    /// Does nothing: a pipe has no buffer before it.
    fn flush(&mut self) -> io::Result<()> {
        Ok(())
    }
}

impl io::Write for &PipeWriter {
    #[inline]
    fn write(&mut self, bytes: &[u8]) -> io::Result<usize> {
        self.0.write(bytes)
    }

    fn write_vectored(&mut self, buffers: &[IoSlice<'_>]) -> io::Result<usize> {
        self.0.write_vectored(buffers)
    }

    /// Does nothing: a pipe has no buffer before it.
    fn flush(&mut self) -> io::Result<()> {
        Ok(())
    }
}
