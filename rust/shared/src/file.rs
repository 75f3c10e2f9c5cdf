//! Files and FIFOs that have names.

use super::calls::Call;
use super::descriptor::{Descriptor, handle};
use super::process::Process;
use std::io::{self, IoSlice, IoSliceMut};
use std::task::{Context, Poll};
use std::time::Instant;

/// The numbers of fcntl.h on Linux (x86-64).
const O_RDONLY: u32 = 0;
const O_WRONLY: u32 = 0o1;
const O_RDWR: u32 = 0o2;
const O_CREAT: u32 = 0o100;
const O_EXCL: u32 = 0o200;
const O_TRUNC: u32 = 0o1000;
const O_APPEND: u32 = 0o2000;
const O_NONBLOCK: u32 = 0o4000;

/// An open file or FIFO, as `std::fs::File`. It is closed as it is dropped.
///
/// ```
/// use bindingclay::shared::{File, Shared};
/// use std::io::{Read, Seek, SeekFrom, Write};
///
/// let process = Shared::new()?.start()?;
/// let mut file = File::options().read(true).write(true).create(true).open(&process, "notes")?;
/// file.write_all(b"one two")?;
/// file.seek(SeekFrom::Start(4))?;
/// let mut text = String::new();
/// file.read_to_string(&mut text)?;
/// assert_eq!(text, "two");
/// # Ok::<(), std::io::Error>(())
/// ```
#[derive(Debug)]
pub struct File(Descriptor);

handle!(File);

impl File {
    /// Opens a file or a FIFO to read it. That of a FIFO waits until somebody has it open to write.
    ///
    /// # Errors
    ///
    /// As of [`OpenOptions::open`].
    pub fn open(process: &Process, name: impl AsRef<[u8]>) -> io::Result<File> {
        OpenOptions::new().read(true).open(process, name)
    }

    /// Opens a file to write it, and makes or empties it. That of a FIFO waits until somebody has it open to read.
    ///
    /// # Errors
    ///
    /// As of [`OpenOptions::open`].
    pub fn create(process: &Process, name: impl AsRef<[u8]>) -> io::Result<File> {
        OpenOptions::new()
            .write(true)
            .create(true)
            .truncate(true)
            .open(process, name)
    }

    /// Options, of which none is set.
    pub fn options() -> OpenOptions {
        OpenOptions::new()
    }

    /// Reads for a task, as [`PipeReader::poll_read`](super::PipeReader::poll_read). Only a FIFO waits.
    ///
    /// # Errors
    ///
    /// As there.
    pub fn poll_read(
        &mut self,
        context: &mut Context<'_>,
        into: &mut [u8],
    ) -> Poll<io::Result<usize>> {
        self.0.poll_read(context, into)
    }

    /// Writes for a task, as [`PipeWriter::poll_write`](super::PipeWriter::poll_write). Only a FIFO waits.
    ///
    /// # Errors
    ///
    /// As there.
    pub fn poll_write(
        &mut self,
        context: &mut Context<'_>,
        bytes: &[u8],
    ) -> Poll<io::Result<usize>> {
        self.0.poll_write(context, bytes)
    }
}

/// How a name is opened, as `std::fs::OpenOptions`.
///
/// ```
/// use bindingclay::shared::{File, Shared};
/// use std::io::{Read, Write};
/// use std::thread;
///
/// let kernel = Shared::new()?;
/// let (one, other) = (kernel.start()?, kernel.start()?);
/// one.mkfifo("inbox")?;
/// // each open waits for the other one
/// let talker = thread::spawn(move || File::options().write(true).open(&one, "inbox")?.write_all(b"hello"));
/// let mut text = String::new();
/// File::open(&other, "inbox")?.read_to_string(&mut text)?;
/// assert_eq!(text, "hello");
/// talker.join().expect("no panic")?;
/// # Ok::<(), std::io::Error>(())
/// ```
#[derive(Clone, Debug, Default)]
pub struct OpenOptions {
    read: bool,
    write: bool,
    append: bool,
    truncate: bool,
    create: bool,
    create_new: bool,
    nonblocking: bool,
    deadline: Option<Instant>,
}

/// A method that sets an option.
macro_rules! option {
    ($(#[$about:meta])* $name:ident: $kind:ty) => {
        $(#[$about])*
        pub fn $name(&mut self, $name: $kind) -> &mut OpenOptions {
            self.$name = $name;
            self
        }
    };
}

impl OpenOptions {
    /// Options, of which none is set.
    pub fn new() -> OpenOptions {
        OpenOptions::default()
    }

    option! {
        /// Whether it is to be read.
        read: bool
    }
    option! {
        /// Whether it is to be written.
        write: bool
    }
    option! {
        /// Whether each write goes to the end of the file; it sets `write` too.
        append: bool
    }
    option! {
        /// Whether a file is emptied. It needs `write`.
        truncate: bool
    }
    option! {
        /// Whether a file is made if there is none. It needs `write` or `append`.
        create: bool
    }
    option! {
        /// Whether a file has to be made, and the name may stand for nothing. It needs `write` or `append`.
        create_new: bool
    }
    option! {
        /// Whether the open, and later calls, answer an error in place of waiting (`O_NONBLOCK`).
        nonblocking: bool
    }
    option! {
        /// The open of a FIFO that would wait later than this is `TimedOut`. The file that is opened has no deadline.
        deadline: Option<Instant>
    }

    fn flags(&self) -> io::Result<u32> {
        let writes = self.write || self.append;
        let makes = self.truncate || self.create || self.create_new;
        // as std has it: what makes or empties a file writes, and nothing is emptied to append
        if (makes && !writes) || (self.truncate && self.append && !self.create_new) {
            return Err(io::ErrorKind::InvalidInput.into());
        }
        let access = match (self.read, writes) {
            (true, false) => O_RDONLY,
            (false, true) => O_WRONLY,
            (true, true) => O_RDWR,
            (false, false) => return Err(io::ErrorKind::InvalidInput.into()),
        };
        let made = match (self.create_new, self.create, self.truncate) {
            (true, _, _) => O_CREAT | O_EXCL,
            (false, true, true) => O_CREAT | O_TRUNC,
            (false, true, false) => O_CREAT,
            (false, false, true) => O_TRUNC,
            (false, false, false) => 0,
        };
        let flag = |set: bool, flag: u32| if set { flag } else { 0 };
        Ok(access | made | flag(self.append, O_APPEND) | flag(self.nonblocking, O_NONBLOCK))
    }

    /// Opens a name of the process's kernel, by the least free descriptor.
    ///
    /// # Errors
    ///
    /// `InvalidInput` of options that `std` refuses; `NotFound`, `AlreadyExists`, `ENAMETOOLONG` above 255 bytes; `EMFILE` and `ENFILE`, as
    /// of a pipe; `ENOSPC` at the limit on names; `ENXIO` of a FIFO without a reader that is opened to write without waiting; `OutOfMemory`.
    /// While it waits, as of any [call that waits](super#what-ends-a-call-that-waits).
    pub fn open(&self, process: &Process, name: impl AsRef<[u8]>) -> io::Result<File> {
        let open = Call::Open {
            name: name.as_ref(),
            flags: self.flags()?,
        };
        let fd = process.run(open, self.deadline)?;
        Ok(File::from_raw_fd(process, fd as i32))
    }
}

impl io::Read for File {
    fn read(&mut self, into: &mut [u8]) -> io::Result<usize> {
        self.0.read(into)
    }

    /// Reads into all buffers by one read, as [that of a pipe](super::PipeReader#method.read_vectored).
    ///
    /// # Errors
    ///
    /// As there.
    fn read_vectored(&mut self, buffers: &mut [IoSliceMut<'_>]) -> io::Result<usize> {
        self.0.read_vectored(buffers)
    }
}

impl io::Read for &File {
    fn read(&mut self, into: &mut [u8]) -> io::Result<usize> {
        self.0.read(into)
    }

    fn read_vectored(&mut self, buffers: &mut [IoSliceMut<'_>]) -> io::Result<usize> {
        self.0.read_vectored(buffers)
    }
}

impl io::Write for File {
    fn write(&mut self, bytes: &[u8]) -> io::Result<usize> {
        self.0.write(bytes)
    }

    /// Writes all buffers by one write, as [that of a pipe](super::PipeWriter#method.write_vectored).
    ///
    /// # Errors
    ///
    /// As there.
    fn write_vectored(&mut self, buffers: &[IoSlice<'_>]) -> io::Result<usize> {
        self.0.write_vectored(buffers)
    }

    /// Does nothing: a file has no buffer before it.
    fn flush(&mut self) -> io::Result<()> {
        Ok(())
    }
}

impl io::Write for &File {
    fn write(&mut self, bytes: &[u8]) -> io::Result<usize> {
        self.0.write(bytes)
    }

    fn write_vectored(&mut self, buffers: &[IoSlice<'_>]) -> io::Result<usize> {
        self.0.write_vectored(buffers)
    }

    /// Does nothing: a file has no buffer before it.
    fn flush(&mut self) -> io::Result<()> {
        Ok(())
    }
}

impl io::Seek for File {
    fn seek(&mut self, to: io::SeekFrom) -> io::Result<u64> {
        self.0.seek(to)
    }
}

impl io::Seek for &File {
    fn seek(&mut self, to: io::SeekFrom) -> io::Result<u64> {
        self.0.seek(to)
    }
}
