//! Bytes that go from one handle to another.

use super::calls::{Call, run};
use super::descriptor::{Descriptor, Handle};
use std::io;
use std::sync::Arc;
use std::time::Instant;

/// The earlier of the deadlines of two handles.
fn earlier(one: &Descriptor, other: &Descriptor) -> Option<Instant> {
    match (one.deadline(), other.deadline()) {
        (Some(one), Some(other)) => Some(one.min(other)),
        (one, other) => one.or(other),
    }
}

/// The process of both, by the one that has it.
fn of_one_process(one: &Descriptor, other: &Descriptor) -> io::Result<()> {
    if Arc::ptr_eq(one.owner(), other.owner()) {
        Ok(())
    } else {
        Err(io::ErrorKind::InvalidInput.into())
    }
}

/// The length, which is cut to a number of 32 bits: no pipe holds as many.
fn cut(len: usize) -> u32 {
    u32::try_from(len).unwrap_or(u32::MAX)
}

/// Moves at most so many bytes from one handle to another, of which one or both are pipes, and tells how many (splice(2)). It waits until
/// the source has bytes and a target that is a pipe has room, and answers 0 at the end of the source.
///
/// The offset of a file may be given; otherwise it is the file's own. The earlier of both handles' deadlines counts.
///
/// # Errors
///
/// `InvalidInput` if the handles are of two processes, and those of `EBADF`, `EINVAL`, `ESPIPE`, `BrokenPipe` and `EFBIG` that splice(2)
/// has; `OutOfMemory`. While it waits, as of any [call that waits](super#what-ends-a-call-that-waits).
///
/// ```
/// use bindingclay::shared::{File, Shared, splice};
/// use std::io::{Read, Write};
///
/// let process = Shared::new()?.start()?;
/// let (reader, mut writer) = process.pipe()?;
/// writer.write_all(b"through no buffer")?;
/// let file = File::create(&process, "kept")?;
/// assert_eq!(splice(&reader, None, &file, None, 7)?, 7);
/// let mut text = String::new();
/// File::open(&process, "kept")?.read_to_string(&mut text)?;
/// assert_eq!(text, "through");
/// # Ok::<(), std::io::Error>(())
/// ```
pub fn splice(
    from: &impl Handle,
    from_offset: Option<u64>,
    to: &impl Handle,
    to_offset: Option<u64>,
    len: usize,
) -> io::Result<usize> {
    let (from, to) = (from.descriptor(), to.descriptor());
    of_one_process(from, to)?;
    let splice = Call::Splice {
        from: (from.fd(), from_offset),
        to: (to.fd(), to_offset),
        len: cut(len),
        flags: 0,
    };
    run(from.owner(), splice, earlier(from, to))
}

/// Copies at most so many bytes from one pipe to another, and leaves them in the first (tee(2)). It tells how many, and waits as
/// [`splice`] does.
///
/// # Errors
///
/// As of [`splice`].
///
/// ```
/// use bindingclay::shared::{Shared, tee};
/// use std::io::{Read, Write};
///
/// let process = Shared::new()?.start()?;
/// let ((reader, mut writer), (mut copies, target)) = (process.pipe()?, process.pipe()?);
/// writer.write_all(b"twice")?;
/// assert_eq!(tee(&reader, &target, 100)?, 5);
/// let mut into = [0; 5];
/// for mut end in [&reader, &copies] {
///     end.read_exact(&mut into)?;
///     assert_eq!(&into, b"twice");
/// }
/// # copies.set_deadline(None);
/// # Ok::<(), std::io::Error>(())
/// ```
pub fn tee(from: &impl Handle, to: &impl Handle, len: usize) -> io::Result<usize> {
    let (from, to) = (from.descriptor(), to.descriptor());
    of_one_process(from, to)?;
    let tee = Call::Tee {
        from: from.fd(),
        to: to.fd(),
        len: cut(len),
        flags: 0,
    };
    run(from.owner(), tee, earlier(from, to))
}
