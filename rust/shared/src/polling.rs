//! Several descriptors that are waited for at once.

use super::super::Clay;
use super::calls::{Call, run};
use super::descriptor::{Descriptor, Handle};
use std::io;
use std::sync::Arc;
use std::time::{Duration, Instant};

/// There are bytes, or the end (poll.h on Linux).
pub const POLLIN: i16 = 0o1;
/// There is room for 4,096 bytes.
pub const POLLOUT: i16 = 0o4;
/// A pipe has no reader. It is found unasked.
pub const POLLERR: i16 = 0o10;
/// A pipe has no writer any more. It is found unasked.
pub const POLLHUP: i16 = 0o20;
/// The descriptor isn't open. It is found unasked.
pub const POLLNVAL: i16 = 0o40;

/// Each poll may have so many entries, and as many as a process may have descriptors, if that is more (poll, `EINVAL`). So many are asked on the stack.
const FEW_ENTRIES: usize = 256;

/// A handle in a poll: what is asked of it, and what was found.
#[derive(Debug)]
pub struct PollFd<'a> {
    descriptor: &'a Descriptor,
    events: i16,
    revents: i16,
}

impl<'a> PollFd<'a> {
    /// An entry that asks events of a handle.
    pub fn new(handle: &'a impl Handle, events: i16) -> PollFd<'a> {
        PollFd {
            descriptor: handle.descriptor(),
            events,
            revents: 0,
        }
    }

    /// What the last poll found.
    pub fn revents(&self) -> i16 {
        self.revents
    }
}

/// Waits until one of the entries has something to tell, and tells of how many that is so (POSIX.1-2017, poll). With a time limit it answers
/// 0 once that is over, and with one of zero it doesn't wait. Deadlines of the handles don't count here.
///
/// # Errors
///
/// `InvalidInput` without an entry, of more than 256 of them that are more than the limit `descriptors_max` too, and if they are of several
/// processes; `OutOfMemory`. While it waits, as of any [call that waits](super#what-ends-a-call-that-waits).
///
/// ```
/// use bindingclay::shared::{POLLIN, PollFd, Shared, poll};
/// use std::io::Write;
/// use std::time::Duration;
///
/// let process = Shared::new()?.start()?;
/// let ((one, _writer), (other, mut writer)) = (process.pipe()?, process.pipe()?);
/// let mut entries = [PollFd::new(&one, POLLIN), PollFd::new(&other, POLLIN)];
/// assert_eq!(poll(&mut entries, Some(Duration::ZERO))?, 0);
/// writer.write_all(b"!")?;
/// assert_eq!(poll(&mut entries, None)?, 1);
/// assert_eq!((entries[0].revents(), entries[1].revents()), (0, POLLIN));
/// # Ok::<(), std::io::Error>(())
/// ```
pub fn poll(entries: &mut [PollFd<'_>], timeout: Option<Duration>) -> io::Result<usize> {
    let first = entries.first().ok_or(io::ErrorKind::InvalidInput)?;
    let owner = Arc::clone(first.descriptor.owner());
    let of_one = entries
        .iter()
        .all(|entry| Arc::ptr_eq(entry.descriptor.owner(), &owner));
    let count = entries.len();
    if count > FEW_ENTRIES.max(owner.front.descriptors) || !of_one {
        return Err(io::ErrorKind::InvalidInput.into());
    }
    let mut few = [Clay::entry(-1, 0); FEW_ENTRIES];
    let mut many = Vec::new();
    let asked = if count <= FEW_ENTRIES {
        &mut few[..count]
    } else {
        many.try_reserve_exact(count)
            .map_err(|_| io::ErrorKind::OutOfMemory)?;
        many.resize(count, Clay::entry(-1, 0));
        &mut many[..]
    };
    for (ask, entry) in asked.iter_mut().zip(&*entries) {
        *ask = Clay::entry(entry.descriptor.fd(), entry.events);
    }
    let wait = timeout != Some(Duration::ZERO);
    // the clock is read only where there is a time to wait; a time limit that no clock reaches is none
    let deadline = timeout
        .filter(|_| wait)
        .and_then(|timeout| Instant::now().checked_add(timeout));
    let found = match run(
        &owner,
        Call::Poll {
            entries: asked,
            wait,
        },
        deadline,
    ) {
        Err(fault) if fault.kind() == io::ErrorKind::TimedOut => 0,
        found => found?,
    };
    for (entry, ask) in entries.iter_mut().zip(&*asked) {
        entry.revents = Clay::found(ask);
    }
    Ok(found)
}
