//! What goes wrong, as errors of Rust.

use crate::parts::numbers::error_number;
use crate::{Errno, ParkedCall};
use core::error::Error;
use core::fmt;

pub use crate::parts::state::NoMemory;

/// The limit on the bytes of a file is above 16,777,216.
///
/// ```
/// use bindingclay::memory::Global;
/// use bindingclay::{FileMaxFault, Kernel, Limits};
///
/// let refused = Kernel::new(Global, Limits { file_max: u32::MAX, ..Limits::DEFAULT });
/// assert_eq!(refused.err(), Some(FileMaxFault));
/// ```
#[derive(Clone, Copy, Debug, PartialEq, Eq)]
pub struct FileMaxFault;

/// Why a call isn't done. A call that waits is no error, but an [`Answer`](crate::Answer).
///
/// ```
/// use bindingclay::{NoMemory, NotDone, ParkedCall};
///
/// assert_eq!(NotDone::from(NoMemory), NotDone::NoMemory);
/// let short = NotDone::Short { call: ParkedCall::from_number(7), wants: 9 };
/// assert_eq!(short.to_string(), "too little room: call 7 wants 9");
/// ```
#[derive(Debug, PartialEq, Eq)]
pub enum NotDone {
    /// It failed. `EPIPE` stands for the error and the signal `SIGPIPE`.
    Fault(Errno),
    /// There is no process of this pid.
    NoProcess,
    /// No call is parked under this number.
    NoCall,
    /// It would wait, and no number is left for it.
    CallsSpent,
    /// The bytes are more than such a call takes, and nothing changed.
    TooLong,
    /// There is no memory, and nothing changed.
    NoMemory,
    /// There is no memory to resume this call. Nothing changed: it still waits.
    NoMemoryToResume(ParkedCall),
    /// The resumed read would give so many bytes, and has room for fewer. Or a poll that can make progress has so many entries, and was resumed
    /// without them. Nothing changed: it still waits.
    Short {
        /// The call, which still waits.
        call: ParkedCall,
        /// For how many bytes or entries it wants room.
        wants: u64,
    },
}

impl NotDone {
    /// The call that still waits, if this is the error of a call that was resumed and still waits.
    ///
    /// ```
    /// use bindingclay::{NotDone, ParkedCall};
    ///
    /// let call = NotDone::NoMemoryToResume(ParkedCall::from_number(7)).into_parked();
    /// assert_eq!(call, Some(ParkedCall::from_number(7)));
    /// assert_eq!(NotDone::NoMemory.into_parked(), None);
    /// ```
    pub fn into_parked(self) -> Option<ParkedCall> {
        match self {
            NotDone::NoMemoryToResume(call) | NotDone::Short { call, .. } => Some(call),
            _ => None,
        }
    }
}

impl From<NoMemory> for NotDone {
    fn from(_fault: NoMemory) -> NotDone {
        NotDone::NoMemory
    }
}

impl fmt::Display for NoMemory {
    fn fmt(&self, f: &mut fmt::Formatter<'_>) -> fmt::Result {
        f.write_str("no memory")
    }
}

impl fmt::Display for FileMaxFault {
    fn fmt(&self, f: &mut fmt::Formatter<'_>) -> fmt::Result {
        f.write_str("the limit on the bytes of a file is above 16777216")
    }
}

impl fmt::Display for NotDone {
    fn fmt(&self, f: &mut fmt::Formatter<'_>) -> fmt::Result {
        match self {
            NotDone::Fault(errno) => errno.fmt(f),
            NotDone::NoProcess => f.write_str("no such process"),
            NotDone::NoCall => f.write_str("no such call"),
            NotDone::CallsSpent => f.write_str("no number is left for a call that waits"),
            NotDone::TooLong => f.write_str("more bytes than a call takes"),
            NotDone::NoMemory => f.write_str("no memory"),
            NotDone::NoMemoryToResume(call) => {
                write!(f, "no memory to resume call {}", call.number())
            }
            NotDone::Short { call, wants } => {
                write!(f, "too little room: call {} wants {wants}", call.number())
            }
        }
    }
}

impl fmt::Display for Errno {
    fn fmt(&self, f: &mut fmt::Formatter<'_>) -> fmt::Result {
        write!(f, "{self:?} ({})", error_number(*self))
    }
}

impl Error for NoMemory {}

impl Error for FileMaxFault {}

impl Error for NotDone {}

impl Error for Errno {}

#[cfg(any(feature = "script", feature = "shared"))]
mod of_std {
    use super::{Errno, NoMemory, NotDone, error_number};
    use std::io::{Error, ErrorKind};

    /// The kind of an error, where its number on Linux is that of another error on this host.
    fn kind(errno: Errno) -> ErrorKind {
        match errno {
            Errno::EAGAIN => ErrorKind::WouldBlock,
            Errno::EEXIST => ErrorKind::AlreadyExists,
            Errno::EINTR => ErrorKind::Interrupted,
            Errno::EINVAL | Errno::ENAMETOOLONG => ErrorKind::InvalidInput,
            Errno::ENOENT => ErrorKind::NotFound,
            Errno::ENOSPC => ErrorKind::StorageFull,
            Errno::EPERM => ErrorKind::PermissionDenied,
            Errno::EPIPE => ErrorKind::BrokenPipe,
            _ => ErrorKind::Other,
        }
    }

    /// On Linux with the number of the error, elsewhere with its kind.
    impl From<Errno> for Error {
        fn from(errno: Errno) -> Error {
            if cfg!(target_os = "linux") {
                Error::from_raw_os_error(error_number(errno))
            } else {
                Error::new(kind(errno), errno)
            }
        }
    }

    impl From<NoMemory> for Error {
        fn from(_fault: NoMemory) -> Error {
            ErrorKind::OutOfMemory.into()
        }
    }

    /// A fault with its number or kind. Any other error is kept whole, so that [`Error::into_inner`] gives back a call that still waits.
    impl From<NotDone> for Error {
        fn from(fault: NotDone) -> Error {
            let kind = match fault {
                NotDone::Fault(errno) => return errno.into(),
                NotDone::NoMemory | NotDone::NoMemoryToResume(_) => ErrorKind::OutOfMemory,
                NotDone::TooLong | NotDone::Short { .. } => ErrorKind::InvalidInput,
                NotDone::NoProcess | NotDone::NoCall | NotDone::CallsSpent => ErrorKind::Other,
            };
            Error::new(kind, fault)
        }
    }
}
