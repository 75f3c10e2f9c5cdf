//! What a call answers: what it tells once it is done, its handle if it waits, and why it isn't done.

use super::values::{CallNumber, Fd};
use std::cmp::Ordering;
use std::fmt;
use std::hash::{Hash, Hasher};
use std::io;

/// What a resumed or interrupted call answers: a count, or of an open a descriptor.
#[derive(Clone, Copy, Debug, PartialEq, Eq)]
pub struct Done {
    pub value: u64,
    /// The last reader left before all was written: a process would get SIGPIPE. A write that didn't wait never tells this.
    pub sigpipe: bool,
}

impl Done {
    /// The value as a count of bytes, or of entries.
    pub fn count(self) -> usize {
        self.value as usize
    }

    /// The value as a descriptor.
    pub fn fd(self) -> Fd {
        self.value as Fd
    }
}

/// What a call answers that may wait.
#[derive(Debug, PartialEq, Eq, Hash)]
#[must_use = "a call that waits stays parked until it is resumed or interrupted"]
pub enum Answer<T> {
    /// The call is done, with what it tells.
    Done(T),
    /// The call waits. Resume it once `can_progress` says so, or interrupt it.
    Parked(ParkedCall),
}

impl<T> Answer<T> {
    /// The same answer, with another value if the call is done.
    pub fn map<U>(self, change: impl FnOnce(T) -> U) -> Answer<U> {
        match self {
            Answer::Done(value) => Answer::Done(change(value)),
            Answer::Parked(call) => Answer::Parked(call),
        }
    }
}

/// The handle of a call that waits: what `Clay::resume`, `resume_read`, `resume_poll` and `interrupt` take.
///
/// A method that takes it gives it back, in its answer or in its error, if the call still waits.
///
/// Dropping it doesn't interrupt the call, as it borrows no kernel. The call then stays parked until its process exits, and nobody tries it
/// again. It keeps open what it found open: the ends of its pipes count as open, so that another process sees no end of file and no EPIPE.
/// An open of a FIFO keeps the end that it makes. A write keeps its copy of the bytes too.
///
/// Two handles are equal, and in order, by their numbers alone.
#[derive(Debug)]
#[must_use = "dropping it doesn't interrupt the call, which stays parked"]
pub struct ParkedCall {
    pub(super) number: CallNumber,
    pub(super) moved: bool,
}

impl ParkedCall {
    /// The handle of the call of a number, for a program that keeps numbers itself. If no call of the number waits, `resume` and
    /// `interrupt` are `NoCall`. It doesn't look whose call it is: for a number that a guest gave, `Clay::resume_of` and its like do.
    pub const fn from_number(number: CallNumber) -> ParkedCall {
        ParkedCall {
            number,
            moved: false,
        }
    }

    /// Its number. A kernel gives each number once.
    pub const fn number(&self) -> CallNumber {
        self.number
    }

    /// Whether the method that gave this handle in its answer put bytes of a write into the pipe: then another call may make progress. It is false of
    /// a handle that came back in an error, or was made of a number.
    pub const fn moved(&self) -> bool {
        self.moved
    }

    /// Lets go of the handle, for a program that keeps the number itself. The call still waits.
    pub const fn into_number(self) -> CallNumber {
        self.number
    }
}

impl PartialEq for ParkedCall {
    fn eq(&self, other: &ParkedCall) -> bool {
        self.number == other.number
    }
}

impl Eq for ParkedCall {}

impl PartialOrd for ParkedCall {
    fn partial_cmp(&self, other: &ParkedCall) -> Option<Ordering> {
        Some(self.cmp(other))
    }
}

impl Ord for ParkedCall {
    fn cmp(&self, other: &ParkedCall) -> Ordering {
        self.number.cmp(&other.number)
    }
}

impl Hash for ParkedCall {
    fn hash<H: Hasher>(&self, state: &mut H) {
        self.number.hash(state);
    }
}

/// Why a call isn't done. A call that waits is no error, but an answer.
#[derive(Debug, PartialEq, Eq)]
pub enum NotDone {
    /// It failed, with a number of errno.h on Linux. With EPIPE a process would get SIGPIPE.
    Fault(i32),
    /// There is no process of this pid.
    NoProcess,
    /// No call of this number waits.
    NoCall,
    /// It would wait, and no number is left.
    CallsSpent,
    /// There is no memory, and nothing changed.
    NoMemory,
    /// There is no memory to resume this call. Nothing changed: it still waits.
    NoMemoryToResume(ParkedCall),
    /// The resumed read would give so many bytes, and has room for fewer. Or a poll that can make progress has so many entries, and was resumed
    /// without them. Nothing changed: it still waits.
    Short { call: ParkedCall, wants: u64 },
}

impl NotDone {
    /// The call that still waits, if this is the error of a call that was resumed and still waits.
    pub fn into_parked(self) -> Option<ParkedCall> {
        match self {
            NotDone::NoMemoryToResume(call) | NotDone::Short { call, .. } => Some(call),
            _ => None,
        }
    }
}

pub type Result<T> = std::result::Result<T, NotDone>;

impl fmt::Display for NotDone {
    fn fmt(&self, out: &mut fmt::Formatter<'_>) -> fmt::Result {
        match self {
            NotDone::Fault(errno) => write!(out, "{}", io::Error::from_raw_os_error(*errno)),
            NotDone::NoProcess => write!(out, "no such process"),
            NotDone::NoCall => write!(out, "no such call"),
            NotDone::CallsSpent => write!(out, "no number is left for a call that waits"),
            NotDone::NoMemory => write!(out, "no memory"),
            NotDone::NoMemoryToResume(call) => {
                write!(out, "no memory to resume call {}", call.number)
            }
            NotDone::Short { call, wants } => {
                write!(out, "too little room: call {} wants {wants}", call.number)
            }
        }
    }
}

impl std::error::Error for NotDone {}

/// A fault with its number. Any other error is kept whole, so that `io::Error::into_inner` gives back a call that still waits.
impl From<NotDone> for io::Error {
    fn from(fault: NotDone) -> io::Error {
        let kind = match fault {
            NotDone::Fault(errno) => return io::Error::from_raw_os_error(errno),
            NotDone::NoMemory | NotDone::NoMemoryToResume(_) => io::ErrorKind::OutOfMemory,
            NotDone::Short { .. } => io::ErrorKind::InvalidInput,
            NotDone::NoProcess | NotDone::NoCall | NotDone::CallsSpent => io::ErrorKind::Other,
        };
        io::Error::new(kind, fault)
    }
}
