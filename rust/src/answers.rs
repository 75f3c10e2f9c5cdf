//! What a call answers that may wait, and the handle of one that waits.

use core::cmp::Ordering;
use core::hash::{Hash, Hasher};

/// What a call answers that may wait.
///
/// A call that waits is no error, so `?` leaves it in a program's hands:
///
/// ```
/// use bindingclay::memory::Global;
/// use bindingclay::{Answer, Call, Kernel, Limits, NotDone, Reply, Step};
///
/// /// Writes bytes, and makes room in the pipe as long as the write waits: it answers how many bytes went in.
/// fn write_all(kernel: &mut Kernel, bytes: &[u8]) -> Result<usize, NotDone> {
///     let mut call = match kernel.write_from(1, 1, bytes)? {
///         Answer::Done(count) => return Ok(count),
///         Answer::Parked(call) => call,
///     };
///     loop {
///         let mut into = [0; 4_096];
///         assert_eq!(kernel.read_into(1, 0, &mut into)?, Answer::Done(4_096));
///         call = match kernel.resume(call)? {
///             Answer::Done(Reply::Count { n, .. }) => return Ok(n as usize),
///             Answer::Done(other) => panic!("{other:?}"),
///             Answer::Parked(call) => call,
///         };
///     }
/// }
///
/// let mut kernel = Kernel::new(Global, Limits::default())?;
/// kernel.step(Step::Start)?;
/// kernel.step(Step::Begin(1, Call::Pipe { nonblock: false, direct: false }))?;
/// assert_eq!(write_all(&mut kernel, &[7; 100_000])?, 100_000);
/// # Ok::<(), Box<dyn std::error::Error>>(())
/// ```
#[derive(Debug, PartialEq, Eq, Hash)]
#[must_use = "a call that waits stays parked until it is resumed or interrupted"]
pub enum Answer<T> {
    /// The call is done, with what it tells.
    Done(T),
    /// The call waits. Resume it once [`Kernel::can_progress`](crate::Kernel::can_progress) says so, or interrupt it.
    Parked(ParkedCall),
}

impl<T> Answer<T> {
    /// The same answer, with another value if the call is done.
    ///
    /// ```
    /// use bindingclay::{Answer, ParkedCall};
    ///
    /// assert_eq!(Answer::Done(1_usize).map(|count| count > 0), Answer::Done(true));
    /// let parked = Answer::<usize>::Parked(ParkedCall::from_number(7));
    /// assert_eq!(parked.map(|count| count > 0), Answer::Parked(ParkedCall::from_number(7)));
    /// ```
    pub fn map<U>(self, change: impl FnOnce(T) -> U) -> Answer<U> {
        match self {
            Answer::Done(value) => Answer::Done(change(value)),
            Answer::Parked(call) => Answer::Parked(call),
        }
    }
}

/// The handle of a parked call: what [`Kernel::resume`](crate::Kernel::resume), `resume_read`, `resume_poll` and `interrupt` take.
///
/// A method that takes it gives it back, in its answer or in its error, if the call still waits.
///
/// Dropping it doesn't interrupt the call, as it borrows no kernel. The call then stays parked until its process exits, and nobody tries it
/// again. It keeps open what it found open: the ends of its pipes count as open, so that another process sees no end of file and no
/// `EPIPE`. An open of a FIFO keeps the end that it makes. A write keeps its copy of the bytes too.
///
/// Two handles are equal, and in order, by their numbers alone.
///
/// ```
/// use bindingclay::memory::Global;
/// use bindingclay::{Answer, Call, Errno, Kernel, Limits, NotDone, ParkedCall, Step};
///
/// let mut kernel = Kernel::new(Global, Limits::default())?;
/// kernel.step(Step::Start)?;
/// kernel.step(Step::Begin(1, Call::Pipe { nonblock: false, direct: false }))?;
/// let Answer::Parked(call) = kernel.read_into(1, 0, &mut [0])? else { panic!("a byte") };
/// assert_eq!(call.number(), 1);
/// drop(call);
/// // it still waits
/// let call = ParkedCall::from_number(1);
/// assert_eq!(kernel.owner(&call), Some(1));
/// assert_eq!(kernel.interrupt(call), Err(NotDone::Fault(Errno::EINTR)));
/// # Ok::<(), Box<dyn std::error::Error>>(())
/// ```
#[derive(Debug)]
#[must_use = "dropping it doesn't interrupt the call, which stays parked"]
pub struct ParkedCall {
    number: u64,
    moved: bool,
}

impl ParkedCall {
    /// The handle of the call of a number, for a program that keeps numbers itself, as [`Reply::Parked`](crate::Reply::Parked) tells them.
    /// If no call is parked under the number, `resume` and `interrupt` are [`NotDone::NoCall`](crate::NotDone::NoCall). It doesn't look
    /// whose call it is: [`Kernel::owner`](crate::Kernel::owner) tells that.
    ///
    /// ```
    /// use bindingclay::memory::Global;
    /// use bindingclay::{Kernel, Limits, NotDone, ParkedCall};
    ///
    /// let mut kernel = Kernel::new(Global, Limits::default())?;
    /// assert_eq!(kernel.resume(ParkedCall::from_number(7)), Err(NotDone::NoCall));
    /// # Ok::<(), Box<dyn std::error::Error>>(())
    /// ```
    pub const fn from_number(number: u64) -> ParkedCall {
        ParkedCall {
            number,
            moved: false,
        }
    }

    pub(crate) const fn with_moved(number: u64, moved: bool) -> ParkedCall {
        ParkedCall { number, moved }
    }

    /// The handle as an error gives it back: nothing moved.
    pub(crate) const fn given_back(self) -> ParkedCall {
        ParkedCall::from_number(self.number)
    }

    /// Its number. A kernel gives each number once.
    ///
    /// ```
    /// use bindingclay::ParkedCall;
    ///
    /// assert_eq!(ParkedCall::from_number(7).number(), 7);
    /// ```
    pub const fn number(&self) -> u64 {
        self.number
    }

    /// Whether the method that gave this handle in its answer put bytes of a write into the pipe: then another call may make progress. It is `false`
    /// of a handle that came back in an error, or was made of a number.
    ///
    /// ```
    /// use bindingclay::memory::Global;
    /// use bindingclay::{Answer, Call, Kernel, Limits, Step};
    ///
    /// let mut kernel = Kernel::new(Global, Limits::default())?;
    /// kernel.step(Step::Start)?;
    /// kernel.step(Step::Begin(1, Call::Pipe { nonblock: false, direct: false }))?;
    /// let Answer::Parked(large) = kernel.write_from(1, 1, &[7; 70_000])? else { panic!("no wait") };
    /// assert!(large.moved()); // 65,536 bytes went in
    /// let Answer::Parked(small) = kernel.write_from(1, 1, b"a")? else { panic!("no wait") };
    /// assert!(!small.moved());
    /// let Answer::Parked(large) = kernel.resume(large)? else { panic!("no wait") };
    /// assert!(!large.moved()); // the pipe is still full
    /// # Ok::<(), Box<dyn std::error::Error>>(())
    /// ```
    pub const fn moved(&self) -> bool {
        self.moved
    }

    /// Lets go of the handle, for a program that keeps the number itself. The call still waits.
    ///
    /// ```
    /// use bindingclay::ParkedCall;
    ///
    /// assert_eq!(ParkedCall::from_number(7).into_number(), 7);
    /// ```
    pub const fn into_number(self) -> u64 {
        self.number
    }
}

impl PartialEq for ParkedCall {
    fn eq(&self, other: &ParkedCall) -> bool {
        self.number == other.number
    }
}

impl Eq for ParkedCall {}

impl PartialOrd for ParkedCall {
    fn partial_cmp(&self, other: &ParkedCall) -> Option<Ordering> {
        Some(self.cmp(other))
    }
}

impl Ord for ParkedCall {
    fn cmp(&self, other: &ParkedCall) -> Ordering {
        self.number.cmp(&other.number)
    }
}

impl Hash for ParkedCall {
    fn hash<H: Hasher>(&self, state: &mut H) {
        self.number.hash(state);
    }
}
