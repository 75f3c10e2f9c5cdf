//! POSIX pipes and FIFOs, with Linux's splice and tee, inside one process.
//!
//! This crate is the edition in plain Rust of Bindingclay. Programs of one address space talk through its pipes, and the host kernel has no part
//! in it. The module `shared` is for threads and tasks: the ends of a pipe are readers and writers as those of `std::io::pipe`.
//!
#![cfg_attr(feature = "shared", doc = "```")]
#![cfg_attr(not(feature = "shared"), doc = "```ignore")]
//! use bindingclay::shared::Shared;
//! use std::io::{Read, Write};
//!
//! let process = Shared::new()?.start()?;
//! let (mut reader, mut writer) = process.pipe()?;
//! // the thread closes the write end as it ends
//! let talker = std::thread::spawn(move || writer.write_all(b"hello"));
//! let mut text = String::new();
//! // waits for the bytes, and then for the end of file
//! reader.read_to_string(&mut text)?;
//! assert_eq!(text, "hello");
//! talker.join().expect("no panic")?;
//! # Ok::<(), std::io::Error>(())
//! ```
//!
//! # A kernel as a value
//!
//! Library operating systems, sandboxes and test harnesses run the calls of their guests themselves, by a [`Kernel`]. Each thing that a guest does
//! is a [`Step`], and what the kernel answers is a [`Reply`]. A kernel has no thread and no clock, so the same list of steps gets the same
//! replies every time. A call that would have to wait is *parked* and returns [`Answer::Parked`], which is no error: its [`ParkedCall`] can be
//! tried again later. [`Kernel::can_progress`] returns true if that would complete the call, or move at least one byte.
//!
//! ```
//! use bindingclay::memory::Global;
//! use bindingclay::{Answer, Call, Kernel, Limits, Reply, Step};
//!
//! let mut kernel = Kernel::new(Global, Limits::default())?;
//! assert_eq!(kernel.step(Step::Start)?, Reply::Pid(1));
//! assert_eq!(kernel.step(Step::Begin(1, Call::Pipe { nonblock: false, direct: false }))?, Reply::Fds(0, 1));
//! // a child has the descriptors of its parent
//! assert_eq!(kernel.step(Step::Begin(1, Call::Fork))?, Reply::Pid(2));
//! let mut into = [0; 5];
//! // nothing is there to read, so the call waits
//! let Answer::Parked(call) = kernel.read_into(1, 0, &mut into)? else { panic!("no wait") };
//! assert_eq!(kernel.write_from(2, 1, b"hello")?, Answer::Done(5));
//! assert!(kernel.can_progress(&call));
//! assert_eq!(kernel.resume_read(call, &mut into)?, Answer::Done(5));
//! assert_eq!(&into, b"hello");
//! # Ok::<(), Box<dyn std::error::Error>>(())
//! ```
//!
//! # What is proved
//!
//! The sources of Bindingclay are proved. The build script of this crate takes their contracts out, and a module stands for the libraries of
//! the prover's toolchain. The result is tested, and no proof speaks of it.
//!
//! # Features
//!
//! | Feature | What it brings |
//! |---|---|
//! | `script`, on by default | the module `script` and the program `piperun`, which run scripts of calls; needs `std` |
//! | `shared`, on by default | the module `shared`, a kernel that threads and tasks share; needs `std` |
//! | `c` | the functions of the library for C, which `rust/library` of the repository builds; of no use to a program in Rust |
//!
//! Without `script` and `shared` the crate needs `alloc` and no `std`.
#![cfg_attr(not(any(feature = "script", feature = "shared", test)), no_std)]
#![deny(unsafe_code)]
#![warn(missing_debug_implementations, missing_docs)]
// docs.rs has a compiler of the night, which can say of each item what feature brings it
#![cfg_attr(docsrs, feature(doc_cfg))]

extern crate alloc;

mod answers;
#[cfg(feature = "shared")]
mod clay;
mod faults;
mod kernel;
pub mod memory;
pub mod numbers;
#[cfg(feature = "script")]
pub mod script;
#[cfg(feature = "shared")]
#[path = "../shared/src/mod.rs"]
pub mod shared;

// `parts`, which was made of the project's sources, and `checks`, their tests
include!(concat!(env!("OUT_DIR"), "/edition.rs"));

#[allow(dead_code, missing_debug_implementations)]
#[path = "../shim/mod.rs"]
mod std_shim;

#[cfg(feature = "c")]
mod c_memory;

pub use answers::{Answer, ParkedCall};
#[cfg(feature = "shared")]
use clay::Clay;
pub use faults::{FileMaxFault, NotDone};
pub use kernel::Kernel;
pub use parts::kernel::{CallFacts, CallKind, NodeFacts, NodeKind, PollEntry, ProcessFacts, Stats};
pub use parts::model::{
    Bytes8, Call, Errno, Limits, MaskList, Mode, Name, OpenFlags, Outcome, PollList, PollMask,
    Reply, SpliceFlags, Step, Whence,
};

/// The programs of the crate's README, as tests.
#[cfg(all(doctest, feature = "shared"))]
#[doc = include_str!("../README.md")]
mod readme {}

/// There is no memory for what was asked. Nothing changed.
///
/// ```
/// use bindingclay::NoMemory;
///
/// assert_eq!(std::io::Error::from(NoMemory).kind(), std::io::ErrorKind::OutOfMemory);
/// ```
#[doc(inline)]
pub use faults::NoMemory;

/// Those of [`Limits::DEFAULT`].
impl Default for Limits {
    fn default() -> Limits {
        Limits::DEFAULT
    }
}
