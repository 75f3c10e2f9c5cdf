//! Bindingclay for Rust: POSIX pipes, FIFOs and regular files in the memory of one process.
//!
//! A wrapper of the library for C with methods, which needs no other crate. `bindingclay.h` tells of each call what it does, its page of
//! the standard and its errors, and of all of them what holds of threads, waiting and memory. Cargo takes the folder of this file by path.
//! As a module of your own it has the folder `bindingclay` beside it, and is linked with `-l static=bindingclay`.
//!
//! A call that would wait is no error. It answers `Answer::Parked` with a `ParkedCall`, by which it is tried again or interrupted.
//!
//! A `Clay` may move between threads, and is used by one at a time: put it into a `Mutex` to share it. Two of them need no lock. The module
//! `shared` has a kernel that threads and tasks share, whose pipes and files are those of `std::io`: there a call that waits blocks its thread.

// Each by its path, so that this file can be the root of a crate, and a module of a program.
#[path = "bindingclay/answers.rs"]
mod answers;
#[path = "bindingclay/calls.rs"]
mod calls;
#[path = "bindingclay/facts.rs"]
mod facts;
#[path = "bindingclay/raw.rs"]
mod raw;
#[allow(dead_code)]
#[path = "bindingclay/recording.rs"]
mod recording;
// A program that has this file as a module may use none of it.
#[allow(dead_code, unused_imports)]
// library/release puts it beside the others
#[path = "../../rust/shared/src/mod.rs"]
pub mod shared;
#[allow(dead_code)]
#[path = "bindingclay/sharing.rs"]
mod sharing;
#[path = "bindingclay/values.rs"]
mod values;
#[path = "bindingclay/waiting.rs"]
mod waiting;

// A program that has this file as a module may use only some of these.
use self::raw::{Handle, bindingclay_end, bindingclay_version, free};
#[allow(unused_imports)]
pub use self::{
    answers::{Answer, Done, NotDone, ParkedCall, Result},
    facts::{CallFacts, CallKind, Memory, NodeFacts, NodeKind, ProcessFacts, SegmentUse},
    values::*,
};

/// The version that this wrapper is of, as `version`.
pub const VERSION: u32 = 8_000;

/// The version of the library: 1,000,000 times the first number, 1,000 times the second, and the third.
pub fn version() -> u32 {
    unsafe { bindingclay_version() }
}

/// A kernel, with its processes, pipes and files.
pub struct Clay(Handle);

// The library's kernel may move between threads. It isn't Sync: each call has it for itself, by `&mut self`, or by `&self` on one thread.
unsafe impl Send for Clay {}

impl Drop for Clay {
    fn drop(&mut self) {
        let mut budget = std::ptr::null_mut();
        unsafe {
            bindingclay_end(self.0, &mut budget);
            free(budget);
        }
    }
}
