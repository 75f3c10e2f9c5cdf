//! The functions of the library for C, and their answers as C has them.

use super::answers::{Answer, Done, NotDone, ParkedCall, Result};
use super::facts::{Memory, ProcessFacts, RawCall, RawNode, SegmentUse};
use super::values::{Ends, Fd, PollEntry};
use std::ffi::c_void;

/// The handle as C has it.
#[repr(C)]
#[derive(Clone, Copy)]
pub(super) struct Handle {
    pub(super) kernel: *mut c_void,
}

/// An answer as C has it.
#[repr(C)]
#[derive(Clone, Copy)]
pub(super) struct RawAnswer {
    pub(super) value: u64,
    error: i32,
    pub(super) kind: u8,
    sigpipe: bool,
    moved: bool,
}

unsafe extern "C" {
    pub(super) fn free(block: *mut c_void);
    pub(super) fn bindingclay_open_words(
        limits: *const u64,
        count: usize,
        kernel: *mut *mut c_void,
        budget: *mut *mut c_void,
    ) -> bool;
    pub(super) fn bindingclay_end(clay: Handle, budget: *mut *mut c_void);
    pub(super) fn bindingclay_tell_memory(clay: Handle, memory: *mut Memory);
    pub(super) fn bindingclay_version() -> u32;
    pub(super) fn bindingclay_start(clay: Handle) -> RawAnswer;
    pub(super) fn bindingclay_fork(clay: Handle, pid: u32) -> RawAnswer;
    pub(super) fn bindingclay_exit(clay: Handle, pid: u32) -> RawAnswer;
    pub(super) fn bindingclay_resume(
        clay: Handle,
        number: u64,
        into: *mut u8,
        size: usize,
    ) -> RawAnswer;
    pub(super) fn bindingclay_resume_poll(
        clay: Handle,
        number: u64,
        entries: *mut PollEntry,
        count: usize,
    ) -> RawAnswer;
    pub(super) fn bindingclay_can_progress(clay: Handle, number: u64) -> bool;
    pub(super) fn bindingclay_taken(clay: Handle, number: u64) -> RawAnswer;
    pub(super) fn bindingclay_next_ready(clay: Handle, from: u64) -> RawAnswer;
    pub(super) fn bindingclay_interrupt(clay: Handle, number: u64) -> RawAnswer;
    pub(super) fn bindingclay_owner(clay: Handle, number: u64) -> RawAnswer;
    pub(super) fn bindingclay_pipe(
        clay: Handle,
        pid: u32,
        nonblock: bool,
        ends: *mut Ends,
    ) -> RawAnswer;
    pub(super) fn bindingclay_pipe2(
        clay: Handle,
        pid: u32,
        flags: u32,
        ends: *mut Ends,
    ) -> RawAnswer;
    pub(super) fn bindingclay_mkfifo(
        clay: Handle,
        pid: u32,
        name: *const u8,
        size: usize,
    ) -> RawAnswer;
    pub(super) fn bindingclay_open_name(
        clay: Handle,
        pid: u32,
        name: *const u8,
        size: usize,
        flags: u32,
    ) -> RawAnswer;
    pub(super) fn bindingclay_unlink(
        clay: Handle,
        pid: u32,
        name: *const u8,
        size: usize,
    ) -> RawAnswer;
    pub(super) fn bindingclay_file_bytes(
        clay: Handle,
        name: *const u8,
        size: usize,
        into: *mut u8,
        room: usize,
    ) -> RawAnswer;
    pub(super) fn bindingclay_read(
        clay: Handle,
        pid: u32,
        fd: i32,
        into: *mut u8,
        size: usize,
    ) -> RawAnswer;
    pub(super) fn bindingclay_write(
        clay: Handle,
        pid: u32,
        fd: i32,
        bytes: *const u8,
        size: usize,
    ) -> RawAnswer;
    pub(super) fn bindingclay_lseek(
        clay: Handle,
        pid: u32,
        fd: i32,
        offset: i64,
        whence: i32,
    ) -> RawAnswer;
    pub(super) fn bindingclay_splice_at(
        clay: Handle,
        pid: u32,
        from: i32,
        has_from_offset: bool,
        from_offset: u64,
        to: i32,
        has_to_offset: bool,
        to_offset: u64,
        len: u32,
        flags: u32,
    ) -> RawAnswer;
    pub(super) fn bindingclay_tee(
        clay: Handle,
        pid: u32,
        from: i32,
        to: i32,
        len: u32,
        flags: u32,
    ) -> RawAnswer;
    pub(super) fn bindingclay_poll(
        clay: Handle,
        pid: u32,
        entries: *mut PollEntry,
        count: usize,
        wait: bool,
    ) -> RawAnswer;
    pub(super) fn bindingclay_dup(clay: Handle, pid: u32, fd: i32) -> RawAnswer;
    pub(super) fn bindingclay_dup2(clay: Handle, pid: u32, fd: i32, target: i32) -> RawAnswer;
    pub(super) fn bindingclay_dup_fd(clay: Handle, pid: u32, fd: i32, least: i32) -> RawAnswer;
    pub(super) fn bindingclay_close(clay: Handle, pid: u32, fd: i32) -> RawAnswer;
    pub(super) fn bindingclay_get_fl(clay: Handle, pid: u32, fd: i32) -> RawAnswer;
    pub(super) fn bindingclay_set_fl(clay: Handle, pid: u32, fd: i32, flags: u32) -> RawAnswer;
    pub(super) fn bindingclay_get_pipe_sz(clay: Handle, pid: u32, fd: i32) -> RawAnswer;
    pub(super) fn bindingclay_set_pipe_sz(clay: Handle, pid: u32, fd: i32, size: u32) -> RawAnswer;
    pub(super) fn bindingclay_held(clay: Handle, pid: u32, fd: i32) -> RawAnswer;
    pub(super) fn bindingclay_fd_facts(
        clay: Handle,
        pid: u32,
        fd: i32,
        facts: *mut RawNode,
    ) -> RawAnswer;
    pub(super) fn bindingclay_name_facts(
        clay: Handle,
        name: *const u8,
        size: usize,
        facts: *mut RawNode,
    ) -> RawAnswer;
    pub(super) fn bindingclay_call_facts(
        clay: Handle,
        number: u64,
        facts: *mut RawCall,
    ) -> RawAnswer;
    pub(super) fn bindingclay_process_facts(
        clay: Handle,
        pid: u32,
        process: *mut ProcessFacts,
    ) -> RawAnswer;
    pub(super) fn bindingclay_record(clay: Handle, on: bool) -> RawAnswer;
    pub(super) fn bindingclay_recorded(clay: Handle, into: *mut u8, size: usize) -> RawAnswer;
    pub(super) fn bindingclay_stats(clay: Handle, segments: *mut SegmentUse);
}

impl RawAnswer {
    /// Of a call that may wait.
    #[inline]
    pub(super) fn answer(self) -> Result<Answer<Done>> {
        let RawAnswer {
            value,
            error,
            kind,
            sigpipe,
            moved,
        } = self;
        match kind {
            0 => Ok(Answer::Done(Done { value, sigpipe })),
            1 => Err(NotDone::Fault(error)),
            2 => Ok(Answer::Parked(ParkedCall {
                number: value,
                moved,
            })),
            3 => Err(NotDone::NoProcess),
            4 => Err(NotDone::NoCall),
            5 => Err(NotDone::CallsSpent),
            6 => Err(NotDone::NoMemory),
            _ => unreachable!("an answer of kind {kind}, of which this version knows nothing"),
        }
    }

    /// Of a call that may wait, and tells a count.
    #[inline]
    pub(super) fn count(self) -> Result<Answer<usize>> {
        Ok(self.answer()?.map(Done::count))
    }

    /// Of a call that was resumed: if it still waits, its handle comes back.
    pub(super) fn resumed(self, call: ParkedCall) -> Result<Answer<Done>> {
        let call = ParkedCall::from_number(call.number);
        match self.kind {
            6 => Err(NotDone::NoMemoryToResume(call)),
            7 => Err(NotDone::Short {
                call,
                wants: self.value,
            }),
            _ => self.answer(),
        }
    }

    /// Of a call that never waits.
    pub(super) fn done(self) -> Result<Done> {
        match self.answer()? {
            Answer::Done(done) => Ok(done),
            Answer::Parked(call) => {
                unreachable!("call {} waits, and its like never does", call.number)
            }
        }
    }

    pub(super) fn value(self) -> Result<u64> {
        Ok(self.done()?.value)
    }

    pub(super) fn number(self) -> Result<u32> {
        Ok(self.value()? as u32)
    }

    pub(super) fn fd(self) -> Result<Fd> {
        Ok(self.done()?.fd())
    }

    pub(super) fn nothing(self) -> Result<()> {
        self.done().map(|_| ())
    }
}
