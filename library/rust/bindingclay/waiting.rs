//! Calls that wait: what tries them again or ends them, whose they are, and whether they can make progress.

use super::Clay;
use super::answers::{Answer, Done, NotDone, ParkedCall, Result};
use super::raw::*;
use super::values::{CallNumber, Pid, PollEntry};

// In each call the handle is that of a kernel that lives as long as `self`, and what is pointed to is borrowed for the call.
impl Clay {
    /// Tries a call again that waits: an open, a write, a splice or a tee. It is `Parked` again if it waits on, and `ParkedCall::moved` tells
    /// whether more bytes of a write went in.
    ///
    /// `resume_read` resumes a read, and `resume_poll` a poll. Resumed by this, a read that has bytes to give is `Short`, and so is a poll that
    /// can make progress.
    ///
    /// # Errors
    ///
    /// With `NoMemoryToResume` and `Short` the call still waits, and comes back in the error. With a `Fault` it has ended. `NoCall` says
    /// that no call of its number waits.
    pub fn resume(&mut self, call: ParkedCall) -> Result<Answer<Done>> {
        self.resume_into(call, &mut [])
    }

    /// Tries a read again that waits, which gives its bytes into the first of these. The value is how many; 0 at the end. Room for
    /// 1,048,576 bytes is always enough. Any other call is resumed as by `resume`, and its `Done::value` comes back alone.
    ///
    /// # Errors
    ///
    /// As of `resume`. A read is `Short` if it would give more bytes than there is room for, and asks for no memory but to be recorded.
    pub fn resume_read(&mut self, call: ParkedCall, into: &mut [u8]) -> Result<Answer<usize>> {
        Ok(self.resume_into(call, into)?.map(Done::count))
    }

    /// Tries a poll again that waits. The entries are as many as it began with, and what was found is noted in them. The value is how many
    /// of them aren't empty. Any other call is resumed as by `resume`, and its `Done::value` comes back alone.
    ///
    /// # Errors
    ///
    /// As of `resume`.
    pub fn resume_poll(
        &mut self,
        call: ParkedCall,
        entries: &mut [PollEntry],
    ) -> Result<Answer<usize>> {
        let raw = unsafe {
            bindingclay_resume_poll(self.0, call.number, entries.as_mut_ptr(), entries.len())
        };
        Ok(raw.resumed(call)?.map(Done::count))
    }

    fn resume_into(&mut self, call: ParkedCall, into: &mut [u8]) -> Result<Answer<Done>> {
        unsafe { bindingclay_resume(self.0, call.number, into.as_mut_ptr(), into.len()) }
            .resumed(call)
    }

    /// Ends a call that waits, as a signal does. Of a write that took bytes it tells how many. It asks for no memory but to be recorded.
    ///
    /// # Errors
    ///
    /// `Fault` with EINTR says that the call ended and had taken nothing; so it is with every call but such a write. `NoCall` says that no
    /// call of its number waits. `NoMemoryToResume` comes only while steps are recorded, and gives the call back, which still waits.
    pub fn interrupt(&mut self, call: ParkedCall) -> Result<Done> {
        match unsafe { bindingclay_interrupt(self.0, call.number) }.resumed(call)? {
            Answer::Done(done) => Ok(done),
            Answer::Parked(call) => unreachable!("call {} waits, and it was ended", call.number),
        }
    }

    /// The process that began a call that waits.
    ///
    /// # Errors
    ///
    /// `NoCall` says that no call of its number waits.
    pub fn owner(&self, call: &ParkedCall) -> Result<Pid> {
        unsafe { bindingclay_owner(self.0, call.number) }.number()
    }

    /// Whether a call that waits can make progress: a try now would answer it, or is of a write and would put in more of its bytes. Otherwise a try
    /// is `Parked`, and moves no byte. If no call of this number waits, it is true: a try is `NoCall`.
    pub fn can_progress(&self, call: &ParkedCall) -> bool {
        unsafe { bindingclay_can_progress(self.0, call.number) }
    }

    /// The least number, `from` or above, of a call that waits and can make progress; `None` if no call from there on can. Resume what it answers
    /// for 0 until it is `None`: then no call waits that could go on. It changes nothing that another call tells. Without memory for its index it
    /// answers the same.
    pub fn next_ready(&mut self, from: u64) -> Option<u64> {
        unsafe { bindingclay_next_ready(self.0, from) }.value().ok()
    }

    /// How many bytes a call that waits has taken: of a write those that are in the pipe or were read from it, and of any other call 0.
    ///
    /// # Errors
    ///
    /// `NoCall` says that no call of its number waits.
    pub fn taken(&self, call: &ParkedCall) -> Result<u32> {
        unsafe { bindingclay_taken(self.0, call.number) }.number()
    }

    /// `resume` of a call of one process, for a host that passes on a number that a guest gave it: any other process's call is
    /// `NoCall`, and nothing changed.
    pub fn resume_of(&mut self, pid: Pid, number: CallNumber) -> Result<Answer<Done>> {
        let call = self.call_of(pid, number)?;
        self.resume(call)
    }

    /// `resume_read` of a call of one process, as `resume_of`.
    pub fn resume_read_of(
        &mut self,
        pid: Pid,
        number: CallNumber,
        into: &mut [u8],
    ) -> Result<Answer<usize>> {
        let call = self.call_of(pid, number)?;
        self.resume_read(call, into)
    }

    /// `resume_poll` of a call of one process, as `resume_of`.
    pub fn resume_poll_of(
        &mut self,
        pid: Pid,
        number: CallNumber,
        entries: &mut [PollEntry],
    ) -> Result<Answer<usize>> {
        let call = self.call_of(pid, number)?;
        self.resume_poll(call, entries)
    }

    /// `interrupt` of a call of one process, as `resume_of`.
    pub fn interrupt_of(&mut self, pid: Pid, number: CallNumber) -> Result<Done> {
        let call = self.call_of(pid, number)?;
        self.interrupt(call)
    }

    fn call_of(&self, pid: Pid, number: CallNumber) -> Result<ParkedCall> {
        let call = ParkedCall::from_number(number);
        if self.owner(&call)? == pid {
            Ok(call)
        } else {
            Err(NotDone::NoCall)
        }
    }
}
