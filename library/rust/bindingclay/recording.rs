//! Records of the steps of a kernel.

use super::Clay;
use super::answers::Result;
use super::raw::*;
use std::io;

// In each call the handle is that of a kernel that lives as long as `self`, and what is pointed to is borrowed for the call.
impl Clay {
    /// Begins to record the steps of this kernel, which `recorded` hands out. A record is a script that `piperun --check` runs again: each answer
    /// has to be the recorded one then.
    ///
    /// The record is in the memory of the kernel until it is handed out. So while steps are recorded, any of them may be `NoMemory`, and has
    /// changed nothing then. A read asks for memory for a copy of the bytes that it gives and for its two lines.
    ///
    /// # Errors
    ///
    /// `Fault` with EINVAL if a process was started or a recording begun before, as a record has all steps of its kernel. `NoMemory` if there is
    /// none for its first lines, and then it can begin later.
    pub fn record(&mut self) -> Result<()> {
        unsafe { bindingclay_record(self.0, true) }.nothing()
    }

    /// Ends the recording, and drops what wasn't handed out. If none goes on, nothing happens.
    pub fn end_record(&mut self) {
        // it is always done
        let _done = unsafe { bindingclay_record(self.0, false) };
    }

    /// Hands out the first bytes of the record that weren't handed out yet, and tells how many. It is 0 only if none is left, or there is no
    /// room: so call it until it is 0. A line may be handed out in parts.
    ///
    /// # Errors
    ///
    /// `Fault` with EINVAL if no recording goes on. `NoMemory` if nothing is left but the reply of the last step, and there is no memory for its
    /// text.
    pub fn recorded(&mut self, into: &mut [u8]) -> Result<usize> {
        Ok(
            unsafe { bindingclay_recorded(self.0, into.as_mut_ptr(), into.len()) }.value()?
                as usize,
        )
    }

    /// Writes all of the record that wasn't handed out yet, and tells how many bytes that is. It doesn't flush.
    ///
    /// # Errors
    ///
    /// Those of `recorded`, and those of the writer. What was given to a writer that failed isn't handed out again.
    pub fn write_record<W: io::Write>(&mut self, mut to: W) -> io::Result<u64> {
        let mut bytes = [0; 4_096];
        let mut written = 0;
        loop {
            let count = self.recorded(&mut bytes)?;
            if count == 0 {
                return Ok(written);
            }
            to.write_all(&bytes[..count])?;
            written += count as u64;
        }
    }
}
