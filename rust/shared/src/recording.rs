//! Records of a shared kernel. A step that wants no memory of its own comes to its end, whether it can be recorded or not.

use super::super::{Clay, NotDone};
use super::Shared;
use std::io;

impl Shared {
    /// Begins to record the steps of the kernel, which [`recorded`](Self::recorded) hands out. A record is a script that `piperun --check` runs
    /// again. It has the steps of all threads and tasks in the order in which they were made, with each try of a call that waits.
    ///
    /// The record is in the memory of the kernel until it is handed out, so any call may be `OutOfMemory`. An exit and a handle that is dropped
    /// are never, and each call that waits comes to its end. If there is no memory to record that, the recording ends, and what wasn't handed
    /// out is dropped.
    ///
    /// # Errors
    ///
    /// `EINVAL` if a process was started or a recording begun before, as a record has all steps of its kernel; and `OutOfMemory`.
    ///
    /// ```
    /// use bindingclay::shared::Shared;
    /// use std::io::{Read, Write};
    ///
    /// let kernel = Shared::new()?;
    /// kernel.record()?;
    /// let (mut reader, mut writer) = kernel.start()?.pipe()?;
    /// writer.write_all(b"hello")?;
    /// reader.read_exact(&mut [0; 5])?;
    /// let mut record = Vec::new(); // or a file
    /// kernel.write_record(&mut record)?;
    /// assert!(record.ends_with(b"1 write 1 68656c6c6f\n# => count 5\n1 read 0 5\n# => data 68656c6c6f\n"));
    /// # Ok::<(), std::io::Error>(())
    /// ```
    pub fn record(&self) -> io::Result<()> {
        Ok(self.front.lock().clay().record()?)
    }

    /// Ends the recording, and drops what wasn't handed out. If none goes on, nothing happens.
    pub fn end_record(&self) {
        self.front.lock().clay().end_record();
    }

    /// Hands out the first bytes of the record that weren't handed out yet, and tells how many. It is 0 only if none is left, or there is no
    /// room. A line may be handed out in parts. Any thread may do so at any time.
    ///
    /// # Errors
    ///
    /// `EINVAL` if no recording goes on, and `OutOfMemory` if there is none for the text of the last reply.
    pub fn recorded(&self, into: &mut [u8]) -> io::Result<usize> {
        Ok(self.front.lock().clay().recorded(into)?)
    }

    /// Writes all of the record that wasn't handed out yet, and tells how many bytes that is. It doesn't flush, and writes without the lock.
    ///
    /// # Errors
    ///
    /// Those of [`recorded`](Self::recorded), and those of the writer. What was given to a writer that failed isn't handed out again.
    pub fn write_record<W: io::Write>(&self, mut to: W) -> io::Result<u64> {
        let mut bytes = [0; 4_096];
        let mut written = 0;
        loop {
            let count = self.recorded(&mut bytes)?;
            if count == 0 {
                return Ok(written);
            }
            to.write_all(&bytes[..count])?;
            written += count as u64;
        }
    }
}

/// Makes a step that wants no memory but to be recorded. If there is none for that, the recording ends, and the step is made again.
pub(super) fn at_last<T>(
    clay: &mut Clay,
    step: impl Fn(&mut Clay) -> Result<T, NotDone>,
) -> Result<T, NotDone> {
    match step(clay) {
        Err(NotDone::NoMemory | NotDone::NoMemoryToResume(_)) => {
            clay.end_record();
            step(clay)
        }
        made => made,
    }
}

/// Ends the call of a number, and tells what it had taken.
pub(super) fn interrupt(clay: &mut Clay, number: u64) -> io::Result<usize> {
    Ok(at_last(clay, |clay| clay.interrupt_number(number))?)
}
