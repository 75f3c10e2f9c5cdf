//! Opening a kernel, and the calls of its processes.

use super::answers::{Answer, Done, NotDone, Result};
use super::raw::*;
use super::values::{CallNumber, Ends, Fd, Limits, Pid, PollEntry};
use super::{Clay, VERSION, version};

// In each call the handle is that of a kernel that lives as long as `self`, and what is pointed to is borrowed for the call.
impl Clay {
    /// A kernel without processes, whose calls that wait are numbered from `first_call` on. `None` where there is no memory, or
    /// `file_max`, the most bytes of a file, is above `MOST_FILE_BYTES`.
    ///
    /// # Panics
    ///
    /// As `open_within`.
    pub fn open(first_call: CallNumber, file_max: u32) -> Option<Clay> {
        Clay::open_within(&Limits {
            first_call,
            file_max,
            ..Limits::default()
        })
    }

    /// A kernel without processes, within limits. `None` where there is no memory, or a limit is above its greatest.
    ///
    /// # Panics
    ///
    /// Where the library that was linked declares other calls: its version differs from `VERSION` by more than the third number.
    pub fn open_within(limits: &Limits) -> Option<Clay> {
        assert_eq!(
            version() / 1_000,
            VERSION / 1_000,
            "the library is of another version than its wrapper"
        );
        let Limits {
            first_call,
            memory,
            names,
            waiting_calls,
            waiting_of_each,
            capacity,
            file_max,
            descriptors_max,
            descriptions_max,
            processes_max,
            spare_max,
        } = *limits;
        let sizes = u64::from(file_max) << 32 | u64::from(capacity);
        // the words of bindingclay_limits, whose first one is its size
        let words = [
            88,
            first_call,
            memory,
            names,
            waiting_calls,
            sizes,
            u64::from(descriptors_max),
            spare_max,
            u64::from(descriptions_max),
            u64::from(processes_max),
            waiting_of_each,
        ];
        let mut kernel = std::ptr::null_mut();
        let mut budget = std::ptr::null_mut();
        let open = unsafe {
            bindingclay_open_words(words.as_ptr(), words.len(), &mut kernel, &mut budget)
        };
        if !open {
            unsafe { free(budget) }
            return None;
        }
        Some(Clay(Handle { kernel }))
    }

    pub fn start(&mut self) -> Result<Pid> {
        unsafe { bindingclay_start(self.0) }.number()
    }

    pub fn fork(&mut self, pid: Pid) -> Result<Pid> {
        unsafe { bindingclay_fork(self.0, pid) }.number()
    }

    pub fn exit(&mut self, pid: Pid) -> Result<()> {
        unsafe { bindingclay_exit(self.0, pid) }.nothing()
    }

    pub fn pipe(&mut self, pid: Pid, nonblock: bool) -> Result<Ends> {
        let mut ends = Ends::default();
        unsafe { bindingclay_pipe(self.0, pid, nonblock, &mut ends) }.nothing()?;
        Ok(ends)
    }

    /// A pipe with the flags `O_NONBLOCK`, for both ends, and `O_DIRECT`, for a packet pipe. Another flag is EINVAL, before all else.
    ///
    /// A packet pipe holds packets of 1 to 4,096 bytes. A write makes one packet of each 4,096 bytes, and a last one of those that are left.
    /// A read takes the first packet, and gives as many of its bytes as it has room for. The rest of that packet is lost.
    ///
    /// A packet takes 4,096 bytes of the capacity and of memory, even if it has one byte. So 16 packets of one byte fill a new pipe.
    /// `splice` and `tee` of a packet pipe are EINVAL. `get_fl` tells `O_DIRECT` of its write end.
    pub fn pipe2(&mut self, pid: Pid, flags: u32) -> Result<Ends> {
        let mut ends = Ends::default();
        unsafe { bindingclay_pipe2(self.0, pid, flags, &mut ends) }.nothing()?;
        Ok(ends)
    }

    pub fn mkfifo(&mut self, pid: Pid, name: &[u8]) -> Result<()> {
        unsafe { bindingclay_mkfifo(self.0, pid, name.as_ptr(), name.len()) }.nothing()
    }

    /// The value is the least free descriptor. It waits if it opens an end of a FIFO whose other end nobody has.
    pub fn open_name(&mut self, pid: Pid, name: &[u8], flags: u32) -> Result<Answer<Fd>> {
        let raw = unsafe { bindingclay_open_name(self.0, pid, name.as_ptr(), name.len(), flags) };
        Ok(raw.answer()?.map(Done::fd))
    }

    pub fn unlink(&mut self, pid: Pid, name: &[u8]) -> Result<()> {
        unsafe { bindingclay_unlink(self.0, pid, name.as_ptr(), name.len()) }.nothing()
    }

    /// All bytes of the file that a name stands for.
    pub fn file_bytes(&self, name: &[u8]) -> Result<Vec<u8>> {
        let mut bytes = Vec::new();
        loop {
            let given = unsafe {
                bindingclay_file_bytes(
                    self.0,
                    name.as_ptr(),
                    name.len(),
                    bytes.as_mut_ptr(),
                    bytes.len(),
                )
            };
            // there is too little room
            if given.kind != 7 {
                return given.done().map(|_| bytes);
            }
            let count = given.value as usize;
            bytes
                .try_reserve_exact(count)
                .map_err(|_| NotDone::NoMemory)?;
            bytes.resize(count, 0);
        }
    }

    /// The value is how many bytes were read, into the first of these; 0 at the end. It waits if there are no bytes, and there is a writer.
    #[inline]
    pub fn read(&mut self, pid: Pid, fd: Fd, into: &mut [u8]) -> Result<Answer<usize>> {
        unsafe { bindingclay_read(self.0, pid, fd, into.as_mut_ptr(), into.len()) }.count()
    }

    /// The value is how many bytes went in. It waits until all did, and keeps a copy of them; `taken` tells how many went in so far, and
    /// `ParkedCall::moved` whether some went in at once.
    #[inline]
    pub fn write(&mut self, pid: Pid, fd: Fd, bytes: &[u8]) -> Result<Answer<usize>> {
        unsafe { bindingclay_write(self.0, pid, fd, bytes.as_ptr(), bytes.len()) }.count()
    }

    pub fn lseek(&mut self, pid: Pid, fd: Fd, offset: i64, whence: i32) -> Result<u64> {
        unsafe { bindingclay_lseek(self.0, pid, fd, offset, whence) }.value()
    }

    /// An offset is that of a file, and `None` for the file's own. The value is how many bytes were moved. Without `SPLICE_F_NONBLOCK` it
    /// waits for bytes, and for room.
    pub fn splice(
        &mut self,
        pid: Pid,
        from: (Fd, Option<u64>),
        to: (Fd, Option<u64>),
        len: u32,
        flags: u32,
    ) -> Result<Answer<usize>> {
        let (from, from_offset) = from;
        let (to, to_offset) = to;
        unsafe {
            bindingclay_splice_at(
                self.0,
                pid,
                from,
                from_offset.is_some(),
                from_offset.unwrap_or(0),
                to,
                to_offset.is_some(),
                to_offset.unwrap_or(0),
                len,
                flags,
            )
        }
        .count()
    }

    /// The value is how many bytes were copied. Without `SPLICE_F_NONBLOCK` it waits for bytes, and for room.
    pub fn tee(
        &mut self,
        pid: Pid,
        from: Fd,
        to: Fd,
        len: u32,
        flags: u32,
    ) -> Result<Answer<usize>> {
        unsafe { bindingclay_tee(self.0, pid, from, to, len, flags) }.count()
    }

    /// The value is how many entries aren't empty. With `wait` it waits until one isn't; without, it never waits.
    pub fn poll(
        &mut self,
        pid: Pid,
        entries: &mut [PollEntry],
        wait: bool,
    ) -> Result<Answer<usize>> {
        unsafe { bindingclay_poll(self.0, pid, entries.as_mut_ptr(), entries.len(), wait) }.count()
    }

    pub fn dup(&mut self, pid: Pid, fd: Fd) -> Result<Fd> {
        unsafe { bindingclay_dup(self.0, pid, fd) }.fd()
    }

    pub fn dup2(&mut self, pid: Pid, fd: Fd, target: Fd) -> Result<Fd> {
        unsafe { bindingclay_dup2(self.0, pid, fd, target) }.fd()
    }

    pub fn dup_fd(&mut self, pid: Pid, fd: Fd, least: Fd) -> Result<Fd> {
        unsafe { bindingclay_dup_fd(self.0, pid, fd, least) }.fd()
    }

    pub fn close(&mut self, pid: Pid, fd: Fd) -> Result<()> {
        unsafe { bindingclay_close(self.0, pid, fd) }.nothing()
    }

    pub fn get_fl(&mut self, pid: Pid, fd: Fd) -> Result<u32> {
        unsafe { bindingclay_get_fl(self.0, pid, fd) }.number()
    }

    pub fn set_fl(&mut self, pid: Pid, fd: Fd, flags: u32) -> Result<()> {
        unsafe { bindingclay_set_fl(self.0, pid, fd, flags) }.nothing()
    }

    pub fn get_pipe_sz(&mut self, pid: Pid, fd: Fd) -> Result<u32> {
        unsafe { bindingclay_get_pipe_sz(self.0, pid, fd) }.number()
    }

    pub fn set_pipe_sz(&mut self, pid: Pid, fd: Fd, size: u32) -> Result<u32> {
        unsafe { bindingclay_set_pipe_sz(self.0, pid, fd, size) }.number()
    }
}
