//! What calls take: numbers, flags, limits, the ends of a pipe, and the entries of a poll.

pub type Pid = u32;
pub type Fd = i32;

/// The number of a call that waits.
pub type CallNumber = u64;

/// The most bytes of a regular file.
pub const MOST_FILE_BYTES: u32 = 16_777_216;

/// The most bytes that a pipe can be made to hold.
pub const MOST_CAPACITY: u32 = 1_048_576;

/// How many descriptors a process may have, where nobody sets another limit, and the greatest limit on them.
pub const USUAL_DESCRIPTORS: u32 = 256;
pub const MOST_DESCRIPTORS: u32 = 65_536;

/// The same of the open file descriptions of a kernel.
pub const USUAL_DESCRIPTIONS: u32 = 4_096;
pub const MOST_DESCRIPTIONS: u32 = 1_048_576;

/// The same of the processes of a kernel.
pub const USUAL_PROCESSES: u32 = 1_024;
pub const MOST_PROCESSES: u32 = 65_536;

/// The modes and flags of `open_name`, `set_fl` and `get_fl`, and `O_NONBLOCK` of `pipe2` (Linux, fcntl.h).
pub const O_RDONLY: u32 = 0;
pub const O_WRONLY: u32 = 0o1;
pub const O_RDWR: u32 = 0o2;
pub const O_CREAT: u32 = 0o100;
pub const O_EXCL: u32 = 0o200;
pub const O_TRUNC: u32 = 0o1000;
pub const O_APPEND: u32 = 0o2000;
pub const O_NONBLOCK: u32 = 0o4000;

/// The flag of a packet pipe, for `pipe2` and in what `get_fl` tells (Linux on x86-64, fcntl.h).
pub const O_DIRECT: u32 = 0o40000;

/// The most bytes of a packet, and the bytes of the capacity that each packet takes, however few it has.
pub const PACKET_BYTES: usize = 4_096;

/// The flag of `splice` and `tee` by which they don't wait (Linux, fcntl.h).
pub const SPLICE_F_NONBLOCK: u32 = 2;

/// Where `lseek` counts from (Linux, stdio.h).
pub const SEEK_SET: i32 = 0;
pub const SEEK_CUR: i32 = 1;
pub const SEEK_END: i32 = 2;

/// What a poll asks and finds (Linux, poll.h).
pub const POLLIN: i16 = 0o1;
pub const POLLOUT: i16 = 0o4;
pub const POLLERR: i16 = 0o10;
pub const POLLHUP: i16 = 0o20;
pub const POLLNVAL: i16 = 0o40;

/// The two ends of a pipe.
#[repr(C)]
#[derive(Clone, Copy, Debug, Default, PartialEq, Eq)]
pub struct Ends {
    pub read_end: Fd,
    pub write_end: Fd,
}

/// What a kernel may take. `Limits::default()` are the limits where nobody sets any:
/// `Limits { memory: 1 << 20, ..Limits::default() }`.
#[derive(Clone, Copy, Debug, PartialEq, Eq)]
pub struct Limits {
    /// The number of the first call that waits.
    pub first_call: CallNumber,
    /// The most bytes that the kernel may hold. A call that would want more is `NoMemory`.
    pub memory: u64,
    /// The most names of files and FIFOs at one time. One more is ENOSPC.
    pub names: u64,
    /// The most calls that wait at one time. A call that would wait above that is EAGAIN, and has taken and given nothing.
    pub waiting_calls: u64,
    /// The most calls of one process that wait at one time. One more of it that would wait is EAGAIN as well, and those of other processes
    /// may still wait.
    pub waiting_of_each: u64,
    /// The most bytes that `set_pipe_sz` lets a pipe hold, at most `MOST_CAPACITY`; more are EPERM.
    pub capacity: u32,
    /// The most bytes of a regular file, at most `MOST_FILE_BYTES`.
    pub file_max: u32,
    /// The most descriptors of a process, numbered from 0, at most `MOST_DESCRIPTORS`. A call that would give one from there on is EMFILE.
    /// A poll takes as many entries, and 256 where this is less. A process takes 8 to 16 bytes for each descriptor up to the highest
    /// one that it opens.
    pub descriptors_max: u32,
    /// The most open file descriptions at one time, at most `MOST_DESCRIPTIONS`. One more is ENFILE.
    pub descriptions_max: u32,
    /// The most processes at one time, with pids from 1 to this number, at most `MOST_PROCESSES`. One more is EAGAIN.
    pub processes_max: u32,
    /// The most bytes of memory that the kernel keeps for further bytes when no pipe or file holds them any more, in segments of 4,096.
    /// `u64::MAX`: 16,777,216, but at most a sixteenth of `memory`.
    pub spare_max: u64,
}

impl Default for Limits {
    fn default() -> Limits {
        Limits {
            first_call: 1,
            memory: u64::MAX,
            names: u64::MAX,
            waiting_calls: u64::MAX,
            waiting_of_each: u64::MAX,
            capacity: MOST_CAPACITY,
            file_max: MOST_FILE_BYTES,
            descriptors_max: USUAL_DESCRIPTORS,
            descriptions_max: USUAL_DESCRIPTIONS,
            processes_max: USUAL_PROCESSES,
            spare_max: u64::MAX,
        }
    }
}

/// An entry of a poll: a descriptor, what is asked of it, and what was found.
#[repr(C)]
#[derive(Clone, Copy, Debug, PartialEq, Eq)]
pub struct PollEntry {
    pub fd: Fd,
    pub events: i16,
    pub revents: i16,
}

impl PollEntry {
    pub fn new(fd: Fd, events: i16) -> PollEntry {
        PollEntry {
            fd,
            events,
            revents: 0,
        }
    }
}
