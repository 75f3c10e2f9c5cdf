//! A call that may wait, from its begin to its end, in a thread.

use super::super::{Answer, Clay, NotDone, ParkedCall, PollEntry};
use super::front::Locked;
use super::polling::POLLOUT;
use super::process::Owner;
use super::recording::interrupt;
use super::sleeping::{Sleeper, Slot};
use super::waiters::Who;
use super::ways::{Place, Way};
use std::io;
use std::sync::Arc;
use std::time::Instant;

/// The most bytes of one read or write (`MAX_BYTES` of the layer). More are cut, which is a short count (POSIX.1-2017, write).
const MOST_BYTES: usize = 16_777_216;

/// A place to take bytes from, or to give them to: a descriptor, with the offset of a file if one is given.
pub(super) type Side = (i32, Option<u64>);

/// A call that may wait.
pub(super) enum Call<'a> {
    Read {
        fd: i32,
        into: &'a mut [u8],
    },
    /// A large write waits for room by a poll, which has no copy of its bytes as a parked write has.
    Write {
        fd: i32,
        bytes: &'a [u8],
        waits_for_room: bool,
    },
    Open {
        name: &'a [u8],
        flags: u32,
    },
    Splice {
        from: Side,
        to: Side,
        len: u32,
        flags: u32,
    },
    Tee {
        from: i32,
        to: i32,
        len: u32,
        flags: u32,
    },
    Poll {
        entries: &'a mut [PollEntry],
        wait: bool,
    },
}

/// Up to so many bytes a write goes in whole (`PIPE_BUF`; POSIX.1-2017, write).
const SMALL_WRITE: usize = 4_096;

/// The number of errno.h on Linux.
const EBADF: i32 = 9;

/// The numbers of fcntl.h on Linux.
const O_ACCMODE: u32 = 0o3;
const O_RDONLY: u32 = 0;
const O_NONBLOCK: u32 = 0o4000;

/// The poll by which a large write waits for room; none if the write is small, there is room, or it is to answer at once.
#[inline]
fn begin_to_poll(
    clay: &mut Clay,
    pid: u32,
    fd: i32,
    count: usize,
) -> Result<Option<ParkedCall>, NotDone> {
    if count <= SMALL_WRITE {
        return Ok(None);
    }
    let mut entry = [Clay::entry(fd, POLLOUT)];
    if clay.poll(pid, &mut entry, false)? != Answer::Done(0) {
        return Ok(None);
    }
    let flags = clay.get_fl(pid, fd)?;
    if flags & O_ACCMODE == O_RDONLY || flags & O_NONBLOCK != 0 {
        return Ok(None);
    }
    match clay.poll(pid, &mut entry, true)? {
        Answer::Done(_) => Ok(None),
        Answer::Parked(call) => Ok(Some(call)),
    }
}

#[inline(always)]
fn begin_write(
    clay: &mut Clay,
    pid: u32,
    fd: i32,
    bytes: &[u8],
    waits_for_room: &mut bool,
) -> Result<Answer<usize>, NotDone> {
    *waits_for_room = false;
    if let Some(call) = begin_to_poll(clay, pid, fd, bytes.len())? {
        *waits_for_room = true;
        return Ok(Answer::Parked(call));
    }
    clay.write(pid, fd, &bytes[..cut(bytes.len())])
}

/// The bytes that a read or a write looks at.
pub(super) fn cut(len: usize) -> usize {
    len.min(MOST_BYTES)
}

impl Call<'_> {
    #[inline(always)]
    pub(super) fn begin(&mut self, clay: &mut Clay, pid: u32) -> Result<Answer<usize>, NotDone> {
        match self {
            Call::Read { fd, into } => {
                let most = cut(into.len());
                clay.read(pid, *fd, &mut into[..most])
            }
            Call::Write {
                fd,
                bytes,
                waits_for_room,
            } => begin_write(clay, pid, *fd, bytes, waits_for_room),
            Call::Open { name, flags } => {
                Ok(clay.open_name(pid, name, *flags)?.map(|fd| fd as usize))
            }
            Call::Splice {
                from,
                to,
                len,
                flags,
            } => clay.splice(pid, *from, *to, *len, *flags),
            Call::Tee {
                from,
                to,
                len,
                flags,
            } => clay.tee(pid, *from, *to, *len, *flags),
            Call::Poll { entries, wait } => clay.poll(pid, entries, *wait),
        }
    }

    /// Of a read or a write its descriptor. A large write that waits for room is a poll.
    #[inline(always)]
    fn way(&self) -> Option<(Way, i32)> {
        match self {
            Call::Read { fd, .. } => Some((Way::Read, *fd)),
            Call::Write {
                fd,
                waits_for_room: false,
                ..
            } => Some((Way::Write, *fd)),
            _ => None,
        }
    }

    /// The descriptor of a large write that waits for room.
    fn awaits_room_at(&self) -> Option<i32> {
        match self {
            Call::Write {
                fd,
                waits_for_room: true,
                ..
            } => Some(*fd),
            _ => None,
        }
    }

    /// Makes a slot ready for the answer of this call, which waits.
    fn expect(&self, slot: &mut Slot) -> io::Result<()> {
        match self {
            Call::Poll { entries, .. } => slot.expect(entries),
            Call::Write {
                fd,
                waits_for_room: true,
                ..
            } => slot.expect(&[Clay::entry(*fd, POLLOUT)]),
            _ => slot.expect(&[]),
        }
    }

    /// Gives the caller what the call gave that waited.
    fn give(&mut self, slot: &mut Slot, count: usize) {
        match self {
            Call::Read { into, .. } => into[..count].copy_from_slice(&slot.bytes[..count]),
            Call::Poll { entries, .. } => entries.copy_from_slice(&slot.entries),
            _ => {}
        }
        slot.forget();
    }
}

/// Makes a call of a process, and waits for its end.
#[inline(always)]
pub(super) fn run(
    owner: &Owner,
    mut call: Call<'_>,
    deadline: Option<Instant>,
) -> io::Result<usize> {
    let front = &*owner.front;
    let mut held = front.hold();
    if owner.is_gone() {
        return Err(NotDone::NoProcess.into());
    }
    held.waiters.make_room()?;
    match call.begin(&mut held.clay, owner.pid) {
        Ok(Answer::Done(value)) => {
            front.leave_behind(held, owner.pid, call.way());
            Ok(value)
        }
        Ok(Answer::Parked(parked)) => wait(owner, front.locked(held), parked, call, deadline),
        // who fails has helped nobody
        Err(fault) => Err(fault.into()),
    }
}

/// Sleeps until the call is answered.
#[cold]
fn wait(
    owner: &Owner,
    locked: Locked<'_>,
    parked: ParkedCall,
    call: Call<'_>,
    deadline: Option<Instant>,
) -> io::Result<usize> {
    Sleeper::with(|sleeper| wait_by(sleeper, owner, locked, parked, call, deadline))
}

fn wait_by<'a>(
    sleeper: &Arc<Sleeper>,
    owner: &'a Owner,
    mut locked: Locked<'a>,
    mut parked: ParkedCall,
    mut call: Call<'_>,
    deadline: Option<Instant>,
) -> io::Result<usize> {
    loop {
        let room_at = call.awaits_room_at().map(|fd| (fd, owner.closes(fd)));
        let (number, may_be_next) = enlist(owner, locked, parked, &call, sleeper)?;
        let count = sleeper
            .sleep(&owner.front, deadline, may_be_next)
            .unwrap_or_else(|| give_up(owner, sleeper, number))?;
        let Some((fd, closes)) = room_at else {
            call.give(&mut sleeper.slot(), count);
            return Ok(count);
        };
        locked = owner.lock()?;
        // somebody closed it by its number, which may name another pipe by now, and that may have the key of the one before
        if owner.closes(fd) != closes {
            return Err(io::Error::from_raw_os_error(EBADF));
        }
        locked.waiters().make_room()?;
        parked = match call.begin(locked.clay(), owner.pid)? {
            Answer::Done(count) => return Ok(count),
            Answer::Parked(parked) => parked,
        };
    }
}

/// Adds a call to those that wait, and lets go of the lock. Returns the number of the call, and whether the next step may answer it: where others wait
/// at its pipe, it answers one of those that came before.
fn enlist(
    owner: &Owner,
    mut locked: Locked<'_>,
    parked: ParkedCall,
    call: &Call<'_>,
    sleeper: &Arc<Sleeper>,
) -> io::Result<(u64, bool)> {
    // an open that waits is seen by another open, and a write may have put in some bytes
    let has_helped = parked.moved() || matches!(call, Call::Open { .. });
    let number = parked.into_number();
    if let Err(fault) = call.expect(&mut sleeper.slot()) {
        // only a poll takes memory for its slot, and it has taken nothing
        let _ended = interrupt(locked.clay(), number);
        return Err(fault);
    }
    let place = call
        .way()
        .map(|(way, fd)| Place::of(locked.clay(), owner.pid, fd, way));
    let may_be_next =
        locked
            .waiters()
            .add(number, owner.pid, Who::Thread(Arc::clone(sleeper)), place);
    if !has_helped {
        locked.helped_none();
    }
    Ok((number, may_be_next))
}

/// Ends a call whose next try finds no memory: it would be named for ever. A write that put in some bytes tells how many.
pub(super) fn end_without_memory(clay: &mut Clay, number: u64) -> io::Result<usize> {
    match interrupt(clay, number) {
        Ok(count) => Ok(count),
        Err(_) => Err(io::ErrorKind::OutOfMemory.into()),
    }
}

/// Ends a call whose deadline is over, unless it is answered: a write that put in some bytes tells how many.
fn give_up(owner: &Owner, sleeper: &Sleeper, number: u64) -> io::Result<usize> {
    let mut locked = owner.front.lock();
    if locked.waiters().remove(number).is_none() {
        locked.helped_none();
        return sleeper
            .take()
            .expect("a call that is in the list no more is answered");
    }
    match interrupt(locked.clay(), number) {
        Err(fault) if fault.kind() == io::ErrorKind::Interrupted => {
            Err(io::ErrorKind::TimedOut.into())
        }
        ended => ended,
    }
}
