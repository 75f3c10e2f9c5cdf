//! Three processes wait on each other: a writer of 200,000 bytes, one that moves them from a pipe to another, and a reader. After each call,
//! those that wait and can get on are tried again, until none can: `cargo run --example loop`. Each process keeps the handle of its call
//! that waits.

use bindingclay::memory::{Global, Vec as List};
use bindingclay::{
    Answer, Bytes8, Call, Kernel, Limits, NoMemory, NotDone, ParkedCall, Reply, SpliceFlags, Step,
};

const BYTES: usize = 200_000;

struct Guest {
    pid: u32,
    /// Its next call, after it moved so many bytes. Descriptors 0 and 1 are a pipe, and 2 and 3 another.
    next: fn(usize) -> Result<Call, NoMemory>,
    keeps: &'static [i32],
    moved: usize,
    waits: Option<ParkedCall>,
}

fn write(moved: usize) -> Result<Call, NoMemory> {
    let bytes = List::from_slice(Global, &vec![7; BYTES - moved])?;
    let bytes = Bytes8::from_vec(bytes).expect("no more than a write may have");
    Ok(Call::Write { fd: 1, bytes })
}

fn splice(_: usize) -> Result<Call, NoMemory> {
    Ok(Call::Splice {
        from: 0,
        from_offset: None,
        to: 3,
        to_offset: None,
        len: 4_096,
        flags: SpliceFlags::empty(),
    })
}

fn read(_: usize) -> Result<Call, NoMemory> {
    Ok(Call::Read { fd: 2, n: 1_000 })
}

/// A process goes on with an answer, until a call of it waits, or moves nothing more: then it exits.
fn goes_on(
    kernel: &mut Kernel,
    guest: &mut Guest,
    mut answer: Answer<Reply>,
) -> Result<(), NotDone> {
    loop {
        let count = match answer {
            Answer::Done(Reply::Count { n, .. }) => n as usize,
            Answer::Done(Reply::Bytes(bytes)) => bytes.as_slice().len(),
            Answer::Done(other) => panic!("{other:?}"),
            Answer::Parked(call) => {
                guest.waits = Some(call);
                return Ok(());
            }
        };
        guest.moved += count;
        if count == 0 {
            kernel.step(Step::Begin(guest.pid, Call::Exit))?;
            return Ok(());
        }
        answer = kernel.begin(guest.pid, (guest.next)(guest.moved)?)?;
    }
}

/// A process whose call can get on, and the call.
fn one_that_can<'a>(
    kernel: &mut Kernel,
    guests: &'a mut [Guest],
) -> Option<(&'a mut Guest, ParkedCall)> {
    let number = kernel.next_ready(0)?;
    guests.iter_mut().find_map(|guest| {
        let call = guest.waits.take_if(|call| call.number() == number)?;
        Some((guest, call))
    })
}

/// Tries again each call that can get on, until none can.
fn try_all(kernel: &mut Kernel, guests: &mut [Guest]) -> Result<(), NotDone> {
    while let Some((guest, call)) = one_that_can(kernel, guests) {
        let answer = kernel.resume(call)?;
        goes_on(kernel, guest, answer)?;
    }
    Ok(())
}

/// How many bytes each of them moved, and whether it waits.
fn talk() -> Result<Vec<(usize, bool)>, NotDone> {
    let mut kernel = Kernel::new(Global, Limits::default()).expect("the limits of before");
    kernel.step(Step::Start)?;
    for _ in 0..2 {
        let (nonblock, direct) = (false, false);
        kernel.step(Step::Begin(1, Call::Pipe { nonblock, direct }))?;
    }
    for _ in 0..2 {
        kernel.step(Step::Begin(1, Call::Fork))?;
    }
    let of = |pid, next, keeps| Guest {
        pid,
        next,
        keeps,
        moved: 0,
        waits: None,
    };
    let mut guests = [
        of(1, write, &[1]),
        of(2, splice, &[0, 3]),
        of(3, read, &[2]),
    ];
    for guest in &guests {
        for fd in (0..4).filter(|fd| !guest.keeps.contains(fd)) {
            kernel.step(Step::Begin(guest.pid, Call::Close { fd }))?;
        }
    }
    for place in 0..guests.len() {
        let guest = &mut guests[place];
        let answer = kernel.begin(guest.pid, (guest.next)(0)?)?;
        goes_on(&mut kernel, guest, answer)?;
        try_all(&mut kernel, &mut guests)?;
    }
    Ok(guests
        .iter()
        .map(|guest| (guest.moved, guest.waits.is_some()))
        .collect())
}

fn main() -> Result<(), NotDone> {
    for (moved, waits) in talk()? {
        println!("{moved} bytes{}", if waits { ", and it waits" } else { "" });
    }
    Ok(())
}

#[test]
fn all_bytes_arrive_and_nobody_waits() {
    assert_eq!(talk(), Ok(vec![(BYTES, false); 3]));
}
