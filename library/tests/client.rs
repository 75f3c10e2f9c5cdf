//! A Rust program over the wrapper: each method, moves between threads, and errors as `Result`s. A check that fails prints a line.
#[path = "../rust/bindingclay.rs"]
mod bindingclay;

use bindingclay::*;
use std::fmt::Debug;
use std::sync::{Arc, Condvar, Mutex};
use std::thread;

const EPERM: i32 = 1;
const ENOENT: i32 = 2;
const EINTR: i32 = 4;
const EBADF: i32 = 9;
const EAGAIN: i32 = 11;
const EBUSY: i32 = 16;
const EINVAL: i32 = 22;
const ENFILE: i32 = 23;
const EMFILE: i32 = 24;
const ENOSPC: i32 = 28;
const EPIPE: i32 = 32;

struct Checks {
    failed: u32,
}

impl Checks {
    #[track_caller]
    fn is<T: PartialEq + Debug>(&mut self, got: T, wanted: T) {
        if got != wanted {
            self.failed += 1;
            println!(
                "client.rs:{}: {got:?}, and not {wanted:?}",
                std::panic::Location::caller().line()
            );
        }
    }
}

fn with_process() -> Clay {
    let mut clay = Clay::open(1, MOST_FILE_BYTES).expect("memory for a kernel");
    assert_eq!(clay.start(), Ok(1));
    clay
}

/// What a call answers that is done, and one that waits.
fn done<T>(value: T) -> Result<Answer<T>> {
    Ok(Answer::Done(value))
}

fn parked<T>(number: CallNumber) -> Result<Answer<T>> {
    Ok(Answer::Parked(call(number)))
}

fn call(number: CallNumber) -> ParkedCall {
    ParkedCall::from_number(number)
}

fn short<T>(number: CallNumber, wants: u64) -> Result<T> {
    Err(NotDone::Short {
        call: call(number),
        wants,
    })
}

fn pipes(checks: &mut Checks) {
    let mut clay = with_process();
    let mut into = [0xa5; 16];
    checks.is(
        clay.pipe(1, false),
        Ok(Ends {
            read_end: 0,
            write_end: 1,
        }),
    );
    checks.is(clay.read(1, 0, &mut into), parked(1));
    checks.is(clay.owner(&call(1)), Ok(1));
    checks.is(clay.owner(&call(2)), Err(NotDone::NoCall));
    checks.is(
        (clay.can_progress(&call(1)), clay.taken(&call(1))),
        (false, Ok(0)),
    );
    checks.is(
        (clay.can_progress(&call(2)), clay.taken(&call(2))),
        (true, Err(NotDone::NoCall)),
    );
    checks.is(clay.next_ready(0), None);
    checks.is(clay.resume_read(call(1), &mut into), parked(1));
    checks.is(clay.resume(call(1)), parked(1));
    checks.is(clay.write(1, 1, b"from rust"), done(9));
    checks.is(
        (clay.next_ready(0), clay.next_ready(1), clay.next_ready(2)),
        (Some(1), Some(1), None),
    );
    checks.is(
        (clay.can_progress(&call(1)), clay.taken(&call(1))),
        (true, Ok(0)),
    );
    checks.is(clay.resume_of(2, 1), Err(NotDone::NoCall));
    checks.is(clay.resume_read_of(2, 1, &mut into), Err(NotDone::NoCall));
    checks.is(clay.interrupt_of(2, 1), Err(NotDone::NoCall));
    checks.is(clay.resume_poll_of(2, 1, &mut []), Err(NotDone::NoCall));
    checks.is(clay.resume_read(call(1), &mut into[..8]), short(1, 9));
    checks.is(clay.resume(call(1)), short(1, 9));
    checks.is(clay.resume_of(1, 1), short(1, 9));
    let waits = clay
        .resume_poll(call(1), &mut [])
        .expect_err("no room")
        .into_parked();
    checks.is(waits.as_ref().map(ParkedCall::number), Some(1));
    checks.is(
        clay.resume_read_of(1, waits.map_or(0, ParkedCall::into_number), &mut into),
        done(9),
    );
    checks.is(&into, b"from rust\xa5\xa5\xa5\xa5\xa5\xa5\xa5");
    checks.is(clay.resume_read(call(1), &mut into), Err(NotDone::NoCall));
    checks.is(clay.resume(call(1)), Err(NotDone::NoCall));
    checks.is(clay.resume_poll(call(1), &mut []), Err(NotDone::NoCall));
    checks.is(clay.interrupt(call(1)), Err(NotDone::NoCall));
    checks.is(clay.write(1, 1, &[]), done(0));
    checks.is(clay.write(1, 0, b"a"), Err(NotDone::Fault(EBADF)));
    checks.is(clay.write(2, 1, b"a"), Err(NotDone::NoProcess));
    checks.is(clay.write(1, 1, &[7; 70_000]), parked(2));
    checks.is(clay.write(1, 1, b"a"), parked(3));
    checks.is(
        (clay.can_progress(&call(2)), clay.taken(&call(2))),
        (false, Ok(65_536)),
    );
    checks.is(
        (clay.can_progress(&call(3)), clay.taken(&call(3))),
        (false, Ok(0)),
    );
    checks.is(clay.interrupt_of(1, 3), Err(NotDone::Fault(EINTR)));
    checks.is(clay.fork(1), Ok(2));
    checks.is(clay.close(1, 0), Ok(()));
    checks.is(clay.exit(2), Ok(()));
    checks.is((clay.next_ready(0), clay.next_ready(3)), (Some(2), None));
    // no reader is left, and 65,536 bytes went in
    checks.is(
        clay.resume(call(2)),
        done(Done {
            value: 65_536,
            sigpipe: true,
        }),
    );
    checks.is(clay.write(1, 1, b"a"), Err(NotDone::Fault(EPIPE)));
}

/// Whether the answer tells that bytes moved, if it is that of a call that waits.
fn moved<T>(answer: Result<Answer<T>>) -> Option<bool> {
    match answer {
        Ok(Answer::Parked(call)) => Some(call.moved()),
        _ => None,
    }
}

/// The handle of a write that waits tells whether the step put some of its bytes into the pipe.
fn moves(checks: &mut Checks) {
    let mut clay = with_process();
    checks.is(
        clay.pipe(1, false),
        Ok(Ends {
            read_end: 0,
            write_end: 1,
        }),
    );
    checks.is(moved(clay.read(1, 0, &mut [0])), Some(false));
    checks.is(moved(clay.write(1, 1, &[7; 65_539])), Some(true));
    checks.is(moved(clay.write(1, 1, b"a")), Some(false));
    checks.is(moved(clay.write(1, 1, &[7; 4_096])), Some(false));
    checks.is(moved(clay.resume(call(2))), Some(false));
    checks.is(clay.read(1, 0, &mut [0]), done(1));
    checks.is(moved(clay.resume(call(2))), Some(true));
    checks.is(clay.read(1, 0, &mut [0]), done(1));
    let waits = clay.resume_poll(call(2), &mut []);
    // handles are compared by their numbers
    checks.is(&waits, &parked(2));
    checks.is(moved(waits), Some(true));
    checks.is(call(2).moved(), false);
    checks.is(clay.read(1, 0, &mut [0]), done(1));
    checks.is(moved(clay.resume_of(1, 2)), None);
    checks.is(clay.resume_read(call(1), &mut []), short(1, 1));
}

/// Writes bytes to a pipe, and makes room in it each time that the write waits: it tells how many bytes went in, and how often it waited.
fn write_through_a_full_pipe(clay: &mut Clay, ends: Ends, bytes: &[u8]) -> Result<(usize, usize)> {
    let mut answer = clay.write(1, ends.write_end, bytes)?;
    let mut waited = 0;
    loop {
        let call = match answer {
            Answer::Done(count) => return Ok((count, waited)),
            Answer::Parked(call) => call,
        };
        waited += 1;
        assert_eq!(
            clay.read(1, ends.read_end, &mut [0; PACKET_BYTES])?,
            Answer::Done(PACKET_BYTES)
        );
        answer = clay.resume(call)?.map(Done::count);
    }
}

/// A question mark strands no call: the write that waits is gone on with, and then nothing keeps the pipe's end open.
fn question_marks(checks: &mut Checks) {
    let mut clay = with_process();
    let ends = clay.pipe(1, false).expect("memory for a pipe");
    let count = 65_536 + 3 * PACKET_BYTES;
    checks.is(
        write_through_a_full_pipe(&mut clay, ends, &vec![7; count]),
        Ok((count, 3)),
    );
    let mut into = vec![0; 100_000];
    checks.is(clay.read(1, 0, &mut into), done(65_536));
    checks.is(clay.close(1, 1), Ok(()));
    checks.is(clay.read(1, 0, &mut into), done(0));
}

/// A write that finds no memory as it is resumed comes back in the error, and goes on once there is some.
fn memory_to_resume(checks: &mut Checks) {
    let mut clay = Clay::open_within(&Limits {
        memory: 200_000,
        ..Limits::default()
    })
    .expect("memory for a kernel");
    checks.is(clay.start(), Ok(1));
    checks.is(
        clay.pipe(1, false),
        Ok(Ends {
            read_end: 0,
            write_end: 1,
        }),
    );
    let Ok(Answer::Parked(large)) = clay.write(1, 1, &[7; 70_000]) else {
        panic!("no wait")
    };
    checks.is((large.number(), large.moved()), (1, true));
    checks.is(clay.read(1, 0, &mut [0; 4_096]), done(4_096));
    // a file and other pipes take all segments that are left: an empty pipe has places for two, and needs no longer list for them
    checks.is(clay.open_name(1, b"f", O_WRONLY | O_CREAT), done(2));
    for fd in [3, 5, 7] {
        checks.is(
            clay.pipe(1, true),
            Ok(Ends {
                read_end: fd,
                write_end: fd + 1,
            }),
        );
    }
    for fd in [2, 4, 6, 8] {
        while clay.write(1, fd, &[0; 4_096]) == done(4_096) {}
        checks.is(clay.write(1, fd, &[0; 4_096]), Err(NotDone::NoMemory));
    }
    checks.is(
        (clay.can_progress(&call(1)), clay.taken(&call(1))),
        (true, Ok(65_536)),
    );
    let not_done = clay.resume(large).expect_err("no memory");
    checks.is(&not_done, &NotDone::NoMemoryToResume(call(1)));
    let large = not_done.into_parked().expect("a handle");
    checks.is(large.moved(), false);
    checks.is(
        (clay.can_progress(&call(1)), clay.taken(&call(1))),
        (true, Ok(65_536)),
    );
    checks.is(clay.open_name(1, b"f", O_WRONLY | O_TRUNC), done(9));
    checks.is(moved(clay.resume(large)), Some(true));
    checks.is(clay.taken(&call(1)), Ok(69_632));
    checks.is(clay.read(1, 0, &mut [0; 4_096]), done(4_096));
    checks.is(
        clay.resume(call(1)),
        done(Done {
            value: 70_000,
            sigpipe: false,
        }),
    );
}

fn packets(checks: &mut Checks) {
    let mut clay = with_process();
    let mut into = [0xa5; PACKET_BYTES + 4];
    checks.is(
        clay.pipe2(1, 1 << 31 | O_DIRECT),
        Err(NotDone::Fault(EINVAL)),
    );
    checks.is(clay.pipe2(9, O_APPEND), Err(NotDone::Fault(EINVAL)));
    checks.is(clay.pipe2(9, O_DIRECT), Err(NotDone::NoProcess));
    checks.is(
        clay.pipe2(1, O_DIRECT),
        Ok(Ends {
            read_end: 0,
            write_end: 1,
        }),
    );
    checks.is(clay.get_fl(1, 0), Ok(O_RDONLY));
    checks.is(clay.get_fl(1, 1), Ok(O_WRONLY | O_DIRECT));
    checks.is(clay.write(1, 1, b"abc"), done(3));
    checks.is(clay.write(1, 1, b"de"), done(2));
    checks.is(clay.read(1, 0, &mut into[..2]), done(2));
    checks.is(&into[..3], b"ab\xa5");
    checks.is(clay.read(1, 0, &mut into), done(2));
    checks.is(&into[..3], b"de\xa5");
    checks.is(clay.write(1, 1, &[7; 5_000]), done(5_000));
    checks.is(clay.set_pipe_sz(1, 1, 4_096), Err(NotDone::Fault(EBUSY)));
    checks.is(clay.read(1, 0, &mut into), done(PACKET_BYTES));
    checks.is(
        into[PACKET_BYTES - 1..].to_vec(),
        vec![7, 0xa5, 0xa5, 0xa5, 0xa5],
    );
    checks.is(clay.read(1, 0, &mut into), done(904));
    checks.is(clay.read(1, 0, &mut into), parked(1));
    checks.is(clay.write(1, 1, b"hello"), done(5));
    checks.is(clay.resume_read(call(1), &mut into[..4]), short(1, 5));
    checks.is(clay.resume_read(call(1), &mut into), done(5));
    checks.is(&into[..5], b"hello");
    // without the flags, and with both
    checks.is(
        clay.pipe2(1, 0),
        Ok(Ends {
            read_end: 2,
            write_end: 3,
        }),
    );
    checks.is(
        clay.pipe2(1, O_NONBLOCK | O_DIRECT),
        Ok(Ends {
            read_end: 4,
            write_end: 5,
        }),
    );
    checks.is(clay.get_fl(1, 3), Ok(O_WRONLY));
    checks.is(clay.get_fl(1, 4), Ok(O_RDONLY | O_NONBLOCK));
    checks.is(clay.get_fl(1, 5), Ok(O_WRONLY | O_NONBLOCK | O_DIRECT));
    checks.is(clay.write(1, 5, &[7; 70_000]), done(65_536));
    checks.is(clay.write(1, 5, b"a"), Err(NotDone::Fault(EAGAIN)));
    checks.is(
        clay.splice(1, (4, None), (3, None), 1, 0),
        Err(NotDone::Fault(EINVAL)),
    );
    checks.is(clay.tee(1, 4, 3, 1, 0), Err(NotDone::Fault(EINVAL)));
    checks.is(clay.set_fl(1, 5, O_NONBLOCK), Ok(()));
    checks.is(clay.get_fl(1, 5), Ok(O_WRONLY | O_NONBLOCK | O_DIRECT));
}

fn descriptors(checks: &mut Checks) {
    let mut clay = with_process();
    checks.is(
        clay.pipe(1, true),
        Ok(Ends {
            read_end: 0,
            write_end: 1,
        }),
    );
    checks.is(clay.read(1, 0, &mut [0]), Err(NotDone::Fault(EAGAIN)));
    checks.is(clay.dup(1, 1), Ok(2));
    checks.is(clay.dup2(1, 1, 200), Ok(200));
    checks.is(clay.dup_fd(1, 1, 200), Ok(201));
    checks.is(clay.get_fl(1, 0), Ok(O_RDONLY | O_NONBLOCK));
    checks.is(clay.set_fl(1, 2, O_APPEND), Ok(()));
    checks.is(clay.get_fl(1, 201), Ok(O_WRONLY | O_APPEND));
    checks.is(clay.get_pipe_sz(1, 0), Ok(65_536));
    checks.is(clay.set_pipe_sz(1, 0, 70_000), Ok(131_072));
    let mut entries = [
        PollEntry::new(0, POLLIN),
        PollEntry::new(1, POLLIN | POLLOUT),
        PollEntry::new(9, 0),
    ];
    checks.is(clay.poll(1, &mut entries, true), done(2));
    checks.is(entries.map(|entry| entry.revents), [0, POLLOUT, POLLNVAL]);
    checks.is(clay.poll(1, &mut entries[..1], true), parked(1));
    checks.is(clay.resume_poll(call(1), &mut entries[..1]), parked(1));
    checks.is(clay.write(1, 1, b"a"), done(1));
    // without its entries it isn't ended
    checks.is(clay.resume(call(1)), short(1, 1));
    checks.is(clay.resume_read(call(1), &mut [0; 9]), short(1, 1));
    checks.is(clay.resume_of(1, 1), short(1, 1));
    checks.is(clay.resume_poll(call(1), &mut entries[..1]), done(1));
    checks.is(entries[0].revents, POLLIN);
    for fd in [1, 2, 200, 201] {
        checks.is(clay.close(1, fd), Ok(()));
    }
    checks.is(clay.poll(1, &mut entries[..1], false), done(1));
    checks.is(entries[0].revents, POLLIN | POLLHUP);
    checks.is(
        clay.pipe(1, false),
        Ok(Ends {
            read_end: 1,
            write_end: 2,
        }),
    );
    checks.is(clay.close(1, 1), Ok(()));
    entries[0] = PollEntry::new(2, 0);
    checks.is(clay.poll(1, &mut entries[..1], true), done(1));
    checks.is(entries[0].revents, POLLERR);
    // another call is resumed too, and its value comes back alone
    checks.is(
        clay.pipe(1, false),
        Ok(Ends {
            read_end: 1,
            write_end: 3,
        }),
    );
    checks.is(clay.write(1, 3, &[0; 65_537]), parked(2));
    checks.is(clay.close(1, 1), Ok(()));
    checks.is(clay.resume_poll(call(2), &mut []), done(65_536));
}

fn names(checks: &mut Checks) {
    let mut clay = with_process();
    checks.is(clay.open_name(1, b"f", O_RDWR), Err(NotDone::Fault(ENOENT)));
    checks.is(clay.file_bytes(b"f"), Err(NotDone::Fault(ENOENT)));
    checks.is(clay.open_name(1, b"f", O_RDWR | O_CREAT | O_EXCL), done(0));
    checks.is(clay.file_bytes(b"f"), Ok(vec![]));
    checks.is(clay.write(1, 0, b"hello"), done(5));
    checks.is(clay.file_bytes(b"f"), Ok(b"hello".to_vec()));
    checks.is(clay.lseek(1, 0, -1, SEEK_END), Ok(4));
    checks.is(clay.lseek(1, 0, -1, SEEK_CUR), Ok(3));
    checks.is(clay.lseek(1, 0, 0, SEEK_SET), Ok(0));
    checks.is(
        clay.pipe(1, false),
        Ok(Ends {
            read_end: 1,
            write_end: 2,
        }),
    );
    checks.is(
        clay.pipe(1, false),
        Ok(Ends {
            read_end: 3,
            write_end: 4,
        }),
    );
    checks.is(clay.splice(1, (0, Some(1)), (2, None), 3, 0), done(3));
    checks.is(clay.tee(1, 1, 4, 2, 0), done(2));
    checks.is(clay.splice(1, (1, None), (0, Some(6)), 9, 0), done(3));
    checks.is(clay.file_bytes(b"f"), Ok(b"hello\0ell".to_vec()));
    checks.is(
        clay.splice(1, (1, None), (0, None), 9, SPLICE_F_NONBLOCK),
        Err(NotDone::Fault(EAGAIN)),
    );
    let mut into = [0; 9];
    checks.is(clay.read(1, 3, &mut into), done(2));
    checks.is(&into[..2], b"el");
    checks.is(clay.mkfifo(1, b"q"), Ok(()));
    checks.is(clay.open_name(1, b"q", O_RDONLY), parked(1));
    checks.is(clay.open_name(1, b"q", O_WRONLY), done(5));
    checks.is(
        clay.resume(call(1)).map(|answer| answer.map(Done::fd)),
        done(6),
    );
    checks.is(clay.open_name(1, b"f", O_WRONLY | O_TRUNC), done(7));
    checks.is(clay.file_bytes(b"f"), Ok(vec![]));
    checks.is(clay.unlink(1, b"f"), Ok(()));
    checks.is(clay.unlink(1, b"f"), Err(NotDone::Fault(ENOENT)));
}

fn kernels(checks: &mut Checks) {
    checks.is(version(), VERSION);
    checks.is(Clay::open(1, MOST_FILE_BYTES + 1).is_none(), true);
    let mut clay = Clay::open(u64::MAX, 0).expect("memory for a kernel");
    checks.is(clay.start(), Ok(1));
    checks.is(
        clay.pipe(1, false),
        Ok(Ends {
            read_end: 0,
            write_end: 1,
        }),
    );
    checks.is(clay.read(1, 0, &mut [0]), Err(NotDone::CallsSpent));
    let texts = [
        NotDone::NoMemory,
        NotDone::NoMemoryToResume(call(7)),
        NotDone::Short {
            call: call(7),
            wants: 9,
        },
    ];
    let wanted = [
        "no memory",
        "no memory to resume call 7",
        "too little room: call 7 wants 9",
    ];
    checks.is(
        texts.map(|not_done| not_done.to_string()),
        wanted.map(str::to_string),
    );
}

fn limits(checks: &mut Checks) {
    let default = Limits::default();
    checks.is(
        Clay::open_within(&Limits {
            capacity: MOST_CAPACITY + 1,
            ..default
        })
        .is_none(),
        true,
    );
    let too_great = [
        Limits {
            descriptors_max: MOST_DESCRIPTORS + 1,
            ..default
        },
        Limits {
            descriptions_max: MOST_DESCRIPTIONS + 1,
            ..default
        },
        Limits {
            processes_max: MOST_PROCESSES + 1,
            ..default
        },
    ];
    for limits in too_great {
        checks.is(Clay::open_within(&limits).is_none(), true);
    }
    let few = Limits {
        first_call: 7,
        names: 1,
        waiting_calls: 1,
        waiting_of_each: 1,
        capacity: 65_536,
        file_max: 3,
        descriptors_max: 4,
        processes_max: 1,
        ..default
    };
    let mut clay = Clay::open_within(&few).expect("memory for a kernel");
    checks.is(clay.start(), Ok(1));
    checks.is(clay.start(), Err(NotDone::Fault(EAGAIN)));
    checks.is(clay.fork(1), Err(NotDone::Fault(EAGAIN)));
    checks.is(clay.open_name(1, b"f", O_RDWR | O_CREAT), done(0));
    checks.is(clay.mkfifo(1, b"q"), Err(NotDone::Fault(ENOSPC)));
    checks.is(clay.write(1, 0, b"hello"), done(3));
    checks.is(
        clay.pipe(1, false),
        Ok(Ends {
            read_end: 1,
            write_end: 2,
        }),
    );
    checks.is(clay.set_pipe_sz(1, 1, 65_537), Err(NotDone::Fault(EPERM)));
    checks.is(clay.read(1, 1, &mut [0]), parked(7));
    checks.is(clay.read(1, 1, &mut [0]), Err(NotDone::Fault(EAGAIN)));
    checks.is(clay.pipe(1, false), Err(NotDone::Fault(EMFILE)));
    checks.is(clay.dup2(1, 0, 4), Err(NotDone::Fault(EBADF)));
    checks.is(clay.dup_fd(1, 0, 4), Err(NotDone::Fault(EINVAL)));
    checks.is(clay.dup(1, 0), Ok(3));

    let mut clay = Clay::open_within(&Limits {
        descriptors_max: 1_000,
        descriptions_max: 3,
        waiting_of_each: 1,
        ..default
    })
    .expect("memory for a kernel");
    checks.is(clay.start(), Ok(1));
    checks.is(clay.start(), Ok(2));
    checks.is(clay.poll(1, &mut [], true), parked(1));
    checks.is(clay.poll(1, &mut [], true), Err(NotDone::Fault(EAGAIN)));
    checks.is(clay.poll(2, &mut [], true), parked(2));
    checks.is(clay.pipe(1, false).map(|ends| ends.write_end), Ok(1));
    checks.is(clay.pipe(1, false), Err(NotDone::Fault(ENFILE)));
    checks.is(clay.dup_fd(1, 0, 999), Ok(999));
    checks.is(clay.dup_fd(1, 0, 1_000), Err(NotDone::Fault(EINVAL)));
    let mut entries = [PollEntry::new(1, POLLOUT); 1_001];
    checks.is(clay.poll(1, &mut entries[..1_000], false), done(1_000));
    checks.is(
        clay.poll(1, &mut entries, false),
        Err(NotDone::Fault(EINVAL)),
    );

    let mut clay = Clay::open_within(&Limits {
        memory: 65_536,
        ..default
    })
    .expect("memory for a kernel");
    checks.is(
        clay.memory(),
        Memory {
            held: 0,
            peak: 0,
            most: 65_536,
            spare: 0,
        },
    );
    checks.is(clay.start(), Ok(1));
    checks.is(
        clay.pipe(1, true),
        Ok(Ends {
            read_end: 0,
            write_end: 1,
        }),
    );
    checks.is(clay.write(1, 1, &[0; 65_536]), Err(NotDone::NoMemory));
    let memory = clay.memory();
    checks.is(
        0 < memory.held && memory.held <= memory.peak && memory.peak <= memory.most,
        true,
    );
    checks.is(clay.write(1, 1, &[0; 4_096]), done(4_096));
}

fn facts(checks: &mut Checks) {
    let mut clay = with_process();
    checks.is(
        clay.pipe(1, false),
        Ok(Ends {
            read_end: 0,
            write_end: 1,
        }),
    );
    checks.is(
        clay.pipe2(1, O_DIRECT),
        Ok(Ends {
            read_end: 2,
            write_end: 3,
        }),
    );
    checks.is(clay.open_name(1, b"f", O_RDWR | O_CREAT), done(4));
    checks.is(clay.stats(), SegmentUse { used: 0, spare: 0 });
    checks.is(clay.write(1, 4, b"hello"), done(5));
    checks.is(clay.stats().used, 1);
    checks.is(clay.write(1, 3, b"abc"), done(3));
    checks.is(clay.held(1, 3), Ok(3));
    checks.is(clay.held(1, 4), Err(NotDone::Fault(EBADF)));
    checks.is(clay.held(2, 3), Err(NotDone::NoProcess));
    let kind_and_size = |facts: NodeFacts| (facts.kind, facts.size);
    checks.is(
        clay.fd_facts(1, 0).map(kind_and_size),
        Ok((NodeKind::Pipe, 0)),
    );
    checks.is(
        clay.fd_facts(1, 2).map(kind_and_size),
        Ok((NodeKind::PacketPipe, 3)),
    );
    checks.is(
        clay.fd_facts(1, 4).map(kind_and_size),
        Ok((NodeKind::File, 5)),
    );
    checks.is(clay.fd_facts(1, 0), clay.fd_facts(1, 1));
    checks.is(clay.fd_facts(1, 4), clay.name_facts(b"f"));
    checks.is(clay.fd_facts(1, 5), Err(NotDone::Fault(EBADF)));
    checks.is(clay.fd_facts(2, 0), Err(NotDone::NoProcess));
    checks.is(clay.name_facts(b"g"), Err(NotDone::Fault(ENOENT)));
    checks.is(clay.tee(1, 0, 1, 9, 0), Err(NotDone::Fault(EINVAL)));
    checks.is(clay.splice(1, (0, None), (4, None), 9, 0), parked(1));
    checks.is(
        clay.poll(1, &mut [PollEntry::new(0, POLLIN)], true),
        parked(2),
    );
    checks.is(clay.mkfifo(1, b"p"), Ok(()));
    checks.is(clay.open_name(1, b"p", O_RDONLY), parked(3));
    checks.is(
        clay.call_facts(&call(1)),
        Ok(CallFacts {
            kind: CallKind::Splice,
            pid: 1,
            first: 0,
            second: 4,
        }),
    );
    checks.is(
        clay.call_facts(&call(2)),
        Ok(CallFacts {
            kind: CallKind::Poll,
            pid: 1,
            first: 0,
            second: -1,
        }),
    );
    checks.is(
        clay.call_facts(&call(3)),
        Ok(CallFacts {
            kind: CallKind::Open,
            pid: 1,
            first: -1,
            second: -1,
        }),
    );
    checks.is(clay.call_facts(&call(4)), Err(NotDone::NoCall));
    checks.is(
        clay.process_facts(1),
        Ok(ProcessFacts {
            descriptors: 5,
            waiting_calls: 3,
        }),
    );
    checks.is(clay.process_facts(2), Err(NotDone::NoProcess));
}

/// A kernel that moves to another thread, and one that two threads share under a lock.
fn threads(checks: &mut Checks) {
    let clay = with_process();
    let mut clay = thread::spawn(move || {
        let mut clay = clay;
        let ends = clay.pipe(1, false);
        (clay, ends)
    })
    .join()
    .expect("the thread ends")
    .0;
    checks.is(clay.write(1, 1, b"moved"), done(5));
    let shared = Arc::new((Mutex::new(clay), Condvar::new()));
    let writer = {
        let shared = shared.clone();
        thread::spawn(move || {
            let (clay, changed) = &*shared;
            (0..1000).all(|_| {
                let written = clay.lock().expect("the lock").write(1, 1, b"ab");
                changed.notify_one();
                written == done(2)
            })
        })
    };
    let (clay, changed) = &*shared;
    let mut read = Vec::new();
    while read.len() < 2005 {
        let mut clay = clay.lock().expect("the lock");
        let mut into = [0; 100];
        let mut reply = clay.read(1, 0, &mut into);
        while let Ok(Answer::Parked(call)) = reply {
            clay = changed.wait(clay).expect("the lock");
            reply = clay.resume_read(call, &mut into);
        }
        let Ok(Answer::Done(count @ 1..=100)) = reply else {
            checks.is(reply, done(100));
            break;
        };
        read.extend_from_slice(&into[..count]);
    }
    checks.is(writer.join().expect("the thread ends"), true);
    checks.is(read, [&b"moved"[..], &b"ab".repeat(1000)].concat());
}

/// The record is handed out by pieces or to a writer, and begins before the first process.
fn records(checks: &mut Checks) {
    let mut clay = Clay::open(1, MOST_FILE_BYTES).expect("memory for a kernel");
    checks.is(clay.recorded(&mut [0; 8]), Err(NotDone::Fault(EINVAL)));
    checks.is(clay.record(), Ok(()));
    checks.is(clay.record(), Err(NotDone::Fault(EINVAL)));
    let mut piece = [0; 10];
    checks.is(clay.recorded(&mut piece), Ok(10));
    checks.is(&piece, b"piperun 2\n");
    checks.is(clay.start(), Ok(1));
    checks.is(clay.exit(1), Ok(()));
    let mut record = Vec::new();
    checks.is(
        clay.write_record(&mut record).ok(),
        Some(record.len() as u64),
    );
    checks.is(
        record.ends_with(b"--descriptors-max 256\nstart\n# => pid 1\n1 exit\n# => ok\n"),
        true,
    );
    checks.is(clay.recorded(&mut piece), Ok(0));
    clay.end_record();
    checks.is(clay.recorded(&mut []), Err(NotDone::Fault(EINVAL)));
    checks.is(with_process().record(), Err(NotDone::Fault(EINVAL)));
    // the memory is full of the record: a call that waits can't be ended, and comes back
    let mut clay = Clay::open_within(&Limits {
        memory: 40_000,
        ..Limits::default()
    })
    .expect("memory for a kernel");
    checks.is(clay.record(), Ok(()));
    checks.is(clay.start(), Ok(1));
    let ends = clay.pipe(1, false).expect("a pipe");
    let Ok(Answer::Parked(call)) = clay.read(1, ends.read_end, &mut piece) else {
        panic!("no wait")
    };
    while clay.close(1, 99) != Err(NotDone::NoMemory) {}
    let Err(NotDone::NoMemoryToResume(call)) = clay.interrupt(call) else {
        panic!("memory")
    };
    clay.end_record();
    checks.is(clay.interrupt(call), Err(NotDone::Fault(EINTR)));
}

fn main() {
    let mut checks = Checks { failed: 0 };
    kernels(&mut checks);
    pipes(&mut checks);
    moves(&mut checks);
    question_marks(&mut checks);
    memory_to_resume(&mut checks);
    packets(&mut checks);
    descriptors(&mut checks);
    names(&mut checks);
    limits(&mut checks);
    facts(&mut checks);
    records(&mut checks);
    threads(&mut checks);
    std::process::exit(if checks.failed == 0 { 0 } else { 1 });
}
