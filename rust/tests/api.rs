//! What a Rust program may count on: types that go between threads, errors that are errors, and no panic where a call is given too much.

use bindingclay::memory::{AllocError, AllocFailed, Allocator, Global, Vec};
use bindingclay::*;
use std::error::Error;
use std::fmt::Debug;
use std::hint::black_box;
use std::io;

fn go_between_threads<T: Send + Sync + Debug>() {}

fn are_errors<T: Error + Send + Sync + 'static>() {}

#[test]
fn types_have_the_traits_of_plain_values() {
    go_between_threads::<Kernel>();
    go_between_threads::<Kernel<&'static Global>>();
    go_between_threads::<Step>();
    go_between_threads::<Call>();
    go_between_threads::<Reply>();
    go_between_threads::<Outcome>();
    go_between_threads::<Answer<Reply>>();
    go_between_threads::<ParkedCall>();
    go_between_threads::<(Name, Bytes8, PollList, MaskList)>();
    go_between_threads::<(PollEntry, Stats, Limits)>();
    are_errors::<Errno>();
    are_errors::<NoMemory>();
    are_errors::<NotDone>();
    are_errors::<FileMaxFault>();
    are_errors::<AllocError>();
    are_errors::<AllocFailed<Step>>();
    are_errors::<script::Fault>();
    are_errors::<script::ScriptFault>();
}

fn with_pipe() -> Kernel {
    with_pipe_that(true)
}

/// A pipe without `NONBLOCK`, so that calls wait.
fn with_waits() -> Kernel {
    with_pipe_that(false)
}

fn with_pipe_that(nonblock: bool) -> Kernel {
    let mut kernel = Kernel::new(Global, Limits::default()).expect("the limits of before");
    assert_eq!(kernel.step(Step::Start), Ok(Reply::Pid(1)));
    assert_eq!(
        kernel.step(Step::Begin(
            1,
            Call::Pipe {
                nonblock,
                direct: false
            }
        )),
        Ok(Reply::Fds(0, 1))
    );
    kernel
}

fn kernel_within(limits: Limits) -> Kernel {
    let mut kernel = Kernel::new(Global, limits).expect("a file of few bytes");
    assert_eq!(kernel.step(Step::Start), Ok(Reply::Pid(1)));
    kernel
}

#[test]
fn a_greater_limit_on_a_table_counts_as_the_greatest() {
    let mut kernel = kernel_within(Limits {
        descriptors_max: u32::MAX,
        descriptions_max: u32::MAX,
        ..Limits::DEFAULT
    });
    let pipe = || {
        let direct = false;
        let nonblock = true;
        Step::Begin(1, Call::Pipe { nonblock, direct })
    };
    // more than 4,096 descriptions
    for fd in (0..5_000).step_by(2) {
        assert_eq!(kernel.step(pipe()), Ok(Reply::Fds(fd, fd + 1)));
    }
    let last = numbers::MAX_DESCRIPTORS as i32 - 1;
    let least = last;
    let mut duplicate = |least| kernel.step(Step::Begin(1, Call::DupFd { fd: 0, least }));
    assert_eq!(duplicate(least), Ok(Reply::Fd(last)));
    assert_eq!(duplicate(least), Ok(Reply::Fault(Errno::EMFILE)));
    assert_eq!(duplicate(least + 1), Ok(Reply::Fault(Errno::EINVAL)));
    let mut entries = vec![poll(last)[0]; numbers::MAX_DESCRIPTORS + 1];
    let most = &mut entries[..numbers::MAX_DESCRIPTORS];
    assert_eq!(kernel.poll_into(1, most, false), Ok(Answer::Done(0)));
    let refused = Err(NotDone::Fault(Errno::EINVAL));
    assert_eq!(kernel.poll_into(1, &mut entries, false), refused);

    let mut kernel = kernel_within(Limits {
        descriptors_max: 1,
        processes_max: u32::MAX,
        ..Limits::DEFAULT
    });
    for pid in 2..=numbers::MAX_PROCESSES as u32 {
        assert_eq!(kernel.step(Step::Start), Ok(Reply::Pid(pid)));
    }
    let full = Ok(Reply::Fault(Errno::EAGAIN));
    assert_eq!(kernel.step(Step::Start), full);
    assert_eq!(
        kernel.step(Step::Begin(40_000, Call::Exit)),
        Ok(Reply::Unit)
    );
    assert_eq!(
        kernel.step(Step::Begin(1, Call::Fork)),
        Ok(Reply::Pid(40_000))
    );
    assert_eq!(kernel.step(Step::Begin(1, Call::Fork)), full);
}

#[test]
fn as_many_calls_of_each_process_wait_as_may() {
    let limits = Limits {
        waiting_of_each: 1,
        waiting_max: 2,
        ..Limits::DEFAULT
    };
    let mut kernel = kernel_within(limits);
    let pipe = Call::Pipe {
        nonblock: false,
        direct: false,
    };
    assert_eq!(kernel.step(Step::Begin(1, pipe)), Ok(Reply::Fds(0, 1)));
    for pid in 2..=3 {
        let fork = Step::Begin(1, Call::Fork);
        assert_eq!(kernel.step(fork), Ok(Reply::Pid(pid)));
    }
    let read = |pid| Step::Begin(pid, Call::Read { fd: 0, n: 1 });
    let refused = Ok(Reply::Fault(Errno::EAGAIN));
    assert_eq!(kernel.step(read(1)), Ok(Reply::Parked(1)));
    assert_eq!(kernel.step(read(1)), refused);
    assert_eq!(
        kernel.poll_into(1, &mut [], true),
        Err(NotDone::Fault(Errno::EAGAIN))
    );
    assert_eq!(kernel.step(read(2)), Ok(Reply::Parked(2)));
    // two wait in all
    assert_eq!(kernel.step(read(3)), refused);
    assert_eq!(
        kernel.step(Step::Interrupt(1)),
        Ok(Reply::Fault(Errno::EINTR))
    );
    assert_eq!(kernel.step(read(2)), refused);
    assert_eq!(kernel.step(read(3)), Ok(Reply::Parked(3)));
}

#[test]
fn the_greatest_limit_is_the_last_that_is_taken() {
    let of = |file_max| {
        Kernel::new(
            Global,
            Limits {
                file_max,
                ..Limits::DEFAULT
            },
        )
    };
    assert!(of(numbers::MAX_FILE_BYTES).is_ok());
    assert_eq!(of(numbers::MAX_FILE_BYTES + 1).err(), Some(FileMaxFault));
    let limits = Limits {
        file_max: numbers::MAX_FILE_BYTES + 1,
        ..Limits::DEFAULT
    };
    assert_eq!(
        script::run(io::empty(), io::sink(), limits),
        Err(script::Fault::FileMax)
    );
}

#[test]
fn a_write_of_too_many_bytes_is_refused_and_changes_nothing() {
    let mut kernel = with_pipe();
    let bytes = vec![7; numbers::MAX_BYTES + 1];
    assert_eq!(kernel.write_from(1, 1, &bytes), Err(NotDone::TooLong));
    assert_eq!(
        kernel.read_into(1, 0, &mut [0]),
        Err(NotDone::Fault(Errno::EAGAIN))
    );
    assert_eq!(
        kernel.write_from(1, 1, &bytes[1..]),
        Ok(Answer::Done(65_536))
    );
}

// With pointers of 32 bits no list has so many bytes.
#[cfg(target_pointer_width = "64")]
#[test]
fn a_read_into_too_many_bytes_is_refused() {
    const TOO_MANY: usize = 1 << 32;
    if std::vec::Vec::<u8>::new()
        .try_reserve_exact(TOO_MANY)
        .is_err()
    {
        return;
    }
    // its pages are never written, so that they take no memory
    let mut into = vec![0; TOO_MANY];
    let mut kernel = with_pipe();
    assert_eq!(kernel.write_from(1, 1, b"a"), Ok(Answer::Done(1)));
    assert_eq!(kernel.read_into(1, 0, &mut into), Err(NotDone::TooLong));
    assert_eq!(kernel.read_into(1, 0, &mut into[1..]), Ok(Answer::Done(1)));
}

#[test]
fn errors_have_linux_numbers() {
    let numbers = [
        (Errno::EPERM, 1),
        (Errno::ENOENT, 2),
        (Errno::EINTR, 4),
        (Errno::ENXIO, 6),
        (Errno::EBADF, 9),
        (Errno::EAGAIN, 11),
        (Errno::EBUSY, 16),
        (Errno::EEXIST, 17),
        (Errno::EINVAL, 22),
        (Errno::ENFILE, 23),
        (Errno::EMFILE, 24),
        (Errno::EFBIG, 27),
        (Errno::ENOSPC, 28),
        (Errno::ESPIPE, 29),
        (Errno::EPIPE, 32),
        (Errno::ENAMETOOLONG, 36),
        (Errno::EOVERFLOW, 75),
    ];
    for (errno, number) in numbers {
        assert_eq!(self::numbers::error_number(errno), number);
        if cfg!(target_os = "linux") {
            assert_eq!(io::Error::from(errno).raw_os_error(), Some(number));
        }
        assert_eq!(errno.to_string(), format!("{errno:?} ({number})"));
    }
    assert_eq!(
        io::Error::from(Errno::EAGAIN).kind(),
        io::ErrorKind::WouldBlock
    );
    assert_eq!(
        io::Error::from(NotDone::NoMemory).kind(),
        io::ErrorKind::OutOfMemory
    );
    assert_eq!(
        io::Error::from(NotDone::TooLong).kind(),
        io::ErrorKind::InvalidInput
    );
}

/// Permits as many requests as it is told, and no more.
struct Requests(std::cell::Cell<u32>);

impl Allocator for Requests {
    fn permits(&self, _from: usize, _to: usize) -> bool {
        let left = self.0.get().checked_sub(1);
        self.0.set(left.unwrap_or(0));
        left.is_some()
    }
}

#[test]
fn a_step_without_memory_changes_nothing() {
    let requests = Requests(u32::MAX.into());
    let mut kernel = Kernel::new(&requests, Limits::default()).expect("the limits of before");
    kernel.step(Step::Start).expect("memory");
    kernel
        .step(Step::Begin(
            1,
            Call::Pipe {
                nonblock: true,
                direct: false,
            },
        ))
        .expect("memory");
    requests.0.set(0);
    assert_eq!(kernel.write_from(1, 1, b"hello"), Err(NotDone::NoMemory));
    assert!(Vec::from_slice(&requests, b"a").is_err());
    requests.0.set(u32::MAX);
    assert_eq!(
        kernel.read_into(1, 0, &mut [0]),
        Err(NotDone::Fault(Errno::EAGAIN))
    );
}

/// The handle of a call that has to wait.
#[track_caller]
fn waits<T: Debug>(answer: Result<Answer<T>, NotDone>) -> ParkedCall {
    match answer {
        Ok(Answer::Parked(call)) => call,
        other => panic!("{other:?}"),
    }
}

fn poll(fd: i32) -> [PollEntry; 1] {
    [PollEntry {
        fd,
        events: 1,
        revents: 0,
    }]
}

/// Writes bytes to a pipe, and makes room in it each time that the write waits: it tells how many bytes went in, and how often it waited.
fn write_through_a_full_pipe(kernel: &mut Kernel, bytes: &[u8]) -> Result<(usize, usize), NotDone> {
    let mut answer = kernel.write_from(1, 1, bytes)?;
    for waited in 0.. {
        let call = match answer {
            Answer::Done(count) => return Ok((count, waited)),
            Answer::Parked(call) => call,
        };
        assert!(!kernel.can_progress(&call));
        let read = kernel.read_into(1, 0, &mut [0; 4_096])?;
        assert_eq!(read, Answer::Done(4_096));
        assert!(kernel.can_progress(&call));
        answer = kernel.resume(call)?.map(|reply| match reply {
            Reply::Count { n, sigpipe: false } => n as usize,
            other => panic!("{other:?}"),
        });
    }
    unreachable!("it ends once all bytes went in")
}

#[test]
fn a_question_mark_strands_no_call() {
    let mut kernel = with_waits();
    let bytes = vec![7; 65_536 + 3 * 4_096];
    assert_eq!(
        write_through_a_full_pipe(&mut kernel, &bytes),
        Ok((bytes.len(), 3))
    );
    // no call waits any more: the pipe has its bytes, and then no writer
    let mut into = vec![0; 100_000];
    assert_eq!(kernel.read_into(1, 0, &mut into), Ok(Answer::Done(65_536)));
    assert_eq!(
        kernel.step(Step::Begin(1, Call::Close { fd: 1 })),
        Ok(Reply::Unit)
    );
    assert_eq!(kernel.read_into(1, 0, &mut into), Ok(Answer::Done(0)));
}

#[test]
fn each_call_that_can_wait_tells_of_its_call() {
    let mut kernel = with_waits();
    let pipe = Call::Pipe {
        nonblock: false,
        direct: false,
    };
    assert_eq!(kernel.begin(1, pipe), Ok(Answer::Done(Reply::Fds(2, 3))));
    let name = || Name::from_vec(Vec::from_slice(Global, b"q").expect("memory"));
    let fifo = Call::Mkfifo { name: name() };
    assert_eq!(kernel.begin(1, fifo), Ok(Answer::Done(Reply::Unit)));
    let open = |mode| Call::OpenName {
        name: name(),
        mode,
        flags: OpenFlags::empty(),
    };
    let flags = SpliceFlags::empty();
    let tee = Call::Tee {
        from: 0,
        to: 3,
        len: 9,
        flags,
    };
    let splice = Call::Splice {
        from: 0,
        from_offset: None,
        to: 3,
        to_offset: None,
        len: 9,
        flags,
    };

    let opening = waits(kernel.begin(1, open(Mode::Read)));
    let polling = waits(kernel.poll_into(1, &mut poll(0), true));
    let copying = waits(kernel.begin(1, tee));
    let moving = waits(kernel.begin(1, splice));
    let reading = waits(kernel.read_into(1, 2, &mut [0; 9]));
    let calls = [&opening, &polling, &copying, &moving, &reading];
    assert_eq!(calls.map(ParkedCall::number), [1, 2, 3, 4, 5]);
    assert!(calls.iter().all(|call| !kernel.can_progress(call)));
    // a call that can't get on comes back from each way to resume it
    let reading = waits(kernel.resume_read(reading, &mut [0; 9]));
    let polling = waits(kernel.resume_poll(polling, &mut poll(0)));
    let moving = waits(kernel.resume(moving));
    assert_eq!(moving.number(), 4);

    assert_eq!(
        kernel.begin(1, open(Mode::Write)),
        Ok(Answer::Done(Reply::Fd(4)))
    );
    assert_eq!(kernel.resume(opening), Ok(Answer::Done(Reply::Fd(5))));
    assert_eq!(kernel.write_from(1, 1, b"abc"), Ok(Answer::Done(3)));
    let mut entries = poll(0);
    assert_eq!(
        kernel.resume_poll(polling, &mut entries),
        Ok(Answer::Done(1))
    );
    assert_eq!(entries[0].revents, 1);
    let three = || {
        Ok(Answer::Done(Reply::Count {
            n: 3,
            sigpipe: false,
        }))
    };
    assert_eq!(kernel.resume(copying), three());
    assert_eq!(kernel.resume(moving), three());
    let mut into = [0; 9];
    let Err(NotDone::Short { call, wants: 6 }) = kernel.resume_read(reading, &mut into[..5]) else {
        panic!("room");
    };
    assert_eq!(kernel.resume_read(call, &mut into), Ok(Answer::Done(6)));
    assert_eq!(&into[..6], b"abcabc");
}

/// Reads one byte, where there is one.
#[track_caller]
fn read_a_byte(kernel: &mut Kernel) {
    assert_eq!(kernel.read_into(1, 0, &mut [0]), Ok(Answer::Done(1)));
}

#[test]
fn a_handle_tells_whether_bytes_of_a_write_moved() {
    let mut kernel = with_waits();
    let reading = waits(kernel.read_into(1, 0, &mut [0; 9]));
    let write = |bytes: &[u8]| {
        let bytes = Vec::from_slice(Global, bytes).expect("memory");
        let bytes = Bytes8::from_vec(bytes).expect("few bytes");
        Call::Write { fd: 1, bytes }
    };
    let large = waits(kernel.begin(1, write(&[7; 65_540])));
    let whole = waits(kernel.begin(1, write(&[7; 4_096])));
    let small = waits(kernel.write_from(1, 1, b"a"));
    let other = waits(kernel.write_from(1, 1, &[7; 4_097]));
    let told = [&reading, &large, &whole, &small, &other].map(ParkedCall::moved);
    assert_eq!(told, [false, true, false, false, false]);
    // in vain, and then a byte at a time, by each way to resume it
    let large = waits(kernel.resume(large));
    assert!(!large.moved());
    let large = waits(kernel.resume_poll(large, &mut []));
    assert!(!large.moved());
    read_a_byte(&mut kernel);
    let large = waits(kernel.resume(large));
    assert!(large.moved());
    read_a_byte(&mut kernel);
    let large = waits(kernel.resume_read(large, &mut []));
    assert!(large.moved());
    read_a_byte(&mut kernel);
    let large = waits(kernel.resume_poll(large, &mut []));
    assert!(large.moved());
    // handles are compared by their numbers
    assert_eq!(large, ParkedCall::from_number(large.number()));
    let large = waits(kernel.resume_read(large, &mut []));
    assert!(!large.moved());
    read_a_byte(&mut kernel);
    assert_eq!(
        kernel.resume(large),
        Ok(Answer::Done(Reply::Count {
            n: 65_540,
            sigpipe: false
        }))
    );
}

/// A kernel with a process that has a pipe, whose requests for memory are counted.
fn with_pipe_within(requests: &Requests) -> Kernel<&Requests> {
    let mut kernel = Kernel::new(requests, Limits::default()).expect("the limits of before");
    kernel.step(Step::Start).expect("memory");
    let pipe = Call::Pipe {
        nonblock: false,
        direct: false,
    };
    kernel.step(Step::Begin(1, pipe)).expect("memory");
    kernel
}

#[test]
fn a_handle_that_an_error_gives_back_tells_of_no_bytes() {
    let requests = Requests(u32::MAX.into());
    let mut kernel = with_pipe_within(&requests);
    let Ok(Answer::Parked(call)) = kernel.write_from(1, 1, &[7; 200_000]) else {
        panic!("no wait");
    };
    assert!(call.moved());
    let larger = Call::SetPipeSz {
        fd: 1,
        size: 131_072,
    };
    kernel.step(Step::Begin(1, larger)).expect("memory");
    requests.0.set(0);
    let Err(NotDone::NoMemoryToResume(call)) = kernel.resume(call) else {
        panic!("memory");
    };
    assert!(!call.moved());
    requests.0.set(u32::MAX);
    let Ok(Answer::Parked(call)) = kernel.resume(call) else {
        panic!("no wait");
    };
    assert!(call.moved());
    assert_eq!(kernel.taken(&call), Some(131_072));
}

#[test]
fn a_call_that_is_resumed_as_another_kind_tells_its_number() {
    let mut kernel = with_waits();
    let reading = waits(kernel.read_into(1, 0, &mut [0; 4_096]));
    assert_eq!(kernel.write_from(1, 1, b"abc"), Ok(Answer::Done(3)));
    let Err(NotDone::Short { call, wants: 3 }) = kernel.resume_poll(reading, &mut []) else {
        panic!("room");
    };
    let Ok(Answer::Done(Reply::Bytes(bytes))) = kernel.resume(call) else {
        panic!("no bytes");
    };
    assert_eq!(bytes.as_slice(), b"abc");
    let polling = waits(kernel.poll_into(1, &mut poll(0), true));
    let writing = waits(kernel.write_from(1, 1, &[7; 65_537]));
    // a read has no room for what a poll found, which isn't ended
    let Err(NotDone::Short { call, wants: 1 }) = kernel.resume_read(polling, &mut [0]) else {
        panic!("room");
    };
    assert!(matches!(
        kernel.resume(call),
        Ok(Answer::Done(Reply::Masks { ready: 1, .. }))
    ));
    assert_eq!(
        kernel.read_into(1, 0, &mut [0; 4_096]),
        Ok(Answer::Done(4_096))
    );
    assert_eq!(
        kernel.resume_poll(writing, &mut []),
        Ok(Answer::Done(65_537))
    );
}

#[test]
fn errors_of_a_call_that_never_waited_have_no_call() {
    let mut kernel = with_waits();
    let bad = Err(NotDone::Fault(Errno::EBADF));
    assert_eq!(kernel.write_from(1, 0, b"a"), bad);
    assert_eq!(kernel.read_into(1, 1, &mut [0]), bad);
    assert_eq!(kernel.begin(9, Call::Fork), Err(NotDone::NoProcess));
    assert_eq!(kernel.write_from(9, 1, b"a"), Err(NotDone::NoProcess));
    assert_eq!(kernel.read_into(9, 0, &mut [0]), Err(NotDone::NoProcess));
    assert_eq!(kernel.poll_into(9, &mut [], true), Err(NotDone::NoProcess));
    let many = &mut [poll(0)[0]; 257];
    assert_eq!(
        kernel.poll_into(1, many, true),
        Err(NotDone::Fault(Errno::EINVAL))
    );
    let limits = Limits {
        first_call: u64::MAX,
        ..Limits::DEFAULT
    };
    let mut kernel = Kernel::new(Global, limits).expect("the limits of before");
    kernel.step(Step::Start).expect("memory");
    let pipe = Call::Pipe {
        nonblock: false,
        direct: false,
    };
    kernel.step(Step::Begin(1, pipe)).expect("memory");
    assert_eq!(kernel.read_into(1, 0, &mut [0]), Err(NotDone::CallsSpent));
    assert_eq!(
        kernel.poll_into(1, &mut poll(0), true),
        Err(NotDone::CallsSpent)
    );
    assert_eq!(
        kernel.write_from(1, 1, &[7; 65_537]),
        Err(NotDone::CallsSpent)
    );
    assert_eq!(
        kernel.begin(1, Call::Read { fd: 0, n: 1 }),
        Err(NotDone::CallsSpent)
    );
}

#[test]
fn a_call_without_memory_to_resume_it_comes_back() {
    let requests = Requests(u32::MAX.into());
    let mut kernel = with_pipe_within(&requests);
    let Ok(Answer::Parked(call)) = kernel.read_into(1, 0, &mut [0; 9]) else {
        panic!("no wait");
    };
    assert_eq!(kernel.write_from(1, 1, b"abc"), Ok(Answer::Done(3)));
    requests.0.set(0);
    let Err(NotDone::NoMemoryToResume(call)) = kernel.resume(call) else {
        panic!("memory");
    };
    assert!(kernel.can_progress(&call));
    // into the caller's bytes it needs none
    let mut into = [0; 9];
    assert_eq!(kernel.resume_read(call, &mut into), Ok(Answer::Done(3)));
    assert_eq!(&into[..3], b"abc");
}

#[test]
fn an_error_of_std_io_keeps_a_call_that_waits() {
    let not_done = NotDone::Short {
        call: ParkedCall::from_number(7),
        wants: 9,
    };
    let fault = io::Error::from(not_done);
    assert_eq!(fault.to_string(), "too little room: call 7 wants 9");
    let inner = fault.into_inner().expect("the error itself");
    let not_done = inner.downcast::<NotDone>().expect("the same type");
    assert_eq!(not_done.into_parked(), Some(ParkedCall::from_number(7)));
    let fault = io::Error::from(NotDone::Fault(Errno::EPIPE));
    assert_eq!(fault.kind(), io::ErrorKind::BrokenPipe);
}

#[test]
#[should_panic(expected = "overflow")]
fn a_number_that_does_not_fit_is_found_by_these_tests() {
    black_box(black_box(u8::MAX) + 1);
}
