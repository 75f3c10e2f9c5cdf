//! Records of a kernel: drawn runs by every method that makes a step, whose records are run again as scripts and have to print what they tell; what
//! a record is refused; and requests for memory that are refused in turn.

#[allow(dead_code)]
mod drawing;

use bindingclay::memory::{Allocator, Global, Vec as List};
use bindingclay::script::run;
use bindingclay::{
    Answer, Bytes8, Call, Errno, Kernel, Limits, Mode, Name, NotDone, OpenFlags, ParkedCall,
    PollEntry, Reply, Step, Whence,
};
use drawing::Draws;
use std::cell::Cell;

/// What a record tells of each step: its line, and the text of its reply. The two lines in front stand apart.
fn entries(record: &str) -> Vec<(&str, &str)> {
    let lines: Vec<_> = record.lines().skip(2).collect();
    lines
        .chunks(2)
        .map(|pair| (pair[0], pair[1].strip_prefix("# => ").expect("a reply")))
        .collect()
}

fn handed_out<A: Allocator + Copy>(kernel: &mut Kernel<A>) -> String {
    let mut record = Vec::new();
    kernel
        .write_record(&mut record)
        .expect("a recording goes on");
    String::from_utf8(record).expect("a record is text")
}

/// Run again as a script, the record prints the replies that it tells.
fn replays(record: &str, limits: Limits) -> usize {
    let mut output = Vec::new();
    run(record.as_bytes(), &mut output, limits).expect("a script");
    let output = String::from_utf8(output).expect("text");
    let replies: Vec<_> = entries(record).iter().map(|entry| entry.1).collect();
    assert_eq!(output.lines().collect::<Vec<_>>(), replies, "{record}");
    replies.len()
}

fn recorded_kernel(limits: Limits) -> Kernel {
    let mut kernel = Kernel::new(Global, limits).expect("limits of a kernel");
    kernel.record().expect("it is new");
    kernel
}

fn name<A: Allocator + Copy>(alloc: A, text: &[u8]) -> Name<A> {
    Name::from_vec(List::from_slice(alloc, text).expect("memory"))
}

const PIPE: Call = Call::Pipe {
    nonblock: false,
    direct: false,
};

#[test]
fn each_method_is_recorded() -> Result<(), NotDone> {
    let mut kernel = recorded_kernel(Limits::default());
    let mut into = [0; 8];
    let outcomes = kernel.run(List::from(vec![Step::Start, Step::Begin(1, PIPE)]))?;
    assert_eq!(outcomes.len(), 2);
    assert_eq!(kernel.write_from(1, 1, b"aaaaab")?, Answer::Done(6));
    assert_eq!(kernel.read_into(1, 0, &mut into[..5])?, Answer::Done(5));
    let (one, other) = kernel.step_pair(Step::Begin(1, Call::Read { fd: 0, n: 9 }))?;
    assert_eq!(one, other);
    let Answer::Parked(call) = kernel.read_into(1, 0, &mut into)? else {
        panic!("no wait")
    };
    let mut polled = [PollEntry {
        fd: 0,
        events: 1,
        revents: 0,
    }];
    let Answer::Parked(poll) = kernel.poll_into(1, &mut polled, true)? else {
        panic!("no wait")
    };
    assert_eq!(
        kernel.begin(
            1,
            Call::Write {
                fd: 1,
                bytes: Bytes8::from_vec(List::from(b"hi".to_vec())).expect("few")
            }
        )?,
        Answer::Done(Reply::Count {
            n: 2,
            sigpipe: false
        })
    );
    let Err(NotDone::Short { call, wants: 2 }) = kernel.resume_read(call, &mut into[..1]) else {
        panic!("room")
    };
    assert_eq!(kernel.resume_poll(poll, &mut polled)?, Answer::Done(1));
    assert_eq!(kernel.resume_read(call, &mut into)?, Answer::Done(2));
    let Answer::Parked(call) = kernel.read_into(1, 0, &mut into)? else {
        panic!("no wait")
    };
    let Answer::Parked(call) = kernel.resume(call)? else {
        panic!("no wait")
    };
    assert_eq!(kernel.interrupt(call), Err(NotDone::Fault(Errno::EINTR)));
    let record = handed_out(&mut kernel);
    // the lines of docs/RULES.md, "Scripts"
    let wanted = [
        ("start", "pid 1"),
        ("1 pipe", "fds 0 1"),
        ("1 write 1 5*61+62", "count 6"),
        ("1 read 0 5", "data 5*61"),
        ("1 read 0 9", "data 62"),
        ("1 read 0 8", "parked 1"),
        ("1 poll wait 0:in", "parked 2"),
        ("1 write 1 6869", "count 2"),
        ("resume 2", "masks 1 in"),
        ("resume 1", "data 6869"),
        ("1 read 0 8", "parked 3"),
        ("resume 3", "parked 3"),
        ("interrupt 3", "EINTR"),
    ];
    assert_eq!(entries(&record), wanted);
    assert_eq!(replays(&record, Limits::default()), wanted.len());
    Ok(())
}

#[test]
fn a_record_begins_before_the_first_process() {
    let refused = || Err(NotDone::Fault(Errno::EINVAL));
    let mut kernel = Kernel::new(Global, Limits::default()).expect("limits of a kernel");
    assert_eq!(kernel.recorded(&mut [0; 9]), refused());
    kernel.end_record();
    assert_eq!(kernel.record(), Ok(()));
    assert_eq!(kernel.record(), refused().map(|_| ()));
    kernel.end_record();
    assert_eq!(kernel.record(), refused().map(|_| ()));
    for start in [
        |kernel: &mut Kernel| kernel.step(Step::Start).map(|_| ()),
        |kernel: &mut Kernel| kernel.step_pair(Step::Start).map(|_| ()),
        |kernel: &mut Kernel| kernel.run(List::from(vec![Step::Start])).map(|_| ()),
    ] {
        let mut kernel = Kernel::new(Global, Limits::default()).expect("limits of a kernel");
        start(&mut kernel).expect("memory");
        assert_eq!(kernel.record(), refused().map(|_| ()));
    }
}

#[test]
fn a_writer_that_fails_is_told() {
    let mut kernel = recorded_kernel(Limits::default());
    let mut full = [0; 3];
    assert!(kernel.write_record(full.as_mut_slice()).is_err());
    assert_eq!(&full, b"pip");
}

// ---- Drawn runs ----

/// Makes a drawn step by a drawn method, and forgets what it answered: the script will tell.
fn act(draws: &mut Draws, kernel: &mut Kernel) {
    let pid = draws.one_of(&[1, 1, 1, 1, 2, 9]);
    let fd = draws.one_of(&[0, 1, 2, 3, 4, 5, -1, 300]);
    let call = ParkedCall::from_number(draws.below(12));
    let mut into = vec![0; draws.one_of(&[0, 1, 5, 5_000, 70_000])];
    let bytes = vec![draws.below(3) as u8; draws.one_of(&[0, 3, 4, 4_097, 66_000])];
    let mut polled = [PollEntry {
        fd,
        events: draws.below(64) as u16,
        revents: 0,
    }; 2];
    let mode = draws.one_of(&[Mode::Read, Mode::Write, Mode::Both]);
    let flags = draws.one_of(&[OpenFlags::CREAT, OpenFlags::NONBLOCK, OpenFlags::empty()]);
    let text = draws.one_of(&[b"q".as_slice(), b"f", b"", b"a %\xff\n"]);
    match draws.below(16) {
        0 => drop(kernel.step(Step::Start)),
        1 => drop(kernel.step_pair(Step::Begin(pid, PIPE))),
        2 => drop(kernel.step_pair(Step::Begin(pid, Call::Read { fd, n: 9 }))),
        3 => drop(kernel.step_pair(Step::Resume(call.number()))),
        4 | 5 => drop(kernel.write_from(pid, fd, &bytes)),
        6 | 7 => drop(kernel.read_into(pid, fd, &mut into)),
        8 => drop(kernel.poll_into(pid, &mut polled, draws.below(2) == 0)),
        9 => drop(kernel.resume(call)),
        10 => drop(kernel.resume_read(call, &mut into)),
        11 => drop(kernel.resume_poll(call, &mut polled)),
        12 => drop(kernel.interrupt(call)),
        13 => drop(kernel.begin(
            pid,
            Call::Mkfifo {
                name: name(Global, text),
            },
        )),
        14 => drop(kernel.begin(
            pid,
            Call::OpenName {
                name: name(Global, text),
                mode,
                flags,
            },
        )),
        _ => drop(kernel.run(List::from(vec![
            Step::Begin(
                pid,
                Call::Lseek {
                    fd,
                    offset: 3,
                    whence: Whence::Set,
                },
            ),
            Step::Begin(
                pid,
                Call::Close {
                    fd: draws.one_of(&[7, 8, 9]),
                },
            ),
        ]))),
    }
}

#[test]
fn a_header_names_the_limits_that_are_not_the_usual_ones() {
    let rows = [
        ((256, 4_096, 1_024, u64::MAX), "--descriptors-max 256"),
        ((1_000, 4_096, 1_024, u64::MAX), "--descriptors-max 1000"),
        (
            (256, 3, 1_024, u64::MAX),
            "--descriptors-max 256 --descriptions-max 3",
        ),
        (
            (256, 4_096, 2, u64::MAX),
            "--descriptors-max 256 --processes-max 2",
        ),
        (
            (256, 4_096, 1_024, 0),
            "--descriptors-max 256 --waiting-of-each 0",
        ),
        (
            (7, 3, 2, 1),
            "--descriptors-max 7 --descriptions-max 3 --processes-max 2 --waiting-of-each 1",
        ),
    ];
    for ((descriptors_max, descriptions_max, processes_max, waiting_of_each), told) in rows {
        let record = handed_out(&mut recorded_kernel(Limits {
            descriptors_max,
            descriptions_max,
            processes_max,
            waiting_of_each,
            ..Limits::DEFAULT
        }));
        let header = record.lines().nth(1).expect("a header");
        assert!(
            header.ends_with(&format!("--capacity-max 1048576 {told}")),
            "{header}"
        );
    }
}

#[test]
fn drawn_runs_replay() {
    let mut steps = 0;
    for seed in 0..300 {
        let mut draws = Draws::of(seed);
        let limits = Limits {
            first_call: draws.below(3),
            file_max: draws.one_of(&[3_000, 16_777_216]),
            names_max: draws.one_of(&[1, u64::MAX]),
            waiting_max: draws.one_of(&[2, u64::MAX]),
            waiting_of_each: draws.one_of(&[1, u64::MAX]),
            descriptors_max: draws.one_of(&[5, 7, 256, 1_000]),
            descriptions_max: draws.one_of(&[4, 6, 4_096]),
            processes_max: draws.one_of(&[1, 2, 1_024]),
            ..Limits::DEFAULT
        };
        let mut kernel = recorded_kernel(limits);
        for step in [Step::Start, Step::Begin(1, PIPE), Step::Begin(1, PIPE)] {
            kernel.step(step).expect("memory");
        }
        let mut record = String::new();
        for _ in 0..100 {
            act(&mut draws, &mut kernel);
            if draws.below(9) == 0 {
                record += &handed_out(&mut kernel);
            }
        }
        record += &handed_out(&mut kernel);
        steps += replays(&record, limits);
    }
    assert!(steps > 20_000, "{steps}");
}

// ---- Want of memory ----

/// Refuses one request, behind those that are granted.
#[derive(Debug, PartialEq)]
struct Refusing {
    granted: Cell<u64>,
}

impl Allocator for Refusing {
    fn permits(&self, _from: usize, _to: usize) -> bool {
        let granted = self.granted.get();
        self.granted.set(granted.wrapping_sub(1));
        granted != 0
    }

    fn shrinks(&self, _from: usize, _to: usize) {}
}

/// Makes a call, and again if it found no memory.
fn made<T>(mut call: impl FnMut() -> Result<T, NotDone>) -> Result<T, NotDone> {
    match call() {
        Err(NotDone::NoMemory | NotDone::NoMemoryToResume(_)) => call(),
        answered => answered,
    }
}

/// A short run, in which one request is refused, and its record; and whether there was such a request.
fn run_without(granted: u64) -> Result<(String, bool), NotDone> {
    let heap = Refusing {
        granted: Cell::new(granted),
    };
    let mut kernel = Kernel::new(&heap, Limits::default()).expect("limits of a kernel");
    let (mut into, mut large) = ([0; 9], vec![0; 70_000]);
    made(|| kernel.record())?;
    made(|| Ok(kernel.step(Step::Start)?))?;
    let pipe = || Call::Pipe {
        nonblock: false,
        direct: false,
    };
    assert_eq!(
        made(|| kernel.begin(1, pipe()))?,
        Answer::Done(Reply::Fds(0, 1))
    );
    let mut waits = made(|| kernel.read_into(1, 0, &mut into))?;
    assert_eq!(made(|| kernel.write_from(1, 1, b"hello"))?, Answer::Done(5));
    if let Answer::Parked(call) = &waits {
        let number = call.number();
        waits = made(|| kernel.resume_read(ParkedCall::from_number(number), &mut into))?;
    }
    assert_eq!(waits, Answer::Done(5));
    let Answer::Parked(call) = made(|| kernel.write_from(1, 1, &large))? else {
        panic!("no wait")
    };
    let number = call.into_number();
    let interrupted = made(|| kernel.interrupt(ParkedCall::from_number(number)))?;
    assert_eq!(
        interrupted,
        Reply::Count {
            n: 65_536,
            sigpipe: false
        }
    );
    assert_eq!(
        made(|| kernel.read_into(1, 0, &mut large))?,
        Answer::Done(65_536)
    );
    made(|| Ok(kernel.step_pair(Step::Begin(1, Call::Close { fd: 0 }))?))?;
    let mut record = Vec::new();
    let mut piece = [0; 100];
    while let count @ 1.. = made(|| kernel.recorded(&mut piece))? {
        record.extend_from_slice(&piece[..count]);
    }
    let was_refused = heap.granted.get() > u64::MAX / 2;
    Ok((String::from_utf8(record).expect("text"), was_refused))
}

#[test]
fn refused_memory_leaves_the_record_as_it_is() -> Result<(), NotDone> {
    let (whole, _) = run_without(u64::MAX / 2)?;
    assert_eq!(replays(&whole, Limits::default()), 9);
    for granted in 0.. {
        let (record, was_refused) = run_without(granted)?;
        assert_eq!(record, whole);
        if !was_refused {
            assert!(granted > 30, "{granted}");
            break;
        }
    }
    Ok(())
}
