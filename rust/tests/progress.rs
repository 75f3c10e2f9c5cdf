//! Whether a parked call can get on: in drawn runs, after each step, the kernel says so of each parked call exactly where trying it again
//! answers it, or puts in more of its bytes.
//!
//! A call that can't get on is tried in the run itself, and that may change nothing. A call that can is tried on another kernel, on which the
//! steps of the run were made again, but for the trials in vain.

#[allow(dead_code)]
mod drawing;

use bindingclay::memory::{Global, Vec as List};
use bindingclay::{
    Bytes8, Call, Kernel, Limits, Mode, Name, NotDone, OpenFlags, ParkedCall, PollList, PollMask,
    Reply, SpliceFlags, Step, Whence,
};
use drawing::Draws;
use std::collections::BTreeMap;

const RUNS: u64 = 120;
const STEPS: usize = 120;
const MOST_PARKED: usize = 10;

const KINDS: [&str; 7] = [
    "read",
    "small write",
    "large write",
    "open",
    "splice",
    "tee",
    "poll",
];

/// The place in `KINDS` of a call that may wait.
fn kind_of(call: &Call) -> usize {
    match call {
        Call::Read { .. } => 0,
        Call::Write { bytes, .. } if bytes.as_slice().len() <= 4_096 => 1,
        Call::Write { .. } => 2,
        Call::OpenName { .. } => 3,
        Call::Splice { .. } => 4,
        Call::Tee { .. } => 5,
        Call::Poll { .. } => 6,
        other => panic!("{other:?} waits"),
    }
}

/// How often a parked call of each kind was met that can't get on, and one that can.
type Met = [[u64; 2]; KINDS.len()];

/// A parked call.
struct Parked {
    pid: u32,
    kind: usize,
}

struct Run {
    draws: Draws,
    kernel: Kernel,
    /// What was done so far, and what was answered, but for the trials in vain.
    done: Vec<(Step, Reply)>,
    pids: Vec<u32>,
    parked: BTreeMap<u64, Parked>,
}

fn new_kernel() -> Kernel {
    let limits = Limits {
        file_max: 300,
        ..Limits::DEFAULT
    };
    Kernel::new(Global, limits).expect("a small limit")
}

fn name(text: &str) -> Name {
    Name::from_vec(List::from_slice(Global, text.as_bytes()).expect("memory"))
}

fn bytes(count: u64) -> Bytes8 {
    let bytes: Vec<u8> = (0..count).map(|place| (place % 251) as u8).collect();
    Bytes8::from_vec(List::from(bytes)).expect("few bytes")
}

impl Run {
    fn of(seed: u64) -> Run {
        let mut run = Run {
            draws: Draws::of(seed),
            kernel: new_kernel(),
            done: Vec::new(),
            pids: Vec::new(),
            parked: BTreeMap::new(),
        };
        run.start();
        run
    }

    /// A process with two small byte queues, a small packet pipe, a file and two FIFOs, and a child of it.
    fn start(&mut self) {
        let Reply::Pid(pid) = self.step(Step::Start) else {
            panic!("no process");
        };
        for direct in [false, true, false] {
            let pipe = Call::Pipe {
                nonblock: false,
                direct,
            };
            let Reply::Fds(fd, _) = self.step(Step::Begin(pid, pipe)) else {
                panic!("no pipe");
            };
            let size = 4_096;
            self.step(Step::Begin(pid, Call::SetPipeSz { fd, size }));
        }
        let (mode, flags) = (Mode::Both, OpenFlags::CREAT);
        let calls = [
            Call::OpenName {
                name: name("f"),
                mode,
                flags,
            },
            Call::Write {
                fd: 6,
                bytes: bytes(100),
            },
            Call::Mkfifo { name: name("q") },
            Call::Mkfifo { name: name("r") },
            Call::Fork,
        ];
        for call in calls {
            self.step(Step::Begin(pid, call));
        }
    }

    /// Makes a step, and notes which processes are there by then, and which calls are parked.
    fn step(&mut self, step: Step) -> Reply {
        let reply = self
            .kernel
            .step(step.copy(Global).expect("memory"))
            .expect("memory");
        match (&step, &reply) {
            (_, Reply::Pid(pid)) => self.pids.push(*pid),
            (Step::Begin(pid, call), Reply::Parked(number)) => {
                let (pid, kind) = (*pid, kind_of(call));
                self.parked.insert(*number, Parked { pid, kind });
            }
            (Step::Begin(gone, Call::Exit), Reply::Unit) => {
                self.pids.retain(|pid| pid != gone);
                self.parked.retain(|_, call| call.pid != *gone);
            }
            (Step::Resume(_), Reply::Parked(_)) => {}
            (Step::Resume(number) | Step::Interrupt(number), _) => {
                self.parked.remove(number);
            }
            _ => {}
        }
        self.done.push((step, reply.copy(Global).expect("memory")));
        reply
    }

    /// A kernel on which all was done again, with the same answers.
    fn again(&self) -> Kernel {
        let mut kernel = new_kernel();
        for (step, reply) in &self.done {
            let step = step.copy(Global).expect("memory");
            assert_eq!(kernel.step(step).expect("memory"), *reply);
        }
        kernel
    }

    /// Just the parked calls that can get on are told, one after another.
    fn tells_all_ready(&mut self) {
        let kernel = &mut self.kernel;
        let mut from = 0;
        let told: Vec<u64> = std::iter::from_fn(|| {
            let number = kernel.next_ready(from)?;
            from = number + 1;
            Some(number)
        })
        .collect();
        let ready = self
            .parked
            .keys()
            .copied()
            .filter(|number| self.can_progress(*number));
        assert!(told.into_iter().eq(ready));
    }

    /// Asks of each parked call whether it can get on, and tries it.
    fn ask(&mut self, met: &mut Met) {
        self.tells_all_ready();
        for (&number, call) in &self.parked {
            let handle = ParkedCall::from_number(number);
            assert_eq!(self.kernel.owner(&handle), Some(call.pid));
            let can = self.kernel.can_progress(&handle);
            let taken = self.kernel.taken(&handle);
            met[call.kind][usize::from(can)] += 1;
            if can {
                let mut other = self.again();
                assert!(other.can_progress(&handle));
                let reply = other.step(Step::Resume(number)).expect("memory");
                let waits = reply == Reply::Parked(number);
                assert!(
                    !waits || other.taken(&handle) > taken,
                    "call {number}, a {}, was told to get on",
                    KINDS[call.kind]
                );
            } else {
                let reply = self.kernel.step(Step::Resume(number)).expect("memory");
                assert_eq!(reply, Reply::Parked(number), "a {}", KINDS[call.kind]);
                assert_eq!(self.kernel.taken(&handle), taken);
                assert!(!self.kernel.can_progress(&handle));
            }
        }
    }

    fn can_progress(&self, number: u64) -> bool {
        self.kernel.can_progress(&ParkedCall::from_number(number))
    }

    /// One of the parked calls, if there are any.
    fn one_parked(&mut self) -> Option<u64> {
        let place = self.draws.below(self.parked.len().max(1) as u64);
        self.parked.keys().nth(place as usize).copied()
    }

    fn fd(&mut self) -> i32 {
        self.draws.below(8) as i32
    }

    /// An end of one of the pipes that a process began with: 0 for reading, 1 for writing.
    fn end(&mut self, writes: i32) -> i32 {
        2 * self.draws.below(3) as i32 + writes
    }

    fn read(&mut self) -> Call {
        let n = self.draws.one_of(&[1, 9, 4_096, 20_000]);
        Call::Read { fd: self.end(0), n }
    }

    fn write(&mut self) -> Call {
        let small = [1, 9, 1_000, 4_095, 4_096];
        let large = [4_097, 5_000, 8_192, 20_000];
        let count = if self.draws.below(2) == 0 {
            self.draws.one_of(&small)
        } else {
            self.draws.one_of(&large)
        };
        Call::Write {
            fd: self.end(1),
            bytes: bytes(count),
        }
    }

    /// Between two pipes, or a pipe and the file.
    fn splice(&mut self) -> Call {
        let (from, to) = match self.draws.below(4) {
            0 => (6, self.end(1)),
            1 => (self.end(0), 6),
            _ => (self.end(0), self.end(1)),
        };
        let offset = self.draws.one_of(&[None, None, Some(0), Some(300)]);
        Call::Splice {
            from,
            from_offset: if from == 6 { offset } else { None },
            to,
            to_offset: if to == 6 { offset } else { None },
            len: self.draws.one_of(&[1, 100, 8_192]),
            flags: SpliceFlags::empty(),
        }
    }

    fn tee(&mut self) -> Call {
        Call::Tee {
            from: self.end(0),
            to: self.end(1),
            len: self.draws.one_of(&[1, 100, 8_192]),
            flags: SpliceFlags::empty(),
        }
    }

    fn poll(&mut self) -> Call {
        let masks = [PollMask::IN, PollMask::OUT, PollMask::IN | PollMask::OUT];
        let entries: Vec<_> = (0..1 + self.draws.below(3))
            .map(|_| {
                let writes = self.draws.below(2) as i32;
                let end = self.end(writes);
                let fd = self.draws.one_of(&[-1, end, end]);
                (fd, self.draws.one_of(&masks))
            })
            .collect();
        Call::Poll {
            entries: PollList::from_vec(List::from(entries)),
            wait: true,
        }
    }

    fn open(&mut self) -> Call {
        let mode =
            self.draws
                .one_of(&[Mode::Read, Mode::Read, Mode::Write, Mode::Write, Mode::Both]);
        Call::OpenName {
            name: name(self.draws.one_of(&["q", "r"])),
            mode,
            flags: OpenFlags::empty(),
        }
    }

    /// What may end a splice from the file.
    fn file(&mut self) -> Call {
        if self.draws.below(2) == 0 {
            let offset = self.draws.one_of(&[0, 50, 100, 300]);
            let whence = Whence::Set;
            return Call::Lseek {
                fd: 6,
                offset,
                whence,
            };
        }
        Call::OpenName {
            name: name("f"),
            mode: Mode::Write,
            flags: OpenFlags::CREAT | OpenFlags::TRUNC,
        }
    }

    fn call(&mut self) -> Call {
        match self.draws.below(64) {
            0..=9 => self.read(),
            10..=21 => self.write(),
            22..=30 => self.splice(),
            31..=37 => self.tee(),
            38..=44 => self.poll(),
            45..=52 => self.open(),
            53..=54 => self.file(),
            55..=56 => Call::Close { fd: self.fd() },
            57 => Call::Dup2 {
                fd: self.fd(),
                target: self.fd(),
            },
            58..=59 => Call::SetPipeSz {
                fd: self.end(0),
                size: self.draws.one_of(&[4_096, 8_192, 16_384]),
            },
            60 => Call::Write {
                fd: 6,
                bytes: bytes(70),
            },
            61 => Call::Exit,
            62 => Call::Fork,
            _ => Call::Pipe {
                nonblock: false,
                direct: false,
            },
        }
    }

    /// A step: a call, or what is done with a parked one.
    fn drawn_step(&mut self) {
        if self.pids.len() < 2 {
            return self.start();
        }
        let one = self.one_parked();
        let is_full = self.parked.len() >= MOST_PARKED;
        let step = match (self.draws.below(8), one) {
            (0, Some(number)) if is_full => Step::Interrupt(number),
            (1, Some(number)) if self.draws.below(4) == 0 => Step::Interrupt(number),
            (0..=3, Some(number)) if self.can_progress(number) => Step::Resume(number),
            _ if is_full => Step::Resume(one.expect("one is parked")),
            _ => {
                let pid = self.draws.one_of(&self.pids);
                Step::Begin(pid, self.call())
            }
        };
        self.step(step);
    }

    /// Tries each parked call that can get on, until none is told.
    fn try_all(&mut self) {
        while let Some(number) = self.kernel.next_ready(0) {
            self.step(Step::Resume(number));
        }
    }
}

#[test]
fn a_parked_call_gets_on_where_it_is_told_to() {
    let mut met = Met::default();
    for seed in 0..RUNS {
        let mut run = Run::of(seed);
        for _ in 0..STEPS {
            run.drawn_step();
            run.ask(&mut met);
        }
        run.try_all();
        run.ask(&mut met);
        run.again();
    }
    for (kind, [cannot, can]) in KINDS.iter().zip(met) {
        println!("{kind}: {cannot} can't get on, {can} can");
        assert!(cannot >= 50 && can >= 50, "{kind}: {cannot} {can}");
    }
}

#[test]
fn a_number_without_a_call_is_answered_at_once() {
    let mut kernel = new_kernel();
    for number in [0, 1, u64::MAX] {
        let call = || ParkedCall::from_number(number);
        assert!(kernel.can_progress(&call()));
        assert_eq!(kernel.taken(&call()), None);
        assert_eq!(kernel.owner(&call()), None);
        assert_eq!(kernel.next_ready(number), None);
        assert_eq!(kernel.step(Step::Resume(number)), Ok(Reply::NoCall));
        assert_eq!(kernel.resume(call()), Err(NotDone::NoCall));
        assert_eq!(kernel.resume_read(call(), &mut [0]), Err(NotDone::NoCall));
        assert_eq!(kernel.resume_poll(call(), &mut []), Err(NotDone::NoCall));
        assert_eq!(kernel.interrupt(call()), Err(NotDone::NoCall));
    }
}
