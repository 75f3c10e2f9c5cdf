//! What a kernel tells without a step: the bytes of pipes, what descriptors and names stand for, calls that wait, and processes.

use bindingclay::memory::{Global, Vec};
use bindingclay::{
    Answer, Bytes8, Call, CallFacts, CallKind, Kernel, Limits, Mode, Name, NodeKind, OpenFlags,
    ParkedCall, PollList, PollMask, ProcessFacts, Reply, SpliceFlags, Step,
};

fn name(bytes: &[u8]) -> Name {
    Name::from_vec(Vec::from_slice(Global, bytes).expect("memory"))
}

fn kernel() -> Kernel {
    let mut kernel = Kernel::new(Global, Limits::default()).expect("few bytes of a file");
    assert_eq!(kernel.step(Step::Start), Ok(Reply::Pid(1)));
    kernel
}

fn begin(kernel: &mut Kernel, call: Call) -> Reply {
    kernel.step(Step::Begin(1, call)).expect("memory")
}

fn pipe(kernel: &mut Kernel, direct: bool) -> (i32, i32) {
    let reply = begin(
        kernel,
        Call::Pipe {
            nonblock: false,
            direct,
        },
    );
    let Reply::Fds(reader, writer) = reply else {
        panic!("{reply:?}")
    };
    (reader, writer)
}

fn create(kernel: &mut Kernel, file: &[u8]) -> i32 {
    let reply = begin(
        kernel,
        Call::OpenName {
            name: name(file),
            mode: Mode::Both,
            flags: OpenFlags::CREAT,
        },
    );
    let Reply::Fd(fd) = reply else {
        panic!("{reply:?}")
    };
    fd
}

fn parked(reply: Reply) -> ParkedCall {
    let Reply::Parked(number) = reply else {
        panic!("{reply:?}")
    };
    ParkedCall::from_number(number)
}

#[test]
fn bytes_that_pipes_hold() {
    let mut kernel = kernel();
    let (reader, writer) = pipe(&mut kernel, false);
    let (packets, into) = pipe(&mut kernel, true);
    let file = create(&mut kernel, b"f");
    assert_eq!(kernel.held(1, reader), Some(0));
    assert_eq!(kernel.write_from(1, writer, b"hello"), Ok(Answer::Done(5)));
    assert_eq!(
        kernel.read_into(1, reader, &mut [0; 2]),
        Ok(Answer::Done(2))
    );
    assert_eq!(kernel.held(1, reader), Some(3));
    assert_eq!(kernel.held(1, writer), Some(3));
    // a read takes a packet, whose end is lost
    assert_eq!(
        kernel.write_from(1, into, &[7; 5_000]),
        Ok(Answer::Done(5_000))
    );
    assert_eq!(kernel.held(1, packets), Some(5_000));
    assert_eq!(kernel.read_into(1, packets, &mut [0]), Ok(Answer::Done(1)));
    assert_eq!(kernel.held(1, into), Some(904));
    // a file is no pipe, and so is what isn't there
    assert_eq!(kernel.write_from(1, file, b"hello"), Ok(Answer::Done(5)));
    for (pid, fd) in [
        (1, file),
        (1, file + 1),
        (1, -1),
        (1, 256),
        (2, reader),
        (0, reader),
    ] {
        assert_eq!(kernel.held(pid, fd), None);
    }
    assert!(kernel.has_process(1) && !kernel.has_process(0) && !kernel.has_process(2));
}

#[test]
fn kinds_sizes_and_keys() {
    let mut kernel = kernel();
    let (reader, writer) = pipe(&mut kernel, false);
    let (packets, _) = pipe(&mut kernel, true);
    let file = create(&mut kernel, b"f");
    let other = create(&mut kernel, b"g");
    begin(&mut kernel, Call::Mkfifo { name: name(b"p") });
    assert_eq!(kernel.write_from(1, writer, b"hello"), Ok(Answer::Done(5)));
    assert_eq!(kernel.write_from(1, file, b"abc"), Ok(Answer::Done(3)));
    let facts = |fd| kernel.fd_facts(1, fd).expect("it is open");
    assert_eq!(
        (facts(reader).kind, facts(reader).size),
        (NodeKind::Pipe, 5)
    );
    assert_eq!(
        (facts(packets).kind, facts(packets).size),
        (NodeKind::PacketPipe, 0)
    );
    assert_eq!((facts(file).kind, facts(file).size), (NodeKind::File, 3));
    assert_eq!(facts(reader), facts(writer));
    assert_eq!(kernel.name_facts(b"f"), Some(facts(file)));
    let fifo = kernel.name_facts(b"p").expect("a FIFO");
    assert_eq!((fifo.kind, fifo.size), (NodeKind::Pipe, 0));
    // each of them has a kind and a key of its own
    let all = [
        facts(reader),
        facts(packets),
        facts(file),
        facts(other),
        fifo,
    ];
    for (place, one) in all.iter().enumerate() {
        for two in &all[place + 1..] {
            assert_ne!((one.kind, one.key), (two.kind, two.key));
        }
    }
    for free in [&b""[..], b"h", b"f/", b"f\0", &[b'f'; 256]] {
        assert_eq!(kernel.name_facts(free), None);
    }
    assert_eq!(kernel.fd_facts(1, 9), None);
    assert_eq!(kernel.fd_facts(2, reader), None);
}

#[test]
fn a_key_stays() {
    let mut kernel = kernel();
    let (reader, writer) = pipe(&mut kernel, false);
    let file = create(&mut kernel, b"f");
    let key_of = |kernel: &Kernel, pid, fd| kernel.fd_facts(pid, fd).expect("it is open").key;
    let (of_pipe, of_file) = (key_of(&kernel, 1, reader), key_of(&kernel, 1, file));
    assert_eq!(begin(&mut kernel, Call::Fork), Reply::Pid(2));
    begin(&mut kernel, Call::Unlink { name: name(b"f") });
    assert_eq!(
        kernel.write_from(1, writer, &[7; 65_536]),
        Ok(Answer::Done(65_536))
    );
    assert_eq!(begin(&mut kernel, Call::Exit), Reply::Unit);
    assert_eq!(kernel.step(Step::Start), Ok(Reply::Pid(1)));
    let (new, _) = pipe(&mut kernel, false);
    assert_eq!(key_of(&kernel, 2, writer), of_pipe);
    assert_eq!(key_of(&kernel, 2, file), of_file);
    assert_ne!(key_of(&kernel, 1, new), of_pipe);
}

#[test]
fn calls_that_wait() {
    let mut kernel = kernel();
    let (reader, writer) = pipe(&mut kernel, false);
    let (_, full) = pipe(&mut kernel, false);
    begin(&mut kernel, Call::Mkfifo { name: name(b"p") });
    let bytes =
        || Bytes8::from_vec(Vec::from_slice(Global, &[7; 65_537]).expect("memory")).expect("few");
    let entries = |fds: &[i32]| {
        let entries: std::vec::Vec<_> = fds.iter().map(|fd| (*fd, PollMask::IN)).collect();
        PollList::from_vec(Vec::from(entries))
    };
    let (flags, len) = (SpliceFlags::empty(), 9);
    let calls = [
        (Call::Read { fd: reader, n: 3 }, CallKind::Read, reader, -1),
        (
            Call::Write {
                fd: full,
                bytes: bytes(),
            },
            CallKind::Write,
            full,
            -1,
        ),
        (
            Call::OpenName {
                name: name(b"p"),
                mode: Mode::Read,
                flags: OpenFlags::empty(),
            },
            CallKind::Open,
            -1,
            -1,
        ),
        (
            Call::Splice {
                from: reader,
                from_offset: None,
                to: full,
                to_offset: None,
                len,
                flags,
            },
            CallKind::Splice,
            reader,
            full,
        ),
        (
            Call::Tee {
                from: reader,
                to: full,
                len,
                flags,
            },
            CallKind::Tee,
            reader,
            full,
        ),
        (
            Call::Poll {
                entries: entries(&[-7, reader]),
                wait: true,
            },
            CallKind::Poll,
            -7,
            -1,
        ),
        (
            Call::Poll {
                entries: entries(&[]),
                wait: true,
            },
            CallKind::Poll,
            -1,
            -1,
        ),
    ];
    for (call, kind, first, second) in calls {
        let call = parked(begin(&mut kernel, call));
        let facts = CallFacts {
            kind,
            pid: 1,
            first,
            second,
        };
        assert_eq!(kernel.call_facts(&call), Some(facts));
    }
    assert_eq!(kernel.call_facts(&ParkedCall::from_number(8)), None);
    // what is closed is told as before, and what is answered no more
    begin(
        &mut kernel,
        Call::Dup2 {
            fd: writer,
            target: reader,
        },
    );
    assert_eq!(
        kernel
            .call_facts(&ParkedCall::from_number(1))
            .map(|facts| facts.first),
        Some(reader)
    );
    assert_eq!(kernel.write_from(1, writer, b"a"), Ok(Answer::Done(1)));
    assert!(matches!(kernel.step(Step::Resume(1)), Ok(Reply::Bytes(_))));
    assert_eq!(kernel.call_facts(&ParkedCall::from_number(1)), None);
}

#[test]
fn what_processes_hold() {
    let mut kernel = kernel();
    let holds = |kernel: &Kernel, pid, descriptors, waiting_calls| {
        let facts = ProcessFacts {
            descriptors,
            waiting_calls,
        };
        assert_eq!(kernel.process_facts(pid), Some(facts));
    };
    holds(&kernel, 1, 0, 0);
    let (reader, writer) = pipe(&mut kernel, false);
    begin(
        &mut kernel,
        Call::DupFd {
            fd: reader,
            least: 200,
        },
    );
    holds(&kernel, 1, 3, 0);
    // a child has the descriptors of its parent, and none of its calls
    let first = parked(begin(&mut kernel, Call::Read { fd: reader, n: 1 }));
    assert_eq!(begin(&mut kernel, Call::Fork), Reply::Pid(2));
    holds(&kernel, 1, 3, 1);
    holds(&kernel, 2, 3, 0);
    // a call keeps what its descriptor named, which is no descriptor then
    begin(&mut kernel, Call::Close { fd: 200 });
    begin(&mut kernel, Call::Close { fd: reader });
    holds(&kernel, 1, 1, 1);
    assert_eq!(kernel.write_from(1, writer, b"a"), Ok(Answer::Done(1)));
    holds(&kernel, 1, 1, 1);
    assert_eq!(
        kernel.resume_read(first, &mut [0]).expect("memory"),
        Answer::Done(1)
    );
    holds(&kernel, 1, 1, 0);
    begin(&mut kernel, Call::Exit);
    for pid in [0, 1, 3, u32::MAX] {
        assert_eq!(kernel.process_facts(pid), None);
    }
    holds(&kernel, 2, 3, 0);
    assert_eq!(kernel.step(Step::Start), Ok(Reply::Pid(1)));
    holds(&kernel, 1, 0, 0);
}
