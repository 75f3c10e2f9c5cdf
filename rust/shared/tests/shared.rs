//! The shared kernel in threads: what a call that waits is ended by, and what closes as it is dropped. What is wanted comes from
//! docs/RULES.md, from POSIX and from the pages of Linux's manual.

mod waiting;

use bindingclay::shared::{
    File, Limits, PipeOptions, PipeReader, PipeWriter, PollFd, Process, Shared, poll, splice, tee,
};
use bindingclay::shared::{POLLERR, POLLHUP, POLLIN, POLLOUT};
use std::io::{ErrorKind, Read, Result, Seek, SeekFrom, Write};
use std::thread;
use std::time::{Duration, Instant};
use waiting::until_waiting;

/// Linux's numbers of errors (errno.h).
const EBADF: i32 = 9;
const EAGAIN: i32 = 11;
const ENFILE: i32 = 23;
const EMFILE: i32 = 24;

/// The bytes of a new pipe (pipe(7), Pipe capacity).
const PIPE_BYTES: usize = 65_536;

fn process() -> Process {
    Shared::new()
        .expect("memory")
        .start()
        .expect("room for a process")
}

fn kind<T: std::fmt::Debug>(result: Result<T>) -> ErrorKind {
    result.expect_err("an error").kind()
}

#[test]
fn types_are_shared_between_threads() {
    fn is_shared<T: Send + Sync>() {}
    is_shared::<Shared>();
    is_shared::<Process>();
    is_shared::<PipeReader>();
    is_shared::<PipeWriter>();
    is_shared::<File>();
}

#[test]
fn the_end_of_file_comes_as_the_last_writer_is_dropped() -> Result<()> {
    let (mut reader, mut writer) = process().pipe()?;
    let another = writer.try_clone()?;
    writer.write_all(b"abc")?;
    drop(writer);
    reader.set_deadline(Some(Instant::now()));
    assert_eq!(reader.read(&mut [0; 8])?, 3);
    // the clone is a writer still
    assert_eq!(kind(reader.read(&mut [0; 8])), ErrorKind::TimedOut);
    drop(another);
    assert_eq!(reader.read(&mut [0; 8])?, 0);
    Ok(())
}

#[test]
fn the_pipe_breaks_as_the_last_reader_is_dropped() -> Result<()> {
    let (reader, mut writer) = process().pipe()?;
    let another = reader.try_clone()?;
    drop(reader);
    assert_eq!(writer.write(b"abc")?, 3);
    drop(another);
    assert_eq!(kind(writer.write(b"abc")), ErrorKind::BrokenPipe);
    Ok(())
}

#[test]
fn handles_close_in_each_order() -> Result<()> {
    let kernel = Shared::new()?;
    for order in 0..6 {
        let process = kernel.start()?;
        let (reader, writer) = process.pipe()?;
        let mut all = [
            Some(Box::new(reader) as Box<dyn std::any::Any>),
            Some(Box::new(writer)),
            Some(Box::new(process)),
        ];
        let first = order % 3;
        let second = (first + 1 + order / 3) % 3;
        for place in [first, second, 3 - first - second] {
            drop(all[place].take());
        }
        // the next process has the least free pid: the former one has exited
        assert_eq!(kernel.start()?.id(), 1);
    }
    Ok(())
}

#[test]
fn a_descriptor_is_free_once_its_handle_is_dropped() -> Result<()> {
    let process = process();
    let mut pipes = Vec::new();
    // 256 descriptors (docs/RULES.md, OPEN_MAX)
    for _ in 0..128 {
        pipes.push(process.pipe()?);
    }
    assert_eq!(
        process.pipe().expect_err("no room").raw_os_error(),
        Some(EMFILE)
    );
    drop(pipes.pop());
    let (reader, writer) = process.pipe()?;
    assert_eq!((reader.as_raw_fd(), writer.as_raw_fd()), (254, 255));
    Ok(())
}

/// A kernel within so many descriptors, descriptions and processes.
fn within(descriptors_max: u32, descriptions_max: u32, processes_max: u32) -> Result<Shared> {
    Shared::within(&Limits {
        descriptors_max,
        descriptions_max,
        processes_max,
        ..Limits::default()
    })
}

#[test]
fn limits_end_at_their_greatest() -> Result<()> {
    within(65_536, 1_048_576, 65_536)?;
    for (descriptors, descriptions, processes) in
        [(65_537, 1, 1), (1, 1_048_577, 1), (1, 1, 65_537)]
    {
        let more = within(descriptors, descriptions, processes);
        assert_eq!(
            more.err().map(|error| error.kind()),
            Some(ErrorKind::InvalidInput)
        );
    }
    Ok(())
}

#[test]
fn a_kernel_has_as_many_descriptions_and_processes_as_the_limits_allow() -> Result<()> {
    let kernel = within(256, 3, 2)?;
    let (one, other) = (kernel.start()?, kernel.start()?);
    for refused in [kernel.start(), one.fork()] {
        assert_eq!(
            refused.expect_err("two are there").raw_os_error(),
            Some(EAGAIN)
        );
    }
    let (reader, _writer) = one.pipe()?;
    assert_eq!(
        other.pipe().expect_err("one is left").raw_os_error(),
        Some(ENFILE)
    );
    let _same = reader.try_clone()?;
    other.exit()?;
    assert_eq!(one.fork()?.id(), 2);
    Ok(())
}

#[test]
fn a_poll_takes_as_many_entries_as_there_may_be_descriptors() -> Result<()> {
    for (descriptors, most) in [(2, 256), (300, 300)] {
        let process = within(descriptors, 2, 1)?.start()?;
        let (reader, mut writer) = process.pipe()?;
        let mut entries: Vec<_> = (0..=most).map(|_| PollFd::new(&reader, POLLIN)).collect();
        writer.write_all(b"!")?;
        assert_eq!(
            poll(&mut entries, None).expect_err("one too many").kind(),
            ErrorKind::InvalidInput
        );
        entries.pop();
        assert_eq!(poll(&mut entries, None)?, most);
        assert!(entries.iter().all(|entry| entry.revents() == POLLIN));
    }
    Ok(())
}

#[test]
fn a_process_has_more_descriptors_than_usual() -> Result<()> {
    let process = within(1_000, 2, 1)?.start()?;
    let (reader, writer) = process.pipe()?;
    let copies: Vec<_> = (2..1_000)
        .map(|_| reader.try_clone())
        .collect::<Result<_>>()?;
    assert_eq!(copies[997].as_raw_fd(), 999);
    assert_eq!(
        writer.try_clone().expect_err("none is free").raw_os_error(),
        Some(EMFILE)
    );
    process.close(700)?;
    assert_eq!(writer.try_clone()?.into_raw_fd(), 700);
    // the last number may be closed so too, and the one behind it is none
    process.dup2(writer.as_raw_fd(), 999)?;
    assert_eq!(
        process
            .dup2(0, 1_000)
            .expect_err("it's none")
            .raw_os_error(),
        Some(EBADF)
    );
    Ok(())
}

#[test]
fn a_process_has_as_many_descriptors_as_the_limits_allow() -> Result<()> {
    let process = within(3, 4_096, 1_024)?.start()?;
    let (reader, _writer) = process.pipe()?;
    assert_eq!(
        process.pipe().expect_err("one is free").raw_os_error(),
        Some(EMFILE)
    );
    let another = reader.try_clone()?;
    assert_eq!(another.as_raw_fd(), 2);
    assert_eq!(
        reader.try_clone().expect_err("none is free").raw_os_error(),
        Some(EMFILE)
    );
    drop(another);
    assert_eq!(reader.try_clone()?.as_raw_fd(), 2);
    Ok(())
}

#[test]
fn what_is_let_go_of_stays_open() -> Result<()> {
    let process = process();
    let (reader, mut writer) = process.pipe()?;
    let fd = reader.into_raw_fd();
    writer.write_all(b"kept")?;
    let mut again = PipeReader::from_raw_fd(&process, fd);
    let mut into = [0; 4];
    again.read_exact(&mut into)?;
    assert_eq!(&into, b"kept");
    process.close(again.into_raw_fd())?;
    assert_eq!(
        process.close(fd).expect_err("it is closed").raw_os_error(),
        Some(EBADF)
    );
    Ok(())
}

#[test]
fn an_early_return_strands_nothing() -> Result<()> {
    fn fails(process: &Process) -> Result<()> {
        let (mut reader, mut writer) = process.pipe()?;
        reader.set_deadline(Some(Instant::now()));
        writer.set_deadline(Some(Instant::now()));
        writer.write_all(&[7; PIPE_BYTES + 1])?;
        unreachable!("a pipe holds {PIPE_BYTES} bytes");
    }
    let kernel = Shared::new()?;
    let process = kernel.start()?;
    for _ in 0..1_000 {
        assert_eq!(kind(fails(&process)), ErrorKind::TimedOut);
    }
    assert_eq!(kernel.waiting(), 0);
    // both ends were closed each time
    assert_eq!(process.pipe()?.0.as_raw_fd(), 0);
    Ok(())
}

#[test]
fn a_deadline_that_is_over_ends_what_would_wait() -> Result<()> {
    let kernel = Shared::new()?;
    let (mut reader, mut writer) = kernel.start()?.pipe()?;
    reader.set_deadline(Some(Instant::now()));
    writer.set_deadline(Some(Instant::now()));
    assert_eq!(kind(reader.read(&mut [0])), ErrorKind::TimedOut);
    // a write that put in some bytes tells how many (POSIX.1-2017, write: interrupted after some data)
    assert_eq!(writer.write(&[7; PIPE_BYTES + 9])?, PIPE_BYTES);
    assert_eq!(kind(writer.write(b"a")), ErrorKind::TimedOut);
    assert_eq!(kind(writer.write(&[7; PIPE_BYTES])), ErrorKind::TimedOut);
    assert_eq!(reader.read(&mut [0; PIPE_BYTES])?, PIPE_BYTES);
    assert_eq!(kernel.waiting(), 0);
    Ok(())
}

#[test]
fn a_deadline_to_come_ends_a_call_once_it_is_over() -> Result<()> {
    let (mut reader, writer) = process().pipe()?;
    let begun = Instant::now();
    reader.set_deadline(begun.checked_add(Duration::from_millis(30)));
    assert_eq!(kind(reader.read(&mut [0])), ErrorKind::TimedOut);
    assert!(begun.elapsed() >= Duration::from_millis(30));
    drop(writer);
    Ok(())
}

#[test]
fn an_interrupt_ends_what_waits_of_its_process_alone() -> Result<()> {
    let kernel = Shared::new()?;
    let (one, other) = (kernel.start()?, kernel.start()?);
    let (mut reader, mut writer) = one.pipe()?;
    let (mut others, mut to_other) = other.pipe()?;
    let reads = thread::spawn(move || reader.read(&mut [0]));
    let waits = thread::spawn(move || others.read(&mut [0; 5]));
    until_waiting(&kernel, 2);
    one.interrupt()?;
    assert_eq!(
        kind(reads.join().expect("no panic")),
        ErrorKind::Interrupted
    );
    // its reader has gone with the thread
    assert_eq!(kind(writer.write(b"a")), ErrorKind::BrokenPipe);
    until_waiting(&kernel, 1);
    to_other.write_all(b"other")?;
    assert_eq!(waits.join().expect("no panic")?, 5);
    Ok(())
}

#[test]
fn an_exit_ends_what_waits_of_its_process() -> Result<()> {
    let kernel = Shared::new()?;
    let process = kernel.start()?;
    let (mut reader, mut writer) = process.pipe()?;
    let threads: Vec<_> = (0..20)
        .map(|_| {
            let mut reader = reader.try_clone().expect("a free descriptor");
            thread::spawn(move || reader.read(&mut [0]).expect_err("no process").to_string())
        })
        .collect();
    until_waiting(&kernel, 20);
    process.exit()?;
    for thread in threads {
        assert_eq!(thread.join().expect("no panic"), "no such process");
    }
    assert_eq!(kernel.waiting(), 0);
    // the pid is another process's now, and the handles of the one before do nothing to it
    let later = kernel.start()?;
    assert_eq!(later.id(), process.id());
    let (mut theirs, mut to_them) = later.pipe()?;
    assert_eq!(
        reader.read(&mut [0]).expect_err("no process").to_string(),
        "no such process"
    );
    assert_eq!(
        writer.write(b"a").expect_err("no process").to_string(),
        "no such process"
    );
    drop((reader, writer, process));
    to_them.write_all(b"still open")?;
    assert_eq!(theirs.read(&mut [0; 16])?, 10);
    Ok(())
}

#[test]
fn a_call_goes_on_if_its_descriptor_is_closed_by_another_thread() -> Result<()> {
    let kernel = Shared::new()?;
    let process = kernel.start()?;
    let (reader, mut writer) = process.pipe()?;
    let fd = reader.as_raw_fd();
    let reads = thread::spawn(move || {
        let count = (&reader).read(&mut [0; 8]);
        // it is closed already
        let _fd = reader.into_raw_fd();
        count
    });
    until_waiting(&kernel, 1);
    process.close(fd)?;
    // the read keeps its end open (docs/RULES.md, calls that wait)
    writer.write_all(b"late")?;
    assert_eq!(reads.join().expect("no panic")?, 4);
    Ok(())
}

#[test]
fn the_last_writer_that_another_thread_drops_ends_a_read() -> Result<()> {
    let kernel = Shared::new()?;
    let (mut reader, writer) = kernel.start()?.pipe()?;
    let reads = thread::spawn(move || reader.read(&mut [0]));
    until_waiting(&kernel, 1);
    drop(writer);
    assert_eq!(reads.join().expect("no panic")?, 0);
    Ok(())
}

#[test]
fn each_byte_ends_one_of_the_reads_that_wait() -> Result<()> {
    let kernel = Shared::new()?;
    let (reader, mut writer) = kernel.start()?.pipe()?;
    thread::scope(|scope| {
        let readers: Vec<_> = (0..12)
            .map(|_| scope.spawn(|| (&reader).read(&mut [0])))
            .collect();
        for left in (0..12).rev() {
            until_waiting(&kernel, left + 1);
            writer.write_all(b"a")?;
            until_waiting(&kernel, left);
        }
        for reader in readers {
            assert_eq!(reader.join().expect("no panic")?, 1);
        }
        Ok(())
    })
}

#[test]
fn a_read_that_waits_gives_as_much_as_a_write_puts_in() -> Result<()> {
    const LARGE: usize = 200_000;
    let kernel = Shared::new()?;
    let (mut reader, mut writer) = kernel.start()?.pipe()?;
    writer.set_capacity(LARGE)?;
    thread::scope(|scope| {
        let reads = scope.spawn(move || {
            let mut into = vec![0; 2 * LARGE];
            // a small one between two large ones
            [LARGE, 3, LARGE].into_iter().try_for_each(|size| {
                into.fill(0);
                assert_eq!(reader.read(&mut into)?, size);
                assert!(
                    into[..size]
                        .iter()
                        .enumerate()
                        .all(|(at, byte)| *byte == (at + size) as u8)
                );
                assert!(into[size..].iter().all(|byte| *byte == 0));
                Ok(())
            })
        });
        for size in [LARGE, 3, LARGE] {
            until_waiting(&kernel, 1);
            let bytes: Vec<u8> = (0..size).map(|at| (at + size) as u8).collect();
            assert_eq!(writer.write(&bytes)?, size);
        }
        reads.join().expect("no panic")
    })
}

#[test]
fn a_child_has_the_descriptors_of_its_parent() -> Result<()> {
    let parent = process();
    let (mut reader, writer) = parent.pipe()?;
    let child = parent.fork()?;
    let mut theirs = PipeWriter::from_raw_fd(&child, writer.as_raw_fd());
    drop(writer);
    theirs.write_all(b"from the child")?;
    // the child keeps the write end open until it exits
    drop(theirs);
    child.exit()?;
    let mut text = String::new();
    reader.read_to_string(&mut text)?;
    assert_eq!(text, "from the child");
    assert_eq!(
        child.exit().expect_err("it has exited").to_string(),
        "no such process"
    );
    Ok(())
}

#[test]
fn opens_of_a_fifo_wait_for_each_other() -> Result<()> {
    let kernel = Shared::new()?;
    let (one, other) = (kernel.start()?, kernel.start()?);
    one.mkfifo("inbox")?;
    assert_eq!(kind(one.mkfifo("inbox")), ErrorKind::AlreadyExists);
    let opened = File::options()
        .read(true)
        .deadline(Some(Instant::now()))
        .open(&one, "inbox");
    assert_eq!(kind(opened), ErrorKind::TimedOut);
    let reads = thread::spawn(move || {
        let mut text = String::new();
        File::open(&other, "inbox")?
            .read_to_string(&mut text)
            .map(|_| text)
    });
    until_waiting(&kernel, 1);
    File::create(&one, "inbox")?.write_all(b"met")?;
    assert_eq!(reads.join().expect("no panic")?, "met");
    one.remove_file("inbox")?;
    assert_eq!(kind(File::open(&one, "inbox")), ErrorKind::NotFound);
    Ok(())
}

#[test]
fn a_file_is_read_written_and_sought_in() -> Result<()> {
    let process = process();
    let mut file = File::options()
        .read(true)
        .write(true)
        .create_new(true)
        .open(&process, "data")?;
    assert_eq!(
        kind(
            File::options()
                .write(true)
                .create_new(true)
                .open(&process, "data")
        ),
        ErrorKind::AlreadyExists
    );
    file.write_all(b"0123456789")?;
    assert_eq!(file.seek(SeekFrom::End(-4))?, 6);
    let mut into = [0; 8];
    assert_eq!(file.read(&mut into)?, 4);
    assert_eq!(&into[..4], b"6789");
    assert_eq!(file.seek(SeekFrom::Current(-9))?, 1);
    assert_eq!(
        kind(file.seek(SeekFrom::Current(-2))),
        ErrorKind::InvalidInput
    );
    assert_eq!(
        kind(file.seek(SeekFrom::Start(u64::MAX))),
        ErrorKind::InvalidInput
    );
    File::options()
        .append(true)
        .open(&process, "data")?
        .write_all(b"!")?;
    assert_eq!(file.seek(SeekFrom::End(0))?, 11);
    assert_eq!(
        kind(File::options().open(&process, "data")),
        ErrorKind::InvalidInput
    );
    assert_eq!(
        kind(
            File::options()
                .read(true)
                .truncate(true)
                .open(&process, "data")
        ),
        ErrorKind::InvalidInput
    );
    File::create(&process, "data")?;
    assert_eq!(file.seek(SeekFrom::End(0))?, 0);
    Ok(())
}

#[test]
fn splice_and_tee_wait_for_bytes() -> Result<()> {
    let kernel = Shared::new()?;
    let process = kernel.start()?;
    let ((mut source, mut writer), (mut target, to_target)) = (process.pipe()?, process.pipe()?);
    source.set_deadline(Some(Instant::now()));
    assert_eq!(
        kind(splice(&source, None, &to_target, None, 9)),
        ErrorKind::TimedOut
    );
    assert_eq!(kind(tee(&source, &to_target, 9)), ErrorKind::TimedOut);
    source.set_deadline(None);
    let moves = thread::spawn(move || {
        Ok::<_, std::io::Error>((
            tee(&source, &to_target, 9)?,
            splice(&source, None, &to_target, None, 9)?,
        ))
    });
    until_waiting(&kernel, 1);
    writer.write_all(b"twice")?;
    assert_eq!(moves.join().expect("no panic")?, (5, 5));
    let mut text = String::new();
    target.read_to_string(&mut text)?;
    assert_eq!(text, "twicetwice");
    let (of_another, _writer) = kernel.start()?.pipe()?;
    assert_eq!(kind(tee(&of_another, &writer, 9)), ErrorKind::InvalidInput);
    Ok(())
}

#[test]
fn a_poll_waits_for_the_first_of_its_handles() -> Result<()> {
    let kernel = Shared::new()?;
    let process = kernel.start()?;
    let ((one, to_one), (other, to_other)) = (process.pipe()?, process.pipe()?);
    let found = |handle, events| {
        let mut entries = [PollFd::new(handle, events)];
        poll(&mut entries, Some(Duration::ZERO)).map(|count| (count, entries[0].revents()))
    };
    assert_eq!(found(&one, POLLIN)?, (0, 0));
    let begun = Instant::now();
    assert_eq!(
        poll(
            &mut [PollFd::new(&one, POLLIN)],
            Some(Duration::from_millis(20))
        )?,
        0
    );
    assert!(begun.elapsed() >= Duration::from_millis(20));
    thread::scope(|scope| -> Result<()> {
        let polls = scope.spawn(|| {
            let mut entries = [
                PollFd::new(&one, POLLIN),
                PollFd::new(&other, POLLIN),
                PollFd::new(&to_one, POLLIN),
            ];
            let count = poll(&mut entries, Some(Duration::from_secs(600)));
            (count, entries.map(|entry| entry.revents()))
        });
        until_waiting(&kernel, 1);
        (&to_other).write_all(b"!")?;
        let (count, revents) = polls.join().expect("no panic");
        assert_eq!((count?, revents), (1, [0, POLLIN, 0]));
        Ok(())
    })?;
    drop(to_one);
    assert_eq!(found(&one, POLLIN)?, (1, POLLHUP));
    drop(other);
    let mut entries = [PollFd::new(&to_other, POLLOUT)];
    assert_eq!(poll(&mut entries, None)?, 1);
    assert_eq!(entries[0].revents(), POLLOUT | POLLERR);
    assert_eq!(kind(poll(&mut [], None)), ErrorKind::InvalidInput);
    Ok(())
}

#[test]
fn nonblocking_handles_and_packets() -> Result<()> {
    let process = process();
    let (mut reader, mut writer) = process.pipe_with(PipeOptions {
        nonblocking: false,
        packets: true,
    })?;
    writer.write_all(b"one")?;
    writer.write_all(b"two")?;
    assert_eq!(
        (
            reader.held()?,
            reader.read(&mut [0; 2])?,
            reader.read(&mut [0; 8])?
        ),
        (6, 2, 3)
    );
    reader.set_nonblocking(true)?;
    assert_eq!(kind(reader.read(&mut [0])), ErrorKind::WouldBlock);
    reader.set_nonblocking(false)?;
    reader.set_deadline(Some(Instant::now()));
    assert_eq!(kind(reader.read(&mut [0])), ErrorKind::TimedOut);
    // fcntl(2), F_SETPIPE_SZ: rounded up to a power of two of pages
    assert_eq!(
        (
            writer.capacity()?,
            writer.set_capacity(5_000)?,
            reader.capacity()?
        ),
        (PIPE_BYTES, 8_192, 8_192)
    );
    writer.set_nonblocking(true)?;
    assert_eq!(writer.write(&[7; 20_000])?, 8_192);
    assert_eq!(kind(writer.write(&[7; 5_000])), ErrorKind::WouldBlock);
    Ok(())
}
