//! The shared kernel's reads and writes of tasks.

mod tasks;

use bindingclay::shared::{File, Limits, PipeWriter, Shared};
use std::io::{ErrorKind, Read, Result, Write};
use std::task::{Context, Poll};
use std::thread;
use std::time::{Duration, Instant};
use tasks::{Task, process, ready};

/// The bytes of a new pipe (pipe(7), Pipe capacity).
const PIPE_BYTES: usize = 65_536;

impl Task {
    fn write(&self, writer: &mut PipeWriter, bytes: &[u8]) -> Poll<Result<usize>> {
        writer.poll_write(&mut Context::from_waker(&self.waker), bytes)
    }
}

#[test]
fn a_step_wakes_just_those_who_can_get_on() -> Result<()> {
    let (kernel, process) = process();
    let ((mut one, mut to_one), (mut other, _to_other)) = (process.pipe()?, process.pipe()?);
    let (first, second) = (Task::new(), Task::new());
    let mut into = [0; 8];
    assert!(first.read(&mut one, &mut into).is_pending());
    assert!(second.read(&mut other, &mut into).is_pending());
    assert_eq!(kernel.waiting(), 2);
    to_one.write_all(b"abc")?;
    to_one.write_all(b"de")?;
    assert_eq!((first.woken(), second.woken()), (1, 0));
    // the bytes come at the next poll, into whatever room that has
    assert_eq!(ready(first.read(&mut one, &mut into[..2]))?, 2);
    assert_eq!(ready(first.read(&mut one, &mut into))?, 3);
    assert_eq!(&into[..3], b"cde");
    assert!(first.read(&mut one, &mut into).is_pending());
    drop(to_one);
    assert_eq!((first.woken(), second.woken()), (2, 0));
    assert_eq!(ready(first.read(&mut one, &mut into))?, 0);
    Ok(())
}

#[test]
fn one_step_wakes_all_who_can_get_on() -> Result<()> {
    let (_kernel, process) = process();
    let (reader, writer) = process.pipe()?;
    let mut readers: Vec<_> = (0..20).map(|_| reader.try_clone()).collect::<Result<_>>()?;
    let tasks: Vec<_> = readers.iter().map(|_| Task::new()).collect();
    for (task, reader) in tasks.iter().zip(&mut readers) {
        assert!(task.read(reader, &mut [0]).is_pending());
    }
    drop(writer);
    for (task, reader) in tasks.iter().zip(&mut readers) {
        assert_eq!(task.woken(), 1);
        assert_eq!(ready(task.read(reader, &mut [0]))?, 0);
    }
    Ok(())
}

#[test]
fn who_comes_second_waits_on() -> Result<()> {
    let (_kernel, process) = process();
    let (mut one, mut writer) = process.pipe()?;
    let mut other = one.try_clone()?;
    let (first, second) = (Task::new(), Task::new());
    assert!(first.read(&mut one, &mut [0]).is_pending());
    assert!(second.read(&mut other, &mut [0]).is_pending());
    writer.write_all(b"a")?;
    assert_eq!(ready(second.read(&mut other, &mut [0]))?, 1);
    assert!(first.read(&mut one, &mut [0]).is_pending());
    writer.write_all(b"b")?;
    assert_eq!(first.woken(), 2);
    assert_eq!(ready(first.read(&mut one, &mut [0]))?, 1);
    Ok(())
}

#[test]
fn a_write_waits_for_room() -> Result<()> {
    let (_kernel, process) = process();
    let (mut reader, mut writer) = process.pipe()?;
    let task = Task::new();
    let bytes = vec![7; 3 * PIPE_BYTES];
    assert_eq!(ready(task.write(&mut writer, &bytes[..60_000]))?, 60_000);
    // as much as there is room for, as a write that doesn't wait (POSIX.1-2017, write)
    assert_eq!(ready(task.write(&mut writer, &bytes))?, PIPE_BYTES - 60_000);
    assert!(task.write(&mut writer, &bytes).is_pending());
    assert_eq!(reader.read(&mut [0; 4_095])?, 4_095);
    assert_eq!(task.woken(), 0);
    // room for 4,096 bytes (docs/RULES.md, poll)
    assert_eq!(reader.read(&mut [0])?, 1);
    assert_eq!(task.woken(), 1);
    assert_eq!(ready(task.write(&mut writer, &bytes))?, 4_096);
    assert!(task.write(&mut writer, b"a").is_pending());
    drop(reader);
    assert_eq!(task.woken(), 2);
    assert_eq!(
        ready(task.write(&mut writer, b"a"))
            .expect_err("no reader")
            .kind(),
        ErrorKind::BrokenPipe
    );
    Ok(())
}

#[test]
fn a_dropped_handle_waits_no_more() -> Result<()> {
    let (kernel, process) = process();
    let (mut reader, mut writer) = process.pipe()?;
    let task = Task::new();
    assert!(task.read(&mut reader, &mut [0]).is_pending());
    drop(reader);
    assert_eq!((kernel.waiting(), task.woken()), (0, 0));
    // the poll kept the read end open, and is gone with it
    assert_eq!(
        writer.write(b"a").expect_err("no reader").kind(),
        ErrorKind::BrokenPipe
    );
    assert_eq!(process.pipe()?.0.as_raw_fd(), 0);
    Ok(())
}

#[test]
fn exits_and_interrupts_wake_a_task() -> Result<()> {
    let (kernel, process) = process();
    let (mut reader, writer) = process.pipe()?;
    let task = Task::new();
    assert!(task.read(&mut reader, &mut [0]).is_pending());
    process.interrupt()?;
    assert_eq!(task.woken(), 1);
    assert_eq!(
        ready(task.read(&mut reader, &mut [0]))
            .expect_err("EINTR")
            .kind(),
        ErrorKind::Interrupted
    );
    assert!(task.read(&mut reader, &mut [0]).is_pending());
    process.exit()?;
    assert_eq!(task.woken(), 2);
    for _ in 0..2 {
        assert_eq!(
            ready(task.read(&mut reader, &mut [0]))
                .expect_err("no process")
                .to_string(),
            "no such process"
        );
    }
    drop((reader, writer));
    assert_eq!(kernel.waiting(), 0);
    Ok(())
}

#[test]
fn a_handle_that_never_waits_can_wait_for_a_task() -> Result<()> {
    let (_kernel, process) = process();
    process.mkfifo("inbox")?;
    let mut reader = File::options()
        .read(true)
        .nonblocking(true)
        .open(&process, "inbox")?;
    let mut writer = File::options().write(true).open(&process, "inbox")?;
    let task = Task::new();
    let mut context = Context::from_waker(&task.waker);
    assert!(reader.poll_read(&mut context, &mut [0; 4]).is_pending());
    assert_eq!(ready(writer.poll_write(&mut context, b"four"))?, 4);
    assert_eq!(task.woken(), 1);
    assert_eq!(ready(reader.poll_read(&mut context, &mut [0; 4]))?, 4);
    Ok(())
}

#[test]
fn the_limit_of_waiting_calls_is_told() -> Result<()> {
    let kernel = Shared::within(&Limits {
        waiting_calls: 1,
        ..Limits::default()
    })?;
    let process = kernel.start()?;
    let ((mut one, _to_one), (mut other, _to_other)) = (process.pipe()?, process.pipe()?);
    let task = Task::new();
    assert!(task.read(&mut one, &mut [0]).is_pending());
    assert_eq!(
        ready(task.read(&mut other, &mut [0]))
            .expect_err("EAGAIN")
            .kind(),
        ErrorKind::WouldBlock
    );
    drop(one);
    assert!(task.read(&mut other, &mut [0]).is_pending());
    Ok(())
}

#[test]
fn a_process_is_told_the_limit_of_its_own_waiting_calls() -> Result<()> {
    let kernel = Shared::within(&Limits {
        waiting_of_each: 1,
        ..Limits::default()
    })?;
    let (greedy, patient) = (kernel.start()?, kernel.start()?);
    let ((mut one, _to_one), (mut other, _to_other)) = (greedy.pipe()?, greedy.pipe()?);
    let (mut of_patient, _to_patient) = patient.pipe()?;
    let task = Task::new();
    assert!(task.read(&mut one, &mut [0]).is_pending());
    assert_eq!(
        ready(task.read(&mut other, &mut [0]))
            .expect_err("EAGAIN")
            .kind(),
        ErrorKind::WouldBlock
    );
    assert!(task.read(&mut of_patient, &mut [0]).is_pending());
    drop(one);
    assert!(task.read(&mut other, &mut [0]).is_pending());
    Ok(())
}

fn timed_out(polled: Poll<Result<usize>>) -> bool {
    matches!(polled, Poll::Ready(Err(fault)) if fault.kind() == ErrorKind::TimedOut)
}

#[test]
fn a_poll_at_the_deadline_or_later_ends_a_wait() -> Result<()> {
    let (kernel, process) = process();
    let (mut reader, mut writer) = process.pipe()?;
    let task = Task::new();
    let deadline = Instant::now() + Duration::from_millis(500);
    reader.set_deadline(Some(deadline));
    assert!(task.read(&mut reader, &mut [0]).is_pending());
    assert!(task.read(&mut reader, &mut [0]).is_pending());
    thread::sleep(deadline.saturating_duration_since(Instant::now()));
    // no timer wakes the task
    assert_eq!((kernel.waiting(), task.woken()), (1, 0));
    assert!(timed_out(task.read(&mut reader, &mut [0])));
    assert_eq!(kernel.waiting(), 0);
    writer.set_deadline(Some(deadline));
    // what needn't wait is answered, however late it is
    assert_eq!(
        ready(task.write(&mut writer, &[7; PIPE_BYTES]))?,
        PIPE_BYTES
    );
    assert!(timed_out(task.write(&mut writer, b"a")));
    assert_eq!(
        ready(task.read(&mut reader, &mut [0; PIPE_BYTES]))?,
        PIPE_BYTES
    );
    assert_eq!((kernel.waiting(), task.woken()), (0, 0));
    reader.set_deadline(None);
    assert!(task.read(&mut reader, &mut [0]).is_pending());
    Ok(())
}

#[test]
fn a_deadline_that_is_set_while_a_task_waits_ends_its_wait() -> Result<()> {
    let (kernel, process) = process();
    let (mut reader, mut writer) = process.pipe()?;
    let task = Task::new();
    assert!(task.read(&mut reader, &mut [0]).is_pending());
    writer.write_all(&[7; PIPE_BYTES])?;
    assert!(task.write(&mut writer, b"a").is_pending());
    assert_eq!((kernel.waiting(), task.woken()), (1, 1));
    reader.set_deadline(Some(Instant::now()));
    writer.set_deadline(Some(Instant::now()));
    // the read was helped; the write has room by now, though less than a poll waits for (docs/RULES.md, poll)
    assert_eq!(ready(task.read(&mut reader, &mut [0; 2]))?, 2);
    assert_eq!((kernel.waiting(), task.woken()), (1, 1));
    assert_eq!(ready(task.write(&mut writer, b"a"))?, 1);
    assert_eq!(kernel.waiting(), 0);
    assert_eq!(ready(task.write(&mut writer, b"a"))?, 1);
    assert!(timed_out(task.write(&mut writer, b"a")));
    Ok(())
}

#[test]
fn deadlines_count_for_tasks_of_a_fifo() -> Result<()> {
    let (kernel, process) = process();
    process.mkfifo("inbox")?;
    let mut fifo = File::options()
        .read(true)
        .write(true)
        .open(&process, "inbox")?;
    let task = Task::new();
    let mut context = Context::from_waker(&task.waker);
    assert!(fifo.poll_read(&mut context, &mut [0]).is_pending());
    fifo.set_deadline(Some(Instant::now()));
    assert!(timed_out(fifo.poll_read(&mut context, &mut [0])));
    assert_eq!(
        ready(fifo.poll_write(&mut context, &[7; PIPE_BYTES]))?,
        PIPE_BYTES
    );
    assert!(timed_out(fifo.poll_write(&mut context, b"a")));
    assert_eq!(kernel.waiting(), 0);
    Ok(())
}
