//! Records of a shared kernel: what is recorded of a call that waits, calls that come to their ends without memory for the record, and a storm of
//! four threads, whose record `piperun --check` is to pass. Its lines are those of docs/RULES.md, "Scripts" and "Records".
//!
//! `BINDINGCLAY_RECORD` names a file to which the record of the storm is written; without it it is kept in memory.

mod draws;
mod waiting;

use bindingclay::shared::{Limits, PipeReader, Process, Shared, splice};
use draws::Draws;
use std::io::{ErrorKind, Read, Result, Write};
use std::sync::atomic::{AtomicUsize, Ordering};
use std::thread;
use std::time::{Duration, Instant};
use waiting::until_waiting;

/// EINVAL of errno.h on Linux.
const EINVAL: i32 = 22;

const HEADER: &str = "piperun 2\n# piperun --first-call 1 --file-max 16777216 --names-max 18446744073709551615 --waiting-max \
                      18446744073709551615 --capacity-max 1048576 --descriptors-max 256\n";

fn handed_out(kernel: &Shared) -> Result<String> {
    let mut text = Vec::new();
    let count = kernel.write_record(&mut text)?;
    assert_eq!(count, text.len() as u64);
    Ok(String::from_utf8(text).expect("a record is text"))
}

fn is_refused<T: std::fmt::Debug>(result: Result<T>) {
    assert_eq!(result.expect_err("an error").raw_os_error(), Some(EINVAL));
}

#[test]
fn it_begins_before_the_first_process() -> Result<()> {
    let kernel = Shared::new()?;
    is_refused(kernel.recorded(&mut [0; 8]));
    kernel.end_record();
    kernel.record()?;
    is_refused(kernel.record());
    assert_eq!(kernel.recorded(&mut [])?, 0);
    assert_eq!(handed_out(&kernel)?, HEADER);
    kernel.end_record();
    is_refused(kernel.recorded(&mut [0; 8]));
    let kernel = Shared::new()?;
    let _process = kernel.start()?;
    is_refused(kernel.record());
    Ok(())
}

#[test]
fn the_try_that_answers_a_call_is_recorded() -> Result<()> {
    let kernel = Shared::new()?;
    kernel.record()?;
    let process = kernel.start()?;
    let (mut reader, mut writer) = process.pipe()?;
    thread::scope(|scope| -> Result<()> {
        let waits = scope.spawn(|| reader.read_exact(&mut [0; 5]));
        until_waiting(&kernel, 1);
        assert_eq!(
            handed_out(&kernel)?,
            format!("{HEADER}start\n# => pid 1\n1 pipe\n# => fds 0 1\n1 read 0 5\n# => parked 1\n")
        );
        writer.write_all(b"hello")?;
        waits.join().expect("no panic")
    })?;
    drop(writer);
    assert_eq!(
        handed_out(&kernel)?,
        "1 write 1 68656c6c6f\n# => count 5\nresume 1\n# => data 68656c6c6f\n1 close 1\n# => ok\n"
    );
    Ok(())
}

/// A recorded kernel with little memory, all of which is used for the record from the second call that waits on.
fn filled() -> Result<(Shared, Process, PipeReader)> {
    let kernel = Shared::within(&Limits {
        memory: 40_000,
        ..Limits::default()
    })?;
    kernel.record()?;
    let process = kernel.start()?;
    let (reader, writer) = process.pipe()?;
    writer.into_raw_fd();
    Ok((kernel, process, reader))
}

fn fill(process: &Process) {
    let mut calls = 0;
    while process.close(99).expect_err("it isn't open").kind() != ErrorKind::OutOfMemory {
        calls += 1;
    }
    assert!(calls > 100, "{calls}");
}

/// What ends a call that waits.
type End = fn(&Process) -> Result<()>;

#[test]
fn a_call_ends_that_cannot_be_recorded() -> Result<()> {
    let interrupted = "interrupt 1\n# => EINTR\n";
    let ends: [(End, ErrorKind, &str); 3] = [
        (Process::interrupt, ErrorKind::Interrupted, interrupted),
        (Process::exit, ErrorKind::Other, "1 exit\n# => ok\n"),
        // it is over soon
        (|_| Ok(()), ErrorKind::TimedOut, interrupted),
    ];
    let mut unrecorded = 0;
    for (end, kind, lines) in ends {
        let (kernel, process, mut reader) = filled()?;
        thread::scope(|scope| -> Result<()> {
            if kind == ErrorKind::TimedOut {
                reader.set_deadline(Instant::now().checked_add(Duration::from_secs(3)));
            }
            let waits = scope.spawn(move || reader.read(&mut [0; 1]));
            until_waiting(&kernel, 1);
            fill(&process);
            end(&process)?;
            assert_eq!(
                waits
                    .join()
                    .expect("no panic")
                    .expect_err("it was ended")
                    .kind(),
                kind
            );
            Ok(())
        })?;
        // a short line may find the last bytes of the room
        match kernel.recorded(&mut []) {
            Ok(_) => assert!(handed_out(&kernel)?.ends_with(lines)),
            Err(fault) => {
                assert_eq!(fault.raw_os_error(), Some(EINVAL));
                unrecorded += 1;
            }
        }
        assert_eq!(kernel.waiting(), 0);
    }
    assert!(unrecorded > 0);
    Ok(())
}

#[test]
fn a_handle_is_closed_that_cannot_be_recorded() -> Result<()> {
    let (kernel, process, reader) = filled()?;
    fill(&process);
    drop(reader);
    is_refused(kernel.recorded(&mut [0; 8]));
    let (reader, _writer) = process.pipe()?;
    assert_eq!(reader.as_raw_fd(), 0);
    Ok(())
}

/// What one thread does: calls that wait, each with a deadline, and children that come and go.
fn act(kernel: &Shared, seed: u64) -> Result<usize> {
    let mut draws = Draws(seed);
    let process = kernel.start()?;
    let ((mut reader, mut writer), (_other_reader, other_writer)) =
        (process.pipe()?, process.pipe()?);
    other_writer.set_nonblocking(true)?;
    let mut answered = 0;
    for _ in 0..300 {
        let deadline = Instant::now().checked_add(Duration::from_micros(draws.below(400) as u64));
        reader.set_deadline(deadline);
        writer.set_deadline(deadline);
        let size = 1 + draws.below(9_000);
        let done = match draws.below(6) {
            0 | 1 => reader.read(&mut vec![0; size]),
            2 | 3 => writer.write(&vec![7; size]),
            4 => splice(&reader, None, &other_writer, None, size),
            _ => process.fork().and_then(|child| {
                let mut theirs = PipeReader::from_raw_fd(&child, reader.as_raw_fd());
                theirs.set_deadline(deadline);
                theirs.read(&mut [0; 100])
            }),
        };
        match done {
            Ok(_) => answered += 1,
            Err(fault) => assert!(
                [ErrorKind::TimedOut, ErrorKind::WouldBlock].contains(&fault.kind()),
                "{fault:?}"
            ),
        }
    }
    Ok(answered)
}

/// Counts lines that tell replies.
fn replies_in(record: &[u8]) -> usize {
    record
        .split(|byte| *byte == b'\n')
        .filter(|line| line.starts_with(b"# => "))
        .count()
}

#[test]
fn a_storm_of_four_threads_is_recorded() -> Result<()> {
    let kernel = Shared::new()?;
    kernel.record()?;
    let left = AtomicUsize::new(4);
    let mut record = Vec::new();
    thread::scope(|scope| -> Result<()> {
        let threads: Vec<_> = (1..=4)
            .map(|seed| {
                let (kernel, left) = (&kernel, &left);
                scope.spawn(move || {
                    let answered = act(kernel, seed * 7_919);
                    left.fetch_sub(1, Ordering::Relaxed);
                    answered
                })
            })
            .collect();
        while left.load(Ordering::Relaxed) > 0 {
            kernel.write_record(&mut record)?;
            thread::sleep(Duration::from_millis(1));
        }
        for thread in threads {
            assert!(thread.join().expect("no panic")? > 10);
        }
        Ok(())
    })?;
    kernel.write_record(&mut record)?;
    // two lines in front, and then a line and its reply
    let lines = record.split(|byte| *byte == b'\n').count() - 1;
    assert_eq!(lines, 2 + 2 * replies_in(&record));
    assert!(lines > 2_000, "{lines}");
    if let Some(path) = std::env::var_os("BINDINGCLAY_RECORD") {
        std::fs::write(path, &record)?;
    }
    Ok(())
}
