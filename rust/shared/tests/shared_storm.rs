//! The shared kernel under many threads, in ping-pongs, and with little memory: nothing waits for ever, nothing is left, and no byte comes
//! elsewhere.
//!
//! `BINDINGCLAY_STORM` says how many seconds the storm takes, and `BINDINGCLAY_ROUNDS` how many ping-pongs are made; without them 3 and 20,000.

mod draws;

use bindingclay::shared::{
    File, Limits, POLLIN, POLLOUT, PipeReader, PipeWriter, PollFd, Process, Shared, poll, splice,
    tee,
};
use draws::Draws;
use std::env;
use std::io::{Error, ErrorKind, Read, Result, Write};
use std::sync::atomic::{AtomicBool, Ordering};
use std::sync::{Arc, Mutex};
use std::thread;
use std::time::{Duration, Instant};

/// How many processes all threads of the storm use, each with two pipes.
const PUBLIC: usize = 4;
const THREADS: u64 = 6;

fn number_of(name: &str, otherwise: u64) -> u64 {
    env::var(name).map_or(otherwise, |text| text.parse().expect("a number"))
}

/// A deadline that is over, or within three milliseconds.
fn drawn_deadline(draws: &mut Draws) -> Option<Instant> {
    Instant::now().checked_add(Duration::from_micros(draws.below(4) as u64 * 1_000))
}

/// A process with two pipes.
struct Place {
    process: Process,
    ends: [(PipeReader, PipeWriter); 2],
}

impl Place {
    fn new(kernel: &Shared) -> Result<Arc<Place>> {
        let process = kernel.start()?;
        let ends = [process.pipe()?, process.pipe()?];
        Ok(Arc::new(Place { process, ends }))
    }
}

/// What may go wrong in a storm: what ends a call that waits, and limits.
fn is_of_a_storm(fault: &Error) -> bool {
    let kinds = [
        ErrorKind::TimedOut,
        ErrorKind::Interrupted,
        ErrorKind::BrokenPipe,
    ];
    // EBUSY, EMFILE (errno.h on Linux)
    kinds.contains(&fault.kind())
        || matches!(fault.raw_os_error(), Some(16 | 24))
        || fault.to_string() == "no such process"
}

/// One thing that a thread does to a place.
fn act(draws: &mut Draws, place: &Place) -> Result<()> {
    let Place { process, ends } = place;
    let (mut reader, mut writer) = (
        ends[draws.below(2)].0.try_clone()?,
        ends[draws.below(2)].1.try_clone()?,
    );
    reader.set_deadline(drawn_deadline(draws));
    writer.set_deadline(drawn_deadline(draws));
    match draws.below(10) {
        0..=2 => reader.read(&mut vec![0; 1 + draws.below(70_000)])?,
        3..=5 => writer.write(&vec![7; 1 + draws.below(70_000)])?,
        6 => splice(&reader, None, &ends[1].1, None, draws.below(70_000)).or_else(same_pipe)?,
        7 => tee(&reader, &writer, draws.below(70_000)).or_else(same_pipe)?,
        8 => {
            let mut entries = [PollFd::new(&reader, POLLIN), PollFd::new(&writer, POLLOUT)];
            poll(
                &mut entries,
                Some(Duration::from_millis(draws.below(3) as u64)),
            )?
        }
        _ => {
            let child = process.fork()?;
            let mut theirs = PipeReader::from_raw_fd(&child, reader.as_raw_fd());
            theirs.set_deadline(drawn_deadline(draws));
            let read = theirs.read(&mut [0; 100]);
            child.exit()?;
            read?
        }
    };
    Ok(())
}

/// EINVAL: both ends are of one pipe (splice(2), tee(2)).
fn same_pipe(fault: Error) -> Result<usize> {
    if fault.kind() == ErrorKind::InvalidInput {
        Ok(0)
    } else {
        Err(fault)
    }
}

/// A thread of the storm: how much of what it did was answered.
fn storm(kernel: &Shared, places: &[Mutex<Arc<Place>>], seed: u64, over: &AtomicBool) -> u64 {
    let mut draws = Draws(seed);
    let mut answered = 0;
    while !over.load(Ordering::Relaxed) {
        let slot = &places[draws.below(places.len())];
        let place = Arc::clone(&slot.lock().expect("no panic"));
        let done = match draws.below(50) {
            0 => place
                .process
                .exit()
                .and_then(|()| Place::new(kernel))
                .map(|new| {
                    let before = std::mem::replace(&mut *slot.lock().expect("no panic"), new);
                    drop(before);
                }),
            1 | 2 => place.process.interrupt(),
            _ => act(&mut draws, &place),
        };
        match done {
            Ok(()) => answered += 1,
            Err(fault) => assert!(is_of_a_storm(&fault), "{fault:?}"),
        }
    }
    answered
}

/// Sends numbers there and back until it is over, each within ten seconds: a machine may stop a thread for one.
fn ping_pong(process: &Process, rounds: u64, over: &AtomicBool) -> Result<u64> {
    let ((mut one, mut to_one), (mut other, mut to_other)) = (process.pipe()?, process.pipe()?);
    thread::scope(|scope| {
        let echo = scope.spawn(move || -> Result<()> {
            let mut bytes = [0; 8];
            while other.read(&mut bytes)? == 8 {
                to_one.write_all(&bytes)?;
            }
            Ok(())
        });
        let mut made = 0;
        while made < rounds && !over.load(Ordering::Relaxed) {
            let mut bytes = [0; 8];
            one.set_deadline(Instant::now().checked_add(Duration::from_secs(10)));
            to_other.write_all(&made.to_le_bytes())?;
            one.read_exact(&mut bytes)?;
            assert_eq!(u64::from_le_bytes(bytes), made);
            made += 1;
        }
        drop(to_other);
        echo.join().expect("no panic")?;
        Ok(made)
    })
}

#[test]
fn no_wake_up_of_a_ping_pong_is_lost() -> Result<()> {
    let rounds = number_of("BINDINGCLAY_ROUNDS", 20_000);
    let process = Shared::new()?.start()?;
    assert_eq!(
        ping_pong(&process, rounds, &AtomicBool::new(false))?,
        rounds
    );
    Ok(())
}

/// The bytes of a message: who sends it, and how many it sent before to the same pipe.
fn message(sender: u64, before: u64) -> [u8; 16] {
    let mut bytes = [0; 16];
    bytes[..8].copy_from_slice(&sender.to_le_bytes());
    bytes[8..].copy_from_slice(&before.to_le_bytes());
    bytes
}

#[test]
fn messages_of_many_threads_come_whole_and_in_order() -> Result<()> {
    const MEMBERS: usize = 12;
    const EACH: u64 = 200;
    let kernel = Shared::new()?;
    let process = kernel.start()?;
    let pipes = (0..MEMBERS)
        .map(|_| process.pipe())
        .collect::<Result<Vec<_>>>()?;
    let (readers, writers): (Vec<_>, Vec<_>) = pipes.into_iter().unzip();
    // full pipes, so that writes wait too
    writers
        .iter()
        .try_for_each(|writer| writer.set_capacity(4_096).map(|_| ()))?;
    thread::scope(|scope| {
        for mut reader in readers {
            scope.spawn(move || {
                let mut met = [0; MEMBERS];
                for _ in 0..MEMBERS as u64 * EACH {
                    let mut bytes = [0; 16];
                    reader.read_exact(&mut bytes).expect("a message");
                    let sender = usize::from(bytes[0]);
                    assert_eq!(bytes, message(sender as u64, met[sender]));
                    met[sender] += 1;
                }
                assert_eq!(met, [EACH; MEMBERS]);
            });
        }
        for sender in 0..MEMBERS as u64 {
            let writers = &writers;
            let send = move |before| {
                writers
                    .iter()
                    .try_for_each(|mut to: &PipeWriter| to.write_all(&message(sender, before)))
            };
            scope.spawn(move || (0..EACH).try_for_each(send).expect("readers"));
        }
    });
    assert_eq!(kernel.waiting(), 0);
    Ok(())
}

#[test]
fn a_storm_of_eight_threads_leaves_nothing() -> Result<()> {
    let kernel = Shared::new()?;
    let calm = kernel.start()?;
    let places: Vec<_> = (0..PUBLIC)
        .map(|_| Place::new(&kernel).map(Mutex::new))
        .collect::<Result<_>>()?;
    let over = AtomicBool::new(false);
    thread::scope(|scope| -> Result<()> {
        let threads: Vec<_> = (1..=THREADS)
            .map(|seed| (seed, &kernel, &places, &over))
            .collect();
        let threads: Vec<_> = threads
            .into_iter()
            .map(|(seed, kernel, places, over)| {
                scope.spawn(move || storm(kernel, places, seed * 7_919, over))
            })
            .collect();
        // two threads more, which no interrupt and no exit is for
        let talk = scope.spawn(|| ping_pong(&calm, u64::MAX, &over));
        thread::sleep(Duration::from_secs(number_of("BINDINGCLAY_STORM", 3)));
        over.store(true, Ordering::Relaxed);
        assert!(talk.join().expect("no panic")? > 0);
        for thread in threads {
            assert!(thread.join().expect("no panic") > 0);
        }
        Ok(())
    })?;
    drop((places, calm));
    assert_eq!(kernel.waiting(), 0);
    // all processes have exited
    assert_eq!(kernel.start()?.id(), 1);
    Ok(())
}

/// What threads do with little memory: calls that wait, and those that make something.
fn talk(kernel: &Shared) -> Result<()> {
    let process = kernel.start()?;
    let (mut reader, mut writer) = process.pipe()?;
    let deadline = Instant::now().checked_add(Duration::from_secs(20));
    reader.set_deadline(deadline);
    writer.set_deadline(deadline);
    thread::scope(|scope| {
        let reads = scope.spawn(move || {
            let mut bytes = Vec::new();
            reader.read_to_end(&mut bytes).map(|_| bytes.len())
        });
        // the writer goes at the end, whatever comes
        let wrote = scope.spawn(move || writer.write_all(&[7; 100_000]));
        let (wrote, read) = (
            wrote.join().expect("no panic"),
            reads.join().expect("no panic"),
        );
        wrote?;
        assert_eq!(read?, 100_000);
        Ok::<_, Error>(())
    })?;
    let child = process.fork()?;
    child.mkfifo("inbox")?;
    let mut file = File::options()
        .write(true)
        .create(true)
        .open(&child, "kept")?;
    file.write_all(&[7; 10_000])?;
    let (reader, writer) = process.pipe()?;
    writer.set_capacity(200_000)?;
    let mut entries = [PollFd::new(&reader, POLLIN)];
    assert_eq!(poll(&mut entries, Some(Duration::from_micros(1)))?, 0);
    Ok(())
}

#[test]
fn refused_memory_leaves_nobody_waiting() -> Result<()> {
    let mut refused = 0;
    for memory in (0..).step_by(1_009) {
        let kernel = Shared::within(&Limits {
            memory,
            ..Limits::default()
        });
        let talked = kernel.and_then(|kernel| {
            let talked = talk(&kernel);
            assert_eq!(kernel.waiting(), 0);
            talked
        });
        match talked {
            Ok(()) => break,
            // the end that found no memory goes, and so the other one's calls end
            Err(fault) => assert!(
                [ErrorKind::OutOfMemory, ErrorKind::BrokenPipe].contains(&fault.kind()),
                "{fault:?}"
            ),
        }
        refused += 1;
    }
    assert!(refused > 50, "{refused}");
    Ok(())
}
