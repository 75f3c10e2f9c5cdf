//! What pipes of a shared kernel cost beside `std::io::pipe`, in one run: the least of many rounds, in nanoseconds.
//!
//! The rows are a write and a read of 64 bytes in one thread, a ping-pong of two threads, a stream of 64 KiB pieces from thread to thread,
//! messages of 100 bytes among 160 threads in four groups, and a ping-pong beside 1,000 threads that wait, beside one without these. A word
//! as an argument chooses the rows whose names have it.

// The feature `measure`, without which this isn't built, asks for Rust 1.87.
#![allow(clippy::incompatible_msrv)]

use bindingclay::shared::{PipeReader, Shared};
use std::env;
use std::hint::black_box;
use std::io::{Read, Result, Write};
use std::thread;
use std::time::{Duration, Instant};

const PIECE: usize = 65_536;

/// The least time of one of `times` equal parts of a call, of so many rounds.
fn least(rounds: usize, times: usize, mut round: impl FnMut() -> Result<()>) -> Result<f64> {
    let mut least = f64::MAX;
    for _ in 0..rounds {
        let begun = Instant::now();
        round()?;
        least = least.min(begun.elapsed().as_nanos() as f64 / times as f64);
    }
    Ok(least)
}

fn pair(mut reader: impl Read, mut writer: impl Write) -> Result<f64> {
    let (bytes, mut into) = ([7; 64], [0; 64]);
    least(500, 1_000, || {
        for _ in 0..1_000 {
            writer.write_all(black_box(&bytes))?;
            reader.read_exact(black_box(&mut into))?;
        }
        Ok(())
    })
}

/// Two threads that send each other a byte in turn: what a byte there and one back take.
fn ping_pong<R: Read + Send, W: Write + Send>(
    (mut one, mut to_one): (R, W),
    (mut other, mut to_other): (R, W),
) -> Result<f64> {
    thread::scope(|scope| {
        let echo = scope.spawn(move || -> Result<()> {
            let mut byte = [0];
            while other.read(&mut byte)? == 1 {
                to_one.write_all(&byte)?;
            }
            Ok(())
        });
        let told = least(30, 1_000, || {
            for _ in 0..1_000 {
                to_other.write_all(&[1])?;
                one.read_exact(&mut [0])?;
            }
            Ok(())
        });
        drop(to_other);
        echo.join().expect("no panic")?;
        told
    })
}

/// One thread writes pieces of 64 KiB, and another one reads them: what a piece takes.
fn stream<R: Read + Send, W: Write + Send>(
    mut reader: R,
    mut writer: W,
    rounds: usize,
) -> Result<f64> {
    const PIECES: usize = 400;
    thread::scope(|scope| {
        let talker = scope.spawn(move || -> Result<()> {
            let piece = vec![7; PIECE];
            (0..rounds * PIECES).try_for_each(|_| writer.write_all(&piece))
        });
        let mut into = vec![0; PIECE];
        let told = least(rounds, PIECES, || {
            (0..PIECES).try_for_each(|_| reader.read_exact(&mut into))
        });
        talker.join().expect("no panic")?;
        told
    })
}

/// Four groups of 20 senders and 20 receivers, each with a pipe. Each sender writes messages to each receiver of its group: what a message takes.
fn messages<R: Read + Send, W: Send + Sync>(
    pipe: impl Fn() -> Result<(R, W)>,
    rounds: usize,
) -> Result<f64>
where
    for<'a> &'a W: Write,
{
    const GROUPS: usize = 4;
    const MEMBERS: usize = 20;
    const EACH: usize = 50;
    let mut told = f64::MAX;
    for _ in 0..rounds {
        let pipes = (0..GROUPS * MEMBERS)
            .map(|_| pipe())
            .collect::<Result<Vec<_>>>()?;
        let (readers, writers): (Vec<R>, Vec<W>) = pipes.into_iter().unzip();
        let begun = Instant::now();
        thread::scope(|scope| {
            for mut reader in readers {
                scope.spawn(move || {
                    (0..MEMBERS * EACH)
                        .try_for_each(|_| reader.read_exact(&mut [0; 100]))
                        .expect("a read")
                });
            }
            for of_group in writers.chunks(MEMBERS) {
                for _ in of_group {
                    let send = move |mut to: &W| to.write_all(&[7; 100]);
                    scope.spawn(move || {
                        (0..EACH)
                            .try_for_each(|_| of_group.iter().try_for_each(send))
                            .expect("a write")
                    });
                }
            }
        });
        told = told
            .min(begun.elapsed().as_nanos() as f64 / (GROUPS * MEMBERS * MEMBERS * EACH) as f64);
    }
    Ok(told)
}

/// A ping-pong alone, and then beside 1,000 threads that wait, each at a pipe of its own.
fn beside_sleepers(kernel: &Shared) -> Result<(f64, f64)> {
    const PROCESSES: usize = 10;
    const PIPES: usize = 100;
    let process = kernel.start()?;
    let talk = || ping_pong(process.pipe()?, process.pipe()?);
    let alone = talk()?;
    let places = (0..PROCESSES)
        .map(|_| kernel.start())
        .collect::<Result<Vec<_>>>()?;
    let pipes = (0..PROCESSES * PIPES)
        .map(|at| places[at / PIPES].pipe())
        .collect::<Result<Vec<_>>>()?;
    let among = thread::scope(|scope| {
        for (reader, _) in &pipes {
            let sleep = |mut reader: &PipeReader| reader.read(&mut [0]).expect_err("an interrupt");
            thread::Builder::new()
                .stack_size(65_536)
                .spawn_scoped(scope, move || sleep(reader))?;
        }
        while kernel.waiting() < pipes.len() {
            thread::sleep(Duration::from_millis(1));
        }
        let among = talk();
        places.iter().try_for_each(|place| place.interrupt())?;
        among
    })?;
    Ok((alone, among))
}

/// A row: what it is beside, with its time, and the time here.
type Row = (&'static str, f64, f64);

type Measure = fn() -> Result<Row>;

const OF_HOST: &str = "host's pipe";

fn row_of_pairs() -> Result<Row> {
    let (host, here) = (std::io::pipe()?, Shared::new()?.start()?.pipe()?);
    Ok((OF_HOST, pair(host.0, host.1)?, pair(here.0, here.1)?))
}

fn row_of_ping_pongs() -> Result<Row> {
    let process = Shared::new()?.start()?;
    let host = ping_pong(std::io::pipe()?, std::io::pipe()?)?;
    Ok((OF_HOST, host, ping_pong(process.pipe()?, process.pipe()?)?))
}

fn row_of_streams() -> Result<Row> {
    let (host, here) = (std::io::pipe()?, Shared::new()?.start()?.pipe()?);
    Ok((
        OF_HOST,
        stream(host.0, host.1, 30)?,
        stream(here.0, here.1, 30)?,
    ))
}

fn row_of_messages() -> Result<Row> {
    let process = Shared::new()?.start()?;
    Ok((
        OF_HOST,
        messages(std::io::pipe, 20)?,
        messages(|| process.pipe(), 20)?,
    ))
}

fn row_of_sleepers() -> Result<Row> {
    let (alone, among) = beside_sleepers(&Shared::new()?)?;
    Ok(("without them", alone, among))
}

const ROWS: [(&str, Measure); 5] = [
    ("write and read of 64 bytes", row_of_pairs),
    ("ping-pong of two threads", row_of_ping_pongs),
    ("64 KiB from thread to thread", row_of_streams),
    ("100 bytes among 160 threads", row_of_messages),
    ("ping-pong beside 1,000 that wait", row_of_sleepers),
];

fn main() -> Result<()> {
    let word = env::args().nth(1).unwrap_or_default();
    for (what, measure) in ROWS.iter().filter(|(what, _)| what.contains(&word)) {
        let (beside, other, here) = measure()?;
        println!(
            "{what:<34} {beside:<12} {other:>9.1}   here {here:>9.1}   ratio {:.3}",
            here / other
        );
    }
    Ok(())
}
