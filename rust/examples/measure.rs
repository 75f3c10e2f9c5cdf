//! What calls cost, beside the host's own pipe in the same run: the least of many short rounds, in nanoseconds, as `library/bench`
//! measures them over the library for C. Run it by `cargo run --release --example measure`.

// The feature `measure`, without which this isn't built, asks for Rust 1.87.
#![allow(clippy::incompatible_msrv)]

use bindingclay::memory::Global;
use bindingclay::{Answer, Call, Kernel, Limits, PollEntry, Reply, SpliceFlags, Step};
use std::hint::black_box;
use std::io::{Read, Write};
use std::time::Instant;

const ROUNDS: usize = 500;
const MIB: u32 = 1 << 20;

/// The least time of a call, of so many rounds of so many calls.
fn least(times: usize, mut call: impl FnMut()) -> f64 {
    let mut least = f64::MAX;
    for _ in 0..ROUNDS {
        let begun = Instant::now();
        for _ in 0..times {
            call();
        }
        least = least.min(begun.elapsed().as_nanos() as f64 / times as f64);
    }
    least
}

fn pipe(kernel: &mut Kernel) -> (i32, i32) {
    match kernel.step(Step::Begin(
        1,
        Call::Pipe {
            nonblock: false,
            direct: false,
        },
    )) {
        Ok(Reply::Fds(read_end, write_end)) => (read_end, write_end),
        other => panic!("{other:?}"),
    }
}

fn call(kernel: &mut Kernel, call: Call) {
    let reply = kernel.step(Step::Begin(1, call)).expect("memory");
    assert!(
        !matches!(reply, Reply::Fault(_) | Reply::Parked(_)),
        "{reply:?}"
    );
}

fn pairs(kernel: &mut Kernel) {
    let (reader, writer) = pipe(kernel);
    let (mut host_reader, mut host_writer) = std::io::pipe().expect("a pipe of the host");
    // at different places of their pages
    let data: Vec<u8> = (0..65_536 + 1024u32).map(|i| (i * 7) as u8).collect();
    let mut into = vec![0u8; 65_536 + 3 * 1024];
    for (size, times) in [
        (1, 1000),
        (64, 1000),
        (512, 1000),
        (4096, 500),
        (65_536, 30),
    ] {
        let theirs = least(times, || {
            host_writer
                .write_all(black_box(&data[..size]))
                .expect("room");
            host_reader
                .read_exact(black_box(&mut into[..size]))
                .expect("bytes");
        });
        let ours = least(times, || {
            let wrote = kernel.write_from(1, writer, black_box(&data[..size]));
            assert!(matches!(wrote, Ok(Answer::Done(n)) if n == size));
            let read = kernel.read_into(1, reader, black_box(&mut into[..size]));
            assert!(matches!(read, Ok(Answer::Done(n)) if n == size));
        });
        println!(
            "write and read {size:>7}   host's pipe {theirs:>9.1}   here {ours:>9.1}   ratio {:.3}",
            ours / theirs
        );
    }
}

fn polls(kernel: &mut Kernel) {
    let (reader, writer) = pipe(kernel);
    for count in [2, 256] {
        let fd = |place: usize| {
            if place % 2 == 0 { reader } else { writer }
        };
        let mut entries: Vec<_> = (0..count)
            .map(|place| PollEntry {
                fd: fd(place),
                events: 5,
                revents: 0,
            })
            .collect();
        let ours = least(2_000 / count, || {
            assert!(matches!(
                kernel.poll_into(1, black_box(&mut entries), false),
                Ok(Answer::Done(_))
            ));
        });
        println!("poll of {count:>3} entries {ours:>43.1}");
    }
}

fn moves(kernel: &mut Kernel) {
    let [first, second, third] = [pipe(kernel), pipe(kernel), pipe(kernel)];
    for ends in [first, second, third] {
        call(
            kernel,
            Call::SetPipeSz {
                fd: ends.0,
                size: MIB,
            },
        );
    }
    for _ in 0..256 {
        let wrote = kernel.write_from(1, first.1, &[7; 4096]);
        assert_eq!(wrote, Ok(Answer::Done(4096)));
    }
    let (mut tee, mut splice) = (f64::MAX, f64::MAX);
    let mut into = vec![0; MIB as usize];
    for _ in 0..ROUNDS {
        let begun = Instant::now();
        call(
            kernel,
            Call::Tee {
                from: first.0,
                to: second.1,
                len: MIB,
                flags: SpliceFlags::empty(),
            },
        );
        tee = tee.min(begun.elapsed().as_nanos() as f64);
        let begun = Instant::now();
        let flags = SpliceFlags::empty();
        call(
            kernel,
            Call::Splice {
                from: second.0,
                from_offset: None,
                to: third.1,
                to_offset: None,
                len: MIB,
                flags,
            },
        );
        splice = splice.min(begun.elapsed().as_nanos() as f64);
        let read = kernel.read_into(1, third.0, &mut into);
        assert_eq!(read, Ok(Answer::Done(into.len())));
    }
    println!("tee of 1 MiB {tee:>49.1}\nsplice of 1 MiB {splice:>46.1}");
}

fn main() {
    let mut kernel = Kernel::new(Global, Limits::default()).expect("the limits of before");
    kernel.step(Step::Start).expect("memory");
    println!("least of {ROUNDS} rounds, ns");
    pairs(&mut kernel);
    polls(&mut kernel);
    moves(&mut kernel);
}
