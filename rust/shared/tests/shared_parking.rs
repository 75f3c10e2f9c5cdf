//! The shared kernel's calls that wait, in threads that park themselves by `std::thread::park`: their token is the program's alone.

mod waiting;

use bindingclay::shared::Shared;
use std::io::{Read, Result, Write};
use std::thread;
use std::time::{Duration, Instant};
use waiting::until_waiting;

/// How long a thread parks that nobody unparks: at most so long.
fn parked_for(most: Duration) -> Duration {
    let begun = Instant::now();
    thread::park_timeout(most);
    begun.elapsed()
}

#[test]
fn a_read_that_waits_leaves_the_token_that_somebody_gave_its_thread() -> Result<()> {
    const LONG: Duration = Duration::from_secs(20);
    let kernel = Shared::new()?;
    let (mut reader, mut writer) = kernel.start()?.pipe()?;
    let reads = thread::spawn(move || {
        reader.read_exact(&mut [0])?;
        Ok::<_, std::io::Error>(parked_for(LONG))
    });
    until_waiting(&kernel, 1);
    // so that it sleeps
    thread::sleep(Duration::from_millis(50));
    reads.thread().unpark();
    thread::sleep(Duration::from_millis(50));
    writer.write_all(b"a")?;
    // thread::park: the token is there, so it returns at once
    assert!(reads.join().expect("no panic")? < LONG);
    Ok(())
}

#[test]
fn a_read_that_waited_leaves_no_token() -> Result<()> {
    const SHORT: Duration = Duration::from_millis(1);
    const TIMES: usize = 300;
    let kernel = Shared::new()?;
    let (mut reader, mut writer) = kernel.start()?.pipe()?;
    let reads = thread::spawn(move || {
        for _ in 0..TIMES {
            reader.read_exact(&mut [0])?;
            // thread::park: without a token it blocks
            assert!(parked_for(SHORT) >= SHORT);
        }
        Ok(())
    });
    for _ in 0..TIMES {
        while kernel.waiting() != 1 && !reads.is_finished() {
            thread::yield_now();
        }
        writer.write_all(b"a")?;
    }
    reads.join().expect("no panic")
}
