//! Two tasks that talk through a pipe in one thread: the ten lines by which a runtime's `AsyncRead` reads from it, and a runtime of thirty.
//!
//! `AsyncRead` is declared here as `futures-io` has it, so that the example needs no other crate.

use bindingclay::shared::{PipeReader, PipeWriter, Shared};
use std::future::{Future, poll_fn};
use std::io::Result;
use std::pin::{Pin, pin};
use std::sync::Arc;
use std::task::{Context, Poll, Wake, Waker};
use std::thread::{self, Thread};

trait AsyncRead {
    fn poll_read(
        self: Pin<&mut Self>,
        context: &mut Context<'_>,
        into: &mut [u8],
    ) -> Poll<Result<usize>>;
}

struct Reads(PipeReader);

impl AsyncRead for Reads {
    fn poll_read(
        self: Pin<&mut Self>,
        context: &mut Context<'_>,
        into: &mut [u8],
    ) -> Poll<Result<usize>> {
        self.get_mut().0.poll_read(context, into)
    }
}

/// Unparks the thread that polls the tasks.
struct Unparks(Thread);

impl Wake for Unparks {
    fn wake(self: Arc<Self>) {
        self.0.unpark();
    }
}

/// Polls two tasks in this thread until both are done.
fn run<A: Future, B: Future>(one: A, other: B) -> (A::Output, B::Output) {
    let (mut one, mut other) = (pin!(one), pin!(other));
    let waker = Waker::from(Arc::new(Unparks(thread::current())));
    let mut context = Context::from_waker(&waker);
    let (mut first, mut second) = (None, None);
    loop {
        if first.is_none() {
            first = finished(one.as_mut().poll(&mut context));
        }
        if second.is_none() {
            second = finished(other.as_mut().poll(&mut context));
        }
        match (first, second) {
            (Some(first), Some(second)) => return (first, second),
            rest => (first, second) = rest,
        }
        thread::park();
    }
}

fn finished<T>(polled: Poll<T>) -> Option<T> {
    match polled {
        Poll::Ready(value) => Some(value),
        Poll::Pending => None,
    }
}

async fn count_bytes(mut reader: Reads) -> Result<usize> {
    let (mut total, mut into) = (0, [0; 1_000]);
    loop {
        match poll_fn(|context| Pin::new(&mut reader).poll_read(context, &mut into)).await? {
            0 => return Ok(total),
            count => total += count,
        }
    }
}

async fn write_bytes(mut writer: PipeWriter, count: usize) -> Result<()> {
    let bytes = vec![7; count];
    let mut done = 0;
    while done < count {
        done += poll_fn(|context| writer.poll_write(context, &bytes[done..])).await?;
    }
    Ok(())
}

fn main() -> Result<()> {
    let (reader, writer) = Shared::new()?.start()?.pipe()?;
    let (read, wrote) = run(count_bytes(Reads(reader)), write_bytes(writer, 200_000));
    wrote?;
    println!("{} bytes", read?);
    Ok(())
}

#[test]
fn all_bytes_come() -> Result<()> {
    let (reader, writer) = Shared::new()?.start()?.pipe()?;
    let (read, wrote) = run(count_bytes(Reads(reader)), write_bytes(writer, 1_000_000));
    assert_eq!((read?, wrote?), (1_000_000, ()));
    Ok(())
}
