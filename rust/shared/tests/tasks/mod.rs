//! Tasks that a test polls itself.

use bindingclay::shared::{PipeReader, Process, Shared};
use std::io::Result;
use std::sync::Arc;
use std::sync::atomic::{AtomicUsize, Ordering};
use std::task::{Context, Poll, Wake, Waker};

/// Counts how often it was woken.
#[derive(Default)]
struct Count(AtomicUsize);

impl Wake for Count {
    fn wake(self: Arc<Self>) {
        self.0.fetch_add(1, Ordering::SeqCst);
    }
}

/// A task that tells how often it was woken.
pub struct Task {
    count: Arc<Count>,
    pub waker: Waker,
}

impl Task {
    pub fn new() -> Task {
        let count = Arc::new(Count::default());
        Task {
            waker: Waker::from(Arc::clone(&count)),
            count,
        }
    }

    pub fn woken(&self) -> usize {
        self.count.0.load(Ordering::SeqCst)
    }

    pub fn read(&self, reader: &mut PipeReader, into: &mut [u8]) -> Poll<Result<usize>> {
        reader.poll_read(&mut Context::from_waker(&self.waker), into)
    }
}

pub fn process() -> (Shared, Process) {
    let kernel = Shared::new().expect("memory");
    let process = kernel.start().expect("room for a process");
    (kernel, process)
}

#[track_caller]
pub fn ready<T>(polled: Poll<Result<T>>) -> Result<T> {
    match polled {
        Poll::Ready(result) => result,
        Poll::Pending => panic!("it waits"),
    }
}
