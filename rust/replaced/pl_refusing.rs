//! An allocator for tests of what happens when memory runs out: it refuses a chosen request.

use crate::std_shim::alloc::{Allocator, Global};
use crate::std_shim::test::Fail;
use std::cell::Cell;

/// More requests for memory than any example or script of the tests makes.
pub const MOST_REQUESTS: u64 = 1_000;

/// What an allocator counted, and which request it is to refuse.
#[derive(Clone, Copy, Debug)]
pub struct Counted {
    made: u64,
    refused: u64,
}

/// An allocator that counts the requests for memory, refuses the one that was chosen, and passes all others on to an
/// inner allocator. Collections take a `&Refusing<B>`, so that the test can choose and look while they stand.
pub struct Refusing<B: Allocator> {
    inner: B,
    requests: Requests,
}

/// The requests are numbered from 1, from the start or from the last choice on.
struct Requests {
    made: Cell<u64>,
    /// The number of the request that is refused; 0 for none.
    refused: Cell<u64>,
}

impl Requests {
    /// Counts one more request. The answer is whether that is the one to refuse.
    fn count(&self) -> bool {
        let number = self.made.get().saturating_add(1);
        self.made.set(number);
        number == self.refused.get()
    }
}

impl<B: Allocator> Refusing<B> {
    /// An allocator that refuses nothing yet.
    pub fn new(inner: B) -> Self {
        Refusing {
            inner,
            requests: Requests {
                made: Cell::new(0),
                refused: Cell::new(0),
            },
        }
    }

    /// From now on the `n`th request is refused, once, and the count begins anew; at 0 none is refused.
    pub fn refuse(&self, n: u64) {
        self.requests.made.set(0);
        self.requests.refused.set(n);
    }

    /// From now on no request is refused, until `go_on` with the answer.
    pub fn pause(&self) -> Counted {
        let counted = Counted {
            made: self.requests.made.get(),
            refused: self.requests.refused.get(),
        };
        self.refuse(0);
        counted
    }

    /// Goes on as if no request had been made since `pause`.
    pub fn go_on(&self, counted: Counted) {
        self.requests.made.set(counted.made);
        self.requests.refused.set(counted.refused);
    }

    /// Whether a request was refused since the last call of `refuse`.
    pub fn refused(&self) -> bool {
        let chosen = self.requests.refused.get();
        chosen != 0 && chosen <= self.requests.made.get()
    }

    /// The requests that were made since the last call of `refuse`, the refused one among them.
    pub fn requests(&self) -> u64 {
        self.requests.made.get()
    }
}

impl<B: Allocator> Allocator for Refusing<B> {
    fn permits(&self, from: usize, to: usize) -> bool {
        !self.requests.count() && self.inner.permits(from, to)
    }

    fn shrinks(&self, from: usize, to: usize) {
        self.inner.shrinks(from, to);
    }
}

/// Fails unless each request of the steps was refused in turn: the last time that they were made, they made some, and met no
/// refusal.
pub fn all_were_refused(heap: &Refusing<Global>, name: &str) -> Result<(), Fail> {
    if heap.requests() == 0 || heap.refused() {
        return Err(Fail::new(format_args!(
            "{name} makes {} requests",
            heap.requests()
        )));
    }
    Ok(())
}
