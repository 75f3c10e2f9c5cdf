//! A budget of bytes: an allocator that counts what it has given out, and refuses what would bring that above its most.

mod account;
mod counter;
#[cfg(test)]
mod tests;

use crate::std_shim::alloc::{Allocator, Global};
pub use account::Account;
use counter::Counter;

/// An allocator that passes requests on to an inner one, within a budget. Collections take a `&Budget<B>`, so that whoever made
/// it can look at the account while they stand. Bytes count as they were asked for: what the inner allocator adds doesn't.
pub struct Budget<B: Allocator = Global> {
    inner: B,
    counter: Counter,
}

impl<B: Allocator> Budget<B> {
    /// A budget of so many bytes, of which none is held.
    pub fn new(inner: B, most: u64) -> Self {
        Budget {
            inner,
            counter: Counter::new(most),
        }
    }

    /// What is held now, and what may be.
    pub fn account(&self) -> Account {
        self.counter.account()
    }
}

impl<B: Allocator> Allocator for Budget<B> {
    fn permits(&self, from: usize, to: usize) -> bool {
        if self.counter.refuses(from, to, 1) {
            return false;
        }
        let permitted = self.inner.permits(from, to);
        if !permitted {
            self.counter.shrinks(to, from, 1);
        }
        permitted
    }

    fn shrinks(&self, from: usize, to: usize) {
        self.counter.shrinks(from, to, 1);
        self.inner.shrinks(from, to);
    }
}
