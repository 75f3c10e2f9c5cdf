//! The shim beside Rust's own collections and texts, over drawn operations, with memory and where a request is refused.

mod lists;
mod maps;
mod ring;
mod slab;
mod texts;
mod words;

use super::alloc::Allocator;
use std::cell::Cell;

/// Numbers that look drawn, and are the same for the same seed (xorshift).
pub struct Draws(u64);

impl Draws {
    pub fn of(seed: u64) -> Draws {
        Draws((seed + 1).wrapping_mul(0x9e37_79b9_7f4a_7c15) | 1)
    }

    /// A number below another.
    pub fn below(&mut self, most: u64) -> u64 {
        self.0 ^= self.0 << 13;
        self.0 ^= self.0 >> 7;
        self.0 ^= self.0 << 17;
        (self.0 >> 11) % most
    }
}

/// Permits a number of requests, and then refuses each until it is given more. It counts what was asked, and what is held.
pub struct Meter {
    left: Cell<u64>,
    asked: Cell<u64>,
    last: Cell<usize>,
    held: Cell<usize>,
}

impl Meter {
    pub fn new() -> Meter {
        Meter {
            left: Cell::new(u64::MAX),
            asked: Cell::new(0),
            last: Cell::new(0),
            held: Cell::new(0),
        }
    }

    /// From now on so many requests are permitted.
    pub fn permit(&self, count: u64) {
        self.left.set(count);
    }

    /// How many requests there were since the last time that this was asked.
    pub fn asked(&self) -> u64 {
        self.asked.replace(0)
    }

    /// How many bytes the block of the last request was to have.
    pub fn last(&self) -> usize {
        self.last.get()
    }

    /// How many bytes are held.
    pub fn held(&self) -> usize {
        self.held.get()
    }
}

impl Allocator for Meter {
    fn permits(&self, from: usize, to: usize) -> bool {
        assert!(from < to, "{from} {to}");
        self.asked.set(self.asked.get() + 1);
        self.last.set(to);
        let left = self.left.get().checked_sub(1);
        self.left.set(left.unwrap_or(0));
        if left.is_some() {
            self.held.set(self.held.get() - from + to);
        }
        left.is_some()
    }

    fn shrinks(&self, from: usize, to: usize) {
        assert!(to < from, "{from} {to}");
        self.held.set(self.held.get() - from + to);
    }
}
