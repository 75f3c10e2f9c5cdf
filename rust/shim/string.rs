//! `std`'s strings, which ask before they grow.

use super::alloc::{AllocError, Allocator, Global};
use super::vec::Vec;
use core::fmt::{self, Write};
use core::ops::Deref;

#[allow(unused_imports)]
pub use crate::made_text as format;

/// The bytes that a text has room for at least once it grows.
const FEWEST: usize = 8;

/// Bytes that are text. They are looked through, sixteen at once where they are ASCII.
#[inline(always)]
#[allow(unsafe_code)]
pub fn text_of(bytes: &[u8]) -> &str {
    if bytes.is_ascii() {
        // ASCII is text.
        unsafe { core::str::from_utf8_unchecked(bytes) }
    } else {
        core::str::from_utf8(bytes).expect("text")
    }
}

/// Text, and who is asked before it grows and told where it goes.
#[derive(Debug)]
pub struct String<A: Allocator = Global> {
    text: ::alloc::string::String,
    alloc: A,
}

impl<A: Allocator> String<A> {
    pub const fn new(alloc: A) -> Self {
        String {
            text: ::alloc::string::String::new(),
            alloc,
        }
    }

    pub fn from_str(alloc: A, text: &str) -> Result<Self, AllocError> {
        let mut made = String::new(alloc);
        made.push_str(text)?;
        Ok(made)
    }

    pub fn with_capacity(alloc: A, capacity: usize) -> Result<Self, AllocError> {
        let mut made = String::new(alloc);
        made.grow(capacity)?;
        Ok(made)
    }

    /// The text of bytes that are ASCII, in their memory.
    pub(super) fn from_ascii(bytes: Vec<u8, A>, alloc: A) -> Self {
        let text = ::alloc::string::String::from_utf8(bytes.handed_on()).expect("ASCII");
        String { text, alloc }
    }

    /// Takes memory for so many bytes, which are more than there is memory for.
    fn grow(&mut self, most: usize) -> Result<(), AllocError> {
        // just what is asked for, of which `std` would take more
        let text = &mut self.text;
        self.alloc.grows(text.capacity(), most, || {
            text.try_reserve_exact(most - text.len()).is_ok()
        })
    }

    #[inline]
    pub fn reserve(&mut self, more: usize) -> Result<(), AllocError> {
        if more > self.text.capacity() - self.text.len() {
            let wanted = self.text.len().saturating_add(more);
            let twice = self.text.capacity().saturating_mul(2);
            self.grow(wanted.max(twice).max(FEWEST))?;
        }
        Ok(())
    }

    #[inline]
    pub fn push_str(&mut self, more: &str) -> Result<(), AllocError> {
        self.reserve(more.len())?;
        self.text.push_str(more);
        Ok(())
    }

    pub fn push(&mut self, c: char) -> Result<(), AllocError> {
        self.push_str(c.encode_utf8(&mut [0; 4]))
    }

    #[inline(always)]
    pub fn as_str(&self) -> &str {
        &self.text
    }

    #[inline(always)]
    pub fn as_bytes(&self) -> &[u8] {
        self.text.as_bytes()
    }

    #[inline(always)]
    pub fn len(&self) -> usize {
        self.text.len()
    }

    pub fn is_empty(&self) -> bool {
        self.text.is_empty()
    }

    pub fn truncate(&mut self, len: usize) {
        self.text.truncate(len);
    }

    pub fn capacity(&self) -> usize {
        self.text.capacity()
    }

    pub fn clear(&mut self) {
        self.text.clear();
    }

    /// Gives back memory, but for so many bytes, if there is memory to move what is left.
    pub fn shrink_to(&mut self, least: usize) {
        let (from, to) = (self.text.capacity(), self.text.len().max(least));
        let mut smaller = ::alloc::string::String::new();
        if to < from && smaller.try_reserve_exact(to).is_ok() {
            smaller.push_str(&self.text);
            self.text = smaller;
            self.alloc.shrinks(from, to);
        }
    }
}

impl<A: Allocator> Drop for String<A> {
    #[inline(always)]
    fn drop(&mut self) {
        if self.text.capacity() != 0 {
            self.alloc.shrinks(self.text.capacity(), 0);
        }
    }
}

impl<A: Allocator> Deref for String<A> {
    type Target = str;

    fn deref(&self) -> &str {
        &self.text
    }
}

impl<A: Allocator> fmt::Display for String<A> {
    fn fmt(&self, f: &mut fmt::Formatter<'_>) -> fmt::Result {
        self.text.fmt(f)
    }
}

impl<A: Allocator> Write for String<A> {
    fn write_str(&mut self, more: &str) -> fmt::Result {
        self.push_str(more).map_err(|_| fmt::Error)
    }
}

impl<A: Allocator> String<A> {
    pub fn made(alloc: A, text: fmt::Arguments<'_>) -> Result<Self, AllocError> {
        let mut made = String::new(alloc);
        made.write_fmt(text).map_err(|_| AllocError)?;
        Ok(made)
    }
}

/// `str::repeat`, which is given an allocator.
pub trait RepeatIn {
    /// The text so many times.
    fn repeat_in<A: Allocator>(&self, alloc: A, times: usize) -> Result<String<A>, AllocError>;
}

impl RepeatIn for str {
    fn repeat_in<A: Allocator>(&self, alloc: A, times: usize) -> Result<String<A>, AllocError> {
        let mut made = String::new(alloc);
        for _ in 0..times {
            made.push_str(self)?;
        }
        Ok(made)
    }
}

/// `format!(in alloc; ..)`.
#[macro_export]
#[doc(hidden)]
macro_rules! made_text {
    (in $alloc:expr; $($text:tt)*) => {
        $crate::std_shim::string::String::made($alloc, format_args!($($text)*))
    };
}
