//! `std`'s vectors, which ask before they grow.

use super::alloc::{AllocError, AllocFailed, Allocator, Global};
use core::borrow::Borrow;
use core::cmp::Ordering;
use core::fmt;
use core::ops::{Deref, DerefMut, RangeBounds};
use core::slice::SliceIndex;

pub use crate::filled_vec as vec;

/// The places that a list has at least once it grows by and by: those that one of `std`'s has.
const fn fewest<T>() -> usize {
    match size_of::<T>() {
        0..=1 => 8,
        2..=1024 => 4,
        _ => 1,
    }
}

/// A `std::vec::Vec`, and who is asked before it grows and told where it goes. It is a slice too, by `Deref`, and is made of and becomes
/// one of `std`'s.
///
/// ```
/// use bindingclay::memory::{Global, Vec};
///
/// let mut bytes = Vec::new(Global);
/// bytes.push(1)?;
/// bytes.extend_from_slice(&[2, 3])?;
/// assert_eq!(bytes.as_slice(), [1, 2, 3]);
/// assert_eq!(std::vec::Vec::from(bytes), vec![1, 2, 3]);
/// assert_eq!(Vec::from(vec![4, 5]).pop(), Some(5));
/// # Ok::<(), Box<dyn std::error::Error>>(())
/// ```
pub struct Vec<T, A: Allocator = Global> {
    items: ::alloc::vec::Vec<T>,
    alloc: A,
}

impl<T, A: Allocator> Vec<T, A> {
    /// No items. It asks for no memory.
    #[inline(always)]
    pub const fn new(alloc: A) -> Self {
        Vec {
            items: ::alloc::vec::Vec::new(),
            alloc,
        }
    }

    /// No items, and memory for so many.
    #[inline]
    pub fn with_capacity(alloc: A, capacity: usize) -> Result<Self, AllocError> {
        let mut made = Vec::new(alloc);
        made.try_reserve_exact(capacity)?;
        Ok(made)
    }

    /// The items in their order, each a copy.
    #[inline]
    pub fn from_slice(alloc: A, items: &[T]) -> Result<Self, AllocError>
    where
        T: Copy,
    {
        let mut made = Vec::with_capacity(alloc, items.len())?;
        made.items.extend_from_slice(items);
        Ok(made)
    }

    /// So many copies of a value.
    pub fn from_elem(alloc: A, value: T, count: usize) -> Result<Self, AllocError>
    where
        T: Copy,
    {
        let mut made = Vec::with_capacity(alloc, count)?;
        made.items.resize(count, value);
        Ok(made)
    }

    /// How many items it has memory for.
    #[inline(always)]
    pub fn capacity(&self) -> usize {
        self.items.capacity()
    }

    /// What it takes memory from.
    #[inline(always)]
    pub const fn allocator(&self) -> &A {
        &self.alloc
    }

    /// The items, in order.
    #[inline(always)]
    pub fn as_slice(&self) -> &[T] {
        &self.items
    }

    /// The items, in order, to be changed.
    #[inline(always)]
    pub fn as_mut_slice(&mut self) -> &mut [T] {
        &mut self.items
    }

    /// Some of the items, to be changed.
    #[inline(always)]
    pub fn slice_mut<R: SliceIndex<[T]>>(&mut self, range: R) -> &mut R::Output {
        &mut self.items[range]
    }

    /// Makes room for so many more items, and for others by and by.
    #[inline]
    pub fn try_reserve(&mut self, more: usize) -> Result<(), AllocError> {
        if more <= self.items.capacity() - self.items.len() {
            return Ok(());
        }
        let wanted = self.items.len().saturating_add(more);
        // just what is asked for, of which `std` would take more
        self.grow(
            wanted
                .max(self.items.capacity().saturating_mul(2))
                .max(fewest::<T>()),
        )
    }

    /// Makes room for so many more items, and for no others.
    pub fn reserve_exact(&mut self, more: usize) -> Result<(), AllocError> {
        self.try_reserve_exact(more)
    }

    fn try_reserve_exact(&mut self, more: usize) -> Result<(), AllocError> {
        if more <= self.items.capacity() - self.items.len() {
            return Ok(());
        }
        self.grow(self.items.len().saturating_add(more))
    }

    /// Takes memory for so many items, which are more than it has memory for.
    #[inline]
    fn grow(&mut self, capacity: usize) -> Result<(), AllocError> {
        let (from, to) = (
            bytes_of::<T>(self.items.capacity()),
            bytes_of::<T>(capacity),
        );
        let items = &mut self.items;
        self.alloc.grows(from, to, || {
            items.try_reserve_exact(capacity - items.len()).is_ok()
        })
    }

    /// The items as a list of `std`'s, for whose memory somebody else answers from then on.
    pub(super) fn handed_on(mut self) -> ::alloc::vec::Vec<T> {
        core::mem::take(&mut self.items)
    }

    /// Tells that the memory goes.
    #[inline(always)]
    fn let_go(&self) {
        let bytes = bytes_of::<T>(self.items.capacity());
        if bytes != 0 {
            self.alloc.shrinks(bytes, 0);
        }
    }

    /// Adds an item behind the others. Without memory for it, the error gives it back.
    #[inline]
    pub fn push(&mut self, item: T) -> Result<(), AllocFailed<T>> {
        if self.try_reserve(1).is_err() {
            return Err(AllocFailed { value: item });
        }
        self.items.push(item);
        Ok(())
    }

    /// Adds an item for which there is room.
    #[inline(always)]
    pub fn push_reserved(&mut self, item: T) {
        debug_assert!(self.items.len() < self.items.capacity());
        self.items.push(item);
    }

    /// Takes the last item out.
    #[inline(always)]
    pub fn pop(&mut self) -> Option<T> {
        self.items.pop()
    }

    /// Adds copies of items at the end. An error leaves all as it was.
    #[inline]
    pub fn extend_from_slice(&mut self, items: &[T]) -> Result<(), AllocError>
    where
        T: Copy,
    {
        self.try_reserve(items.len())?;
        self.items.extend_from_slice(items);
        Ok(())
    }

    /// Has so many items: the first ones of before, and copies of the value behind them.
    pub fn resize(&mut self, len: usize, value: T) -> Result<(), AllocError>
    where
        T: Copy,
    {
        self.try_reserve(len.saturating_sub(self.items.len()))?;
        self.items.resize(len, value);
        Ok(())
    }

    /// Adds an item before the one at a place, where there is room for it.
    pub(super) fn insert_reserved(&mut self, place: usize, item: T) {
        debug_assert!(self.items.len() < self.items.capacity());
        self.items.insert(place, item);
    }

    pub(super) fn remove(&mut self, place: usize) -> T {
        self.items.remove(place)
    }

    pub(super) fn drain<R: RangeBounds<usize>>(&mut self, range: R) -> ::alloc::vec::Drain<'_, T> {
        self.items.drain(range)
    }

    /// Takes the item at a place out. The last one takes its place.
    #[inline(always)]
    pub fn swap_remove(&mut self, place: usize) -> T {
        self.items.swap_remove(place)
    }

    /// Keeps the first items, at most so many.
    #[inline(always)]
    pub fn truncate(&mut self, len: usize) {
        self.items.truncate(len);
    }

    /// Takes all items out.
    #[inline(always)]
    pub fn clear(&mut self) {
        self.items.clear();
    }

    /// Gives back the memory that no item stands in.
    pub fn shrink_to_fit(&mut self) {
        let from = bytes_of::<T>(self.items.capacity());
        self.items.shrink_to_fit();
        let to = bytes_of::<T>(self.items.capacity());
        if to < from {
            self.alloc.shrinks(from, to);
        }
    }

    /// Keeps the items for which this is true.
    pub fn retain<F: FnMut(&T) -> bool>(&mut self, keep: F) {
        self.items.retain(keep);
    }
}

/// The bytes of so many items.
#[inline(always)]
fn bytes_of<T>(count: usize) -> usize {
    count.saturating_mul(size_of::<T>())
}

impl<T, A: Allocator> Drop for Vec<T, A> {
    #[inline(always)]
    fn drop(&mut self) {
        self.let_go();
    }
}

impl<T, A: Allocator> Deref for Vec<T, A> {
    type Target = [T];

    #[inline(always)]
    fn deref(&self) -> &[T] {
        &self.items
    }
}

impl<T, A: Allocator> DerefMut for Vec<T, A> {
    #[inline(always)]
    fn deref_mut(&mut self) -> &mut [T] {
        &mut self.items
    }
}

impl<T, A: Allocator> IntoIterator for Vec<T, A> {
    type Item = T;

    type IntoIter = ::alloc::vec::IntoIter<T>;

    /// What is gone through counts as gone from the start.
    fn into_iter(self) -> Self::IntoIter {
        ::alloc::vec::Vec::from(self).into_iter()
    }
}

/// The same items in the same memory, for which nobody was asked.
impl<T> From<::alloc::vec::Vec<T>> for Vec<T> {
    fn from(items: ::alloc::vec::Vec<T>) -> Vec<T> {
        Vec {
            items,
            alloc: Global,
        }
    }
}

/// The same items in the same memory, which counts as gone.
impl<T, A: Allocator> From<Vec<T, A>> for ::alloc::vec::Vec<T> {
    fn from(items: Vec<T, A>) -> ::alloc::vec::Vec<T> {
        items.let_go();
        items.handed_on()
    }
}

impl<T: fmt::Debug, A: Allocator> fmt::Debug for Vec<T, A> {
    fn fmt(&self, f: &mut fmt::Formatter<'_>) -> fmt::Result {
        self.items.fmt(f)
    }
}

impl<T, A: Allocator> Borrow<[T]> for Vec<T, A> {
    fn borrow(&self) -> &[T] {
        &self.items
    }
}

impl<T: PartialEq, A: Allocator> PartialEq for Vec<T, A> {
    fn eq(&self, other: &Self) -> bool {
        self.items == other.items
    }
}

impl<T: Eq, A: Allocator> Eq for Vec<T, A> {}

impl<T: Ord, A: Allocator> PartialOrd for Vec<T, A> {
    fn partial_cmp(&self, other: &Self) -> Option<Ordering> {
        Some(self.cmp(other))
    }
}

impl<T: Ord, A: Allocator> Ord for Vec<T, A> {
    fn cmp(&self, other: &Self) -> Ordering {
        self.items.cmp(&other.items)
    }
}

/// `vec![in alloc; value; count]`.
#[macro_export]
#[doc(hidden)]
macro_rules! filled_vec {
    (in $alloc:expr; $value:expr; $count:expr) => {
        $crate::std_shim::vec::Vec::from_elem($alloc, $value, $count)
    };
}
