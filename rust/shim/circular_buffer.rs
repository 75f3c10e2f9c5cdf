//! A ring of so many places on the heap: a list of items, of which those in use go round its end.

use super::alloc::{AllocError, Allocator, Global};

/// The items stand at `first` and behind it, and behind the last place at the beginning. Places that no item was put into aren't in the list
/// yet, so that `places` is never longer than `capacity`, for which it has memory.
pub struct HeapCircularBuffer<T, A: Allocator = Global> {
    places: ::alloc::vec::Vec<T>,
    first: usize,
    len: usize,
    capacity: usize,
    alloc: A,
}

impl<T: Copy, A: Allocator> HeapCircularBuffer<T, A> {
    pub fn with_capacity(alloc: A, capacity: usize) -> Result<Self, AllocError> {
        let places = places_for(&alloc, capacity)?;
        Ok(HeapCircularBuffer {
            places,
            first: 0,
            len: 0,
            capacity,
            alloc,
        })
    }

    #[inline(always)]
    pub fn len(&self) -> usize {
        self.len
    }

    #[inline(always)]
    pub fn is_empty(&self) -> bool {
        self.len == 0
    }

    #[inline(always)]
    pub fn capacity(&self) -> usize {
        self.capacity
    }

    /// The place so many behind the first item, where that is at most the capacity.
    #[inline(always)]
    fn place(&self, behind: usize) -> usize {
        let place = self.first + behind;
        if place >= self.capacity {
            place - self.capacity
        } else {
            place
        }
    }

    #[inline(always)]
    pub fn front(&self) -> Option<&T> {
        if self.len == 0 {
            None
        } else {
            Some(&self.places[self.first])
        }
    }

    #[inline(always)]
    pub fn back(&self) -> Option<&T> {
        if self.len == 0 {
            None
        } else {
            Some(&self.places[self.place(self.len - 1)])
        }
    }

    /// The items in order, in two parts, of which the second is mostly empty.
    #[inline(always)]
    pub fn as_slices(&self) -> (&[T], &[T]) {
        let to_end = self.len.min(self.capacity - self.first);
        (
            &self.places[self.first..self.first + to_end],
            &self.places[..self.len - to_end],
        )
    }

    /// Puts an item at a place: the next one that the list doesn't have yet, or one that it has.
    #[inline(always)]
    fn put(&mut self, place: usize, item: T) {
        if place == self.places.len() {
            self.places.push(item);
        } else {
            self.places[place] = item;
        }
    }

    /// Adds an item at the end, or gives it back where the ring is full.
    #[inline(always)]
    pub fn try_push_back(&mut self, item: T) -> Result<(), T> {
        if self.len == self.capacity {
            return Err(item);
        }
        self.put(self.place(self.len), item);
        self.len += 1;
        Ok(())
    }

    /// Adds an item at the front, or gives it back where the ring is full.
    pub fn try_push_front(&mut self, item: T) -> Result<(), T> {
        if self.len == self.capacity {
            return Err(item);
        }
        self.first = self.place(self.capacity - 1);
        if self.first > self.places.len() {
            // any item does for the places between
            self.places.resize(self.first, item);
        }
        self.put(self.first, item);
        self.len += 1;
        Ok(())
    }

    #[inline(always)]
    pub fn pop_back(&mut self) -> Option<T> {
        let item = *self.back()?;
        self.len -= 1;
        Some(item)
    }

    #[inline(always)]
    pub fn pop_front(&mut self) -> Option<T> {
        let item = *self.front()?;
        self.first = self.place(1);
        self.len -= 1;
        Some(item)
    }

    /// Puts items at a place and those behind it: places that the list has, and next ones.
    fn put_all(&mut self, place: usize, items: &[T]) {
        let (over, next) = items.split_at(items.len().min(self.places.len() - place));
        self.places[place..place + over.len()].copy_from_slice(over);
        self.places.extend_from_slice(next);
    }

    /// Adds items at the end, of which the ring keeps the last ones.
    pub fn extend_from_slice(&mut self, items: &[T]) {
        let kept = &items[items.len().saturating_sub(self.capacity)..];
        let over = (self.len + kept.len()).saturating_sub(self.capacity);
        self.first = self.place(over);
        self.len -= over;
        let place = self.place(self.len);
        let (to_end, round) = kept.split_at(kept.len().min(self.capacity - place));
        self.put_all(place, to_end);
        self.put_all(0, round);
        self.len += kept.len();
    }

    /// Has so many places, with the items of before, of which the first ones stay where there are fewer places.
    pub fn resize(&mut self, capacity: usize) -> Result<(), AllocError> {
        let mut places = places_for(&self.alloc, capacity)?;
        let (front, back) = self.as_slices();
        places.extend(front.iter().chain(back).take(capacity));
        self.first = 0;
        self.len = places.len();
        self.let_go();
        self.places = places;
        self.capacity = capacity;
        Ok(())
    }
}

impl<T, A: Allocator> HeapCircularBuffer<T, A> {
    /// Tells that the memory goes.
    #[inline(always)]
    fn let_go(&self) {
        let bytes = self.capacity.saturating_mul(size_of::<T>());
        if bytes != 0 {
            self.alloc.shrinks(bytes, 0);
        }
    }
}

impl<T, A: Allocator> Drop for HeapCircularBuffer<T, A> {
    #[inline(always)]
    fn drop(&mut self) {
        self.let_go();
    }
}

/// No items, and memory for so many.
fn places_for<T, A: Allocator>(
    alloc: &A,
    capacity: usize,
) -> Result<::alloc::vec::Vec<T>, AllocError> {
    let mut places = ::alloc::vec::Vec::new();
    alloc.grows(0, capacity.saturating_mul(size_of::<T>()), || {
        places.try_reserve_exact(capacity).is_ok()
    })?;
    Ok(places)
}
