//! Values under keys that the slab picks, after the crate `slab`, whose growth can't fail.

use super::alloc::{AllocError, Allocator, Global};
use super::vec::Vec;
use core::ops::{Index, IndexMut};

enum Entry<T> {
    /// No value; the next such entry.
    Vacant(usize),
    Occupied(T),
}

pub struct Slab<T, A: Allocator = Global> {
    entries: Vec<Entry<T>, A>,
    len: usize,
    next: usize,
}

impl<T, A: Allocator> Slab<T, A> {
    pub const fn new(alloc: A) -> Self {
        Slab {
            entries: Vec::new(alloc),
            len: 0,
            next: 0,
        }
    }

    pub fn capacity(&self) -> usize {
        self.entries.capacity()
    }

    #[inline(always)]
    pub fn len(&self) -> usize {
        self.len
    }

    pub fn is_empty(&self) -> bool {
        self.len == 0
    }

    /// Makes room for so many more values.
    pub fn reserve(&mut self, more: usize) -> Result<(), AllocError> {
        let vacant = self.entries.len() - self.len;
        self.entries.try_reserve(more.saturating_sub(vacant))
    }

    /// The key that the next value gets.
    pub fn vacant_key(&self) -> usize {
        self.next
    }

    /// Adds a value for which there is room.
    pub fn insert_reserved(&mut self, value: T) -> usize {
        let key = self.next;
        if key == self.entries.len() {
            self.entries.push_reserved(Entry::Occupied(value));
            self.next = key + 1;
        } else {
            let Entry::Vacant(next) = self.entries[key] else {
                unreachable!()
            };
            self.next = next;
            self.entries[key] = Entry::Occupied(value);
        }
        self.len += 1;
        key
    }

    pub fn try_remove(&mut self, key: usize) -> Option<T> {
        let entry = self.entries.get_mut(key)?;
        if let Entry::Vacant(_) = entry {
            return None;
        }
        let Entry::Occupied(value) = core::mem::replace(entry, Entry::Vacant(self.next)) else {
            unreachable!()
        };
        self.next = key;
        self.len -= 1;
        Some(value)
    }

    /// Takes out the value of a key, which has one.
    pub fn remove(&mut self, key: usize) -> T {
        self.try_remove(key).expect("a key that has a value")
    }

    pub fn contains(&self, key: usize) -> bool {
        self.get(key).is_some()
    }

    /// The keys and the values, by rising key.
    pub fn iter(&self) -> impl Iterator<Item = (usize, &T)> {
        (0..self.entries.len()).filter_map(|key| Some((key, self.get(key)?)))
    }

    /// Drops the entries after the last value, and gives back the memory that isn't needed. No key changes.
    pub fn shrink_to_fit(&mut self) {
        let before = self.entries.len();
        while let Some(Entry::Vacant(_)) = self.entries.last() {
            self.entries.pop();
        }
        self.entries.shrink_to_fit();
        if self.entries.len() != before {
            self.next = self.entries.len();
            for key in (0..self.entries.len()).rev() {
                if let Entry::Vacant(next) = &mut self.entries[key] {
                    *next = core::mem::replace(&mut self.next, key);
                }
            }
        }
    }

    #[inline(always)]
    pub fn get(&self, key: usize) -> Option<&T> {
        match self.entries.get(key) {
            Some(Entry::Occupied(value)) => Some(value),
            _ => None,
        }
    }

    #[inline(always)]
    pub fn get_mut(&mut self, key: usize) -> Option<&mut T> {
        match self.entries.get_mut(key) {
            Some(Entry::Occupied(value)) => Some(value),
            _ => None,
        }
    }
}

impl<T, A: Allocator> Index<usize> for Slab<T, A> {
    type Output = T;

    #[inline(always)]
    fn index(&self, key: usize) -> &T {
        self.get(key).expect("a key that has a value")
    }
}

impl<T, A: Allocator> IndexMut<usize> for Slab<T, A> {
    #[inline(always)]
    fn index_mut(&mut self, key: usize) -> &mut T {
        self.get_mut(key).expect("a key that has a value")
    }
}
