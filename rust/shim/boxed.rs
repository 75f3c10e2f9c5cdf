//! A value in memory of its own, whose making can fail: a boxed slice of one. The library for C hands its pointer out.

use super::alloc::{AllocError, Allocator, Global};
use core::ops::{Deref, DerefMut};

pub struct Box<T, A: Allocator = Global> {
    one: ::alloc::boxed::Box<[T]>,
    alloc: A,
}

impl<T, A: Allocator> Box<T, A> {
    pub fn new(alloc: A, value: T) -> Result<Self, AllocError> {
        let mut one = ::alloc::vec::Vec::new();
        alloc.grows(0, size_of::<T>(), || one.try_reserve_exact(1).is_ok())?;
        one.push(value);
        Ok(Box {
            one: one.into_boxed_slice(),
            alloc,
        })
    }

    /// The memory counts until the pointer comes back.
    pub fn into_raw(mut boxed: Self) -> *mut T {
        ::alloc::boxed::Box::into_raw(core::mem::take(&mut boxed.one)) as *mut T
    }

    /// The value, for good.
    pub fn leak<'a>(mut boxed: Self) -> &'a mut T
    where
        T: 'a,
    {
        &mut ::alloc::boxed::Box::leak(core::mem::take(&mut boxed.one))[0]
    }

    /// # Safety
    ///
    /// The pointer came from `into_raw`, and is given back once.
    #[allow(unsafe_code)]
    pub unsafe fn from_raw(alloc: A, pointer: *mut T) -> Self {
        let one = unsafe {
            ::alloc::boxed::Box::from_raw(core::ptr::slice_from_raw_parts_mut(pointer, 1))
        };
        Box { one, alloc }
    }
}

impl<T, A: Allocator> Drop for Box<T, A> {
    #[inline(always)]
    fn drop(&mut self) {
        if !self.one.is_empty() {
            self.alloc.shrinks(size_of::<T>(), 0);
        }
    }
}

impl<T, A: Allocator> Deref for Box<T, A> {
    type Target = T;

    fn deref(&self) -> &T {
        &self.one[0]
    }
}

impl<T, A: Allocator> DerefMut for Box<T, A> {
    fn deref_mut(&mut self) -> &mut T {
        &mut self.one[0]
    }
}
