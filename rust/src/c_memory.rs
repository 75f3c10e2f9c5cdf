//! The memory of C: what its callers hand over, and where that of kernels comes from.
#![allow(unsafe_code)]

use core::slice;

/// The bytes or entries at a pointer, which may be anything where there are none.
///
/// # Safety
///
/// So many are there, and nobody writes to them meanwhile.
#[inline(always)]
pub unsafe fn slice<'a, T>(pointer: *const T, len: usize) -> &'a [T] {
    if len == 0 {
        &[]
    } else {
        unsafe { slice::from_raw_parts(pointer, len) }
    }
}

/// The same, to be written to.
///
/// # Safety
///
/// So many are there, and nobody else reads or writes them meanwhile.
#[inline(always)]
pub unsafe fn slice_mut<'a, T>(pointer: *mut T, len: usize) -> &'a mut [T] {
    if len == 0 {
        &mut []
    } else {
        unsafe { slice::from_raw_parts_mut(pointer, len) }
    }
}

/// Where no `std` is: memory by the three functions that are linked with the archive, and an end of the process where a check fails.
#[cfg(not(any(feature = "script", test)))]
mod alone {
    use core::alloc::{GlobalAlloc, Layout};
    use core::panic::PanicInfo;
    use core::ptr;

    /// Whether there is memory, and the pointer to it.
    #[repr(C)]
    struct Tried {
        found: bool,
        pointer: *mut u8,
    }

    unsafe extern "C" {
        fn rattle_alloc(size: usize, align: usize) -> Tried;
        fn rattle_realloc(pointer: *mut u8, kept: usize, size: usize, align: usize) -> Tried;
        fn rattle_dealloc(pointer: *mut u8);
    }

    /// Those three functions, whose memory has the alignment of `malloc`.
    struct Linked;

    #[global_allocator]
    static MEMORY: Linked = Linked;

    const MOST_ALIGN: usize = 16;

    fn pointer_of(tried: Tried) -> *mut u8 {
        if tried.found {
            tried.pointer
        } else {
            ptr::null_mut()
        }
    }

    // Safety: the functions keep what `malloc`, `realloc` and `free` do.
    unsafe impl GlobalAlloc for Linked {
        #[inline]
        unsafe fn alloc(&self, layout: Layout) -> *mut u8 {
            if layout.align() > MOST_ALIGN {
                return ptr::null_mut();
            }
            pointer_of(unsafe { rattle_alloc(layout.size(), layout.align()) })
        }

        #[inline]
        unsafe fn dealloc(&self, pointer: *mut u8, _layout: Layout) {
            unsafe { rattle_dealloc(pointer) }
        }

        #[inline]
        unsafe fn realloc(&self, pointer: *mut u8, layout: Layout, size: usize) -> *mut u8 {
            let tried = unsafe { rattle_realloc(pointer, layout.size(), size, layout.align()) };
            // a block that can't become smaller stays as it is
            if !tried.found && size <= layout.size() {
                return pointer;
            }
            pointer_of(tried)
        }
    }

    /// Ends the process by an instruction that there isn't, as nothing of the C library but memory is wanted.
    #[panic_handler]
    fn panicked(_info: &PanicInfo<'_>) -> ! {
        #[cfg(target_arch = "x86_64")]
        unsafe {
            core::arch::asm!("ud2", options(noreturn, nomem, nostack))
        }
        #[cfg(target_arch = "aarch64")]
        unsafe {
            core::arch::asm!("udf #0", options(noreturn, nomem, nostack))
        }
        #[cfg(not(any(target_arch = "x86_64", target_arch = "aarch64")))]
        loop {}
    }
}
