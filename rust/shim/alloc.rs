//! Whether memory may be asked for, and that there was none.

use core::fmt;
use core::marker::PhantomData;

/// Who is asked before any memory is, and told of what is given back. The memory itself is that of Rust's global allocator.
///
/// ```
/// use bindingclay::memory::{AllocError, Allocator, Vec};
///
/// /// Permits no block of more than 100 bytes.
/// struct Small;
///
/// impl Allocator for Small {
///     fn permits(&self, _from: usize, to: usize) -> bool {
///         to <= 100
///     }
/// }
///
/// assert!(Vec::from_slice(&Small, &[7u8; 100]).is_ok());
/// assert_eq!(Vec::from_slice(&Small, &[7u8; 101]).err(), Some(AllocError));
/// ```
pub trait Allocator {
    /// Whether a block may grow from so many bytes, none where it is new, to so many. Where it may, it has grown from then on.
    #[inline(always)]
    fn permits(&self, from: usize, to: usize) -> bool {
        let _any = (from, to);
        true
    }

    /// A block has shrunk from so many bytes to so many, none where it is gone.
    #[inline(always)]
    fn shrinks(&self, from: usize, to: usize) {
        let _any = (from, to);
    }

    /// Lets a block grow by what takes its memory, which answers whether there is some.
    #[doc(hidden)]
    #[inline]
    fn grows(&self, from: usize, to: usize, take: impl FnOnce() -> bool) -> Result<(), AllocError>
    where
        Self: Sized,
    {
        if !self.permits(from, to) {
            return Err(AllocError);
        }
        if !take() {
            self.shrinks(to, from);
            return Err(AllocError);
        }
        Ok(())
    }
}

/// Permits all that there is.
///
/// ```
/// use bindingclay::memory::{Allocator, Global};
///
/// assert!(Global.permits(0, usize::MAX));
/// ```
// It has a form that C has too, as structs that C holds name their allocator: none of its bytes.
#[repr(C)]
#[derive(Clone, Copy, Debug, Default, PartialEq, Eq)]
pub struct Global {
    none: PhantomData<()>,
}

/// Permits all that there is.
#[allow(non_upper_case_globals)]
pub const Global: Global = Global { none: PhantomData };

impl Allocator for Global {}

impl<A: Allocator> Allocator for &A {
    #[inline(always)]
    fn permits(&self, from: usize, to: usize) -> bool {
        (**self).permits(from, to)
    }

    #[inline(always)]
    fn shrinks(&self, from: usize, to: usize) {
        (**self).shrinks(from, to);
    }
}

/// There is no memory for what was asked, or it wasn't permitted.
///
/// ```
/// assert_eq!(bindingclay::memory::AllocError.to_string(), "memory allocation failed");
/// ```
#[derive(Clone, Copy, Debug, PartialEq, Eq)]
pub struct AllocError;

impl fmt::Display for AllocError {
    fn fmt(&self, f: &mut fmt::Formatter<'_>) -> fmt::Result {
        f.write_str("memory allocation failed")
    }
}

impl core::error::Error for AllocError {}

/// There is no memory for a place for the value, which is given back.
///
/// ```
/// use bindingclay::memory::{AllocError, AllocFailed};
///
/// let failed = AllocFailed { value: 7 };
/// assert_eq!(failed.value, 7);
/// assert_eq!(AllocError::from(failed), AllocError);
/// ```
#[derive(Clone, Copy, PartialEq, Eq)]
pub struct AllocFailed<T> {
    /// What found no place.
    pub value: T,
}

impl<T> fmt::Debug for AllocFailed<T> {
    fn fmt(&self, f: &mut fmt::Formatter<'_>) -> fmt::Result {
        f.write_str("AllocFailed")
    }
}

impl<T> fmt::Display for AllocFailed<T> {
    fn fmt(&self, f: &mut fmt::Formatter<'_>) -> fmt::Result {
        AllocError.fmt(f)
    }
}

impl<T> core::error::Error for AllocFailed<T> {}

impl<T> From<AllocFailed<T>> for AllocError {
    fn from(_failed: AllocFailed<T>) -> AllocError {
        AllocError
    }
}

#[cfg(feature = "script")]
impl From<AllocError> for std::io::Error {
    fn from(_error: AllocError) -> std::io::Error {
        std::io::ErrorKind::OutOfMemory.into()
    }
}
