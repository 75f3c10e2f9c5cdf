//! The names that the sources use of the toolchain's libraries, where those of Rust's `std` differ: growth that can fail, and an
//! allocator that is given. All memory comes from Rust's global allocator; an [`alloc::Allocator`] says whether it may be asked. There
//! are two lines of unsafe code here: one is for C, which holds a box as a pointer, and one takes bytes for text that were seen to be ASCII.

pub mod alloc;
pub mod bitflags;
pub mod boxed;
pub mod circular_buffer;
pub mod collections;
pub mod hex;
pub mod itoa;
pub mod memchr;
pub mod numbers;
pub mod slab;
pub mod string;
pub mod vec;

#[cfg(feature = "script")]
pub mod clap;
#[cfg(feature = "script")]
pub mod env;
#[cfg(feature = "script")]
pub mod fs;
#[cfg(feature = "script")]
pub mod io;
#[cfg(feature = "script")]
pub mod process;
#[cfg(feature = "script")]
pub mod rt;
#[cfg(feature = "script")]
pub mod test;

#[cfg(test)]
mod tests;
