//! Memory that may be wanting: who is asked for it, and the lists that calls hold.
//!
//! A kernel takes all its memory from Rust's global allocator. Before it does, it asks an [`Allocator`] whether it may, and it tells it what is
//! given back, so that a program can bound what a kernel holds. Where the answer is no, or there is no memory, the step answers
//! [`NoMemory`](crate::NoMemory) and changes nothing.
//!
//! ```
//! use bindingclay::memory::Allocator;
//! use bindingclay::{Answer, Call, Kernel, Limits, NotDone, Step};
//! use std::cell::Cell;
//!
//! /// Permits as long as no more than so many bytes are held.
//! struct Budget {
//!     held: Cell<usize>,
//!     most: usize,
//! }
//!
//! impl Allocator for Budget {
//!     fn permits(&self, from: usize, to: usize) -> bool {
//!         let held = (self.held.get() - from).saturating_add(to);
//!         if held <= self.most {
//!             self.held.set(held);
//!         }
//!         held <= self.most
//!     }
//!
//!     fn shrinks(&self, from: usize, to: usize) {
//!         self.held.set(self.held.get() - from + to);
//!     }
//! }
//!
//! let budget = Budget { held: Cell::new(0), most: 100_000 };
//! let mut kernel = Kernel::new(&budget, Limits::default())?;
//! kernel.step(Step::Start)?;
//! kernel.step(Step::Begin(1, Call::Pipe { nonblock: false, direct: false }))?;
//! // a pipe keeps its bytes in segments of 4,096, and this write is parked with a copy of all
//! assert_eq!(kernel.write_from(1, 1, &[7; 70_000]), Err(NotDone::NoMemory));
//! assert_eq!(kernel.write_from(1, 1, &[7; 50_000]), Ok(Answer::Done(50_000)));
//! assert!(budget.held.get() > 50_000);
//! drop(kernel);
//! assert_eq!(budget.held.get(), 0);
//! # Ok::<(), Box<dyn std::error::Error>>(())
//! ```

pub use crate::std_shim::alloc::{AllocError, AllocFailed, Allocator, Global};
pub use crate::std_shim::vec::Vec;
