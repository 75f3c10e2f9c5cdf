//! The numbers of the layer, and Linux's numbers of errors, flags, modes and places.
//!
//! ```
//! use bindingclay::numbers::{OPEN_MAX, PIPE_BUF};
//!
//! assert_eq!((PIPE_BUF, OPEN_MAX), (4_096, 256));
//! ```

pub use crate::parts::model::numbers::{
    FIRST_CAPACITY, MAX_BYTES, MAX_CAPACITY, MAX_DESCRIPTIONS, MAX_DESCRIPTORS, MAX_FILE_BYTES,
    MAX_NAME_BYTES, MAX_OFFSET, MAX_PROCESSES, MIN_CAPACITY, OPEN_MAX, PIPE_BUF,
    USUAL_DESCRIPTIONS, USUAL_PROCESSES,
};
pub use crate::parts::numbers::{
    PipeFlags, error_number, mode_of_bits, open_flags_of_bits, pipe_flags_of_bits,
    splice_flags_of_bits, status_bits, whence_of_number,
};
