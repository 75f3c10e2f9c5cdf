//! Scripts of calls: a call on each line, and a line for each reply. [`HELP`] tells every line that a script may have.
//!
//! ```
//! use bindingclay::Limits;
//! use bindingclay::script::run;
//!
//! let script = b"start\n1 pipe\n1 read 0 5\n1 write 1 6869\nresume 1\n";
//! let mut output = Vec::new();
//! let totals = run(script.as_slice(), &mut output, Limits::default())?;
//! assert_eq!(output, b"pid 1\nfds 0 1\nparked 1\ncount 2\ndata 6869\n");
//! assert_eq!(totals.steps, 5);
//! # Ok::<(), Box<dyn std::error::Error>>(())
//! ```
//!
//! A script whose first line is `piperun 2` is of version 2. Its pipes may be packet pipes, it writes bytes as pieces that `+` joins, and
//! its output shows them by their runs. That line prints nothing. Every other script is of version 1.
//!
//! ```
//! use bindingclay::Limits;
//! use bindingclay::script::run;
//!
//! let script = b"piperun 2\nstart\n1 pipe direct\n1 write 1 68+5*69\n1 read 0 9\n";
//! let mut output = Vec::new();
//! let totals = run(script.as_slice(), &mut output, Limits::default())?;
//! assert_eq!(output, b"pid 1\nfds 0 1\ncount 6\ndata 68+5*69\n");
//! assert_eq!((totals.lines, totals.steps), (5, 4));
//! # Ok::<(), Box<dyn std::error::Error>>(())
//! ```

pub use crate::parts::model::Totals;
pub use crate::parts::script::ScriptFault;

use crate::faults::FileMaxFault;
use crate::memory::Global;
use crate::parts::model::numbers::MAX_FILE_BYTES;
use crate::parts::script::{Reads, Writes, run_script};
use crate::{Limits, parts};
use core::error::Error;
use core::fmt;
use std::io::{Read, Write};
use std::process::ExitCode;

/// The help text of `piperun`.
///
/// ```
/// assert!(bindingclay::script::HELP.contains("P pipe [nonblock]"));
/// ```
pub use crate::parts::run::HELP;

/// Why a run of a script ended early, or was not begun.
///
/// ```
/// use bindingclay::script::{Fault, ScriptFault, run};
///
/// let ran = run(b"start\nsleep\n".as_slice(), std::io::sink(), Default::default());
/// assert_eq!(ran, Err(Fault::Script(ScriptFault::BadLine(2))));
/// ```
#[derive(Clone, Copy, Debug, PartialEq, Eq)]
pub enum Fault {
    /// A limit is too great, and nothing was read.
    FileMax,
    /// The run ended early.
    Script(ScriptFault),
}

impl From<FileMaxFault> for Fault {
    fn from(_fault: FileMaxFault) -> Fault {
        Fault::FileMax
    }
}

impl fmt::Display for Fault {
    fn fmt(&self, f: &mut fmt::Formatter<'_>) -> fmt::Result {
        match self {
            Fault::FileMax => FileMaxFault.fmt(f),
            Fault::Script(fault) => fault.fmt(f),
        }
    }
}

impl Error for Fault {}

/// Reads a script to its end, runs it on a new kernel, and writes a line for each step and each line `file` before the first bad one.
///
/// The script is held whole; the output is not, and is written in pieces of 65,536 bytes or more. It is never flushed.
///
/// # Errors
///
/// [`Fault::FileMax`] where `limits.file_max` is above 16,777,216, and nothing was read. Else those of [`ScriptFault`]: at a bad line the
/// output of the lines before it was written.
///
/// ```
/// use bindingclay::Limits;
/// use bindingclay::script::{Fault, run};
///
/// let limits = Limits { file_max: u32::MAX, ..Limits::DEFAULT };
/// assert_eq!(run(b"start\n".as_slice(), std::io::sink(), limits), Err(Fault::FileMax));
/// ```
pub fn run<R: Read, W: Write>(script: R, output: W, limits: Limits) -> Result<Totals, Fault> {
    if limits.file_max > MAX_FILE_BYTES {
        return Err(Fault::FileMax);
    }
    run_script(
        Global,
        &mut Reads::of_script(script),
        &mut Writes::new(output),
        limits,
    )
    .map_err(Fault::Script)
}

/// The program `piperun`: does what the words of the command line ask for, and answers the status to end with.
///
/// ```no_run
/// fn main() -> std::process::ExitCode {
///     bindingclay::script::main()
/// }
/// ```
pub fn main() -> ExitCode {
    parts::piperun::main()
}
