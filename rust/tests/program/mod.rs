//! The program `piperun` of this build.

use std::process::Command;

/// A run of the program. If `BINDINGCLAY_RUNNER` is set, its words run it: an emulator, where the program is for another machine.
pub fn piperun() -> Command {
    let runner = std::env::var("BINDINGCLAY_RUNNER").unwrap_or_default();
    let mut words = runner
        .split_whitespace()
        .chain([env!("CARGO_BIN_EXE_piperun")]);
    let mut program = Command::new(words.next().expect("at least the program"));
    program.args(words);
    program
}
