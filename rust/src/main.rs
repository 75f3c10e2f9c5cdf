//! `piperun`: runs a script of pipe calls, and prints the reply to each.
use std::process::ExitCode;

fn main() -> ExitCode {
    bindingclay::script::main()
}
