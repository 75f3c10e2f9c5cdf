//! The program `piperun` prints for each script of `examples/` what stands beside it, and reports a stream that can't be read or written.

mod program;

use program::piperun;
use std::fs;
use std::path::{Path, PathBuf};
use std::process::Output;

/// The digits of bytes that are given as pieces joined by `+`, each digits as they are or `N*hh`.
fn expanded_bytes(pieces: &str) -> String {
    let expanded = |piece: &str| match piece.split_once('*') {
        Some((times, byte)) => byte.repeat(times.parse().expect("a number")),
        None => piece.to_string(),
    };
    pieces.split('+').map(expanded).collect()
}

fn expanded_line(line: &str) -> String {
    match line.split_once(' ') {
        Some((word @ ("data" | "file"), pieces)) => format!("{word} {}", expanded_bytes(pieces)),
        _ => line.to_string(),
    }
}

/// Whether a script is of version 2, so that it prints its bytes as pieces itself.
fn is_of_version_2(script: &Path) -> bool {
    let text = fs::read_to_string(script).expect("the script");
    let first = text.split('\n').next().unwrap_or_default();
    first.strip_suffix('\r').unwrap_or(first) == "piperun 2"
}

/// What a script is to print; of one of version 1 with the digits of all bytes written out.
fn wanted(script: &Path) -> String {
    let text = fs::read_to_string(script.with_extension("out")).expect("what it is to print");
    if is_of_version_2(script) {
        return text;
    }
    text.lines()
        .map(|line| expanded_line(line) + "\n")
        .collect()
}

fn run(script: &Path) -> Output {
    let mut program = piperun();
    if let Ok(words) = fs::read_to_string(script.with_extension("args")) {
        program.args(words.lines());
    }
    program.arg(script).output().expect("the program runs")
}

fn scripts() -> Vec<PathBuf> {
    let folder = Path::new(env!("CARGO_MANIFEST_DIR")).join("crates/pl_examples/data");
    let names = fs::read_to_string(folder.join("scripts")).expect("the list of scripts");
    names
        .lines()
        .map(|name| folder.join(format!("{name}.script")))
        .collect()
}

#[test]
fn each_script_prints_what_stands_beside_it() {
    let scripts = scripts();
    assert!(!scripts.is_empty());
    for script in scripts {
        let ran = run(&script);
        let printed = [ran.stdout, ran.stderr].concat();
        assert!(
            printed == wanted(&script).into_bytes(),
            "{}",
            script.display()
        );
    }
}

#[cfg(unix)]
#[test]
fn a_stream_that_is_not_open_for_it_is_reported() {
    use std::fs::File;
    use std::process::Command;

    let ends = |program: &mut Command, complaint: &str| {
        let ran = program.output().expect("the program runs");
        assert_eq!(ran.stderr, complaint.as_bytes());
        assert_eq!(ran.status.code(), Some(1));
    };
    let nothing = || {
        File::options()
            .write(true)
            .open("/dev/null")
            .expect("it can be written")
    };
    ends(piperun().stdin(nothing()), "piperun: cannot read\n");
    let folder = Path::new(env!("CARGO_MANIFEST_DIR")).join("crates/pl_examples/data");
    let empty = File::open("/dev/null").expect("it can be read");
    ends(
        piperun().arg(folder.join("session.script")).stdout(empty),
        "piperun: cannot write\n",
    );
}
