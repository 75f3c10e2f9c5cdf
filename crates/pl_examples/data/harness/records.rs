//! Checks each record of a folder by piperun, with a test for each. Put this file into `tests/` of a crate, and the scripts into
//! `tests/records/`. RECORDS names another folder, and PIPERUN another program than piperun of the search path.

use std::collections::BTreeSet;
use std::env;
use std::ffi::OsString;
use std::fs;
use std::path::{Path, PathBuf};
use std::process::Command;

/// Makes a test of each name, and the list of all names.
macro_rules! records {
    ($($name:ident),* $(,)?) => {
        $(
            #[test]
            fn $name() {
                check(&folder().join(concat!(stringify!($name), ".script")));
            }
        )*
        const NAMES: &[&str] = &[$(concat!(stringify!($name), ".script")),*];
    };
}

records!(fifo, pipe);

fn folder() -> PathBuf {
    env::var_os("RECORDS").map_or_else(
        || Path::new(env!("CARGO_MANIFEST_DIR")).join("tests/records"),
        PathBuf::from,
    )
}

/// Fails with the lines that differ, each behind the name of the file.
fn check(script: &Path) {
    let piperun = env::var_os("PIPERUN").unwrap_or_else(|| OsString::from("piperun"));
    let done = Command::new(piperun)
        .args(["--check", "--all"])
        .arg(script)
        .output()
        .expect("piperun can't be run");
    let said = String::from_utf8_lossy(&done.stdout);
    let told: Vec<String> = said
        .lines()
        .map(|line| {
            line.strip_prefix("line ").map_or_else(
                || line.to_owned(),
                |number| format!("{}:{number}", script.display()),
            )
        })
        .collect();
    assert!(
        done.status.success(),
        "{}\n{}\n{}",
        script.display(),
        told.join("\n"),
        String::from_utf8_lossy(&done.stderr)
    );
}

#[test]
fn each_script_has_its_test() {
    let entries = fs::read_dir(folder()).expect("there is no folder of records");
    let names = entries.map(|entry| {
        entry
            .expect("the folder can't be read")
            .file_name()
            .to_string_lossy()
            .into_owned()
    });
    let scripts: BTreeSet<String> = names.filter(|name| name.ends_with(".script")).collect();
    assert_eq!(scripts, NAMES.iter().map(ToString::to_string).collect());
}
