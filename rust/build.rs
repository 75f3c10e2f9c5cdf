//! Makes the modules `parts` and `checks` of the crate from the project's sources, in the folder that Cargo gives.
//!
//! What the eraser doesn't know ends the build, with the file and the line of the source.

#[allow(dead_code)]
mod eraser;

use eraser::edition;
use std::env;
use std::path::{Path, PathBuf};
use std::process::ExitCode;

fn folder(variable: &str) -> PathBuf {
    env::var_os(variable).map(PathBuf::from).unwrap_or_default()
}

fn make(repository: &Path, out: &Path) -> Result<(), String> {
    let (mut files, _) = edition::make(repository).map_err(|fault| fault.to_string())?;
    files.insert(
        "edition.rs".to_string(),
        include_str!("edition.rs").to_string(),
    );
    edition::write(&files, out, &["parts", "checks"])
        .map_err(|fault| format!("{}: {fault}", out.display()))
}

fn main() -> ExitCode {
    let repository = folder("CARGO_MANIFEST_DIR");
    if let Err(fault) = make(&repository, &folder("OUT_DIR")) {
        println!("cargo::error={fault}");
        return ExitCode::FAILURE;
    }
    let of_crates =
        edition::crates_in(&repository).map(|place| format!("crates/{}/src", place.name));
    for source in ["crates.txt", "rust/examples.md", "rust/replaced"]
        .map(str::to_string)
        .into_iter()
        .chain(of_crates)
    {
        println!("cargo::rerun-if-changed={source}");
    }
    ExitCode::SUCCESS
}
