//! Tells Cargo where `libbindingclay.a` is: in the folder that `BINDINGCLAY_LIB` names, or else where a release has it beside this crate.

use std::env;
use std::path::PathBuf;

fn folders() -> Vec<PathBuf> {
    if let Some(folder) = env::var_os("BINDINGCLAY_LIB") {
        return vec![folder.into()];
    }
    let crate_folder = PathBuf::from(
        env::var_os("CARGO_MANIFEST_DIR").expect("Cargo names the folder of the crate"),
    );
    // PREFIX/share/bindingclay/rust is the crate's
    let lib = crate_folder.join("../../../lib");
    vec![lib.join("x86_64-linux-gnu"), lib]
}

fn main() {
    println!("cargo::rerun-if-env-changed=BINDINGCLAY_LIB");
    let folders = folders();
    let Some(folder) = folders
        .iter()
        .find(|folder| folder.join("libbindingclay.a").is_file())
    else {
        panic!(
            "no libbindingclay.a in {folders:?}: let BINDINGCLAY_LIB name the folder that has it"
        );
    };
    println!(
        "cargo::rerun-if-changed={}",
        folder.join("libbindingclay.a").display()
    );
    println!("cargo::rustc-link-search=native={}", folder.display());
    println!("cargo::rustc-link-lib=static=bindingclay");
}
