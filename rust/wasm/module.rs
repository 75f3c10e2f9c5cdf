//! The library as a WebAssembly module, which `run.mjs` loads: it runs scripts, and passes bytes through a pipe of `shared`.

use bindingclay::Limits;
use bindingclay::script;
use bindingclay::shared::Shared;
use std::io::{Read, Result, Write};
use std::sync::{Mutex, MutexGuard, PoisonError};

/// The script that is to be run, and afterwards what it printed.
static TEXT: Mutex<Vec<u8>> = Mutex::new(Vec::new());

fn text() -> MutexGuard<'static, Vec<u8>> {
    TEXT.lock().unwrap_or_else(PoisonError::into_inner)
}

/// The place of the text, which has `len` bytes from now on.
#[unsafe(no_mangle)]
pub extern "C" fn resize(len: usize) -> *mut u8 {
    let mut text = text();
    text.resize(len, 0);
    text.as_mut_ptr()
}

/// Runs the text as a script, puts what it printed in its place, and returns the length of that. A bad line ends the run.
#[unsafe(no_mangle)]
pub extern "C" fn run() -> usize {
    let mut text = text();
    let mut printed = Vec::new();
    let _ended = script::run(text.as_slice(), &mut printed, Limits::default());
    *text = printed;
    text.len()
}

fn pass() -> Result<bool> {
    let (mut reader, mut writer) = Shared::new()?.start()?.pipe()?;
    writer.write_all(b"hello")?;
    drop(writer);
    let mut read = String::new();
    reader.read_to_string(&mut read)?;
    Ok(read == "hello")
}

/// Whether bytes come out of a pipe of a shared kernel as they went in, and its end behind them.
#[unsafe(no_mangle)]
pub extern "C" fn passes_bytes() -> bool {
    pass().unwrap_or(false)
}
