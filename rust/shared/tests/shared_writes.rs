//! The shared kernel: writes that wait, and what each tells if another thread ends it or lets go of its descriptor.

mod waiting;

use bindingclay::shared::{PipeWriter, Shared};
use std::io::{Read, Result, Write};
use std::thread;
use waiting::until_waiting;

/// Linux's number of an error (errno.h).
const EBADF: i32 = 9;

/// The bytes of a new pipe (pipe(7), Pipe capacity).
const PIPE_BYTES: usize = 65_536;

#[test]
fn an_interrupted_write_tells_what_went_in() -> Result<()> {
    let kernel = Shared::new()?;
    let process = kernel.start()?;
    let (_reader, mut writer) = process.pipe()?;
    let writes = thread::spawn(move || writer.write(&[7; PIPE_BYTES + 1]));
    until_waiting(&kernel, 1);
    process.interrupt()?;
    assert_eq!(writes.join().expect("no panic")?, PIPE_BYTES);
    Ok(())
}

#[test]
fn a_write_tells_what_went_in_if_its_process_exits() -> Result<()> {
    let kernel = Shared::new()?;
    let parent = kernel.start()?;
    let (mut reader, writer) = parent.pipe()?;
    let child = parent.fork()?;
    let mut theirs = PipeWriter::from_raw_fd(&child, writer.as_raw_fd());
    let writes = thread::spawn(move || theirs.write(&[7; PIPE_BYTES + 5_000]));
    until_waiting(&kernel, 1);
    // as many go in as there is room for then
    assert_eq!(reader.read(&mut [0; 100])?, 100);
    child.exit()?;
    assert_eq!(writes.join().expect("no panic")?, PIPE_BYTES + 100);
    Ok(())
}

#[test]
fn a_large_write_whose_descriptor_is_another_one_by_now_writes_nowhere() -> Result<()> {
    let kernel = Shared::new()?;
    let process = kernel.start()?;
    let (mut reader, mut writer) = process.pipe()?;
    let (others, to_others) = process.pipe()?;
    writer.write_all(&[7; PIPE_BYTES])?;
    let fd = writer.as_raw_fd();
    let writes = thread::spawn(move || (writer.write(&[8; 5_000]), writer));
    until_waiting(&kernel, 1);
    process.dup2(to_others.as_raw_fd(), fd)?;
    reader.read_exact(&mut [0; PIPE_BYTES])?;
    let (wrote, _writer) = writes.join().expect("no panic");
    assert_eq!(wrote.expect_err("not open").raw_os_error(), Some(EBADF));
    assert_eq!(others.held()?, 0);
    Ok(())
}

#[test]
fn a_large_write_whose_pipe_has_gone_puts_nothing_into_a_new_one() -> Result<()> {
    let kernel = Shared::new()?;
    let process = kernel.start()?;
    let (mut reader, mut writer) = process.pipe()?;
    writer.write_all(&[7; PIPE_BYTES])?;
    let fd = writer.as_raw_fd();
    let writes = thread::spawn(move || {
        let wrote = writer.write(&[8; 5_000]);
        // it is closed already
        let _fd = writer.into_raw_fd();
        wrote
    });
    until_waiting(&kernel, 1);
    reader.read_exact(&mut [0; PIPE_BYTES])?;
    process.close(fd)?;
    drop(reader);
    // it may get the key of the one that has gone, and its descriptors
    let (others, to_others) = process.pipe()?;
    assert_eq!(to_others.as_raw_fd(), fd);
    match writes.join().expect("no panic") {
        // it was quicker than the close
        Ok(count) => assert_eq!(count, 5_000),
        Err(fault) => assert_eq!(fault.raw_os_error(), Some(EBADF)),
    }
    assert_eq!(others.held()?, 0);
    Ok(())
}
