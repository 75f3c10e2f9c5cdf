//! The shared kernel's reads and writes of several buffers: each is one call (POSIX.1-2017, readv and writev).

mod waiting;

use bindingclay::shared::{File, PipeOptions, PipeReader, PipeWriter, Shared};
use std::alloc::{GlobalAlloc, Layout, System};
use std::cell::Cell;
use std::io::{ErrorKind, IoSlice, IoSliceMut, Read, Result, Seek, Write};
use std::thread;
use std::time::Instant;
use waiting::until_waiting;

/// The bytes of a new pipe (pipe(7), Pipe capacity).
const PIPE_BYTES: usize = 65_536;

/// Up to so many bytes go in whole (limits.h, PIPE_BUF).
const PIPE_BUF: usize = 4_096;

thread_local! {
    /// A thread gets no block of so many bytes.
    static REFUSED: Cell<usize> = const { Cell::new(0) };
}

struct Refuses;

#[global_allocator]
static MEMORY: Refuses = Refuses;

// Safety: it is the system's, or gives nothing.
unsafe impl GlobalAlloc for Refuses {
    unsafe fn alloc(&self, layout: Layout) -> *mut u8 {
        if REFUSED.try_with(Cell::get) == Ok(layout.size()) {
            return std::ptr::null_mut();
        }
        unsafe { System.alloc(layout) }
    }

    unsafe fn dealloc(&self, pointer: *mut u8, layout: Layout) {
        unsafe { System.dealloc(pointer, layout) }
    }
}

/// What a call returns in a thread that gets no block of so many bytes meanwhile.
fn refusing<T>(size: usize, call: impl FnOnce() -> T) -> T {
    REFUSED.set(size);
    let returned = call();
    REFUSED.set(0);
    returned
}

fn pipe() -> Result<(PipeReader, PipeWriter)> {
    Shared::new()?.start()?.pipe()
}

/// So many bytes that differ from their neighbours.
fn numbered(size: usize) -> Vec<u8> {
    (0..size).map(|at| (at % 251) as u8).collect()
}

/// The parts of some bytes, each of so many, and one with the rest.
fn parts<'a>(mut bytes: &'a [u8], sizes: &[usize]) -> Vec<IoSlice<'a>> {
    let mut parts = Vec::new();
    for size in sizes {
        let (part, rest) = bytes.split_at(*size);
        parts.push(IoSlice::new(part));
        bytes = rest;
    }
    parts.push(IoSlice::new(bytes));
    parts
}

/// Reads into buffers of so many bytes, and returns what they have then.
fn read_into(mut reader: impl Read, sizes: &[usize]) -> Result<(usize, Vec<Vec<u8>>)> {
    let mut all: Vec<Vec<u8>> = sizes.iter().map(|size| vec![b'-'; *size]).collect();
    let mut buffers: Vec<_> = all.iter_mut().map(|into| IoSliceMut::new(into)).collect();
    let count = reader.read_vectored(&mut buffers)?;
    Ok((count, all))
}

fn kind<T: std::fmt::Debug>(result: Result<T>) -> ErrorKind {
    result.expect_err("an error").kind()
}

#[test]
fn a_write_takes_all_buffers_in_order() -> Result<()> {
    let (mut reader, mut writer) = pipe()?;
    for total in [0, 5, PIPE_BUF, PIPE_BUF + 1, PIPE_BYTES] {
        let bytes = numbered(total);
        for sizes in [vec![0, total / 3, 0, total / 2], vec![0, total], vec![]] {
            assert_eq!(writer.write_vectored(&parts(&bytes, &sizes))?, total);
            let mut into = vec![0; total + 1];
            let count = if total > 0 {
                reader.read(&mut into)?
            } else {
                0
            };
            assert_eq!(into[..count], bytes);
        }
    }
    assert_eq!(writer.write_vectored(&[])?, 0);
    Ok(())
}

#[test]
fn a_small_write_goes_in_whole_or_not_at_all() -> Result<()> {
    let kernel = Shared::new()?;
    let (mut reader, mut writer) = kernel.start()?.pipe()?;
    writer.write_all(&[7; PIPE_BYTES - 100])?;
    let bytes = numbered(120);
    writer.set_nonblocking(true)?;
    assert_eq!(
        kind(writer.write_vectored(&parts(&bytes, &[60]))),
        ErrorKind::WouldBlock
    );
    assert_eq!(reader.held()?, PIPE_BYTES - 100);
    writer.set_nonblocking(false)?;
    thread::scope(|scope| {
        let writes = scope.spawn(|| writer.write_vectored(&parts(&bytes, &[60])));
        until_waiting(&kernel, 1);
        assert_eq!(reader.held()?, PIPE_BYTES - 100);
        reader.read_exact(&mut [0; PIPE_BYTES - 100])?;
        assert_eq!(writes.join().expect("no panic")?, 120);
        let mut into = [0; 200];
        assert_eq!(reader.read(&mut into)?, 120);
        assert_eq!(into[..120], bytes);
        Ok(())
    })
}

#[test]
fn a_large_write_puts_in_what_it_can() -> Result<()> {
    let (mut reader, mut writer) = pipe()?;
    writer.set_nonblocking(true)?;
    writer.write_all(&[7; PIPE_BYTES - 5_000])?;
    let bytes = numbered(10_000);
    assert_eq!(
        writer.write_vectored(&parts(&bytes, &[3_000, 3_000]))?,
        5_000
    );
    reader.read_exact(&mut [0; PIPE_BYTES - 5_000])?;
    let mut into = [0; 5_000];
    reader.read_exact(&mut into)?;
    assert_eq!(into, bytes[..5_000]);
    Ok(())
}

#[test]
fn a_large_write_waits_until_all_is_in() -> Result<()> {
    let (mut reader, mut writer) = pipe()?;
    let bytes = numbered(3 * PIPE_BYTES);
    let buffers = parts(&bytes, &[9, PIPE_BYTES]);
    thread::scope(|scope| {
        let writes = scope.spawn(move || writer.write_vectored(&buffers));
        let mut into = Vec::new();
        reader.read_to_end(&mut into)?;
        assert_eq!(writes.join().expect("no panic")?, bytes.len());
        assert!(into == bytes);
        Ok(())
    })
}

#[test]
fn messages_of_two_buffers_arrive_whole() -> Result<()> {
    const WRITERS: u8 = 4;
    const EACH: usize = 200;
    const BODY: usize = 60;
    let (mut reader, writer) = pipe()?;
    thread::scope(|scope| {
        for name in 0..WRITERS {
            let mut writer = writer.try_clone()?;
            scope.spawn(move || {
                let (head, body) = ([name], [name; BODY]);
                for _ in 0..EACH {
                    let buffers = [IoSlice::new(&head), IoSlice::new(&body)];
                    let count = writer.write_vectored(&buffers).expect("a reader");
                    assert_eq!(count, 1 + BODY);
                }
            });
        }
        drop(writer);
        for _ in 0..usize::from(WRITERS) * EACH {
            let mut message = [0; 1 + BODY];
            reader.read_exact(&mut message)?;
            assert_eq!(message, [message[0]; 1 + BODY]);
        }
        Ok(())
    })
}

#[test]
fn a_write_is_one_packet_and_a_read_takes_one() -> Result<()> {
    let options = PipeOptions {
        packets: true,
        ..PipeOptions::default()
    };
    let (mut reader, mut writer) = Shared::new()?.start()?.pipe_with(options)?;
    for bytes in [b"hello", b"world"] {
        assert_eq!(writer.write_vectored(&parts(bytes, &[2]))?, 5);
    }
    // pipe(2), O_DIRECT: a read takes one packet
    assert_eq!(
        read_into(&reader, &[2, 8])?,
        (5, vec![b"he".to_vec(), b"llo-----".to_vec()])
    );
    assert_eq!(reader.read(&mut [0; 16])?, 5);
    Ok(())
}

#[test]
fn a_read_fills_the_buffers_in_order() -> Result<()> {
    let kernel = Shared::new()?;
    let (reader, mut writer) = kernel.start()?.pipe()?;
    writer.write_all(b"hello!")?;
    assert_eq!(
        read_into(&reader, &[0, 2, 0, 3, 4, 5])?,
        (
            6,
            ["", "he", "", "llo", "!---", "-----"]
                .map(|text| text.as_bytes().to_vec())
                .to_vec()
        )
    );
    // more than are small, and more than there are
    let bytes = numbered(2 * PIPE_BUF);
    writer.write_all(&bytes)?;
    let (count, all) = read_into(&reader, &[5_000, 5_000])?;
    assert_eq!((count, &all.concat()[..count]), (bytes.len(), &bytes[..]));
    thread::scope(|scope| {
        let reads = scope.spawn(|| read_into(&reader, &[1, 2, 3]));
        until_waiting(&kernel, 1);
        writer.write_all(b"late")?;
        let (count, all) = reads.join().expect("no panic")?;
        assert_eq!((count, all.concat().as_slice()), (4, &b"late--"[..]));
        Ok::<_, std::io::Error>(())
    })?;
    drop(writer);
    assert_eq!(read_into(&reader, &[1, 2])?.0, 0);
    Ok(())
}

#[test]
fn files_take_several_buffers_too() -> Result<()> {
    let process = Shared::new()?.start()?;
    let mut file = File::options()
        .read(true)
        .write(true)
        .create(true)
        .open(&process, "data")?;
    assert_eq!(file.write_vectored(&parts(b"0123456789", &[3, 3]))?, 10);
    file.rewind()?;
    let (count, all) = read_into(&file, &[4, 4])?;
    assert_eq!((count, all.concat().as_slice()), (8, &b"01234567"[..]));
    assert_eq!(file.stream_position()?, 8);
    // as a write of more than 16,777,216 bytes, which is cut
    let piece = vec![7; 1 << 20];
    let pieces: Vec<_> = (0..17).map(|_| IoSlice::new(&piece)).collect();
    file.rewind()?;
    assert_eq!(file.write_vectored(&pieces)?, 1 << 24);
    Ok(())
}

#[test]
fn what_ends_a_call_of_one_buffer_ends_one_of_several() -> Result<()> {
    let (mut reader, mut writer) = pipe()?;
    reader.set_deadline(Some(Instant::now()));
    assert_eq!(kind(read_into(&mut reader, &[1, 2])), ErrorKind::TimedOut);
    drop(reader);
    assert_eq!(
        kind(writer.write_vectored(&parts(b"ab", &[1]))),
        ErrorKind::BrokenPipe
    );
    Ok(())
}

#[test]
fn a_call_without_memory_for_its_row_has_moved_nothing() -> Result<()> {
    let (reader, mut writer) = pipe()?;
    let bytes = numbered(10_001);
    let buffers = parts(&bytes, &[5_000]);
    let wrote = refusing(bytes.len(), || writer.write_vectored(&buffers));
    assert_eq!(kind(wrote), ErrorKind::OutOfMemory);
    assert_eq!(reader.held()?, 0);
    // one buffer, and few bytes, want no row
    let buffers = parts(&bytes, &[0, bytes.len()]);
    let wrote = refusing(bytes.len(), || writer.write_vectored(&buffers));
    assert_eq!(wrote?, bytes.len());
    let buffers = parts(&bytes[..3_001], &[1_000]);
    let wrote = refusing(3_001, || writer.write_vectored(&buffers));
    assert_eq!(wrote?, 3_001);
    let (mut first, mut second) = ([0; 5_000], [0; 8_002]);
    let mut read = |size| {
        let mut into = [IoSliceMut::new(&mut first), IoSliceMut::new(&mut second)];
        refusing(size, || (&reader).read_vectored(&mut into))
    };
    assert_eq!(kind(read(13_002)), ErrorKind::OutOfMemory);
    assert_eq!(reader.held()?, 13_002);
    assert_eq!(read(1)?, 13_002);
    Ok(())
}
