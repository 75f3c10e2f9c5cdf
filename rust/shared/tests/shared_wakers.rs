//! The shared kernel's wakers, which may run anything: calls of the kernel, a wait for another thread, and a panic.

mod tasks;

use bindingclay::shared::{Limits, PipeReader, Shared};
use std::io::{ErrorKind, Read, Result, Write};
use std::panic;
use std::sync::{Arc, Mutex, mpsc};
use std::task::{Context, RawWaker, RawWakerVTable, Wake, Waker};
use std::thread;
use std::time::Duration;
use tasks::{Task, process, ready};

/// The bytes of a new pipe (pipe(7), Pipe capacity).
const PIPE_BYTES: usize = 65_536;

#[test]
fn a_poll_that_comes_too_early_leaves_the_last_waker() -> Result<()> {
    let (_kernel, process) = process();
    let (mut reader, mut writer) = process.pipe()?;
    let (before, now) = (Task::new(), Task::new());
    assert!(before.read(&mut reader, &mut [0]).is_pending());
    assert!(now.read(&mut reader, &mut [0]).is_pending());
    writer.write_all(b"a")?;
    assert_eq!((before.woken(), now.woken()), (0, 1));
    Ok(())
}

/// Drops handles as it is woken, or as it is dropped, as a task does that is gone with its waker.
struct Holds(Mutex<Vec<PipeReader>>);

impl Wake for Holds {
    fn wake(self: Arc<Self>) {
        self.0.lock().expect("no panic").clear();
    }
}

#[test]
fn wakers_run_and_go_without_the_lock() -> Result<()> {
    let (kernel, process) = process();
    let (mut reader, mut writer) = process.pipe()?;
    let holds = |reader: &PipeReader| {
        Ok::<_, std::io::Error>(Arc::new(Holds(Mutex::new(vec![reader.try_clone()?]))))
    };
    for _ in 0..20 {
        // more than are woken at once, each of which makes a step as it is woken
        let mut readers: Vec<_> = (0..20).map(|_| reader.try_clone()).collect::<Result<_>>()?;
        for each in &mut readers {
            let waker = Waker::from(holds(&reader)?);
            assert!(
                each.poll_read(&mut Context::from_waker(&waker), &mut [0])
                    .is_pending()
            );
        }
        writer.write_all(b"a")?;
        drop(readers);
        assert_eq!(reader.read(&mut [0])?, 1);
        // a waker that goes as another takes its place, and one that goes with its poll
        let waker = Waker::from(holds(&reader)?);
        assert!(
            reader
                .poll_read(&mut Context::from_waker(&waker), &mut [0])
                .is_pending()
        );
        drop(waker);
        let task = Task::new();
        assert!(task.read(&mut reader, &mut [0]).is_pending());
        let waker = Waker::from(holds(&reader)?);
        assert!(
            reader
                .poll_read(&mut Context::from_waker(&waker), &mut [0])
                .is_pending()
        );
        drop(waker);
        reader = PipeReader::from_raw_fd(&process, reader.into_raw_fd());
    }
    assert_eq!(kernel.waiting(), 0);
    Ok(())
}

/// Waits for a byte as it is woken.
struct Waits(Mutex<PipeReader>);

impl Wake for Waits {
    fn wake(self: Arc<Self>) {
        let read = self.0.lock().expect("no panic").read(&mut [0]);
        assert_eq!(read.expect("a byte"), 1);
    }
}

#[test]
fn a_waker_may_wait_while_a_write_waits_that_ran_it() -> Result<()> {
    let (kernel, process) = process();
    let ((mut one, mut to_one), (other, mut to_other)) = (process.pipe()?, process.pipe()?);
    let mut reader = one.try_clone()?;
    let waker = Waker::from(Arc::new(Waits(Mutex::new(other))));
    assert!(
        one.poll_read(&mut Context::from_waker(&waker), &mut [0])
            .is_pending()
    );
    thread::scope(|scope| {
        let writes = scope.spawn(move || to_one.write(&[7; PIPE_BYTES + 9]));
        // the write, and the read of the waker; the poll has ended
        while kernel.waiting() != 2 || reader.held()? == 0 {
            thread::yield_now();
        }
        // the write is answered before the read
        reader.read_exact(&mut [0; PIPE_BYTES + 9])?;
        to_other.write_all(b"a")?;
        assert_eq!(writes.join().expect("no panic")?, PIPE_BYTES + 9);
        Ok(())
    })
}

/// The kernel that a waker asks as it is dropped.
static ASKED: Mutex<Option<Shared>> = Mutex::new(None);

fn ask(_: *const ()) {
    let kernel = ASKED.lock().expect("no panic").clone();
    assert_eq!(kernel.expect("a kernel").waiting(), 0);
}

static ASKS: RawWakerVTable =
    RawWakerVTable::new(|data| RawWaker::new(data, &ASKS), |_| {}, |_| {}, ask);

#[test]
fn a_waker_that_nobody_keeps_is_dropped_without_the_lock() -> Result<()> {
    let kernel = Shared::within(&Limits {
        waiting_calls: 0,
        ..Limits::default()
    })?;
    *ASKED.lock().expect("no panic") = Some(kernel.clone());
    let (mut reader, writer) = kernel.start()?.pipe()?;
    // if the lock were held for ever, a test that ends would wait for it to close this one
    writer.into_raw_fd();
    let (told, tells) = mpsc::channel();
    thread::spawn(move || {
        // it has no data, so its functions keep what they have to
        let waker = unsafe { Waker::from_raw(RawWaker::new(std::ptr::null(), &ASKS)) };
        told.send(ready(
            reader.poll_read(&mut Context::from_waker(&waker), &mut [0]),
        ))
        .expect("a test that waits");
    });
    let read = tells
        .recv_timeout(Duration::from_secs(20))
        .expect("an answer");
    assert_eq!(read.expect_err("EAGAIN").kind(), ErrorKind::WouldBlock);
    Ok(())
}

/// Waits until a thread has its answer.
struct WaitsFor(Mutex<mpsc::Receiver<usize>>);

impl Wake for WaitsFor {
    fn wake(self: Arc<Self>) {
        let read = self
            .0
            .lock()
            .expect("no panic")
            .recv_timeout(Duration::from_secs(20));
        assert_eq!(read, Ok(0));
    }
}

#[test]
fn a_waker_may_wait_for_a_thread_that_the_same_step_helped() -> Result<()> {
    let (kernel, process) = process();
    let (reader, writer) = process.pipe()?;
    let (told, tells) = mpsc::channel();
    let waker = Waker::from(Arc::new(WaitsFor(Mutex::new(tells))));
    // one before the thread and one behind it
    let mut tasks = [reader.try_clone()?, reader.try_clone()?];
    assert!(
        tasks[0]
            .poll_read(&mut Context::from_waker(&waker), &mut [0])
            .is_pending()
    );
    thread::spawn(move || {
        let read = (&reader).read(&mut [0]).expect("the end");
        (0..2).for_each(|_| told.send(read).expect("a waker"));
    });
    while kernel.waiting() != 2 {
        thread::yield_now();
    }
    assert!(
        tasks[1]
            .poll_read(&mut Context::from_waker(&waker), &mut [0])
            .is_pending()
    );
    drop(writer);
    Ok(())
}

/// Panics as it is woken.
struct Panics;

impl Wake for Panics {
    fn wake(self: Arc<Self>) {
        panic!("a waker may do so");
    }
}

#[test]
fn a_waker_that_panics_keeps_nobody_asleep() -> Result<()> {
    let (kernel, process) = process();
    let (reader, writer) = process.pipe()?;
    let (task, waker) = (Task::new(), Waker::from(Arc::new(Panics)));
    // more than are woken at once, and one among them that panics
    let mut readers: Vec<_> = (0..40).map(|_| reader.try_clone()).collect::<Result<_>>()?;
    for (place, each) in readers.iter_mut().enumerate() {
        let waker = if place == 20 { &waker } else { &task.waker };
        assert!(
            each.poll_read(&mut Context::from_waker(waker), &mut [0])
                .is_pending()
        );
    }
    let (told, tells) = mpsc::channel();
    // it hands its handle on: by a step behind the read it would wake others itself
    thread::spawn(move || {
        told.send(((&reader).read(&mut [0]), reader))
            .expect("a test that waits")
    });
    while kernel.waiting() != 41 {
        thread::yield_now();
    }
    assert!(thread::spawn(move || drop(writer)).join().is_err());
    let (read, _reader) = tells
        .recv_timeout(Duration::from_secs(20))
        .expect("an answer");
    assert_eq!(read?, 0);
    assert_eq!(task.woken(), 39);
    Ok(())
}

/// Panics with its number as it is woken, and notes that number.
struct PanicsWith(usize, Arc<Mutex<Vec<usize>>>);

impl Wake for PanicsWith {
    fn wake(self: Arc<Self>) {
        self.1.lock().expect("no panic").push(self.0);
        panic::panic_any(self.0);
    }
}

#[test]
fn the_first_panic_of_several_wakers_goes_on_once_all_are_woken() -> Result<()> {
    let (_kernel, process) = process();
    let (reader, writer) = process.pipe()?;
    let (task, ran) = (Task::new(), Arc::default());
    let mut readers: Vec<_> = (0..40).map(|_| reader.try_clone()).collect::<Result<_>>()?;
    // more than are woken at once
    for (place, each) in readers.iter_mut().enumerate() {
        let waker = match place {
            5 | 6 | 20 | 35 => Waker::from(Arc::new(PanicsWith(place, Arc::clone(&ran)))),
            _ => task.waker.clone(),
        };
        assert!(
            each.poll_read(&mut Context::from_waker(&waker), &mut [0])
                .is_pending()
        );
    }
    let told = thread::spawn(move || drop(writer)).join();
    let mut ran = ran.lock().expect("no panic").clone();
    assert_eq!(
        told.expect_err("a panic").downcast_ref(),
        Some(&ran[0]),
        "it is that of the waker that ran first"
    );
    ran.sort_unstable();
    assert_eq!((task.woken(), ran), (36, vec![5, 6, 20, 35]));
    Ok(())
}

#[test]
fn a_thread_that_panics_ends_with_its_own_panic_if_it_runs_a_waker_that_panics() -> Result<()> {
    let (_kernel, process) = process();
    let ((mut one, to_one), (mut other, to_other)) = (process.pipe()?, process.pipe()?);
    let ran = Arc::default();
    for (number, reader) in [&mut one, &mut other].into_iter().enumerate() {
        let waker = Waker::from(Arc::new(PanicsWith(number, Arc::clone(&ran))));
        assert!(
            reader
                .poll_read(&mut Context::from_waker(&waker), &mut [0])
                .is_pending()
        );
    }
    let told = thread::spawn(move || {
        let _ends = (to_one, to_other);
        panic::panic_any("its own");
    })
    .join();
    assert_eq!(told.expect_err("a panic").downcast_ref(), Some(&"its own"));
    assert_eq!(*ran.lock().expect("no panic"), [0, 1]);
    Ok(())
}
