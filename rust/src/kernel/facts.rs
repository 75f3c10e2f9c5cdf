//! What is told of a kernel: its memory, processes, pipes, files, names and parked calls.

use super::Kernel;
use crate::answers::ParkedCall;
use crate::faults::NoMemory;
use crate::memory::Allocator;
use crate::{Bytes8, CallFacts, Name, NodeFacts, ProcessFacts, Stats};

impl<A: Allocator + Copy> Kernel<A> {
    /// What it takes of its memory.
    ///
    /// ```
    /// use bindingclay::memory::Global;
    /// use bindingclay::{Kernel, Limits};
    ///
    /// assert_eq!(Kernel::new(Global, Limits::default())?.stats().segments, 0);
    /// # Ok::<(), Box<dyn std::error::Error>>(())
    /// ```
    pub fn stats(&self) -> Stats {
        self.inner.stats()
    }

    /// In how many slots the bytes of the pipe stand that a descriptor of a process names: at most two for each 4,096 bytes of its capacity.
    /// `None` where there is no such process, or its descriptor isn't open on a pipe.
    ///
    /// ```
    /// use bindingclay::memory::Global;
    /// use bindingclay::{Kernel, Limits};
    ///
    /// assert_eq!(Kernel::new(Global, Limits::default())?.slots(1, 0), None);
    /// # Ok::<(), Box<dyn std::error::Error>>(())
    /// ```
    pub fn slots(&self, pid: u32, fd: i32) -> Option<u32> {
        self.inner.slots(pid, fd)
    }

    /// The bytes of the file that a name stands for, all of them; `None` where it stands for nothing, or for what is no file.
    ///
    /// # Errors
    ///
    /// [`NoMemory`] only where there is such a file, and no memory for its bytes.
    ///
    /// ```
    /// use bindingclay::memory::{Global, Vec};
    /// use bindingclay::{Answer, Call, Kernel, Limits, Mode, Name, OpenFlags, Step};
    ///
    /// let name = || Vec::from_slice(Global, b"log").map(Name::from_vec);
    /// let mut kernel = Kernel::new(Global, Limits::default())?;
    /// kernel.step(Step::Start)?;
    /// let open = Call::OpenName { name: name()?, mode: Mode::Write, flags: OpenFlags::CREAT };
    /// kernel.step(Step::Begin(1, open))?;
    /// assert_eq!(kernel.write_from(1, 0, b"hello")?, Answer::Done(5));
    /// let bytes = kernel.file_bytes(&name()?)?.expect("a file");
    /// assert_eq!(bytes.as_slice(), b"hello");
    /// # Ok::<(), Box<dyn std::error::Error>>(())
    /// ```
    pub fn file_bytes(&self, name: &Name<A>) -> Result<Option<Bytes8<A>>, NoMemory> {
        self.inner.file_bytes(name)
    }

    /// Whether there is a process of this pid.
    ///
    /// ```
    /// use bindingclay::memory::Global;
    /// use bindingclay::{Kernel, Limits, Step};
    ///
    /// let mut kernel = Kernel::new(Global, Limits::default())?;
    /// assert!(!kernel.has_process(1));
    /// kernel.step(Step::Start)?;
    /// assert!(kernel.has_process(1));
    /// # Ok::<(), Box<dyn std::error::Error>>(())
    /// ```
    pub fn has_process(&self, pid: u32) -> bool {
        self.inner.has_process(pid)
    }

    /// How many bytes the pipe holds that a descriptor of a process is open on, by either end: at most 1,048,576 (pipe(7), FIONREAD). Of a
    /// packet pipe it is the bytes of all packets. `None` where there is no such process, or its descriptor isn't open on a pipe. Nothing
    /// changes, and it takes no memory.
    ///
    /// ```
    /// use bindingclay::memory::Global;
    /// use bindingclay::{Answer, Call, Kernel, Limits, Step};
    ///
    /// let mut kernel = Kernel::new(Global, Limits::default())?;
    /// kernel.step(Step::Start)?;
    /// kernel.step(Step::Begin(1, Call::Pipe { nonblock: false, direct: false }))?;
    /// assert_eq!(kernel.write_from(1, 1, b"hello")?, Answer::Done(5));
    /// assert_eq!(kernel.held(1, 0), Some(5));
    /// assert_eq!(kernel.held(1, 2), None);
    /// # Ok::<(), Box<dyn std::error::Error>>(())
    /// ```
    pub fn held(&self, pid: u32, fd: i32) -> Option<u32> {
        self.inner.held(pid, fd)
    }

    /// What a descriptor of a process stands for (POSIX.1-2017, fstat). `None` where there is no such process, or its descriptor isn't open.
    /// Nothing changes, and it takes no memory.
    ///
    /// Two descriptors or names have the same kind and the same key exactly if they stand for the same pipe or file. A pipe or a file keeps
    /// its key as long as it lives. Then another one may get that key.
    ///
    /// ```
    /// use bindingclay::memory::Global;
    /// use bindingclay::{Answer, Call, Kernel, Limits, NodeKind, Step};
    ///
    /// let mut kernel = Kernel::new(Global, Limits::default())?;
    /// kernel.step(Step::Start)?;
    /// kernel.step(Step::Begin(1, Call::Pipe { nonblock: false, direct: true }))?;
    /// assert_eq!(kernel.write_from(1, 1, b"hello")?, Answer::Done(5));
    /// let facts = kernel.fd_facts(1, 0).expect("a pipe");
    /// assert_eq!((facts.kind, facts.size), (NodeKind::PacketPipe, 5));
    /// assert_eq!(kernel.fd_facts(1, 1), Some(facts));
    /// # Ok::<(), Box<dyn std::error::Error>>(())
    /// ```
    pub fn fd_facts(&self, pid: u32, fd: i32) -> Option<NodeFacts> {
        self.inner.fd_facts(pid, fd)
    }

    /// What a name stands for, which isn't opened (POSIX.1-2017, stat). `None` where it stands for nothing. Nothing changes, and it takes no
    /// memory.
    ///
    /// ```
    /// use bindingclay::memory::{Global, Vec};
    /// use bindingclay::{Call, Kernel, Limits, Name, NodeKind, Step};
    ///
    /// let mut kernel = Kernel::new(Global, Limits::default())?;
    /// kernel.step(Step::Start)?;
    /// let name = Name::from_vec(Vec::from_slice(Global, b"inbox")?);
    /// kernel.step(Step::Begin(1, Call::Mkfifo { name }))?;
    /// assert_eq!(kernel.name_facts(b"inbox").map(|facts| facts.kind), Some(NodeKind::Pipe));
    /// assert_eq!(kernel.name_facts(b"outbox"), None);
    /// # Ok::<(), Box<dyn std::error::Error>>(())
    /// ```
    pub fn name_facts(&self, name: &[u8]) -> Option<NodeFacts> {
        self.inner.name_facts(name)
    }

    /// What a parked call is, whose it is, and the descriptors that it began with; `None` if no call is parked under its number. Nothing
    /// changes, and it takes no memory.
    ///
    /// ```
    /// use bindingclay::memory::Global;
    /// use bindingclay::{Answer, Call, CallFacts, CallKind, Kernel, Limits, Step};
    ///
    /// let mut kernel = Kernel::new(Global, Limits::default())?;
    /// kernel.step(Step::Start)?;
    /// kernel.step(Step::Begin(1, Call::Pipe { nonblock: false, direct: false }))?;
    /// let Answer::Parked(call) = kernel.read_into(1, 0, &mut [0])? else { panic!("no wait") };
    /// let facts = CallFacts { kind: CallKind::Read, pid: 1, first: 0, second: -1 };
    /// assert_eq!(kernel.call_facts(&call), Some(facts));
    /// # Ok::<(), Box<dyn std::error::Error>>(())
    /// ```
    pub fn call_facts(&self, call: &ParkedCall) -> Option<CallFacts> {
        self.inner.call_facts(call.number())
    }

    /// How many descriptors of a process are open, and how many of its calls wait; `None` if there is no such process. Nothing changes, and it
    /// takes no memory.
    ///
    /// ```
    /// use bindingclay::memory::Global;
    /// use bindingclay::{Call, Kernel, Limits, ProcessFacts, Step};
    ///
    /// let mut kernel = Kernel::new(Global, Limits::default())?;
    /// kernel.step(Step::Start)?;
    /// kernel.step(Step::Begin(1, Call::Pipe { nonblock: false, direct: false }))?;
    /// kernel.read_into(1, 0, &mut [0])?;
    /// assert_eq!(kernel.process_facts(1), Some(ProcessFacts { descriptors: 2, waiting_calls: 1 }));
    /// assert_eq!(kernel.process_facts(2), None);
    /// # Ok::<(), Box<dyn std::error::Error>>(())
    /// ```
    pub fn process_facts(&self, pid: u32) -> Option<ProcessFacts> {
        self.inner.process_facts(pid)
    }
}
