//! What is told of pipes, files, calls that wait, processes, and memory.

use super::Clay;
use super::answers::{ParkedCall, Result};
use super::raw::*;
use super::values::{Fd, Pid};

/// What a kernel takes of its memory, in bytes as they were asked of malloc and realloc.
#[repr(C)]
#[derive(Clone, Copy, Debug, Default, PartialEq, Eq)]
pub struct Memory {
    /// Those that it holds now.
    pub held: u64,
    /// The most that it held at once.
    pub peak: u64,
    /// The most that it may hold.
    pub most: u64,
    /// Those of `held` in segments that it keeps for further bytes of pipes and files.
    pub spare: u64,
}

/// What a descriptor or a name stands for.
#[derive(Clone, Copy, Debug, PartialEq, Eq, Hash)]
pub enum NodeKind {
    /// A pipe that is a byte queue, with a name or without.
    Pipe,
    /// A packet pipe.
    PacketPipe,
    /// A regular file.
    File,
}

/// What is told of a pipe or a file.
#[derive(Clone, Copy, Debug, PartialEq, Eq)]
pub struct NodeFacts {
    pub kind: NodeKind,
    /// How many bytes a pipe holds, or how many a file has.
    pub size: u64,
    /// Its key. Two descriptors or names have the same kind and the same key exactly if they stand for the same pipe or file. It keeps its key
    /// as long as it lives. Then another one may get that key.
    pub key: u64,
}

/// What a call is that waits.
#[derive(Clone, Copy, Debug, PartialEq, Eq, Hash)]
pub enum CallKind {
    Read,
    Write,
    /// The open of a FIFO.
    Open,
    Splice,
    Tee,
    Poll,
}

/// What is told of a call that waits. Its descriptors are those that it began with, whatever they name by now.
#[derive(Clone, Copy, Debug, PartialEq, Eq)]
pub struct CallFacts {
    pub kind: CallKind,
    /// The process that began it.
    pub pid: Pid,
    /// The descriptor of a read or a write, that from which a splice or a tee takes, or that of the first entry of a poll, which may be below 0.
    /// Of an open, and of a poll without entries, it is -1.
    pub first: Fd,
    /// The descriptor to which a splice or a tee gives. Of any other call it is -1.
    pub second: Fd,
}

/// What a process holds.
#[repr(C)]
#[derive(Clone, Copy, Debug, Default, PartialEq, Eq)]
pub struct ProcessFacts {
    /// How many of its descriptors are open.
    pub descriptors: u64,
    /// How many of its calls wait.
    pub waiting_calls: u64,
}

/// In how many segments, each of 4,096 bytes of memory, a kernel keeps the bytes of its pipes and files.
#[repr(C)]
#[derive(Clone, Copy, Debug, Default, PartialEq, Eq)]
pub struct SegmentUse {
    /// Those in which bytes are. If there is no process and no name, there are none.
    pub used: u64,
    /// Those that are kept for further bytes: at most as many as fit `spare_max` of the limits.
    pub spare: u64,
}

/// What is told of a pipe or a file, as C has it.
#[repr(C)]
#[derive(Default)]
pub(super) struct RawNode {
    key: u64,
    size: u64,
    kind: u32,
}

impl RawNode {
    pub(super) fn facts(self) -> NodeFacts {
        let RawNode { key, size, kind } = self;
        let kind = match kind {
            1 => NodeKind::Pipe,
            2 => NodeKind::PacketPipe,
            3 => NodeKind::File,
            _ => unreachable!("a pipe or file of kind {kind}, of which this version knows nothing"),
        };
        NodeFacts { kind, size, key }
    }
}

/// What is told of a call that waits, as C has it.
#[repr(C)]
#[derive(Default)]
pub(super) struct RawCall {
    kind: u32,
    pid: u32,
    first: i32,
    second: i32,
}

impl RawCall {
    pub(super) fn facts(self) -> CallFacts {
        let RawCall {
            kind,
            pid,
            first,
            second,
        } = self;
        let kind = match kind {
            1 => CallKind::Read,
            2 => CallKind::Write,
            3 => CallKind::Open,
            4 => CallKind::Splice,
            5 => CallKind::Tee,
            6 => CallKind::Poll,
            _ => unreachable!("a call of kind {kind}, of which this version knows nothing"),
        };
        CallFacts {
            kind,
            pid,
            first,
            second,
        }
    }
}

// In each call the handle is that of a kernel that lives as long as `self`, and what is pointed to is borrowed for the call.
impl Clay {
    /// What the kernel takes of its memory. It takes none for it.
    pub fn memory(&self) -> Memory {
        let mut memory = Memory::default();
        unsafe { bindingclay_tell_memory(self.0, &mut memory) }
        memory
    }

    /// How many bytes the pipe holds that a descriptor is open on, by either end. A descriptor that isn't open on a pipe is EBADF.
    pub fn held(&self, pid: Pid, fd: Fd) -> Result<u32> {
        unsafe { bindingclay_held(self.0, pid, fd) }.number()
    }

    /// What a descriptor stands for. One that isn't open is EBADF.
    pub fn fd_facts(&self, pid: Pid, fd: Fd) -> Result<NodeFacts> {
        let mut node = RawNode::default();
        unsafe { bindingclay_fd_facts(self.0, pid, fd, &mut node) }.nothing()?;
        Ok(node.facts())
    }

    /// What a name stands for, which isn't opened. If it stands for nothing it is ENOENT.
    pub fn name_facts(&self, name: &[u8]) -> Result<NodeFacts> {
        let mut node = RawNode::default();
        unsafe { bindingclay_name_facts(self.0, name.as_ptr(), name.len(), &mut node) }
            .nothing()?;
        Ok(node.facts())
    }

    /// What a call is that waits, whose it is, and the descriptors that it began with.
    ///
    /// # Errors
    ///
    /// `NoCall` says that no call of its number waits.
    pub fn call_facts(&self, call: &ParkedCall) -> Result<CallFacts> {
        let mut facts = RawCall::default();
        unsafe { bindingclay_call_facts(self.0, call.number, &mut facts) }.nothing()?;
        Ok(facts.facts())
    }

    /// What a process holds of what the limits `descriptors_max` and `waiting_of_each` bound.
    ///
    /// # Errors
    ///
    /// `NoProcess` says that there is no process of this pid.
    pub fn process_facts(&self, pid: Pid) -> Result<ProcessFacts> {
        let mut process = ProcessFacts::default();
        unsafe { bindingclay_process_facts(self.0, pid, &mut process) }.nothing()?;
        Ok(process)
    }

    /// In how many segments the kernel keeps bytes.
    pub fn stats(&self) -> SegmentUse {
        let mut segments = SegmentUse::default();
        unsafe { bindingclay_stats(self.0, &mut segments) }
        segments
    }
}
