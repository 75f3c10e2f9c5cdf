"""The machine: what every step of the layer answers, and what it changes, after the pages that the docstrings name.

It follows docs/RULES.md, but it shares nothing with the definitions that the proofs speak of, and nothing with the program. Of the limits of
a kernel it knows those that `Limits` has; the others are those of a run of a script. It always finds memory.
"""
from __future__ import annotations

import enum
import itertools
from typing import Callable, Dict, FrozenSet, Iterator, Optional, Sequence, Tuple

from replies import (
    Capacity,
    Count,
    Data,
    Errno,
    Fault,
    FileContent,
    Mask,
    NewDescriptor,
    NewPipe,
    NewProcess,
    Offset,
    Parked,
    Plain,
    Refused,
    Reply,
    StatusFlags,
)
from state import (
    FIRST_CAPACITY,
    GREATEST_CAPACITY,
    GREATEST_OFFSET,
    NAME_MAX,
    NEVER_A_CALL,
    PIPE_BUF,
    USUAL,
    Description,
    File,
    Limits,
    Mode,
    Node,
    PacketPipe,
    Pipe,
    Process,
)
from waiting import Call, Move, Open, Poll, Read, Write


class OpenFlag(enum.Enum):
    """The flags of an open, of which two are status flags (POSIX.1-2017, open; fcntl, F_SETFL)."""

    CREAT = "creat"
    EXCL = "excl"
    TRUNC = "trunc"
    APPEND = "append"
    NONBLOCK = "nonblock"


class PipeFlag(enum.Enum):
    """The flags of a pipe (pipe2(2))."""

    NONBLOCK = "nonblock"
    DIRECT = "direct"


class SpliceFlag(enum.Enum):
    """The flags of a splice and a tee. Only NONBLOCK has an effect (splice(2); that of the others: our own)."""

    MOVE = "move"
    NONBLOCK = "nonblock"
    MORE = "more"
    GIFT = "gift"


class Whence(enum.Enum):
    """From where an offset is counted (POSIX.1-2017, lseek)."""

    SET = "set"
    CUR = "cur"
    END = "end"


OpenFlags = FrozenSet[OpenFlag]
PipeFlags = FrozenSet[PipeFlag]
SpliceFlags = FrozenSet[SpliceFlag]


class Machine:
    """All processes, names and waiting calls, and the steps that can be made of them.

    `start`, `resume`, `interrupt` and `begin` are the steps. `begin` makes a call of a process, which is one of the methods behind it.
    """

    def __init__(self, limits: Limits = USUAL) -> None:
        self.limits = limits
        self.processes: Dict[int, Process] = {}
        self.names: Dict[bytes, Node] = {}
        self.waiting: Dict[int, Call] = {}
        self.next_call = limits.first_call
        self.live_descriptions = 0
        # pipes of which a description came or went in this step, and whether they had a writer or were hung before it
        self._touched: Dict[Pipe, bool] = {}

    # The steps

    def start(self) -> Reply:
        """Starts a process with an empty table (which pid: our own)."""
        return self._step(self._new_process)

    def begin(self, pid: int, call: Callable[..., Reply], *arguments: object) -> Reply:
        """Makes a call of a process, if there is this process: that is looked at before all else."""
        process = self.processes.get(pid)
        if process is None:
            return Plain.NO_PROCESS
        return self._step(call, self, process, *arguments)

    def resume(self, number: int) -> Reply:
        """Tries a waiting call again, without the checks of its beginning."""
        call = self.waiting.get(number)
        if call is None:
            return Plain.NO_CALL
        return self._step(self._try_again, number, call)

    def interrupt(self, number: int) -> Reply:
        """Ends a waiting call (POSIX.1-2017, read; write; open; poll, EINTR)."""
        call = self.waiting.get(number)
        if call is None:
            return Plain.NO_CALL
        return self._step(self._end_waiting, number, call.interrupted())

    def file_content(self, name: bytes) -> Reply:
        """Tells the bytes of the file that a name stands for. This is no step."""
        node = self.names.get(name)
        return FileContent(bytes(node.content) if isinstance(node, File) else None)

    def _step(self, change: Callable[..., Reply], *arguments: object) -> Reply:
        """Makes a step, and tidies up behind it."""
        try:
            reply = change(*arguments)
        except Refused as refusal:
            reply = Fault(refusal.error)
        for pipe, could_hang in self._touched.items():
            self._settle(pipe, could_hang)
        self._touched.clear()
        return reply

    @staticmethod
    def _settle(pipe: Pipe, could_hang: bool) -> None:
        """The end of a step for a pipe. One without ends loses its bytes (POSIX.1-2017, close) and its capacity (our own).

        It is hung if it has a reader and no writer, and was hung or had a writer before (POSIX.1-2017, poll, POLLHUP).
        """
        pipe.hung = could_hang and pipe.readers > 0 and pipe.writers == 0
        if pipe.readers == 0 and pipe.writers == 0:
            pipe.clear()
            pipe.capacity = FIRST_CAPACITY

    # Descriptions and who holds them

    def _touch(self, pipe: Pipe) -> None:
        self._touched.setdefault(pipe, pipe.hung or pipe.writers > 0)

    def _count(self, description: Description, change: int) -> None:
        """A description becomes live, or ceases to be: it is counted at its pipe (POSIX.1-2017, close; read; write)."""
        self.live_descriptions += change
        pipe = description.node
        if isinstance(pipe, Pipe):
            self._touch(pipe)
            pipe.readers += change if description.mode.reads else 0
            pipe.writers += change if description.mode.writes else 0

    def _hold(self, description: Description) -> None:
        description.holders += 1
        if description.holders == 1:
            self._count(description, 1)

    def _release(self, description: Description) -> None:
        description.holders -= 1
        if description.holders == 0:
            self._count(description, -1)

    def _free_descriptors(self, process: Process, least: int = 0) -> Iterator[int]:
        """The free descriptors of a process. None from the limit on is free (POSIX.1-2017, getrlimit, RLIMIT_NOFILE)."""
        return process.free_descriptors(least, self.limits.descriptors)

    def _install(self, process: Process, description: Description, least: int = 0) -> Reply:
        """Names a description by the least free descriptor from `least` on (POSIX.1-2017, File Descriptor Allocation)."""
        descriptor = next(self._free_descriptors(process, least), None)
        if descriptor is None:
            raise Refused(Errno.EMFILE)
        process.descriptors[descriptor] = description
        self._hold(description)
        return NewDescriptor(descriptor)

    @staticmethod
    def _find(process: Process, descriptor: int) -> Description:
        """What a descriptor names. Any number that isn't open is EBADF, whatever it is."""
        description = process.descriptors.get(descriptor)
        if description is None:
            raise Refused(Errno.EBADF)
        return description

    def _find_reading(self, process: Process, descriptor: int) -> Description:
        """What a descriptor names, which has to be open for reading (POSIX.1-2017, read)."""
        description = self._find(process, descriptor)
        if not description.mode.reads:
            raise Refused(Errno.EBADF)
        return description

    def _find_writing(self, process: Process, descriptor: int) -> Description:
        """What a descriptor names, which has to be open for writing (POSIX.1-2017, write)."""
        description = self._find(process, descriptor)
        if not description.mode.writes:
            raise Refused(Errno.EBADF)
        return description

    # Calls that wait

    def _try(self, call: Call) -> Reply:
        """Tries a call at its beginning."""
        reply = call.attempt()
        if reply is not None:
            return reply
        if not call.may_wait:
            raise Refused(Errno.EAGAIN)
        return self._park(call)

    def _park(self, call: Call) -> Reply:
        """Parks a call under the next number. If no number is left, nothing is taken.

        Nor is anything if as many calls as may already wait, of its process or of all (EAGAIN: our own).
        """
        of_process = sum(other.process is call.process for other in self.waiting.values())
        if of_process >= self.limits.waiting_of_each or len(self.waiting) >= self.limits.waiting:
            raise Refused(Errno.EAGAIN)
        if self.next_call == NEVER_A_CALL:
            return Plain.CALLS_SPENT
        number = self.next_call
        self.next_call += 1
        self.waiting[number] = call
        for description in call.kept:
            self._hold(description)
        call.proceed()
        return Parked(number)

    def _try_again(self, number: int, call: Call) -> Reply:
        """Resumes a call. A refusal ends it too."""
        reply: Optional[Reply]
        try:
            reply = self._finish_open(call) if isinstance(call, Open) else call.attempt()
        except Refused as refusal:
            reply = Fault(refusal.error)
        if reply is None:
            call.proceed()
            return Parked(number)
        return self._end_waiting(number, reply)

    def _finish_open(self, call: Open) -> Optional[Reply]:
        """An open that met the other end gets the least descriptor that is free by now."""
        return self._install(call.process, call.description) if call.met else None

    def _end_waiting(self, number: int, reply: Reply) -> Reply:
        """Ends a call that waits, with this reply: what it kept is let go."""
        for description in self.waiting.pop(number).kept:
            self._release(description)
        return reply

    # Processes

    def _new_process(self) -> Reply:
        """Makes a process under the least free pid (POSIX.1-2017, fork, EAGAIN)."""
        if len(self.processes) >= self.limits.processes:
            raise Refused(Errno.EAGAIN)
        pid = next(pid for pid in range(1, self.limits.processes + 1) if pid not in self.processes)
        self.processes[pid] = Process(pid)
        return NewProcess(pid)

    def fork(self, parent: Process) -> Reply:
        """Makes a process whose descriptors name what the parent's name. Its waiting calls stay its own (POSIX.1-2017, fork)."""
        reply = self._new_process()
        assert isinstance(reply, NewProcess)
        child = self.processes[reply.pid]
        for descriptor, description in parent.descriptors.items():
            child.descriptors[descriptor] = description
            self._hold(description)
        return reply

    def exit(self, process: Process) -> Reply:
        """Ends a process: its descriptors are closed, and its waiting calls are dropped (POSIX.1-2017, _exit)."""
        for description in process.descriptors.values():
            self._release(description)
        for number in [number for number, call in self.waiting.items() if call.process is process]:
            self._end_waiting(number, Plain.DONE)
        del self.processes[process.pid]
        return Plain.DONE

    # Pipes, names and opens

    def pipe(self, process: Process, nonblock: bool = False, direct: bool = False) -> Reply:
        """Makes a pipe: the read end and then the write end, on the two least free descriptors (POSIX.1-2017, pipe; pipe2(2)).

        With `direct` it is a packet pipe (pipe(2), O_DIRECT). Its write end alone has the flag (our own). Only scripts of version 2 ask for it.
        """
        free = list(itertools.islice(self._free_descriptors(process), 2))
        if len(free) < 2:
            raise Refused(Errno.EMFILE)
        if self.live_descriptions + 2 > self.limits.descriptions:
            raise Refused(Errno.ENFILE)
        pipe = PacketPipe() if direct else Pipe()
        for mode in Mode.READ, Mode.WRITE:
            self._install(process, Description(pipe, mode, nonblock=nonblock, direct=direct and mode.writes))
        return NewPipe(*free)

    @staticmethod
    def _check_name(name: bytes) -> None:
        """A name has 1 to 255 bytes, without slash and NUL: there are no directories (POSIX.1-2017, open; EINVAL: our own)."""
        if not name:
            raise Refused(Errno.ENOENT)
        if len(name) > NAME_MAX:
            raise Refused(Errno.ENAMETOOLONG)
        if b"/" in name or b"\0" in name:
            raise Refused(Errno.EINVAL)

    def mkfifo(self, _: Process, name: bytes) -> Reply:
        """Makes a FIFO that the name stands for (POSIX.1-2017, mkfifo)."""
        self._check_name(name)
        if name in self.names:
            raise Refused(Errno.EEXIST)
        self.names[name] = Pipe()
        return Plain.DONE

    def unlink(self, _: Process, name: bytes) -> Reply:
        """Takes a name away. What it stood for stays while a description is on it (POSIX.1-2017, unlink)."""
        self._check_name(name)
        if name not in self.names:
            raise Refused(Errno.ENOENT)
        del self.names[name]
        return Plain.DONE

    def open(self, process: Process, name: bytes, mode: Mode, flags: OpenFlags) -> Reply:
        """Opens what a name stands for (POSIX.1-2017, open). EXCL without CREAT has no effect (our own)."""
        self._check_name(name)
        node = self.names.get(name)
        if node is not None and {OpenFlag.CREAT, OpenFlag.EXCL} <= flags:
            raise Refused(Errno.EEXIST)
        if node is None and OpenFlag.CREAT not in flags:
            raise Refused(Errno.ENOENT)
        if next(self._free_descriptors(process), None) is None:
            raise Refused(Errno.EMFILE)
        if self.live_descriptions >= self.limits.descriptions:
            raise Refused(Errno.ENFILE)
        if node is None:
            node = self.names[name] = File()
        description = Description(node, mode, OpenFlag.APPEND in flags, OpenFlag.NONBLOCK in flags)
        if isinstance(node, Pipe):
            return self._open_fifo(process, node, description)
        if OpenFlag.TRUNC in flags and mode.writes:
            node.content.clear()
        return self._install(process, description)

    def _open_fifo(self, process: Process, fifo: Pipe, description: Description) -> Reply:
        """Opens an end of a FIFO, or waits for the other end (POSIX.1-2017, open; for both: fifo(7))."""
        mode = description.mode
        if mode is Mode.WRITE and description.nonblock and not fifo.readers:
            raise Refused(Errno.ENXIO)
        if self._opens_at_once(fifo, description):
            reply = self._install(process, description)
        else:
            reply = self._park(Open(process, description))
            if reply is Plain.CALLS_SPENT:
                return reply
        for call in self.waiting.values():
            if isinstance(call, Open):
                call.meet(fifo, mode)
        return reply

    @staticmethod
    def _opens_at_once(fifo: Pipe, description: Description) -> bool:
        if description.mode is Mode.READ:
            return description.nonblock or fifo.writers > 0
        if description.mode is Mode.WRITE:
            return fifo.readers > 0
        return True

    # Bytes

    def read(self, process: Process, descriptor: int, most: int) -> Reply:
        """Reads (POSIX.1-2017, read). A read of 0 bytes has no other effect (our own)."""
        source = self._find_reading(process, descriptor)
        if most == 0:
            return Data(b"")
        return self._try(Read(process, source, most, may_wait=not source.nonblock))

    def write(self, process: Process, descriptor: int, data: bytes) -> Reply:
        """Writes (POSIX.1-2017, write). A write of 0 bytes has no other effect (our own)."""
        target = self._find_writing(process, descriptor)
        if not data:
            return Count(0)
        return self._try(Write(process, target, data, may_wait=not target.nonblock))

    def splice(
        self,
        process: Process,
        source: int,
        source_offset: Optional[int],
        target: int,
        target_offset: Optional[int],
        length: int,
        flags: SpliceFlags,
    ) -> Reply:
        """Moves bytes between descriptors, of which one at least is a pipe's (splice(2)). Length 0 answers at once (our own)."""
        if length == 0:
            return Count(0)
        giver, taker = self._find_reading(process, source), self._find_writing(process, target)
        for description, offset in (giver, source_offset), (taker, target_offset):
            if isinstance(description.node, Pipe) and offset is not None:
                raise Refused(Errno.ESPIPE)
        if max(source_offset or 0, target_offset or 0) > GREATEST_OFFSET:
            raise Refused(Errno.EINVAL)
        # no pipe, one and the same pipe, or a file that is appended to
        if isinstance(giver.node, File) and isinstance(taker.node, File):
            raise Refused(Errno.EINVAL)
        if giver.node is taker.node or (isinstance(taker.node, File) and taker.append):
            raise Refused(Errno.EINVAL)
        self._refuse_packets(giver, taker)
        may_wait = self._may_wait_between(giver, taker, flags)
        move = Move(process, giver, taker, length, may_wait, source_offset=source_offset, target_offset=target_offset)
        return self._try(move)

    def tee(self, process: Process, source: int, target: int, length: int, flags: SpliceFlags) -> Reply:
        """Copies bytes from a pipe to another, and leaves them in the first (tee(2)). Length 0 answers at once (our own)."""
        if length == 0:
            return Count(0)
        giver, taker = self._find_reading(process, source), self._find_writing(process, target)
        if isinstance(giver.node, File) or isinstance(taker.node, File) or giver.node is taker.node:
            raise Refused(Errno.EINVAL)
        self._refuse_packets(giver, taker)
        may_wait = self._may_wait_between(giver, taker, flags)
        return self._try(Move(process, giver, taker, length, may_wait, consumes=False))

    @staticmethod
    def _refuse_packets(giver: Description, taker: Description) -> None:
        """No bytes go out of a packet pipe or into one but by read and write (our own)."""
        if isinstance(giver.node, PacketPipe) or isinstance(taker.node, PacketPipe):
            raise Refused(Errno.EINVAL)

    @staticmethod
    def _may_wait_between(giver: Description, taker: Description, flags: SpliceFlags) -> bool:
        """NONBLOCK forbids to wait: the call's own (splice(2); tee(2)), or that of a pipe's description (our own)."""
        ends = [description for description in (giver, taker) if isinstance(description.node, Pipe)]
        return SpliceFlag.NONBLOCK not in flags and not any(end.nonblock for end in ends)

    def poll(self, process: Process, wait: bool, asked: Sequence[Tuple[int, Mask]]) -> Reply:
        """Tells what is found of descriptors, or waits until something is (POSIX.1-2017, poll)."""
        if len(asked) > self.limits.entries:
            raise Refused(Errno.EINVAL)
        entries = [(descriptor, mask, process.descriptors.get(descriptor)) for descriptor, mask in asked]
        return self._try(Poll(process, entries, wait))

    def lseek(self, process: Process, descriptor: int, offset: int, whence: Whence) -> Reply:
        """Sets the offset of a file, which may stand past its end (POSIX.1-2017, lseek)."""
        description = self._find(process, descriptor)
        node = description.node
        if isinstance(node, Pipe):
            raise Refused(Errno.ESPIPE)
        base = {Whence.SET: 0, Whence.CUR: description.offset, Whence.END: len(node.content)}[whence]
        if base + offset < 0:
            raise Refused(Errno.EINVAL)
        if base + offset > GREATEST_OFFSET:
            raise Refused(Errno.EOVERFLOW)
        description.offset = base + offset
        return Offset(description.offset)

    # Descriptors

    def dup(self, process: Process, descriptor: int) -> Reply:
        """Names what a descriptor names by the least free one too (POSIX.1-2017, dup)."""
        return self._install(process, self._find(process, descriptor))

    def dupfd(self, process: Process, descriptor: int, least: int) -> Reply:
        """Names what a descriptor names by the least free one from `least` on (POSIX.1-2017, fcntl, F_DUPFD)."""
        description = self._find(process, descriptor)
        if not 0 <= least < self.limits.descriptors:
            raise Refused(Errno.EINVAL)
        return self._install(process, description, least)

    def dup2(self, process: Process, descriptor: int, target: int) -> Reply:
        """Names what a descriptor names by the target, which is closed first (POSIX.1-2017, dup2)."""
        description = self._find(process, descriptor)
        if not 0 <= target < self.limits.descriptors:
            raise Refused(Errno.EBADF)
        # held before the target is closed, as the target may be its last holder
        self._hold(description)
        closed = process.descriptors.get(target)
        if closed is not None:
            self._release(closed)
        process.descriptors[target] = description
        return NewDescriptor(target)

    def close(self, process: Process, descriptor: int) -> Reply:
        """Frees a descriptor (POSIX.1-2017, close)."""
        self._release(self._find(process, descriptor))
        del process.descriptors[descriptor]
        return Plain.DONE

    def getfl(self, process: Process, descriptor: int) -> Reply:
        """Tells the mode and the status flags (POSIX.1-2017, fcntl, F_GETFL)."""
        description = self._find(process, descriptor)
        return StatusFlags(description.mode, description.append, description.nonblock, description.direct)

    def setfl(self, process: Process, descriptor: int, flags: OpenFlags) -> Reply:
        """Sets the two status flags as given, and ignores all other flags (POSIX.1-2017, fcntl, F_SETFL; of O_DIRECT: our own)."""
        description = self._find(process, descriptor)
        description.append = OpenFlag.APPEND in flags
        description.nonblock = OpenFlag.NONBLOCK in flags
        return Plain.DONE

    def _find_pipe(self, process: Process, descriptor: int) -> Pipe:
        """The pipe of a descriptor (fcntl(2), F_GETPIPE_SZ; EBADF of a file: our own)."""
        node = self._find(process, descriptor).node
        if isinstance(node, File):
            raise Refused(Errno.EBADF)
        return node

    def getsz(self, process: Process, descriptor: int) -> Reply:
        """Tells the capacity of a pipe (fcntl(2), F_GETPIPE_SZ)."""
        return Capacity(self._find_pipe(process, descriptor).capacity)

    def setsz(self, process: Process, descriptor: int, size: int) -> Reply:
        """Sets the capacity of a pipe to the next power of two from 4,096 on (fcntl(2), F_SETPIPE_SZ; the power: our own)."""
        pipe = self._find_pipe(process, descriptor)
        if size > GREATEST_CAPACITY:
            raise Refused(Errno.EPERM)
        capacity = PIPE_BUF
        while capacity < size:
            capacity *= 2
        if pipe.used > capacity:
            raise Refused(Errno.EBUSY)
        pipe.capacity = capacity
        return Capacity(capacity)
