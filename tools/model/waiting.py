"""The calls that may have to wait: what each keeps while it waits, and what it comes to whenever it is tried.

Read, write, splice, tee and poll are tried in the same way at their beginning and as they are resumed. `attempt` gives the reply, or
nothing if the call has to wait.
"""
from __future__ import annotations

from dataclasses import dataclass
from typing import Dict, List, Optional, Tuple

from replies import Count, Data, Errno, Event, Fault, Mask, Masks, Refused, Reply
from state import PIPE_BUF, Description, File, Mode, Pipe, Process

# An entry of a poll: a descriptor, what is asked of it, and what it named as the poll began.
Entry = Tuple[int, Mask, Optional[Description]]


class Call:
    """A call that may have to wait. It belongs to a process.

    `may_wait` tells what its flags allowed as it began. A call that may not wait answers EAGAIN in place of waiting.
    """

    process: Process
    may_wait: bool

    @property
    def kept(self) -> List[Description]:
        """The descriptions that it keeps while it waits, so that they are live."""
        raise NotImplementedError

    def attempt(self) -> Optional[Reply]:
        """Tries the call: its reply, or nothing if it has to wait."""
        raise NotImplementedError

    def proceed(self) -> None:
        """Does what can be done of a call that goes on waiting."""

    def interrupted(self) -> Reply:
        """The reply of the call if it is interrupted as it waits."""
        return Fault(Errno.EINTR)


@dataclass(eq=False)
class Read(Call):
    """A read of 1 byte or more (POSIX.1-2017, read)."""

    process: Process
    source: Description
    most: int
    may_wait: bool

    @property
    def kept(self) -> List[Description]:
        return [self.source]

    def attempt(self) -> Optional[Reply]:
        if isinstance(self.source.node, File):
            return self._read_file(self.source.node)
        return self._read_pipe(self.source.node)

    def _read_file(self, file: File) -> Reply:
        data = file.at(self.source.offset, self.most)
        self.source.offset += len(data)
        return Data(data)

    def _read_pipe(self, pipe: Pipe) -> Optional[Reply]:
        """A read gets what is held. An empty pipe without writers is at the end of file. For any other the read has to wait."""
        data = pipe.take(self.most)
        return Data(data) if data or not pipe.writers else None


@dataclass(eq=False)
class Write(Call):
    """A write of 1 byte or more (POSIX.1-2017, write; pipe(7), PIPE_BUF). `taken` counts the bytes that went in before."""

    process: Process
    target: Description
    data: bytes
    may_wait: bool
    taken: int = 0

    @property
    def kept(self) -> List[Description]:
        return [self.target]

    def attempt(self) -> Optional[Reply]:
        if isinstance(self.target.node, File):
            return self._write_file(self.target.node)
        return self._write_pipe(self.target.node)

    def _write_file(self, file: File) -> Reply:
        """A write starts at the offset, or at the end under APPEND. It goes as far as a file may."""
        start = len(file.content) if self.target.append else self.target.offset
        data = self.data[: file.room(start)]
        if not data:
            raise Refused(Errno.EFBIG)
        file.put(start, data)
        self.target.offset = start + len(data)
        return Count(len(data))

    def _write_pipe(self, pipe: Pipe) -> Optional[Reply]:
        """A small write goes in whole or not at all. A large one may go in by parts, which of a packet pipe are packets."""
        if not pipe.readers:
            if self.taken:
                return Count(self.taken, sigpipe=True)
            raise Refused(Errno.EPIPE)
        fits = len(self.data) - self.taken <= pipe.room
        if fits or (self._is_large and not self.may_wait and pipe.room):
            self._put_what_fits(pipe)
            return Count(self.taken)
        return None

    def _put_what_fits(self, pipe: Pipe) -> None:
        part = self.data[self.taken : self.taken + pipe.room]
        pipe.put(part)
        self.taken += len(part)

    @property
    def _is_large(self) -> bool:
        return len(self.data) > PIPE_BUF

    def proceed(self) -> None:
        """A large write that waits puts in as many bytes as there is room for (the amount per turn: our own)."""
        pipe = self.target.node
        if isinstance(pipe, Pipe) and self._is_large:
            self._put_what_fits(pipe)

    def interrupted(self) -> Reply:
        """A write that took bytes answers their count (POSIX.1-2017, write)."""
        return Count(self.taken) if self.taken else super().interrupted()


@dataclass(eq=False)
class Move(Call):
    """A splice or a tee of 1 byte or more (splice(2); tee(2)).

    An offset is one that was given for a file. Only a splice consumes the bytes of its source.
    """

    process: Process
    source: Description
    target: Description
    length: int
    may_wait: bool
    consumes: bool = True
    source_offset: Optional[int] = None
    target_offset: Optional[int] = None

    @property
    def kept(self) -> List[Description]:
        return [self.source, self.target]

    def attempt(self) -> Optional[Reply]:
        """All that goes over goes in one step. The cases are told in this order (our own)."""
        source, target = self.source.node, self.target.node
        if isinstance(target, Pipe) and not target.readers:
            raise Refused(Errno.EPIPE)
        data = self._to_be_had()
        if not data:
            return None if isinstance(source, Pipe) and source.writers else Count(0)
        data = data[: self._room()]
        if not data:
            if isinstance(target, Pipe):
                return None
            raise Refused(Errno.EFBIG)
        self._give(data)
        if self.consumes:
            self._consume(len(data))
        return Count(len(data))

    def _source_start(self) -> int:
        return self.source.offset if self.source_offset is None else self.source_offset

    def _target_start(self) -> int:
        return self.target.offset if self.target_offset is None else self.target_offset

    def _to_be_had(self) -> bytes:
        """What the source has, as far as it was asked for."""
        source = self.source.node
        return source.front(self.length) if isinstance(source, Pipe) else source.at(self._source_start(), self.length)

    def _room(self) -> int:
        target = self.target.node
        return target.room if isinstance(target, Pipe) else target.room(self._target_start())

    def _give(self, data: bytes) -> None:
        """Puts the bytes into the target. Its own offset moves on if none was given."""
        target = self.target.node
        if isinstance(target, Pipe):
            target.put(data)
            return
        start = self._target_start()
        target.put(start, data)
        if self.target_offset is None:
            self.target.offset = start + len(data)

    def _consume(self, count: int) -> None:
        """Takes the bytes from the source. Its own offset moves on if none was given."""
        source = self.source.node
        if isinstance(source, Pipe):
            source.drop_front(count)
        elif self.source_offset is None:
            self.source.offset += count


@dataclass(eq=False)
class Poll(Call):
    """A poll (POSIX.1-2017, poll). It is asked of descriptions, whatever the descriptors name later."""

    process: Process
    entries: List[Entry]
    wait: bool
    may_wait: bool = True

    @property
    def kept(self) -> List[Description]:
        return [description for _, _, description in self.entries if description is not None]

    def attempt(self) -> Optional[Reply]:
        found = Masks(tuple(self._mask(*entry) for entry in self.entries))
        return found if found.ready or not self.wait else None

    @staticmethod
    def _mask(descriptor: int, asked: Mask, description: Optional[Description]) -> Mask:
        """What is found of one entry. ERR, HUP and NVAL are told unasked."""
        if descriptor < 0:
            return frozenset()
        if description is None:
            return frozenset([Event.NVAL])
        if isinstance(description.node, File):
            return asked & {Event.IN, Event.OUT}
        return _pipe_events(description.node, description.mode, asked)


def _pipe_events(pipe: Pipe, mode: Mode, asked: Mask) -> Mask:
    """What is found of an end of a pipe. It is ready for a writer with room for PIPE_BUF bytes (our own)."""
    readable = {Event.IN: pipe.used > 0 and Event.IN in asked, Event.HUP: pipe.hung}
    writable = {Event.OUT: pipe.room >= PIPE_BUF and Event.OUT in asked, Event.ERR: not pipe.readers}
    found: Dict[Event, bool] = {}
    if mode.reads:
        found.update(readable)
    if mode.writes:
        found.update(writable)
    return frozenset(event for event, holds in found.items() if holds)


@dataclass(eq=False)
class Open(Call):
    """An open of a FIFO that waits for the other end (POSIX.1-2017, open). It keeps the description that it made.

    Once it has met the other end it has met for good, whatever is closed later (our own). Its reply is then a descriptor, which
    the machine gives.
    """

    process: Process
    description: Description
    met: bool = False
    may_wait: bool = True

    @property
    def kept(self) -> List[Description]:
        return [self.description]

    def meet(self, fifo: Pipe, mode: Mode) -> None:
        """Another open of a FIFO has the mode. The two meet if that has an end that this one lacks."""
        own = self.description.mode
        if self.description.node is fifo and ((mode.reads and not own.reads) or (mode.writes and not own.writes)):
            self.met = True
