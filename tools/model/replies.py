"""What a step answers: one small class for each kind of reply, and the refusal that ends a step early."""
from __future__ import annotations

import enum
from dataclasses import dataclass
from typing import FrozenSet, Optional, Tuple, Union

from state import Mode


class Errno(enum.Enum):
    """The errors that a call may answer. EPIPE also tells that the signal SIGPIPE is due (POSIX.1-2017, write)."""

    EAGAIN = enum.auto()
    EBADF = enum.auto()
    EBUSY = enum.auto()
    EEXIST = enum.auto()
    EFBIG = enum.auto()
    EINTR = enum.auto()
    EINVAL = enum.auto()
    EMFILE = enum.auto()
    ENAMETOOLONG = enum.auto()
    ENFILE = enum.auto()
    ENOENT = enum.auto()
    ENXIO = enum.auto()
    EOVERFLOW = enum.auto()
    EPERM = enum.auto()
    EPIPE = enum.auto()
    ESPIPE = enum.auto()


class Event(enum.Enum):
    """What a poll may ask of a descriptor and find of it, in the order in which a mask names them (POSIX.1-2017, poll)."""

    IN = "in"
    OUT = "out"
    ERR = "err"
    HUP = "hup"
    NVAL = "nval"


Mask = FrozenSet[Event]


@dataclass(frozen=True)
class NewProcess:
    """The pid of a process that was started or forked."""

    pid: int


@dataclass(frozen=True)
class NewDescriptor:
    """A descriptor that was given."""

    descriptor: int


@dataclass(frozen=True)
class NewPipe:
    """The descriptors of a new pipe."""

    read_end: int
    write_end: int


@dataclass(frozen=True)
class Count:
    """How many bytes went over. With the mark, the signal SIGPIPE is due as well."""

    bytes: int
    sigpipe: bool = False


@dataclass(frozen=True)
class Data:
    """The bytes that a read gives. There are none at the end of file."""

    content: bytes


@dataclass(frozen=True)
class Offset:
    """Where the offset of a description now stands."""

    offset: int


@dataclass(frozen=True)
class StatusFlags:
    """The mode and the status flags of a description."""

    mode: Mode
    append: bool
    nonblock: bool
    direct: bool


@dataclass(frozen=True)
class Capacity:
    """The capacity of a pipe."""

    bytes: int


@dataclass(frozen=True)
class Masks:
    """What a poll found of each of its entries."""

    masks: Tuple[Mask, ...]

    @property
    def ready(self) -> int:
        """How many of the masks aren't empty."""
        return sum(map(bool, self.masks))


@dataclass(frozen=True)
class Fault:
    """The call was refused."""

    error: Errno


@dataclass(frozen=True)
class Parked:
    """The call waits under this number."""

    number: int


@dataclass(frozen=True)
class FileContent:
    """All bytes of a file, or none where no file has the name."""

    content: Optional[bytes]


class Plain(enum.Enum):
    """The replies that say nothing but what they are."""

    DONE = "ok"
    NO_PROCESS = "no process"
    NO_CALL = "no call"
    CALLS_SPENT = "calls spent"
    NO_MEMORY = "nomem"


Reply = Union[
    NewProcess, NewDescriptor, NewPipe, Count, Data, Offset, StatusFlags, Capacity, Masks, Fault, Parked, FileContent, Plain
]


def says_no(reply: Reply) -> bool:
    """Whether a step was refused. It has changed nothing then, unless it ended a waiting call."""
    return isinstance(reply, Fault) or reply in (Plain.NO_PROCESS, Plain.NO_CALL, Plain.CALLS_SPENT)


class Refused(Exception):
    """A call is refused, and has changed nothing."""

    def __init__(self, error: Errno) -> None:
        super().__init__(error.name)
        self.error = error
