"""What the machine is made of: pipes, files, open file descriptions and processes, and the limits on them."""
from __future__ import annotations

import enum
import itertools
from dataclasses import dataclass, field
from typing import Dict, Iterator, List, NamedTuple, Union

# POSIX.1-2017, limits.h; pipe(7), PIPE_BUF
PIPE_BUF = 4096
# pipe(7), Pipe capacity
FIRST_CAPACITY = 65536
# fcntl(2), F_SETPIPE_SZ
GREATEST_CAPACITY = 1048576
# POSIX.1-2017, limits.h: OPEN_MAX, if no limit on descriptors is set, and NAME_MAX
OPEN_MAX = 256
NAME_MAX = 255
# POSIX.1-2017, lseek, EOVERFLOW
GREATEST_OFFSET = 2**63 - 1
# numbers that the layer chose for itself: how many descriptions and processes there may be, if no limit is set, and the greatest limits
USUAL_DESCRIPTIONS = 4096
USUAL_PROCESSES = 1024
GREATEST_DESCRIPTORS = 65536
GREATEST_DESCRIPTIONS = 1048576
GREATEST_PROCESSES = 65536
MOST_FILE_BYTES = 16777216
# a number that no waiting call gets, and a limit that is never reached
NEVER_A_CALL = 2**64 - 1
NO_LIMIT = 2**64 - 1


@dataclass(frozen=True)
class Limits:
    """What a host sets of a kernel, as far as the model knows it: the number of the first call that waits, and how many there may be."""

    first_call: int = 1
    descriptors: int = OPEN_MAX
    descriptions: int = USUAL_DESCRIPTIONS
    processes: int = USUAL_PROCESSES
    waiting: int = NO_LIMIT
    waiting_of_each: int = NO_LIMIT

    @property
    def entries(self) -> int:
        """How many entries a poll may have (POSIX.1-2017, poll, EINVAL; which number: our own)."""
        return max(self.descriptors, OPEN_MAX)

    @property
    def words(self) -> List[str]:
        """The options that tell piperun of those that aren't the usual ones."""
        changed = [name for name in OPTIONS if getattr(self, name) != getattr(USUAL, name)]
        return [word for name in changed for word in (OPTIONS[name].word, str(getattr(self, name)))]


class Option(NamedTuple):
    """An option of piperun, and its greatest number."""

    word: str
    greatest: int


# the options of the fields
OPTIONS: Dict[str, Option] = {
    "first_call": Option("--first-call", NEVER_A_CALL),
    "descriptors": Option("--descriptors-max", GREATEST_DESCRIPTORS),
    "descriptions": Option("--descriptions-max", GREATEST_DESCRIPTIONS),
    "processes": Option("--processes-max", GREATEST_PROCESSES),
    "waiting": Option("--waiting-max", NO_LIMIT),
    "waiting_of_each": Option("--waiting-of-each", NO_LIMIT),
}
USUAL = Limits()


def limits_of(words: List[str]) -> Limits:
    """The limits that options and their numbers give. Others raise ValueError."""
    names = {option.word: name for name, option in OPTIONS.items()}
    given: Dict[str, int] = {}
    for word, text in itertools.zip_longest(words[::2], words[1::2], fillvalue=""):
        if word not in names or not text.isdecimal() or int(text) > OPTIONS[names[word]].greatest:
            raise ValueError(f"{word} {text}")
        given[names[word]] = int(text)
    return Limits(**given)


class Mode(enum.Enum):
    """For what a description is open (POSIX.1-2017, open)."""

    READ = "r"
    WRITE = "w"
    BOTH = "rw"

    @property
    def reads(self) -> bool:
        """Whether it has reading."""
        return self is not Mode.WRITE

    @property
    def writes(self) -> bool:
        """Whether it has writing."""
        return self is not Mode.READ


@dataclass(eq=False)
class Pipe:
    """A pipe or a FIFO. Its bytes come out in the order in which they went in (pipe(7)).

    `readers` and `writers` are its live descriptions whose mode has reading, or writing. It is `hung` if its last writer has gone.
    """

    content: bytearray = field(default_factory=bytearray)
    capacity: int = FIRST_CAPACITY
    readers: int = 0
    writers: int = 0
    hung: bool = False

    @property
    def used(self) -> int:
        """How much of its capacity is taken."""
        return len(self.content)

    @property
    def room(self) -> int:
        """How many bytes it can still take."""
        return self.capacity - self.used

    def put(self, data: bytes) -> None:
        """Puts bytes in at the end."""
        self.content += data

    def front(self, most: int) -> bytes:
        """The first bytes, as many as are held, and `most` at most."""
        return bytes(self.content[:most])

    def drop_front(self, count: int) -> None:
        """Takes the first bytes out."""
        del self.content[:count]

    def take(self, most: int) -> bytes:
        """Takes out what one read gets, `most` bytes at most; none if nothing is held."""
        data = self.front(most)
        self.drop_front(len(data))
        return data

    def clear(self) -> None:
        """Loses all that is held."""
        self.content.clear()


@dataclass(eq=False)
class PacketPipe(Pipe):
    """A pipe of packets of 1 to 4,096 bytes, of which a read takes one (pipe(2), O_DIRECT). No name stands for one (our own).

    Each packet takes 4,096 bytes of the capacity, however few it has (our own).
    """

    packets: List[bytes] = field(default_factory=list)

    @property
    def used(self) -> int:
        return len(self.packets) * PIPE_BUF

    def put(self, data: bytes) -> None:
        """Puts packets in at the end: one of each 4,096 bytes, and one of those that are left."""
        self.packets += [data[start : start + PIPE_BUF] for start in range(0, len(data), PIPE_BUF)]

    def take(self, most: int) -> bytes:
        """Takes the first packet out, and gives `most` of its bytes at most. The others are lost."""
        return self.packets.pop(0)[:most] if self.packets else b""

    def clear(self) -> None:
        self.packets.clear()


@dataclass(eq=False)
class File:
    """A regular file."""

    content: bytearray = field(default_factory=bytearray)

    def at(self, start: int, most: int) -> bytes:
        """What it has from a place on, `most` bytes at most; none at its end or past it (POSIX.1-2017, read)."""
        return bytes(self.content[start : start + most])

    @staticmethod
    def room(start: int) -> int:
        """How many bytes it can take from a place on (which limit: our own)."""
        return max(0, MOST_FILE_BYTES - start)

    def put(self, start: int, data: bytes) -> None:
        """Puts bytes over what is there. A gap before them reads as zeros (POSIX.1-2017, lseek)."""
        gap = start - len(self.content)
        if gap > 0:
            self.content += bytes(gap)
        self.content[start : start + len(data)] = data


Node = Union[Pipe, File]


@dataclass(eq=False)
class Description:
    """An open file description. Descriptors that name it share its mode, its flags and its offset (POSIX.1-2017, dup; fork).

    `holders` counts the descriptors that name it, and the waiting calls that keep it. It is live while there is one.
    """

    node: Node
    mode: Mode
    append: bool = False
    nonblock: bool = False
    direct: bool = False
    offset: int = 0
    holders: int = 0


@dataclass(eq=False)
class Process:
    """A process, with its table of descriptors."""

    pid: int
    descriptors: Dict[int, Description] = field(default_factory=dict)

    def free_descriptors(self, least: int, most: int) -> Iterator[int]:
        """The descriptors that are free, from `least` on, the least first, of so many (POSIX.1-2017, File Descriptor Allocation)."""
        return (descriptor for descriptor in range(least, most) if descriptor not in self.descriptors)
