"""What the descriptors of the host's processes stand for, and what the script has under their numbers."""
from __future__ import annotations

import posixpath
from dataclasses import dataclass, field
from typing import Callable, Dict, List, Optional, Tuple, Union

from state import GREATEST_DESCRIPTORS, USUAL

# the name of the file that keeps a number
HOLDER = "placeholder"
# below these nothing is a file that the script could have
SYSTEM = (b"/dev/", b"/proc/", b"/sys/")


class Unsayable(Exception):
    """A call that no line says, with the reason."""


class OutOfTable(Exception):
    """A descriptor that no process of a script has."""


@dataclass(eq=False)
class Node:
    """A pipe, a FIFO or a file that the script has. Of a pipe the key is what -y tells, of the others the path."""

    kind: str
    key: bytes
    name: str = ""


@dataclass
class Open:
    """What a descriptor of the host stands for, and whether an exec closes it."""

    node: Node
    closes_on_exec: bool = False


@dataclass
class Line:
    """A line of the script behind its pid, and the reply that it has on the host; None if the host doesn't tell it."""

    words: str
    reply: Optional[str]
    # whether another text is a reply that the host may have meant, where it tells less than the script
    agrees: Optional[Callable[[str], bool]] = None


class Needs:
    """The limit on descriptors that a script needs: above each number that a process has, and no less than the entries of a poll."""

    def __init__(self) -> None:
        self.descriptors = USUAL.descriptors

    def have(self, count: int) -> None:
        """The limit has to be this at least. It is a power of two, so that traces which differ little have the same."""
        while self.descriptors < count:
            self.descriptors *= 2


@dataclass(eq=False)
class Process:
    """A process of the host: its threads, its descriptors that the script follows, and what the script has under each number."""

    pid: int
    needs: Needs
    program: str = "?"
    threads: List[int] = field(default_factory=list)
    folder: Optional[bytes] = None
    followed: Dict[int, Open] = field(default_factory=dict)
    here: Dict[int, Union[Node, str]] = field(default_factory=dict)

    def fork(self, pid: int) -> "Process":
        """A child, with the same descriptors."""
        copies = {number: Open(entry.node, entry.closes_on_exec) for number, entry in self.followed.items()}
        return Process(pid, self.needs, self.program, [pid], self.folder, copies, dict(self.here))

    def holder(self) -> Optional[int]:
        """The least number that a placeholder keeps, if there is one."""
        return min((number for number, thing in self.here.items() if thing == HOLDER), default=None)

    def follow(self, number: int, node: Node, closes_on_exec: bool = False) -> None:
        """From now on the descriptor stands for this, on the host and in the script."""
        self.followed[number] = Open(node, closes_on_exec)
        self.here[number] = node

    def forget(self, number: int) -> List[Line]:
        """The descriptor of the host is closed, or stands for what the script doesn't have: the line that closes it."""
        del self.followed[number]
        del self.here[number]
        return [Line(f"close {number}", "ok")]

    def keep(self, number: int, holder: Optional[int], free: Tuple[int, ...] = ()) -> List[Line]:
        """Lines that put a placeholder under a number, by one that there is, if any. Those of `free` have to be free afterwards."""
        if holder is not None:
            self.here[number] = HOLDER
            return [Line(f"dup2 {holder} {number}", f"fd {number}")]
        least = next(at for at in range(GREATEST_DESCRIPTORS) if at not in self.here)
        lines = [Line(f"open {HOLDER} r creat", f"fd {least}")]
        self.here[least] = HOLDER
        if least != number:
            lines += self.keep(number, least)
        if least in free:
            del self.here[least]
            lines.append(Line(f"close {least}", "ok"))
        return lines

    def make_sayable(self, number: int) -> None:
        """A descriptor has to be one that the layer may have."""
        if number >= GREATEST_DESCRIPTORS:
            raise OutOfTable(f"process {self.pid} has descriptor {number}: a script has none above {GREATEST_DESCRIPTORS - 1}")
        self.needs.have(number + 1)

    def make_least(self, numbers: Tuple[int, ...], least: int = 0) -> List[Line]:
        """Lines behind which these numbers are the least free ones from `least` on, as they were on the host."""
        self.make_sayable(max(numbers))
        lines: List[Line] = []
        for number in numbers:
            if number in self.here:
                self.followed.pop(number, None)
                del self.here[number]
                lines.append(Line(f"close {number}", "ok"))
        # it is looked for once, as there may be many numbers to keep
        holder = self.holder()
        for number in range(least, max(numbers)):
            if number not in self.here and number not in numbers:
                lines += self.keep(number, holder, numbers)
                holder = self.holder() if holder is None else min(holder, number)
        return lines


class Names:
    """The files and FIFOs that the script has, by the paths of the host."""

    def __init__(self) -> None:
        self.nodes: Dict[bytes, Node] = {}
        self.used = {HOLDER}

    def path(self, process: Process, text: bytes, folder: Optional[bytes] = None) -> bytes:
        """The whole path of a name. Where the folder isn't known, a known path that ends with it."""
        base = folder if folder is not None else process.folder
        if text.startswith(b"/") or base is not None:
            return posixpath.normpath(posixpath.join(base or b"/", text))
        ends = [path for path in self.nodes if path.endswith(b"/" + text)]
        return ends[0] if len(ends) == 1 else text

    def add(self, kind: str, path: bytes) -> Node:
        """A new file or FIFO. Its name is the last part of its path, and with a number if another one has that."""
        wanted = said_name(posixpath.basename(path))
        name, count = wanted, 1
        while name in self.used:
            count += 1
            name = f"{wanted}~{count}"
        self.used.add(name)
        self.nodes[path] = Node(kind, path, name)
        return self.nodes[path]


    def remove(self, path: bytes) -> Node:
        """A name is taken away."""
        node = self.nodes.pop(path)
        self.used.discard(node.name)
        return node


def said_name(name: bytes) -> str:
    """A name as the format of scripts has it."""
    said = "".join(chr(byte) if 33 <= byte <= 126 and byte != ord("%") else f"%{byte:02x}" for byte in name)
    return "%2d" if said == "-" else said
