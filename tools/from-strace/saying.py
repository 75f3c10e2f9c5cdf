"""What line says a call: a method for each call of the host that a script may have."""
from __future__ import annotations

import re
from typing import Any, Callable, Dict, List, Optional, Tuple

from arguments import OF_THE_PROCESS, Descriptor, Result, Text
from reading import Call, Unreadable
from replies import Errno
from script import by_runs
from state import GREATEST_DESCRIPTORS
from tables import SYSTEM, Line, Names, Node, Process, Unsayable

MODES = {"O_RDONLY": "r", "O_WRONLY": "w", "O_RDWR": "rw"}
OPEN_FLAGS = {"O_CREAT": "creat", "O_EXCL": "excl", "O_TRUNC": "trunc", "O_APPEND": "append", "O_NONBLOCK": "nonblock"}
MOVE_FLAGS = {"SPLICE_F_MOVE": "move", "SPLICE_F_NONBLOCK": "nonblock", "SPLICE_F_MORE": "more", "SPLICE_F_GIFT": "gift"}
EVENTS = {"POLLIN": "in", "POLLOUT": "out", "POLLERR": "err", "POLLHUP": "hup", "POLLNVAL": "nval"}
WHENCE = {"SEEK_SET": "set", "SEEK_CUR": "cur", "SEEK_END": "end"}
# flags of F_GETFL that the layer has no name for, and that change nothing of its answers
SILENT = {"O_LARGEFILE", "O_NOATIME", "O_SYNC", "O_DSYNC", "O_CLOEXEC", "FASYNC"}
# the path of a descriptor of the process itself
OF_DESCRIPTOR = re.compile(rb"/(?:dev/fd|proc/(?:self|thread-self|[0-9]+)/fd)/([0-9]+)")
NO_FILE = {"O_DIRECTORY", "O_PATH", "O_TMPFILE"}


class Left(Exception):
    """A call on something that the script doesn't follow: it isn't named."""


def words_of(flags: Any) -> List[str]:
    """The names of flags that | joins."""
    return [word for word in str(flags).split("|") if word]


def number_of(value: Any) -> int:
    """The number of a descriptor, or any other number."""
    if isinstance(value, Descriptor):
        return value.number
    try:
        return int(str(value), 0) if not str(value).startswith("0") or str(value).startswith("0x") else int(str(value), 8)
    except ValueError as fault:
        raise Unsayable(f"{value} is no number") from fault


def failure(result: Result) -> Optional[str]:
    """The reply of a call that failed, or nothing if it didn't."""
    if not result.error:
        return None
    error = "EINTR" if result.error.startswith("ERESTART") else result.error
    if error not in Errno.__members__:
        raise Unsayable(f"the script has no error {error}")
    return error + (" sigpipe" if error == "EPIPE" else "")


def bytes_of(call: Call, value: Any, count: Optional[int]) -> bytes:
    """The first bytes of a buffer, or of several, as many as went over."""
    texts = [item.get("iov_base") if isinstance(item, dict) else item for item in (value if isinstance(value, list) else [value])]
    if any(not isinstance(text, Text) for text in texts) and count != 0:
        raise Unsayable("the trace has no bytes of it")
    data = b"".join(text.data for text in texts if isinstance(text, Text))
    if any(isinstance(text, Text) and text.is_cut for text in texts) or (count is not None and count > len(data)):
        raise Unreadable(f"line {call.first} of the trace lacks bytes that strace cut: take strace -s 1048576")
    return data if count is None else data[:count]


class Says:
    """The lines of each call. A method gets the process, the call, its arguments and its result."""

    def __init__(self, names: Names, tell: Callable[[int, str], None]) -> None:
        self.names, self.tell = names, tell
        self.pipes: Dict[bytes, Node] = {}

    @staticmethod
    def followed(process: Process, value: Any) -> int:
        """A descriptor that the script follows. A call on any other isn't named."""
        number = number_of(value)
        if number not in process.followed:
            raise Left
        return number

    # Reads and writes

    def read(self, process: Process, call: Call, given: List[Any], result: Result) -> List[Line]:
        number = self.followed(process, given[0])
        asked = sum(number_of(item["iov_len"]) for item in given[1]) if isinstance(given[1], list) else number_of(given[2])
        reply = failure(result)
        if reply is None and result.value is not None:
            reply = "data " + by_runs(bytes_of(call, given[1], result.value))
        return [Line(f"read {number} {asked}", reply)]

    readv = read

    def write(self, process: Process, call: Call, given: List[Any], result: Result) -> List[Line]:
        number = self.followed(process, given[0])
        reply = failure(result)
        if reply is None and result.value is not None:
            reply = f"count {result.value}" + (" sigpipe" if call.brings == "SIGPIPE" else "")
        return [Line(f"write {number} {by_runs(bytes_of(call, given[1], None))}", reply)]

    writev = write
    vmsplice = write

    def lseek(self, process: Process, call: Call, given: List[Any], result: Result) -> List[Line]:
        number = self.followed(process, given[0])
        if given[2] not in WHENCE:
            raise Unsayable(f"the script has no {given[2]}")
        return [Line(f"lseek {number} {number_of(given[1])} {WHENCE[given[2]]}", failure(result) or f"offset {result.value}")]

    # Splice and tee

    def splice(self, process: Process, call: Call, given: List[Any], result: Result) -> List[Line]:
        source, target = number_of(given[0]), number_of(given[2])
        if source not in process.followed and target not in process.followed:
            raise Left
        if target not in process.followed:
            self.tell(call.first, f"{call.name} moves bytes out of the script: a read says how many, and not which")
            return [Line(f"read {source} {result.value}", None)] if result.value else []
        if source not in process.followed:
            raise Unsayable("it brings bytes that the trace doesn't show")
        offsets = ["-" if given[at] == "NULL" else number_of(given[at][0]) for at in (1, 3)]
        words = f"splice {source} {offsets[0]} {target} {offsets[1]} {number_of(given[4])}"
        return [Line(words + self._flags(given[5]), failure(result) or f"count {result.value}")]

    def tee(self, process: Process, call: Call, given: List[Any], result: Result) -> List[Line]:
        numbers = [number_of(value) for value in given[:2]]
        there = [number in process.followed for number in numbers]
        if not any(there):
            raise Left
        if not all(there):
            raise Unsayable("one of its pipes isn't of the script")
        return [Line(f"tee {numbers[0]} {numbers[1]} {number_of(given[2])}{self._flags(given[3])}", failure(result) or f"count {result.value}")]

    @staticmethod
    def _flags(value: Any) -> str:
        flags = [MOVE_FLAGS.get(word, "") for word in words_of(value) if word != "0"]
        if "" in flags:
            raise Unsayable(f"the script has no {value}")
        return " " + ",".join(flags) if flags else ""

    # Descriptors

    def dup(self, process: Process, call: Call, given: List[Any], result: Result) -> List[Line]:
        number = self.followed(process, given[0])
        return self._duplicate(process, number, f"dup {number}", result, 0, False)

    @staticmethod
    def _duplicate(process: Process, number: int, words: str, result: Result, least: int, closes: bool) -> List[Line]:
        reply = failure(result)
        if reply is not None or result.value is None:
            return [Line(words, reply)]
        lines = process.make_least((result.value,), least)
        process.follow(result.value, process.followed[number].node, closes)
        return [*lines, Line(words, f"fd {result.value}")]

    def dup2(self, process: Process, call: Call, given: List[Any], result: Result) -> List[Line]:
        number, target = number_of(given[0]), number_of(given[1])
        if number not in process.followed:
            if result.error or target not in process.followed:
                raise Left
            return process.forget(target)
        if not result.error:
            process.make_sayable(target)
            is_same = number == target
            closes = process.followed[number].closes_on_exec if is_same else len(given) > 2 and "O_CLOEXEC" in words_of(given[2])
            process.follow(target, process.followed[number].node, closes)
        return [Line(f"dup2 {number} {target}", failure(result) or f"fd {target}")]

    dup3 = dup2

    def fcntl(self, process: Process, call: Call, given: List[Any], result: Result) -> List[Line]:
        number, asked = self.followed(process, given[0]), given[1]
        if asked in ("F_DUPFD", "F_DUPFD_CLOEXEC"):
            least = number_of(given[2])
            return self._duplicate(process, number, f"dupfd {number} {least}", result, least, asked != "F_DUPFD")
        if asked == "F_GETFL":
            return [Line(f"getfl {number}", failure(result) or self._status(call, result))]
        if asked == "F_SETFL":
            flags = [OPEN_FLAGS[word] for word in ("O_APPEND", "O_NONBLOCK") if word in words_of(given[2])]
            if "O_DIRECT" in words_of(given[2]):
                self.tell(call.first, "F_SETFL of O_DIRECT has no effect in the layer")
            return [Line(f"setfl {number} {','.join(flags) or '-'}", failure(result) or "ok")]
        if asked == "F_GETPIPE_SZ":
            return [Line(f"getsz {number}", failure(result) or f"size {result.value}")]
        if asked == "F_SETPIPE_SZ":
            return [Line(f"setsz {number} {number_of(given[2])}", failure(result) or f"size {result.value}")]
        if asked == "F_SETFD" and not result.error:
            process.followed[number].closes_on_exec = "FD_CLOEXEC" in words_of(given[2])
        raise Unsayable(f"{asked} has no line")

    def ioctl(self, process: Process, call: Call, given: List[Any], result: Result) -> List[Line]:
        """FIONBIO is a flag of the description (ioctl(2)). Any other has no line."""
        number = self.followed(process, given[0])
        if given[1] != "FIONBIO" or result.error:
            raise Unsayable(f"{given[1]} has no line")
        if process.followed[number].node.kind != "pipe":
            self.tell(call.first, "FIONBIO leaves O_APPEND as it is on the host, and clears it in the script")
        return [Line(f"setfl {number} {'-' if given[2] == ['0'] else 'nonblock'}", "ok")]

    def _status(self, call: Call, result: Result) -> str:
        words = re.findall(r"[A-Z_]+", result.behind)
        flags = [word for word in words if word not in MODES and word not in SILENT]
        known = [("O_APPEND", "append"), ("O_NONBLOCK", "nonblock"), ("O_DIRECT", "direct")]
        others = [word for word in flags if word not in dict(known)]
        if others:
            self.tell(call.first, f"the layer has no flag {', '.join(others)}")
        mode = next((said for word, said in MODES.items() if word in words), "r")
        return f"flags {mode} {','.join(said for word, said in known if word in flags) or '-'}"

    def close(self, process: Process, call: Call, given: List[Any], result: Result) -> List[Line]:
        return process.forget(self.followed(process, given[0]))

    def close_range(self, process: Process, call: Call, given: List[Any], result: Result) -> List[Line]:
        first, last = number_of(given[0]), number_of(given[1]) % 2**32
        numbers = [number for number in sorted(process.followed) if first <= number <= last]
        if result.error or not numbers:
            raise Left
        if "CLOSE_RANGE_CLOEXEC" in str(given[2]):
            for number in numbers:
                process.followed[number].closes_on_exec = True
            raise Left
        return [line for number in numbers for line in process.forget(number)]

    # Pipes and names

    def pipe(self, process: Process, call: Call, given: List[Any], result: Result) -> List[Line]:
        if result.error:
            raise Left
        ends = given[0]
        if not all(isinstance(end, Descriptor) and end.stands_for for end in ends):
            raise Unreadable(f"line {call.first} of the trace doesn't tell what descriptors are: take strace -y")
        flags = words_of(given[1]) if len(given) > 1 else []
        numbers = (ends[0].number, ends[1].number)
        lines = process.make_least(numbers)
        node = self.pipes[ends[0].stands_for] = Node("pipe", ends[0].stands_for)
        for number in numbers:
            process.follow(number, node, "O_CLOEXEC" in flags)
        said = [word for flag, word in (("O_NONBLOCK", "nonblock"), ("O_DIRECT", "direct")) if flag in flags]
        return [*lines, Line("pipe" + (" " + ",".join(said) if said else ""), f"fds {numbers[0]} {numbers[1]}")]

    pipe2 = pipe

    def named(self, process: Process, given: List[Any]) -> Tuple[bytes, List[Any]]:
        """The whole path that a call names, and the arguments behind it. The first one may be a folder's descriptor."""
        folder = None
        if given and isinstance(given[0], Descriptor):
            folder = given[0].stands_for
            if given[0].number == OF_THE_PROCESS:
                process.folder = folder
            given = given[1:]
        if not given or not isinstance(given[0], Text):
            raise Left
        return self.names.path(process, given[0].data, folder), given[1:]

    def mknod(self, process: Process, call: Call, given: List[Any], result: Result) -> List[Line]:
        path, rest = self.named(process, given)
        if "S_IFIFO" not in words_of(rest[0]):
            raise Left
        node = self.names.nodes.get(path)
        if result.error:
            if node is None:
                raise Left
            return [Line(f"mkfifo {node.name}", failure(result))]
        return [Line(f"mkfifo {self.names.add('fifo', path).name}", "ok")]

    mknodat = mknod

    def unlink(self, process: Process, call: Call, given: List[Any], result: Result) -> List[Line]:
        path, _ = self.named(process, given)
        if path not in self.names.nodes:
            raise Left
        name = self.names.nodes[path].name if result.error else self.names.remove(path).name
        return [Line(f"unlink {name}", failure(result) or "ok")]

    unlinkat = unlink

    def rename(self, process: Process, call: Call, given: List[Any], result: Result) -> List[Line]:
        path, rest = self.named(process, given)
        target, _ = self.named(process, rest)
        if result.error or (path not in self.names.nodes and target not in self.names.nodes):
            raise Left
        lines = [Line(f"unlink {self.names.remove(target).name}", "ok")] if target in self.names.nodes else []
        if path in self.names.nodes:
            node = self.names.nodes[target] = self.names.nodes.pop(path)
            self.tell(call.first, f"a rename has no line: the script goes on to call the file {node.name}")
        return lines

    renameat = rename
    renameat2 = rename

    def link(self, process: Process, call: Call, given: List[Any], result: Result) -> List[Line]:
        path, _ = self.named(process, given)
        if path in self.names.nodes and not result.error:
            self.tell(call.first, f"a link has no line: {self.names.nodes[path].name} has its first name alone in the script")
        raise Left

    linkat = link

    def truncate(self, process: Process, call: Call, given: List[Any], result: Result) -> List[Line]:
        path, _ = self.named(process, given)
        if path in self.names.nodes and not result.error:
            raise Unsayable(f"it changes {self.names.nodes[path].name}")
        raise Left

    def open(self, process: Process, call: Call, given: List[Any], result: Result, node: Optional[Node] = None) -> List[Line]:
        """An open. `node` is what the name stood for as the call began."""
        path, rest = self.named(process, given)
        flags = words_of(rest[0])
        mode = next((short for long, short in MODES.items() if long in flags), None)
        if mode is None:
            raise Unsayable(f"{rest[0]} doesn't tell whether it reads or writes")
        if result.stands_for in self.pipes:
            return self._opened_again(process, call, path, result, "O_CLOEXEC" in flags)
        lines: List[Line] = []
        said = [word for flag, word in OPEN_FLAGS.items() if flag in flags]
        if node is None:
            node, said = self._new_file(call, path if result.stands_for is None else result.stands_for, flags, said, result)
        words = f"open {node.name} {mode}" + (" " + ",".join(said) if said else "")
        reply = failure(result)
        if reply is None and result.value is not None:
            lines = process.make_least((result.value,))
            process.follow(result.value, node, "O_CLOEXEC" in flags)
            reply = f"fd {result.value}"
        return [*lines, Line(words, reply)]

    openat = open

    def _opened_again(self, process: Process, call: Call, path: bytes, result: Result, closes: bool) -> List[Line]:
        """An open of a pipe by the path of a descriptor. No line says that, but a duplicate is as good while no flag of the two changes."""
        found = OF_DESCRIPTOR.fullmatch(path)
        number = int(found[1]) if found else -1
        if number not in process.followed or process.followed[number].node is not self.pipes[result.stands_for or b""]:
            raise Unreadable(f"line {call.first} of the trace opens a pipe that has no name, and no line of a script does that")
        self.tell(call.first, f"an open of {path.decode('latin-1')} is a dup in the script: the two share their flags there")
        return self._duplicate(process, number, f"dup {number}", result, 0, closes)

    def openat2(self, process: Process, call: Call, given: List[Any], result: Result, node: Optional[Node] = None) -> List[Line]:
        return self.open(process, call, [given[0], given[1], given[2]["flags"]], result, node)

    def creat(self, process: Process, call: Call, given: List[Any], result: Result, node: Optional[Node] = None) -> List[Line]:
        return self.open(process, call, [given[0], "O_WRONLY|O_CREAT|O_TRUNC"], result, node)

    def _new_file(self, call: Call, path: bytes, flags: List[str], said: List[str], result: Result) -> Tuple[Node, List[str]]:
        """A file that an open makes or empties, so that its bytes are known."""
        writes = "O_WRONLY" in flags or "O_RDWR" in flags
        empties = "O_TRUNC" in flags and writes
        is_new = "O_CREAT" in flags and "O_EXCL" in flags
        if result.error or result.value is None or NO_FILE & set(flags) or path.startswith(SYSTEM):
            raise Left
        if not empties and "O_CREAT" not in flags:
            raise Left
        if not empties and not is_new:
            self.tell(call.first, "the trace doesn't tell whether the file was there before: the script takes it as new")
        return self.names.add("file", path), said if "creat" in said else ["creat", *said]

    # Polls

    def poll(self, process: Process, call: Call, given: List[Any], result: Result) -> List[Line]:
        entries = [(number_of(item["fd"]), words_of(item["events"])) for item in given[0]]
        limit = given[2]
        if call.name == "ppoll":
            limit = "-1" if given[2] == "NULL" else "0" if set(map(str, given[2].values())) == {"0"} else "1"
        kept = [(number, [EVENTS[word] for word in asked if word in EVENTS]) for number, asked in entries if number in process.followed]
        if not kept:
            raise Left
        when = "wait" if limit == "-1" and all(number < 0 or number in process.followed for number, _ in entries) else "now"
        self._have_entries(process, len(kept), result)
        reply = failure(result)
        if reply is None and result.value is not None:
            pairs = re.findall(r"fd=(\d+)(?:<[^>]*>)?, revents=([A-Z|]+)", result.behind)
            found = {int(number): [EVENTS.get(word, "?") for word in words_of(masks)] for number, masks in pairs}
            masks = [",".join(word for word in EVENTS.values() if word in found.get(number, [])) or "-" for number, _ in kept]
            reply = " ".join([f"masks {sum(mask != '-' for mask in masks)}", *masks])
        return [self._poll_line(call, when, kept, reply)]

    ppoll = poll

    @staticmethod
    def _have_entries(process: Process, count: int, result: Result) -> None:
        """A poll that wasn't refused has so many entries, and a kernel takes as many as a process may have descriptors."""
        if count > GREATEST_DESCRIPTORS:
            raise Unsayable(f"it has {count} entries, and a poll of a script {GREATEST_DESCRIPTORS} at most")
        if not result.error:
            process.needs.have(count)

    @staticmethod
    def _poll_line(call: Call, when: str, kept: List[Tuple[int, List[str]]], reply: Optional[str]) -> Line:
        if when == "now" and reply == "EINTR":
            raise Unsayable("a signal ended it, and a poll with a time limit has no line that waits")
        entries = " ".join(f"{number}:{','.join(asked) or '-'}" for number, asked in kept)
        return Line(f"poll {when} {entries}", reply)

    def select(self, process: Process, call: Call, given: List[Any], result: Result) -> List[Line]:
        """A select, as a poll whose masks agree with what it told."""
        sets = [[number_of(item) for item in value] if isinstance(value, list) else [] for value in given[1:4]]
        asked = {number: [word for word, inside in zip(("in", "out"), sets) if number in inside] for number in sorted(sets[0] + sets[1])}
        kept = [(number, masks) for number, masks in asked.items() if number in process.followed]
        if not kept:
            raise Left
        when = "wait" if given[4] == "NULL" and len(kept) == len(asked) else "now"
        self._have_entries(process, len(kept), result)
        line = self._poll_line(call, when, kept, failure(result))
        if line.reply is None and result.value is not None:
            found = [re.search(rf"\b{word} \[([0-9 ]*)\]", result.behind) for word in ("in", "out")]
            told = [set(map(int, match[1].split())) if match else set() for match in found]
            ready = [tuple(number in inside for inside in told) for number, _ in kept]
            line.agrees = lambda text: told_by(text, kept) == ready
            masks = [",".join(word for word, holds in zip(("in", "out"), pair) if holds) or "-" for pair in ready]
            line.reply = " ".join([f"masks {sum(map(any, ready))}", *masks])
        return [line]

    pselect6 = select
    _newselect = select


def told_by(text: str, kept: List[Tuple[int, List[str]]]) -> List[Tuple[bool, ...]]:
    """What a select tells of the masks of a poll: ready to be read, and to be written, where that was asked (select(2))."""
    masks = [set(word.split(",")) for word in text.split()[2:]]
    return [
        ("in" in asked and bool(mask & {"in", "hup", "err"}), "out" in asked and bool(mask & {"out", "err"}))
        for mask, (_, asked) in zip(masks, kept)
    ]
