"""The calls of a trace as operations of the script: for each its process, its lines, and when it may have had its effect."""
from __future__ import annotations

import contextlib
import posixpath
import re
from dataclasses import dataclass, field
from typing import Any, Dict, List, Optional, Tuple

from arguments import Descriptor, Malformed, Result, Text, parsed
from reading import Call, End, Trace, Unreadable
from saying import Left, Says
from script import BadLine, Version, content_of_pieces, parse_line
from tables import Line, Names, Needs, Node, OutOfTable, Process, Unsayable

FORKS = ("fork", "vfork", "clone", "clone3")
EXECS = ("execve", "execveat")
OPENS = ("open", "openat", "openat2", "creat")
# calls on what the script follows that change it, and that no line says
CHANGES = ("ftruncate", "pwrite64", "pwritev", "pwritev2", "sendfile", "copy_file_range", "fallocate")
# calls that change no descriptor
TRANSFERS = ("read", "readv", "write", "writev", "vmsplice", "lseek", "splice", "tee", "poll", "ppoll", "select", "pselect6")
# which argument is what a call takes bytes from, and what it puts bytes into
TAKES_FROM = {"read": 0, "readv": 0, "splice": 0}
PUTS_INTO = {"write": 0, "writev": 0, "vmsplice": 0, "splice": 2, "tee": 1}
# a line behind all others
NEVER = 2**62
# what a program is started with
FIRST_NUMBERS = (0, 1, 2)
FIRST_DESCRIPTOR = re.compile(r"\w+\((\d{1,10})<")
# what a fork that returned made
MADE = re.compile(r"\)\s*= (\d{1,10})$")


@dataclass(eq=False)
class Operation:
    """What a call of the host does in the script: its effect was between two lines of the trace, the second of which may be lacking.

    Only its last line may wait. It takes bytes from one thing and puts bytes into one, if any. `child` is a process that it makes.
    """

    process: Process
    name: str
    first: int
    last: Optional[int]
    lines: List[Line] = field(default_factory=list)
    comments: List[str] = field(default_factory=list)
    takes: Optional[Node] = None
    puts: Optional[Node] = None
    child: Optional[Process] = None
    is_interrupted: bool = False
    program: str = ""
    # what may have happened of it before all of it did: an exit closes one descriptor after another
    parts: List[Line] = field(default_factory=list)

    def __post_init__(self) -> None:
        self.program = self.process.program

    @property
    def is_split(self) -> bool:
        """Whether something else happened between the two."""
        return self.first != self.last

    @property
    def has_effect(self) -> bool:
        """Whether it moved bytes."""
        reply = self.lines[-1].reply if self.lines else None
        return reply is None or (reply.startswith(("data ", "count ")) and reply not in ("data -", "count 0"))


def check_form(lines: List[Line]) -> None:
    """The line of a call, the last one, and its reply have to be such as a script may have: numbers and lengths have an end there."""
    if not lines:
        return
    kind, _, data = (lines[-1].reply or "").partition(" ")
    try:
        parse_line(f"1 {lines[-1].words}".encode("latin-1"), Version.TWO)
        if kind == "data":
            content_of_pieces(data)
    except BadLine as fault:
        raise Unsayable("a script has no such number, name or length") from fault


class Turner:
    """Follows a trace, and makes its operations."""

    def __init__(self, trace: Trace) -> None:
        self.trace = trace
        self.end_of = {end.pid: end.last for end in trace.ends}
        self.names = Names()
        self.told: List[Tuple[int, str]] = []
        self.says = Says(self.names, self.tell)
        self.needs = Needs()
        self.processes: Dict[int, Process] = {}
        self.operations: List[Operation] = []
        # what the name of an open stood for as it began
        self.meant: Dict[Call, Optional[Node]] = {}
        self.strangers: set[bytes] = set()

    def tell(self, line: int, what: str) -> None:
        """Notes what a reader has to know of a line of the trace."""
        self.told.append((line, what))

    def turn(self) -> List[Operation]:
        """The operations of the whole trace."""
        for line, _, _, event, what in sorted(self._events(), key=lambda item: item[:3]):
            try:
                event(what)
            except OutOfTable as fault:
                raise Unreadable(f"line {line} of the trace: {fault}") from fault
        return self.operations

    def _events(self) -> List[Tuple[int, int, int, Any, Any]]:
        """What happens at each line: a process comes first, then forks by their beginnings, then beginnings, returns and ends."""
        forks = self._forks()
        events: List[Tuple[int, int, int, Any, Any]]
        events = [(line, 0, 0, self._start, pid) for pid, line in self.trace.first_of.items() if pid not in forks]
        for child, call in forks.items():
            events.append((self._made_by(call, child), 1, call.first, self._fork, (call, child)))
        for call in self.trace.calls:
            if call.name not in FORKS:
                events.append((call.first, 2, 0, self._begin, call))
                events.append((call.last or call.first, 3, 0, self._return, call))
        events += [(end.last, 4, 0, self._end, end) for end in self.trace.ends]
        return events

    def _forks(self) -> Dict[int, Call]:
        """The call that made each child. One that never returned made a child that nothing else made."""
        forks: Dict[int, Call] = {}
        unknown: List[Call] = []
        for call in self.trace.calls:
            found = MADE.search(call.text) if call.name in FORKS else None
            if found:
                self._check_fork(call, int(found[1]), forks)
                forks[int(found[1])] = call
            elif call.name in FORKS and " = -1 " not in call.text:
                unknown.append(call)
        for pid, line in self.trace.first_of.items():
            call = next((call for call in unknown if call.first < line and call.pid != pid), None)
            if pid not in forks and call is not None:
                unknown.remove(call)
                forks[pid] = call
        return forks

    def _check_fork(self, call: Call, child: int, forks: Dict[int, Call]) -> None:
        """A fork makes a process that wasn't there."""
        there = forks[child].first if child in forks else self.trace.first_of.get(child, NEVER)
        if child in forks or there <= call.first:
            raise Unreadable(f"line {call.first} of the trace makes process {child}, which was there at line {there}: no script has a pid of two")

    def _made_by(self, call: Call, child: int) -> int:
        """The line by which a child was there: that where the fork returned, or the first of the child, or the end of who made it."""
        return min(call.last or NEVER, self.trace.first_of.get(child, NEVER), self.end_of.get(call.pid, NEVER))

    # Processes

    def _start(self, pid: int) -> None:
        """A process that the trace begins with."""
        process = self.processes[pid] = Process(pid, self.needs, threads=[pid])
        if len(self.processes) > 1:
            self.tell(self.trace.first_of[pid], f"nothing tells what made process {pid}: it begins with nothing of the others")
        lines = [Line("start", None, lambda text: text.startswith("pid "))]
        lines += [line for number in FIRST_NUMBERS for line in process.keep(number, process.holder())]
        at = self.trace.first_of[pid]
        self.operations.append(Operation(process, "start", at, at, lines, child=process))

    def _fork(self, what: Tuple[Call, int]) -> None:
        """A process forks, or starts a thread, which shares its descriptors and is no process of the script."""
        call, pid = what
        parent = self.processes[call.pid]
        if "CLONE_FILES" in call.text:
            self.processes[pid] = parent
            parent.threads.append(pid)
            return
        child = self.processes[pid] = parent.fork(pid)
        last = self._made_by(call, pid)
        line = Line("fork", None, lambda text: text.startswith("pid "))
        self.operations.append(Operation(parent, call.name, call.first, last, [line], child=child))

    def _end(self, end: End) -> None:
        """A thread ends, and with the last one its process."""
        process = self.processes[end.pid]
        process.threads.remove(end.pid)
        if not process.threads:
            parts = [Line(f"close {number}", "ok") for number in sorted(process.followed, reverse=True)]
            self.operations.append(Operation(process, "exit", end.first, end.last, [Line("exit", "ok")], parts=parts))

    def _exec(self, process: Process, call: Call) -> None:
        """An exec keeps descriptors, less those that close on it."""
        arguments, result = parsed(call.text)
        if result.value != 0:
            return
        path = next((item for item in arguments if isinstance(item, Text)), Text(b"?"))
        process.program = re.sub(r"[^\x21-\x7e]", "?", posixpath.basename(path.data).decode("latin-1"))
        numbers = [number for number, entry in sorted(process.followed.items()) if entry.closes_on_exec]
        lines = [line for number in numbers for line in process.forget(number)]
        if lines:
            self.operations.append(Operation(process, call.name, call.first, call.last, lines))

    # Calls

    def _begin(self, call: Call) -> None:
        """A call begins. What its descriptors and its name stand for is looked at now: that may be gone as it returns."""
        process = self.processes[call.pid]
        try:
            arguments, result = parsed(call.text)
        except Malformed:
            return
        self._check(process, call, arguments)
        if call.name in OPENS:
            with contextlib.suppress(Left):
                self.meant[call] = self.names.nodes.get(self.says.named(process, arguments)[0])
        elif call.name in TRANSFERS:
            self._take(process, call, arguments, result)

    def _return(self, call: Call) -> None:
        """A call returns."""
        process = self.processes[call.pid]
        try:
            arguments, result = parsed(call.text)
        except Malformed:
            self._unreturned(process, call)
            return
        if call.name in EXECS:
            self._exec(process, call)
        elif call.name not in TRANSFERS:
            self._take(process, call, arguments, result)

    def _take(self, process: Process, call: Call, arguments: List[Any], result: Result) -> None:
        """Makes the operation of a call."""
        try:
            lines = self._lines(process, call, arguments, result)
            check_form(lines)
        except Left:
            return
        except Unsayable as reason:
            self._comment(process, call, str(reason))
            return
        except (IndexError, KeyError, TypeError, AttributeError, ValueError):
            # an argument is lacking, or has another form than the call has
            self._unreturned(process, call)
            return
        last = call.last if result.value is not None or result.error else None
        interrupted = result.error == "EINTR" or result.error.startswith("ERESTART")
        if lines:
            operation = Operation(process, call.name, call.first, last, lines, is_interrupted=interrupted)
            operation.takes = self._node(process, arguments, TAKES_FROM.get(call.name))
            operation.puts = self._node(process, arguments, PUTS_INTO.get(call.name))
            self.operations.append(operation)

    @staticmethod
    def _node(process: Process, arguments: List[Any], at: Optional[int]) -> Optional[Node]:
        """What an argument stands for, if there is one that the script follows."""
        value = arguments[at] if at is not None else None
        entry = process.followed.get(value.number) if isinstance(value, Descriptor) else None
        return entry.node if entry is not None else None

    def _lines(self, process: Process, call: Call, arguments: List[Any], result: Result) -> List[Line]:
        """The lines of a call. A call that isn't known is a comment if it is made on what the script follows."""
        if call.name in OPENS:
            path, _ = self.says.named(process, arguments)
            node = self.meant.get(call) or self.names.nodes.get(path)
            return getattr(self.says, call.name)(process, call, arguments, result, node)
        if call.name == "chdir" and result.value == 0:
            process.folder = self.says.named(process, arguments)[0]
        known = call.name not in ("followed", "named", "tell") and not call.name.startswith("_")
        method = getattr(self.says, call.name, None) if known else None
        if method is not None:
            return method(process, call, arguments, result)
        numbers = [value.number for value in arguments if isinstance(value, Descriptor)]
        if not any(number in process.followed for number in numbers):
            raise Left
        if call.name in CHANGES and not result.error:
            self.tell(call.first, f"{call.name} changes what the script has, and has no line")
        raise Unsayable(f"{call.name} has no line")

    def _comment(self, process: Process, call: Call, reason: str) -> None:
        at = call.last or call.first
        if "has no line" not in reason:
            self.tell(call.first, f"{call.name} isn't in the script: {reason}")
        self.operations.append(Operation(process, call.name, at, at, comments=[reason]))

    def _unreturned(self, process: Process, call: Call) -> None:
        """A call that never returned, and of which strace told too little, or one that can't be read."""
        if call.name == "restart_syscall":
            self.tell(call.first, "the host goes on with a call that a signal ended: the script doesn't have what it answers")
        found = FIRST_DESCRIPTOR.match(call.text)
        if found and int(found[1]) in process.followed:
            self._comment(process, call, "it never returned" if call.last is None or "= ?" in call.text else "it can't be read")

    def _check(self, process: Process, call: Call, arguments: List[Any]) -> None:
        """What -y told of the descriptors of a call has to be what the script has under them."""
        for value in arguments:
            if not isinstance(value, Descriptor) or value.stands_for is None or value.number < 0:
                continue
            entry = process.followed.get(value.number)
            pipe = self.says.pipes.get(value.stands_for)
            was = entry.node.key if entry is not None and (entry.node.kind == "pipe" or value.stands_for.startswith(b"pipe:")) else None
            if (pipe is not None and (entry is None or entry.node is not pipe)) or (was is not None and was != value.stands_for):
                shown = value.stands_for.decode("latin-1")
                raise Unreadable(
                    f"line {call.first} of the trace: descriptor {value.number} is {shown}, by a call that the trace doesn't show:"
                    " trace all calls that --help names"
                )
            if pipe is None and value.stands_for.startswith(b"pipe:") and value.stands_for not in self.strangers:
                self.strangers.add(value.stands_for)
                self.tell(call.first, f"descriptor {value.number} is a pipe from before the trace: the script doesn't follow it")
