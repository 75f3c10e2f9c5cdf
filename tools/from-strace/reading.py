"""The lines of a trace of strace -f -o FILE: calls with the lines where they begin and return, signals, and ends of processes."""
from __future__ import annotations

import re
from dataclasses import dataclass, field
from typing import Dict, List, Optional

UNFINISHED = " <unfinished ...>"
# a pid, and perhaps a time by -t, -r or -ttt
LINE = re.compile(r"(?P<pid>[0-9]{1,10}) +(?:(?:[0-9]+:[0-9]+:)?[0-9]+(?:\.[0-9]+)? +)?(?P<rest>.*)")
CALL = re.compile(r"(?P<name>[a-z_][a-z0-9_]*)\(")
RESUMED = re.compile(r"<\.\.\. (?P<name>\w+) resumed>(?P<rest>.*)")
SIGNAL = re.compile(r"--- (?P<name>SIG\w+) ")
END = re.compile(r"\+\+\+ (?:exited with|killed by) ")


class Unreadable(Exception):
    """A trace that can't be said as a script, with what to do about it."""


@dataclass(eq=False)
class Call:
    """A call of a thread: its text without the unfinished and resumed parts, and the lines of the trace where it begins and returns.

    One that never returned has no last line. `brings` is a signal that came right behind it.
    """

    pid: int
    name: str
    text: str
    first: int
    last: Optional[int] = None
    brings: str = ""

    @property
    def is_split(self) -> bool:
        """Whether something else happened between its beginning and its return."""
        return self.last != self.first


@dataclass(eq=False)
class End:
    """A thread has ended."""

    pid: int
    first: int
    last: int


@dataclass
class Trace:
    """All calls, in the order in which they begin, the ends, and the line of the first event of each thread."""

    calls: List[Call] = field(default_factory=list)
    ends: List[End] = field(default_factory=list)
    first_of: Dict[int, int] = field(default_factory=dict)


class Reader:
    """Reads a trace line by line."""

    def __init__(self) -> None:
        self.trace = Trace()
        self.open_calls: Dict[int, Call] = {}
        self.last_call: Dict[int, Call] = {}
        self.last_line: Dict[int, int] = {}
        self.ended: Dict[int, int] = {}

    def read(self, text: str) -> Trace:
        """The events of a whole trace."""
        for number, line in enumerate(text.split("\n"), 1):
            if not line.strip() or line.startswith("strace: "):
                continue
            found = LINE.fullmatch(line)
            if found is None:
                raise Unreadable(f"line {number} of the trace begins with no pid: take strace -f -o FILE")
            pid = int(found["pid"])
            if pid in self.ended:
                raise Unreadable(f"line {number} of the trace: thread {pid} ended at line {self.ended[pid]}, and no script has a pid of two")
            self.trace.first_of.setdefault(pid, number)
            self._take(pid, number, found["rest"])
            self.last_line[pid] = number
        return self.trace

    def _take(self, pid: int, number: int, rest: str) -> None:
        signal = SIGNAL.match(rest)
        if signal:
            if pid in self.last_call:
                self.last_call[pid].brings = self.last_call[pid].brings or signal["name"]
        elif END.match(rest):
            self._end(pid, number)
        elif rest.startswith(("---", "+++")):
            if "superseded" in rest:
                raise Unreadable(f"line {number} of the trace: a thread that isn't the first of its process makes an execve")
        elif rest.startswith("<..."):
            self._resumed(pid, number, rest)
        else:
            self._begin(pid, number, rest)

    def _begin(self, pid: int, number: int, rest: str) -> None:
        found = CALL.match(rest)
        if found is None:
            raise Unreadable(f"line {number} of the trace is no line of strace")
        is_whole = not rest.endswith(UNFINISHED)
        call = Call(pid, found["name"], rest if is_whole else rest[: -len(UNFINISHED)], number, number if is_whole else None)
        self.trace.calls.append(call)
        self.last_call[pid] = call
        if not is_whole:
            self.open_calls[pid] = call

    def _resumed(self, pid: int, number: int, rest: str) -> None:
        found = RESUMED.fullmatch(rest)
        call = self.open_calls.pop(pid, None)
        if found is None or call is None or call.name != found["name"]:
            raise Unreadable(f"line {number} of the trace resumes a call that didn't begin: the trace has to have its whole run")
        # one that a signal ended for good is told as `<... read resumed> <unfinished ...>) = ?`
        call.text += found["rest"].replace(UNFINISHED, "")
        call.last = number

    def _end(self, pid: int, number: int) -> None:
        """A thread ends: its descriptors are closed between its last event, or the beginning of its exit, and this line."""
        self.open_calls.pop(pid, None)
        self.ended[pid] = number
        self.trace.ends.append(End(pid, self.last_line.get(pid, number), number))


def read_trace(text: str) -> Trace:
    """The events of a trace."""
    return Reader().read(text)
