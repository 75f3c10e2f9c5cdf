"""What happened in a run, step by step: told from the lines of a script and what each printed."""
from __future__ import annotations

from dataclasses import dataclass, field
from typing import Dict, List, Optional, Tuple, Union

from lines import Line, TooLarge, Unreadable, length_of, lines_of
from state import Description, Node, State, Waiting

Lane = Union[int, Node]
# a picture of more can't be looked at
MOST_STEPS = 1000
MOST_LANES = 100
# how a reply begins that a process gets which isn't there: `no process`, or none for want of memory
SAY_NO = ("no", "nomem")
# lines that begin with no pid
OF_NO_PROCESS = ("start", "resume", "interrupt", "file")


@dataclass
class Flow:
    """Bytes that went from a lane to another one: a process by its pid, or a node. A copy leaves them where they were."""

    source: Lane
    target: Lane
    count: int
    copies: bool = False


@dataclass
class Step:
    """What a line did."""

    line: Line
    pid: Optional[int] = None
    flows: List[Flow] = field(default_factory=list)
    begins_to_wait: Optional[Waiting] = None
    tried: Optional[Waiting] = None
    goes_on: Optional[Waiting] = None
    opened: List[Tuple[Node, str]] = field(default_factory=list)
    lost: List[Tuple[Node, str]] = field(default_factory=list)
    born: List[Lane] = field(default_factory=list)
    gone: List[Lane] = field(default_factory=list)
    held: Dict[int, int] = field(default_factory=dict)
    missing: Dict[int, str] = field(default_factory=dict)
    waiting: List[Waiting] = field(default_factory=list)


def count_of(reply: List[str], most: int) -> int:
    """How many bytes a reply counts, of those that were asked for."""
    count = int(reply[1])
    if count > most:
        raise ValueError("more bytes than were asked for")
    return count


class Story:
    """Follows a run. `steps` is what happened, and `lanes` are all processes and nodes in the order in which they came."""

    def __init__(self, script: str, output: str) -> None:
        self.state = State()
        self.steps: List[Step] = []
        self.lanes: List[Lane] = []
        self.pipes = 0
        for line in lines_of(script, output):
            if len(self.steps) == MOST_STEPS or len(self.lanes) > MOST_LANES:
                raise TooLarge(f"line {line.number} is behind more than {MOST_STEPS} steps or {MOST_LANES} lanes")
            try:
                self.follow(line)
            except (IndexError, KeyError, ValueError):
                raise Unreadable(f"line {line.number} and its reply don't belong together") from None

    def follow(self, line: Line) -> None:
        """Takes in a line."""
        step = Step(line, line.pid)
        if (step.pid is None) != (line.call in OF_NO_PROCESS):
            raise ValueError("a call that no process makes")
        if step.pid is not None and step.pid not in self.state.tables and line.reply[0] not in SAY_NO:
            raise ValueError("a process that isn't there is answered")
        before = self.state.counted
        known = list(self.state.waiting.values())
        getattr(self, f"follow_{line.call}", self.follow_nothing)(step, line.reply)
        self.settle(step, before)
        for call in known:
            if call.number in self.state.waiting:
                can = self.state.can_go_on(call)
                call.helped_at = (call.helped_at or line.number) if can else None
        self.steps.append(step)

    def settle(self, step: Step, before: Dict[Node, Tuple[int, int]]) -> None:
        """Notes the ends that came and went, and what is held."""
        self.state.count_ends()
        named = set(self.state.names.values())
        for node in list(self.state.nodes):
            if node.is_pipe:
                self.settle_pipe(step, node, before.get(node, (0, 0)))
            if node not in self.state.counted and node not in named:
                self.state.nodes.remove(node)
                step.gone.append(node)
            step.held[id(node)] = node.held
        step.waiting = list(self.state.waiting.values())

    def settle_pipe(self, step: Step, node: Node, before: Tuple[int, int]) -> None:
        """The ends of a pipe, after a step."""
        now = self.state.ends(node)
        for end, had, has in zip(("reader", "writer"), before, now):
            if had and not has:
                step.lost.append((node, end))
            if has > had:
                step.opened.append((node, end))
        node.hung = now[0] > 0 and now[1] == 0 and (node.hung or before[1] > 0)
        if now == (0, 0):
            node.held, node.capacity = 0, 65536
            node.packets = None if node.packets is None else []
        missing = [end for end, has in zip(("reader", "writer"), now) if not has]
        step.missing[id(node)] = ",".join(missing)

    def add(self, step: Step, lane: Lane) -> None:
        """A lane begins, or begins again: a pid that is free goes to the next process."""
        if lane not in self.lanes:
            self.lanes.append(lane)
        step.born.append(lane)
        if isinstance(lane, Node):
            self.state.nodes.append(lane)

    # Processes and descriptors

    def follow_nothing(self, step: Step, reply: List[str]) -> None:
        """A line that changes nothing that a picture shows."""

    def follow_start(self, step: Step, reply: List[str]) -> None:
        """A process starts."""
        if reply[0] == "pid":
            step.pid = self.new_pid(reply)
            self.state.tables[step.pid] = {}
            self.add(step, step.pid)

    def new_pid(self, reply: List[str]) -> int:
        """The pid of a process that wasn't there."""
        pid = int(reply[1])
        if pid in self.state.tables:
            raise ValueError("a pid that another process has")
        return pid

    def follow_fork(self, step: Step, reply: List[str]) -> None:
        """A child has what its parent has."""
        if reply[0] == "pid" and step.pid is not None:
            child = self.new_pid(reply)
            self.state.tables[child] = dict(self.state.tables[step.pid])
            self.add(step, child)
            step.flows.append(Flow(step.pid, child, 0))

    def follow_exit(self, step: Step, reply: List[str]) -> None:
        """A process ends, with its descriptors and its calls."""
        if reply[0] == "ok" and step.pid is not None:
            del self.state.tables[step.pid]
            for number in [call.number for call in self.state.waiting.values() if call.pid == step.pid]:
                del self.state.waiting[number]
            step.gone.append(step.pid)

    def table(self, step: Step) -> Dict[int, Description]:
        """The descriptors of the process that makes a call."""
        return self.state.tables[step.pid or 0]

    def follow_dup(self, step: Step, reply: List[str]) -> None:
        """Another descriptor for a description."""
        if reply[0] == "fd":
            self.table(step)[int(reply[1])] = self.table(step)[int(step.line.arguments[0])]

    follow_dup2 = follow_dup
    follow_dupfd = follow_dup

    def follow_close(self, step: Step, reply: List[str]) -> None:
        """A descriptor goes."""
        if reply[0] == "ok":
            del self.table(step)[int(step.line.arguments[0])]

    def follow_setfl(self, step: Step, reply: List[str]) -> None:
        """Flags are set, for all that share a description."""
        if reply[0] == "ok":
            found, flags = self.table(step)[int(step.line.arguments[0])], step.line.arguments[1].split(",")
            found.nonblock, found.append = "nonblock" in flags, "append" in flags

    def follow_setsz(self, step: Step, reply: List[str]) -> None:
        """A pipe has another capacity, or tells it."""
        if reply[0] == "size":
            self.table(step)[int(step.line.arguments[0])].node.capacity = int(reply[1])

    follow_getsz = follow_setsz

    def follow_lseek(self, step: Step, reply: List[str]) -> None:
        """An offset is set."""
        if reply[0] == "offset":
            self.table(step)[int(step.line.arguments[0])].offset = int(reply[1])

    # Pipes, names and opens

    def follow_pipe(self, step: Step, reply: List[str]) -> None:
        """A pipe with its two ends."""
        if reply[0] != "fds":
            return
        flags = ",".join(step.line.arguments)
        self.pipes += 1
        node = Node("pipe", f"pipe {self.pipes}", packets=[] if "direct" in flags else None)
        for descriptor, mode in zip(reply[1:3], "rw"):
            self.table(step)[int(descriptor)] = Description(node, mode, nonblock="nonblock" in flags)
        self.add(step, node)

    def follow_mkfifo(self, step: Step, reply: List[str]) -> None:
        """A pipe with a name."""
        if reply[0] == "ok":
            node = Node("FIFO", step.line.arguments[0])
            self.state.names[node.name] = node
            self.add(step, node)

    def follow_unlink(self, step: Step, reply: List[str]) -> None:
        """A name goes."""
        if reply[0] == "ok":
            self.state.names.pop(step.line.arguments[0], None)

    def follow_open(self, step: Step, reply: List[str]) -> None:
        """An open of a file or a FIFO, which may wait."""
        if reply[0] not in ("fd", "parked"):
            return
        name, mode, *rest = step.line.arguments
        flags = rest[0].split(",") if rest else []
        node = self.state.names.get(name)
        if node is None:
            node = self.state.names[name] = Node("file", name)
            self.add(step, node)
        if "trunc" in flags and not node.is_pipe and "w" in mode:
            node.held = 0
        found = Description(node, mode, "nonblock" in flags, "append" in flags)
        if node.is_pipe:
            for call in self.state.waiting.values():
                if call.call == "open" and call.descriptions[0].node is node:
                    call.met = call.met or not set(mode) <= set(call.descriptions[0].mode)
        if reply[0] == "fd":
            self.table(step)[int(reply[1])] = found
        else:
            self.park(step, reply, [found])

    # Calls that move bytes, and calls that wait

    def park(self, step: Step, reply: List[str], descriptions: List[Description], length: int = 0) -> Waiting:
        """A call waits, under its number."""
        if int(reply[1]) in self.state.waiting:
            raise ValueError("a number that another call has")
        call = Waiting(int(reply[1]), step.pid or 0, step.line.call, step.line.number, descriptions, length)
        self.state.waiting[call.number] = call
        step.begins_to_wait = call
        return call

    def follow_read(self, step: Step, reply: List[str]) -> None:
        """A read, which is answered or waits."""
        found = self.state.find(step.pid, step.line.arguments[0])
        if reply[0] == "parked" and found is not None:
            self.park(step, reply, [found])
        elif reply[0] == "data" and found is not None:
            self.has_read(step, found, step.pid or 0, length_of(reply[1]))

    @staticmethod
    def has_read(step: Step, found: Description, pid: int, count: int) -> None:
        """Bytes went to a process."""
        if count and found.node.is_pipe:
            found.node.take(count)
        found.offset += 0 if found.node.is_pipe else count
        if count:
            step.flows.append(Flow(found.node, pid, count))

    def follow_write(self, step: Step, reply: List[str]) -> None:
        """A write. One that waits takes bytes by turns if it is large."""
        found = self.state.find(step.pid, step.line.arguments[0])
        if found is None:
            return
        if reply[0] == "parked":
            call = self.park(step, reply, [found], length_of(step.line.arguments[1]))
            self.take_turn(step, call)
        elif reply[0] == "count":
            self.has_written(step, found, step.pid or 0, count_of(reply, length_of(step.line.arguments[1])))

    def take_turn(self, step: Step, call: Waiting) -> None:
        """A large write puts in as many bytes as there is room for."""
        found = call.descriptions[0]
        count = min(found.node.room, call.length - call.taken) if call.length > 4096 else 0
        call.taken += count
        self.has_written(step, found, call.pid, count)

    @staticmethod
    def put(found: Description, count: int, at: Optional[int] = None) -> None:
        """Bytes come into a pipe, or into a file at an offset."""
        if found.node.is_pipe:
            found.node.put(count)
            return
        start = at if at is not None else found.node.held if found.append else found.offset
        found.node.held = max(found.node.held, start + count)
        if at is None:
            found.offset = start + count

    def has_written(self, step: Step, found: Description, pid: int, count: int) -> None:
        """Bytes went from a process."""
        if count < 0:
            raise ValueError("fewer bytes than before")
        if count:
            self.put(found, count)
            step.flows.append(Flow(pid, found.node, count))

    def follow_splice(self, step: Step, reply: List[str]) -> None:
        """A splice or a tee, which is answered or waits."""
        words = step.line.arguments
        is_tee = step.line.call == "tee"
        source, target = (self.state.find(step.pid, words[place]) for place in ((0, 1) if is_tee else (0, 2)))
        given = ("-", "-") if is_tee else (words[1], words[3])
        offsets = tuple(None if word == "-" else int(word) for word in given)
        if source is None or target is None:
            return
        if reply[0] == "parked":
            call = self.park(step, reply, [source, target])
            call.offsets = offsets  # type: ignore[assignment]
        elif reply[0] == "count":
            self.has_moved(step, [source, target], offsets, int(reply[1]), is_tee)  # type: ignore[arg-type]

    follow_tee = follow_splice

    def has_moved(
        self, step: Step, ends: List[Description], offsets: Tuple[Optional[int], Optional[int]], count: int, copies: bool
    ) -> None:
        """Bytes went from one node to another."""
        source, target = ends
        if count < 0:
            raise ValueError("fewer bytes than none")
        if count == 0:
            return
        if source.node.packets is not None or target.node.packets is not None:
            raise ValueError("no splice or tee goes over a packet pipe")
        if source.node.is_pipe and not copies:
            source.node.take(count)
        elif not source.node.is_pipe and offsets[0] is None:
            source.offset += count
        self.put(target, count, offsets[1])
        step.flows.append(Flow(source.node, target.node, count, copies))

    def follow_poll(self, step: Step, reply: List[str]) -> None:
        """A poll, which may wait for whatever comes first."""
        if reply[0] == "parked":
            entries = [word.split(":") for word in step.line.arguments[1:]]
            asked = [(self.state.find(step.pid, descriptor), mask) for descriptor, mask in entries]
            call = self.park(step, reply, [found for found, _ in asked if found is not None])
            call.asked = asked

    def follow_resume(self, step: Step, reply: List[str]) -> None:
        """A waiting call is tried again."""
        call = self.state.waiting.get(int(step.line.arguments[0]))
        if call is None:
            return
        step.pid, step.tried = call.pid, call
        if reply[0] == "parked":
            if call.call == "write":
                self.take_turn(step, call)
            return
        del self.state.waiting[call.number]
        step.goes_on = call
        if reply[0] == "fd":
            self.state.tables[call.pid][int(reply[1])] = call.descriptions[0]
        elif reply[0] == "data":
            self.has_read(step, call.descriptions[0], call.pid, length_of(reply[1]))
        elif reply[0] == "count" and call.call == "write":
            self.has_written(step, call.descriptions[0], call.pid, count_of(reply, call.length) - call.taken)
        elif reply[0] == "count":
            self.has_moved(step, call.descriptions, call.offsets, int(reply[1]), call.call == "tee")

    def follow_interrupt(self, step: Step, reply: List[str]) -> None:
        """A waiting call is ended."""
        call = self.state.waiting.pop(int(step.line.arguments[0]), None)
        if call is not None:
            step.pid, step.tried, step.goes_on = call.pid, call, call
            call.helped_at = None
