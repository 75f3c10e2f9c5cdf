"""What a script has made at a moment: nodes, descriptions, processes and calls that wait, as its replies tell."""
from __future__ import annotations

from dataclasses import dataclass, field
from typing import Dict, List, Optional, Tuple

FIRST_CAPACITY = 65536
PIPE_BUF = 4096


@dataclass(eq=False)
class Node:
    """A pipe, a FIFO or a file. `held` is the bytes of a pipe, or the size of a file."""

    kind: str
    name: str
    capacity: int = FIRST_CAPACITY
    held: int = 0
    packets: Optional[List[int]] = None
    hung: bool = False

    @property
    def is_pipe(self) -> bool:
        """Whether it is a pipe or a FIFO."""
        return self.kind != "file"

    @property
    def room(self) -> int:
        """The bytes for which there is room."""
        if self.packets is not None:
            return PIPE_BUF * (self.capacity // PIPE_BUF - len(self.packets))
        return max(0, self.capacity - self.held)

    def put(self, count: int) -> None:
        """Bytes come into a pipe."""
        self.held += count
        while self.packets is not None and count > 0:
            self.packets.append(min(count, PIPE_BUF))
            count -= PIPE_BUF

    def take(self, count: int) -> None:
        """Bytes are read of a pipe: of a packet pipe its first packet goes."""
        if self.packets:
            count = self.packets.pop(0)
        self.held = max(0, self.held - count)


@dataclass(eq=False)
class Description:
    """An open file description."""

    node: Node
    mode: str
    nonblock: bool = False
    append: bool = False
    offset: int = 0

    @property
    def reads(self) -> bool:
        """Whether its mode has reading."""
        return "r" in self.mode

    @property
    def writes(self) -> bool:
        """Whether its mode has writing."""
        return "w" in self.mode


@dataclass(eq=False)
class Waiting:
    """A call that waits. It keeps its descriptions."""

    number: int
    pid: int
    call: str
    line: int
    descriptions: List[Description]
    length: int = 0
    taken: int = 0
    asked: List[Tuple[Optional[Description], str]] = field(default_factory=list)
    offsets: Tuple[Optional[int], Optional[int]] = (None, None)
    met: bool = False
    helped_at: Optional[int] = None


@dataclass
class State:
    """All of it."""

    names: Dict[str, Node] = field(default_factory=dict)
    tables: Dict[int, Dict[int, Description]] = field(default_factory=dict)
    waiting: Dict[int, Waiting] = field(default_factory=dict)
    nodes: List[Node] = field(default_factory=list)
    counted: Dict[Node, Tuple[int, int]] = field(default_factory=dict)

    def count_ends(self) -> None:
        """Counts the readers and writers of each node: of descriptions that a descriptor or a waiting call names."""
        live = {found for table in self.tables.values() for found in table.values()}
        live.update(*(call.descriptions for call in self.waiting.values()))
        self.counted = {}
        for found in live:
            readers, writers = self.counted.get(found.node, (0, 0))
            self.counted[found.node] = (readers + found.reads, writers + found.writes)

    def ends(self, node: Node) -> Tuple[int, int]:
        """How many readers and writers a node had when they were last counted."""
        return self.counted.get(node, (0, 0))

    def find(self, pid: Optional[int], descriptor: str) -> Optional[Description]:
        """What a descriptor names."""
        return self.tables.get(pid if pid is not None else 0, {}).get(int(descriptor))

    def can_go_on(self, call: Waiting) -> bool:
        """Whether a try of a waiting call answers it, or takes bytes."""
        if call.call == "open":
            return call.met
        if call.call == "poll":
            return any(self.is_ready(found, asked) for found, asked in call.asked)
        if call.call == "read":
            node = call.descriptions[0].node
            return node.held > 0 or self.ends(node)[1] == 0
        if call.call == "write":
            node = call.descriptions[0].node
            needed = call.length if call.length <= PIPE_BUF else 1
            return node.room >= needed or self.ends(node)[0] == 0
        return self.can_move(*(found.node for found in call.descriptions))

    def can_move(self, source: Node, target: Node) -> bool:
        """Whether a splice or a tee answers."""
        if target.is_pipe and self.ends(target)[0] == 0:
            return True
        if source.is_pipe and source.held == 0:
            return self.ends(source)[1] == 0
        return not target.is_pipe or target.room > 0

    def is_ready(self, found: Optional[Description], asked: str) -> bool:
        """Whether a poll finds something at a descriptor."""
        if found is None:
            return False
        wanted = asked.split(",")
        if not found.node.is_pipe:
            return "in" in wanted or "out" in wanted
        readers, _ = self.ends(found.node)
        at_read = found.reads and (("in" in wanted and found.node.held > 0) or found.node.hung)
        return at_read or (found.writes and (readers == 0 or ("out" in wanted and found.node.room >= PIPE_BUF)))
