"""What went through each pipe by the calls that took bytes from it: so it is known early in which order writes went in."""
from __future__ import annotations

from typing import Dict, List, Optional

from machine import Machine
from script import content_of_pieces
from state import Pipe
from tables import Node
from turning import Operation

# which word behind the pid is the descriptor that bytes go to
TARGETS = {"write": 1, "splice": 3, "tee": 2}


def moved(operation: Operation) -> int:
    """How many bytes a call took or put in, by its reply."""
    kind, _, rest = (operation.lines[-1].reply or "").partition(" ")
    if kind == "data":
        return len(content_of_pieces(rest))
    return int(rest.split()[0]) if kind == "count" else 0


def read_through(operations: List[Operation]) -> Dict[Node, bytes]:
    """The bytes that were read of each pipe, in their order: as far as no two of these calls overlap, and the trace tells the bytes."""
    takers: Dict[Node, List[Operation]] = {}
    for operation in operations:
        if operation.takes is not None and operation.takes.kind != "file" and operation.has_effect and operation.last is not None:
            takers.setdefault(operation.takes, []).append(operation)
    return {node: known_front(sorted(taking, key=lambda operation: operation.first)) for node, taking in takers.items()}


def known_front(taking: List[Operation]) -> bytes:
    """The bytes of the first of these calls, one behind another."""
    parts: List[bytes] = []
    for place, operation in enumerate(taking):
        reply = operation.lines[-1].reply or ""
        overlaps = place + 1 < len(taking) and taking[place + 1].first <= (operation.last or 0)
        if overlaps or not reply.startswith("data "):
            break
        parts.append(content_of_pieces(reply.partition(" ")[2]))
    return b"".join(parts)


def filled(machine: Machine, pid: int, number: Optional[int], operation: Operation) -> Optional[Pipe]:
    """The pipe of the model that a call puts bytes into, if it does. `number` is that under which it waits."""
    if operation.puts is None or operation.puts.kind == "file":
        return None
    words = operation.lines[-1].words.split()
    if number is not None:
        call = machine.waiting.get(number)
        description = call.kept[-1] if call is not None else None
    else:
        process = machine.processes.get(pid)
        description = process.descriptors.get(int(words[TARGETS[words[0]]])) if process and words[0] in TARGETS else None
    node = description.node if description is not None else None
    return node if type(node) is Pipe else None
