"""The text of the script."""
from __future__ import annotations

from typing import Dict, List, Set, Tuple

from placing import Placer, Said, State
from reading import read_trace
from state import Limits
from tables import HOLDER
from turning import Operation, Turner

VERSION = "piperun 2"
MADE = "# Made by tools/from-strace. Behind `# =>` stands what the host answered. The numbers of comments are lines of the trace."
KEPT = f"# A number that stands for something else on the host is kept by the file {HOLDER}."


def script_and_notes(trace: str) -> Tuple[str, List[Tuple[int, str]]]:
    """The script of a trace, and what has to be told of it, each with a line of the trace."""
    turner = Turner(read_trace(trace))
    operations = turner.turn()
    limits = Limits(descriptors=turner.needs.descriptors)
    placer = Placer(operations, limits)
    last = placer.place()
    told = list(turner.told)
    told += [(operation.last or operation.first, what) for operation, what in placer.differences]
    for operation, other in placer.unordered():
        what = f"{operation.name} overlaps that of line {other.first}, and nothing but bytes tells which came first"
        told.append((operation.last or operation.first, what))
    return script_of(last, told, limits), sorted(told)


def listed(last: State) -> List[Said]:
    """What the script has, in its order."""
    found: List[Said] = []
    said = last.said
    while said is not None:
        found.append(said)
        said = said.before
    return found[::-1]


def head_of(limits: Limits) -> List[str]:
    """The first lines. Limits that aren't the usual ones stand in a header, as docs/RULES.md has it in "Records"."""
    header = [" ".join(["# piperun", *limits.words])] if limits.words else []
    return [VERSION, *header, MADE]


def script_of(last: State, told: List[Tuple[int, str]], limits: Limits) -> str:
    """The script of the last state, with what has to be told at the calls that it is told of."""
    notes: Dict[int, List[str]] = {}
    for line, what in told:
        notes.setdefault(line, []).append(what)
    entries = listed(last)
    lines = head_of(limits)
    if any(f" open {HOLDER} r creat" in said.words for said in entries):
        lines.append(KEPT)
    seen: Set[Operation] = set()
    previous = None
    for said in entries:
        operation = said.operation
        if operation not in seen or previous is not operation:
            lines += heads(last, operation, notes, operation in seen)
        seen.add(operation)
        previous = operation
        if said.words != "#":
            lines.append(said.words)
        if said.reply is not None:
            lines.append(f"# => {said.reply}")
    lines += [f"# {line}: told: {what}" for line in sorted(notes) for what in notes[line]]
    return "\n".join(lines) + "\n"


def heads(last: State, operation: Operation, notes: Dict[int, List[str]], is_again: bool) -> List[str]:
    """The comments before the lines of an operation."""
    process = operation.process
    if operation.name == "start":
        return [f"# {operation.first}: process {last.pids.get(process, 'none')} is {process.pid} on the host"]
    line = operation.last if is_again and operation.last is not None else operation.first
    child = operation.child
    made = f" makes {child.pid}, here process {last.pids.get(child, 'none')}" if child is not None else ""
    left = f": {', '.join(operation.comments)}" if operation.comments else ""
    found = [f"# {line}: {operation.program} {process.pid} {operation.name}{made}{left}"]
    for number in sorted({operation.first, line}):
        found += [f"# {number}: told: {what}" for what in notes.pop(number, [])]
    return found
