"""Runs in which some steps find no memory, as docs/RULES.md has it in "Memory" and in "Scripts".

The machine always finds memory. So a step that finds none isn't made, which is all that it comes to.
"""
from __future__ import annotations

import copy
from typing import Container, Dict

from machine import Machine
from replies import FileContent, Plain, Reply, says_no
from script import Request

# These take no memory, whatever they answer (our own).
FRUGAL = frozenset(("close", "lseek", "getfl", "setfl", "getsz", "unlink", "exit", "interrupt"))
# These may end a waiting call also if the reply is an error.
OF_WAITING_CALLS = frozenset(("resume", "interrupt"))


class Wanting:
    """Answers the lines of a script, of which some are said to have found no memory: those of these places, counted from 0.

    If a line can't have found none, it is answered as if nobody had said so.
    """

    def __init__(self, places: Container[int]) -> None:
        self.places = places
        self.answered = 0
        # of lines that were asked about, since the machine last changed
        self._takes_memory: Dict[bytes, bool] = {}

    def __call__(self, machine: Machine, request: Request) -> Reply:
        self.answered += 1
        if self.answered - 1 in self.places and self._may_find_none(machine, request):
            return Plain.NO_MEMORY
        reply = request.step(machine)
        if not says_no(reply) or request.word in OF_WAITING_CALLS:
            self._takes_memory.clear()
        return reply

    def _may_find_none(self, machine: Machine, request: Request) -> bool:
        if request.word in FRUGAL:
            return False
        if request.line not in self._takes_memory:
            self._takes_memory[request.line] = takes_memory(request.step(copy.deepcopy(machine)))
        return self._takes_memory[request.line]


def takes_memory(reply: Reply) -> bool:
    """Whether what was answered may take memory. It is tested last, so a refusal takes none, and neither does a file that isn't there."""
    return reply.content is not None if isinstance(reply, FileContent) else not says_no(reply)
