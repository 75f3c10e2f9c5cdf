"""Tests of steps that are taken back: scripts that tools/model draws, with steps taken back all along, and how the work grows with a trace."""
from __future__ import annotations

import pathlib
import random
import sys
import unittest
from typing import Any, Dict, List, Set

sys.path.insert(0, str(pathlib.Path(__file__).resolve().parent))
sys.dont_write_bytecode = True

from testing import FORK, PIPE, A, turned  # noqa: E402
from draw import draw  # noqa: E402
from machine import Machine  # noqa: E402
from script import BadLine, Request, lines_of, parse_line, reply_text, version_of  # noqa: E402
from undoing import Journal, Layer  # noqa: E402

SCRIPTS = 30


def requests_of(script: bytes) -> List[Request]:
    """What the lines of a script ask, as far as they are lines."""
    lines = lines_of(script)
    found: List[Request] = []
    for line in lines:
        try:
            request = parse_line(line, version_of(lines))
        except BadLine:
            continue
        if request is not None:
            found.append(request)
    return found


def plain(thing: Any, seen: Dict[int, int]) -> Any:
    """Something of a machine as plain values: what is met again stands as the number under which it was met first."""
    if isinstance(thing, dict):
        return sorted(((repr(key), plain(value, seen)) for key, value in sorted(thing.items(), key=lambda item: repr(item[0]))))
    if isinstance(thing, (list, tuple)):
        return [plain(item, seen) for item in thing]
    if isinstance(thing, (bytes, bytearray)):
        return bytes(thing)
    if not hasattr(thing, "__dict__") or hasattr(thing, "_value_"):
        return repr(thing)
    if id(thing) in seen:
        return seen[id(thing)]
    seen[id(thing)] = len(seen)
    return [type(thing).__name__, [(name, plain(value, seen)) for name, value in sorted(vars(thing).items())]]


def state_of(machine: Machine) -> Any:
    """All of a machine."""
    seen: Dict[int, int] = {}
    tables = (machine.processes, machine.names, machine.waiting, machine.next_call, machine.live_descriptions)
    return [plain(dict(table) if isinstance(table, dict) else table, seen) for table in tables]


class Undoing(unittest.TestCase):
    """A layer that went back is what it was."""

    def test_drawn_scripts(self) -> None:
        """Between two steps others of the script are made and taken back. The replies and the state are those of a machine that makes none."""
        kinds: Set[str] = set()
        for seed in range(SCRIPTS):
            drawn, chance = draw(seed), random.Random(seed)
            requests, journal = requests_of(drawn.script), Journal()
            layer, machine = Layer(journal, drawn.limits), Machine(drawn.limits)
            for place, request in enumerate(requests):
                if place % 3 == 0:
                    mark = journal.mark
                    for other in chance.choices(requests, k=6):
                        layer.make(other)
                    journal.back_to(mark)
                    if place % 30 == 0:
                        self.assertEqual(state_of(layer), state_of(machine), f"seed {seed}, step {place}")
                if place % 50 == 0:
                    journal.forget(journal.mark)
                found = reply_text(layer.make(request))
                self.assertEqual(found, reply_text(request.step(machine)), f"seed {seed}, step {place}")
                kinds.add(f"{request.word} {found.split()[0]}")
            self.assertEqual(state_of(layer), state_of(machine), f"seed {seed}")
        # what is taken back has to be of many kinds: calls of all words, with success and with a wait
        for kind in ("exit ok", "fork pid", "read data", "read parked", "write count", "write parked", "splice count", "tee count", "open parked",
                     "resume fd", "resume data", "resume count", "interrupt EINTR", "close ok", "dup2 fd", "lseek offset", "setfl ok", "unlink ok"):
            self.assertIn(kind, kinds)


def work(trace: List[str]) -> int:
    """How many functions are called to make the script of a trace. It is the same each time."""
    count = 0

    def called(_: Any, event: str, __: Any) -> None:
        nonlocal count
        count += event == "call"

    sys.setprofile(called)
    try:
        turned(*trace)
    finally:
        sys.setprofile(None)
    return count


class Growth(unittest.TestCase):
    """The work grows with the length of a trace, and not with its square."""

    @staticmethod
    def files(count: int) -> List[str]:
        """A trace that makes so many files."""
        found: List[str] = []
        for number in range(count):
            path = f"/tmp/f{number}"
            found += [f'10 openat(AT_FDCWD</tmp>, "f{number}", O_WRONLY|O_CREAT|O_TRUNC, 0600) = 3<{path}>', f'10 write(3<{path}>, "hello", 5) = 5',
                      f"10 close(3<{path}>) = 0"]
        return found

    def test_files(self) -> None:
        few, many = work(self.files(100)), work(self.files(400))
        self.assertLess(many, 4.2 * few)

    def test_writes_that_overlap(self) -> None:
        """Twenty writes of which one read tells that each four came in the order against that of their returns."""
        letters = "dcbahgfelkjiponmtsrq"
        begun = [f'{11 + place} write(4{A}, "{letter}", 1 <unfinished ...>' for place, letter in enumerate(sorted(letters))]
        ended = [f"{11 + place} <... write resumed>) = 1" for place in range(len(letters))]
        forks = [FORK.replace("= 11", f"= {11 + place}") for place in range(len(letters))]
        trace = [PIPE, *forks, *begun, *ended, f'10 read(3{A}, "{letters}", 99) = 20']
        found = [line.split()[3] for line in turned(*trace) if " write " in line]
        self.assertEqual(found, [letter.encode().hex() for letter in letters])
        self.assertLess(work(trace), 100000)


if __name__ == "__main__":
    unittest.main()
