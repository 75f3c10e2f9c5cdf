"""Tests of from-strace over traces that are cut or damaged: each becomes a script, or is refused with the number of a line and what is wrong."""
from __future__ import annotations

import pathlib
import random
import subprocess
import sys
import unittest
from typing import Iterator, List, Tuple

HERE = pathlib.Path(__file__).resolve().parent
REAL = HERE.parent.parent / "crates" / "pl_examples" / "data" / "real"
sys.path.insert(0, str(HERE))
sys.dont_write_bytecode = True

from testing import FORK, PIPE, PIPED, START, A, script_and_notes, told, turned  # noqa: E402
from reading import Unreadable  # noqa: E402

REFUSED = r"line [0-9]+ of the trace\b"
# what replaces a number: limits of 8, 32 and 64 bits, and more digits than Python reads
NUMBERS = ("-1", "0", "1", "255", "256", "4294967296", "99999999999999999999", "9" * 5000)


def cuts(lines: List[str]) -> Iterator[Tuple[str, List[str]]]:
    """A trace cut in front of each line, and behind each."""
    for at in range(1, len(lines)):
        yield f"cut in front of line {at + 1}", lines[at:]
        yield f"cut behind line {at}", lines[:at]


def damaged(line: str, draw: random.Random) -> str:
    """A line of which something is lost, doubled or replaced."""
    at = draw.randrange(len(line))
    how = draw.randrange(5)
    if how == 0:
        return line[:at] + line[at + 1 :]
    if how == 1:
        return line[:at] + line[at] + line[at:]
    if how == 2:
        return line[:at] + chr(draw.randrange(32, 256)) + line[at + 1 :]
    if how == 3:
        return line[:at]
    digit = line.find(str(draw.randrange(10)), at)
    return line if digit < 0 else line[:digit] + draw.choice(NUMBERS) + line[digit + 1 :]


def alterations(lines: List[str], draw: random.Random) -> Iterator[Tuple[str, List[str]]]:
    """A trace in which each line in its turn is lost, doubled, exchanged for another one, or damaged."""
    for at, line in enumerate(lines):
        front, rest, other = lines[:at], lines[at + 1 :], draw.randrange(len(lines))
        how = draw.randrange(6)
        if how == 0:
            yield f"without line {at + 1}", front + rest
        elif how == 1:
            yield f"line {at + 1} twice", [*front, line, line, *rest]
        elif how == 2:
            exchanged = list(lines)
            exchanged[at], exchanged[other] = exchanged[other], exchanged[at]
            yield f"lines {at + 1} and {other + 1} exchanged", exchanged
        else:
            yield f"line {at + 1} damaged", [*front, damaged(line, draw), *rest]


class Damage(unittest.TestCase):
    """The traces of examples/real, damaged by a generator with a seed."""

    def answer(self, lines: List[str]) -> None:
        """A script comes of it, or it is refused with the number of a line. All else fails the test."""
        try:
            script, _ = script_and_notes("".join(line + "\n" for line in lines))
        except Unreadable as fault:
            self.assertRegex(str(fault), REFUSED)
        else:
            self.assertTrue(script.startswith("piperun 2\n"))

    def check(self, kind: str) -> None:
        """All damage of a kind, over all traces."""
        traces = sorted(REAL.glob("*.strace"))
        self.assertGreaterEqual(len(traces), 5)
        for seed, trace in enumerate(traces):
            lines = trace.read_text(encoding="latin-1").split("\n")[:-1]
            for name, changed in cuts(lines) if kind == "cuts" else alterations(lines, random.Random(seed)):
                with self.subTest(f"{trace.name}: {name}"):
                    self.answer(changed)

    def test_cuts(self) -> None:
        self.check("cuts")

    def test_alterations(self) -> None:
        self.check("alterations")

    def test_program(self) -> None:
        """The program prints a script, or one line on standard error."""
        lines = (REAL / "logger.strace").read_bytes().split(b"\n")[:-1]
        for name, changed in (
            ("cut in front", lines[40:]), ("cut behind", lines[:40]), ("twice", [*lines[:30], lines[29], *lines[30:]]),
            ("no pid", [*lines[:30], b"\xff\x1b[31m", *lines[30:]]), ("no trace", [b"\0" * 99]),
            ("a name with bytes of a terminal", [*lines[:8], b"25353 write(9<pipe:[1\x1b[31m\xff]>, \"a\", 1) = 1", *lines[8:]]),
        ):
            with self.subTest(name):
                found = subprocess.run([sys.executable, "-B", str(HERE)], input=b"\n".join(changed) + b"\n", capture_output=True, check=False, timeout=60)
                self.assertIn(found.returncode, (0, 2), found.stderr)
                self.assertNotRegex(found.stderr, rb"[^ -~\n]")
                if found.returncode:
                    self.assertRegex(found.stderr.decode("ascii"), rf"\Afrom-strace: {REFUSED}[^\n]*\n\Z")
                    self.assertEqual(found.stdout, b"")


class Faults(unittest.TestCase):
    """Single faults, and what is said of each."""

    def refused(self, what: str, *trace: str) -> None:
        """A trace is refused."""
        with self.assertRaisesRegex(Unreadable, what):
            turned(*trace)

    def test_first_call_is_a_fork(self) -> None:
        """A process is there before it forks, though the trace has nothing of it before."""
        found = turned(FORK, "11 pipe2([3<pipe:[7]>, 4<pipe:[7]>], 0) = 0")
        self.assertEqual(found, [*START, "1 fork => pid 2", "2 pipe => fds 3 4"])

    def test_child_of_one_that_was_killed(self) -> None:
        """The fork was before the end of who made it, whenever the child is first seen."""
        found = turned(PIPE, "10 clone(child_stack=NULL, flags=SIGCHLD <unfinished ...>", "10 +++ killed by SIGKILL +++", f"11 close(3{A}) = 0")
        self.assertEqual(found, [*START, PIPED, "1 fork => pid 2", "1 exit => ok", "2 close 3 => ok"])

    def test_thread_that_ended(self) -> None:
        end = "10 +++ exited with 0 +++"
        self.refused("^line 3 of the trace: thread 10 ended at line 2", PIPE, end, end)
        self.refused("^line 3 of the trace: thread 10 ended at line 2", PIPE, end, f"10 close(3{A}) = 0")

    def test_process_that_was_there(self) -> None:
        self.refused("^line 3 of the trace makes process 11, which was there at line 2", PIPE, FORK, FORK)
        self.refused("^line 2 of the trace makes process 11, which was there at line 1", "11 getpid() = 11", FORK)
        self.refused("^line 1 of the trace makes process 10, which was there at line 1", FORK.replace("= 11", "= 10"))

    def test_descriptor_above_all(self) -> None:
        self.refused("^line 2 of the trace: process 10 has descriptor 65536", PIPE, f"10 dup2(4{A}, 65536) = 65536{A}")

    def test_numbers_that_no_script_has(self) -> None:
        """A length of 33 bits has no line, and no number of 5,000 digits is read."""
        what = "2: read isn't in the script: a script has no such number, name or length"
        self.assertEqual(told(PIPE, f"10 read(3{A}, 0x7f, 4294967296) = -1 EINVAL (x)"), [what])
        self.assertEqual(turned(PIPE, f"10 read({'9' * 5000}{A}, 0x7f, 1) = -1 EBADF (x)"), [*START, PIPED])
        self.refused("^line 1 of the trace", "9" * 5000 + " close(3) = 0")

    def test_flags_that_are_lost(self) -> None:
        found = told('10 openat(AT_FDCWD</tmp>, "f", O_RONLY|O_CREAT, 0600) = 3</tmp/f>')
        self.assertEqual(found, ["1: openat isn't in the script: O_RONLY|O_CREAT doesn't tell whether it reads or writes"])

    def test_depth(self) -> None:
        """Brackets within brackets are no line that can be read."""
        self.assertEqual(turned(PIPE, f"10 write(4{A}, {'[' * 100000}"), [*START, PIPED])

    def test_more_processes_than_a_script_has(self) -> None:
        """The layer has 1,024 processes: a later fork differs, and so does each call of what it made."""
        forks = [f"10 fork() = {pid}" for pid in range(11, 1036)]
        found = told(PIPE, *forks, f"1035 close(3{A}) = 0")
        front = "in no order of these calls does the layer answer so: it answers"
        self.assertEqual(found, [f"1025: {front} EAGAIN", f"1026: {front} EAGAIN", f"1027: {front} no process"])


if __name__ == "__main__":
    unittest.main()
