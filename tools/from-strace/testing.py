"""What the tests of from-strace share: short traces, and what comes of them."""
from __future__ import annotations

import pathlib
import sys
from typing import List

HERE = pathlib.Path(__file__).resolve().parent
sys.path[:0] = [str(HERE), str(HERE.parent / "model")]
sys.dont_write_bytecode = True

from script import run  # noqa: E402
from state import Limits, limits_of  # noqa: E402
from writing import script_and_notes  # noqa: E402

START = ["start => pid 1", "1 open placeholder r creat => fd 0", "1 dup2 0 1 => fd 1", "1 dup2 0 2 => fd 2"]
A, B = "<pipe:[7]>", "<pipe:[8]>"
PIPE = f"10 pipe2([3{A}, 4{A}], 0) = 0"
PIPED = "1 pipe => fds 3 4"
FORK = "10 clone(child_stack=NULL, flags=CLONE_CHILD_CLEARTID|CLONE_CHILD_SETTID|SIGCHLD, child_tidptr=0x7f) = 11"


def turned(*trace: str) -> List[str]:
    """The lines of the script of a trace, each with the reply that it expects."""
    script, _ = script_and_notes("\n".join(trace) + "\n")
    lines: List[str] = []
    for line in script.split("\n"):
        if line.startswith("# => "):
            lines[-1] += line[1:]
        elif line and not line.startswith("#"):
            lines.append(line)
    return lines[1:]


def told(*trace: str) -> List[str]:
    """What is told of a trace."""
    return [f"{line}: {what}" for line, what in script_and_notes("\n".join(trace) + "\n")[1]]


def header_of(script: str) -> Limits:
    """The limits that the header of a script of version 2 names."""
    words = script.split("\n")[1].split()
    return limits_of(words[2:]) if words[:2] == ["#", "piperun"] else Limits()


def compared(script: str) -> List[str]:
    """The replies of a script that the model gives otherwise, by docs/RULES.md, Records. The first says how many there are."""
    answers = {answer.line: answer.text for answer in run(script.encode("latin-1"), header_of(script)).answers}
    found, last, count = [], "", 0
    for number, line in enumerate(script.split("\n"), 1):
        last = answers.get(number, last)
        if line.startswith("# => "):
            count += 1
            if line[5:] != last:
                found.append(f"line {number}: {line[5:]}, and not {last}")
    return [str(count), *found]
