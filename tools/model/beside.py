"""piperun beside the model: what a program printed of a script, and in what that differs from what the model prints."""
from __future__ import annotations

import pathlib
import subprocess
from typing import IO, Iterator, List, NamedTuple, Optional, Tuple

from draw import Drawn
from script import Run, lines_of
from state import Limits, limits_of

ROOT = pathlib.Path(__file__).resolve().parent.parent.parent
EXAMPLES = ROOT / "crates" / "pl_examples" / "data"
# scripts within other limits than the usual ones
WITHIN = ROOT / "library" / "tests" / "other_limits"
# an answer is told as far as this
MOST_TOLD = 80


class Ended(NamedTuple):
    """What a program printed, also to standard error, and the status with which it ended."""

    output: str
    complaint: str
    status: int


def ended(command: List[str], script: Optional[bytes] = None, stdin: Optional[IO[bytes]] = None) -> Ended:
    """Runs a program on a script: on its bytes through a pipe, or on an open file."""
    done = subprocess.run(command, input=script, stdin=stdin, capture_output=True, check=False, timeout=120)
    return Ended(done.stdout.decode("latin-1"), done.stderr.decode("latin-1"), done.returncode)


def shortened(text: str) -> str:
    """The front of a text, as it is told."""
    return repr(text) if len(text) <= MOST_TOLD else f"{text[:MOST_TOLD]!r}.. ({len(text)} characters)"


def all_of(made: Run) -> Ended:
    """A run of the model as that of a program."""
    return Ended(made.output.decode("ascii"), f"{made.complaint}\n" if made.complaint else "", made.status)


def difference(made: Run, found: Ended, script: bytes) -> str:
    """In what the model and piperun differ, at the first line that they answer otherwise; nothing if they answer the same."""
    for answer, text in zip(made.answers, found.output.split("\n")):
        if answer.text != text:
            asked = lines_of(script)[answer.line - 1].decode("latin-1")
            return f"line {answer.line}, {shortened(asked)}: the model {shortened(answer.text)}, piperun {shortened(text)}"
    wanted = all_of(made)
    return "" if found == wanted else f"the model ends with {behind_answers(wanted)}, piperun with {behind_answers(found)}"


def behind_answers(run_of: Ended) -> str:
    """What is told of two runs of which one has the answers of the other, and perhaps more."""
    count = run_of.output.count("\n")
    return f"status {run_of.status} and {shortened(run_of.complaint)} behind {count} answers"


def limits_beside(script: pathlib.Path) -> Limits:
    """The limits within which a script is run. They stand in a file of arguments beside it, if there is one."""
    arguments = script.with_suffix(".args")
    return limits_of(arguments.read_text(encoding="ascii").split()) if arguments.exists() else Limits()


def scripts_below(folder: pathlib.Path) -> Iterator[Tuple[str, Drawn]]:
    """The scripts of a folder, each with its name."""
    for script in sorted(folder.rglob("*.script")):
        yield str(script.relative_to(folder)), Drawn(script.read_bytes(), limits_beside(script))


def examples() -> Iterator[Tuple[str, Drawn]]:
    """The scripts of the examples."""
    return scripts_below(EXAMPLES)


def within_other_limits() -> Iterator[Tuple[str, Drawn]]:
    """The scripts that are run within other limits than the usual ones."""
    return scripts_below(WITHIN)
