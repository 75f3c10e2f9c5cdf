"""Prints what piperun prints of a script, by the model of the rules.

  python3 tools/model [--first-call N] [--descriptors-max N] [--descriptions-max N] [--processes-max N]
                      [--waiting-max N] [--waiting-of-each N] SCRIPT

It ends with the status of piperun for a script without a fault (0), one that can't be read (1), and one that is too long or has a bad
line (3). The model has memory without end, so it knows no other fault.
"""
from __future__ import annotations

import argparse
import pathlib
import sys
from typing import Callable

from script import Run, run
from state import OPTIONS, USUAL, Limits


def up_to(greatest: int) -> Callable[[str], int]:
    """A parser of the numbers from 0 to the greatest."""

    def number(text: str) -> int:
        if not 0 <= int(text) <= greatest:
            raise ValueError(text)
        return int(text)

    return number


def main() -> int:
    """Reads the command line, and runs the script."""
    parser = argparse.ArgumentParser(prog="model", description=__doc__, formatter_class=argparse.RawDescriptionHelpFormatter)
    for name, option in OPTIONS.items():
        parser.add_argument(option.word, dest=name, type=up_to(option.greatest), default=getattr(USUAL, name), metavar="N")
    parser.add_argument("script", type=pathlib.Path, metavar="SCRIPT")
    given = parser.parse_args()
    try:
        made = run(given.script.read_bytes(), Limits(**{name: getattr(given, name) for name in OPTIONS}))
    except OSError:
        made = Run([], "piperun: cannot read", 1)
    sys.stdout.buffer.write(made.output)
    if made.complaint:
        print(made.complaint, file=sys.stderr)
    return made.status


if __name__ == "__main__":
    sys.exit(main())
