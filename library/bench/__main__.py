"""Prints what calls cost, each beside what a program has without the library: its host's pipes, memcpy, or a byte queue under a lock.

It prints the machine, and a table in Markdown for each group of rows. A row has the least figure of many rounds, their median, and the figure
that nine tenths of them don't exceed. It has the same of what is beside it, from the same rounds, and the ratio of the medians. If that is
below 1, the library takes less. Take figures on a machine without other work.

Environment, each with what is taken without it:
  PREFIX    where the library is installed    library/install.sh installs it for the run, by ARCHIVE and MEMORY
  PIPERUN   the program piperun               crates/piperun/out/piperun; scripts are passed over if it isn't there
  LOCKED    the program pl_bench              crates/pl_bench/out/pl_bench; the locked layer is passed over if it isn't there
  CC        the C compiler                    cc

The status is 1 if something can't be built or run, or if a figure isn't above 0.
"""
from __future__ import annotations

import argparse
import os
import pathlib
import sys
import tempfile
from typing import List

import locked
import machine
import plot
import programs
import scripts
import table


def passed_over(what: str) -> None:
    """Tells what isn't measured."""
    print(f"passed over: {what}", file=sys.stderr)


def measured(pace: str, work: pathlib.Path) -> List[table.Row]:
    """The rows of all programs, and of scripts."""
    library = programs.Library(work)
    rows: List[table.Row] = []
    for program in programs.PROGRAMS:
        if library.has(program):
            rows += table.read(library.run(program, pace))
        else:
            passed_over(f"{program.name}, as there is no lib{program.library}.a")
    piperun = pathlib.Path(os.environ.get("PIPERUN", programs.ROOT / "crates/piperun/out/piperun"))
    if os.access(piperun, os.X_OK):
        rows += scripts.measure(piperun.absolute(), library.build(programs.HOST_CALLS), work, pace)
    else:
        passed_over("scripts, as there is no piperun")
    of_threads = pathlib.Path(os.environ.get("LOCKED", programs.ROOT / "crates/pl_bench/out/pl_bench"))
    if os.access(of_threads, os.X_OK):
        rows += locked.measure(of_threads.absolute(), library.build(programs.HOST_JOBS), pace)
    else:
        passed_over("the locked layer, as there is no pl_bench")
    return rows


def main() -> int:
    """Takes the command line, measures, and writes what is asked for."""
    raw = argparse.RawDescriptionHelpFormatter
    parser = argparse.ArgumentParser(prog="library/bench", description=__doc__, formatter_class=raw)
    paces = parser.add_mutually_exclusive_group()
    paces.add_argument("--quick", action="store_true", help="few rounds, in some seconds, which show that all of it runs")
    paces.add_argument("--long", action="store_true", help="also a million calls that wait, and a stream of 1 GiB")
    parser.add_argument("--csv", type=pathlib.Path, metavar="FILE", help="writes the rows to FILE too, as comma-separated values")
    parser.add_argument("--plot", type=pathlib.Path, metavar="FILE", help="draws the ratios to FILE, as an SVG")
    asked = parser.parse_args()
    pace = "quick" if asked.quick else "long" if asked.long else "usual"
    try:
        print(machine.described(), flush=True)
        with tempfile.TemporaryDirectory() as work:
            rows = measured(pace, pathlib.Path(work))
        print(table.as_markdown(rows))
        if asked.csv:
            asked.csv.write_text(table.as_csv(rows), encoding="utf-8")
        if asked.plot:
            asked.plot.write_text(plot.as_svg(rows), encoding="utf-8")
    except (OSError, programs.Failed) as fault:
        print(f"bench: {fault}", file=sys.stderr)
        return 1
    faults = table.faults(rows)
    for fault in faults:
        print(f"bench: {fault}", file=sys.stderr)
    print(f"\n{len(rows)} rows")
    return 1 if faults else 0


if __name__ == "__main__":
    sys.exit(main())
