"""What threads take of the locked layer of Rattle, by pl_bench, beside the same threads at the host's pipes."""
from __future__ import annotations

import pathlib
from typing import Dict, List, NamedTuple

import programs
import table


class Job(NamedTuple):
    """A job of both programs: what a row calls it, how many bytes it moves at once, and how many rounds it has."""

    name: str
    what: str
    size: int
    rounds: int
    beside: str = "host's pipe"


JOBS = [
    Job("alone", "write and read, one thread", 64, 200_000),
    Job("handed", "the same, and the journal is handed out every 100 rounds", 64, 200_000),
    Job("pairs", "write and read, one thread, in a layer of 64 callers", 64, 200_000),
    Job("one2", "write and read, two threads at one pipe", 64, 50_000),
    Job("own2", "write and read, two threads at pipes of their own", 64, 50_000),
    Job("one4", "write and read, four threads at one pipe", 64, 50_000),
    Job("own4", "write and read, four threads at pipes of their own", 64, 50_000),
    Job("pingpong", "two threads that answer each other", 1, 20_000),
    Job("readers", "one thread writes, and 63 wait for what it writes", 1, 20_000),
    Job("answered", "the same, and who reads it answers", 1, 20_000),
    Job("stream", "a stream from thread to thread", 65_536, 4_000),
    Job("glance", "a thousand glances", 8, 10_000, "atomic loads"),
]
# These pairs leave a few entries fewer than a power of two, so that the journal has little room more than it needs.
ENTRY_ROUNDS = 32_760
RUNS, QUICK_RUNS, QUICK_PART = 15, 2, 20


def figure(program: pathlib.Path, job: str, rounds: int) -> float:
    """What a program prints of a job."""
    return float(programs.output([str(program), job, str(rounds)]))


def measure(ours: pathlib.Path, theirs: pathlib.Path, pace: str) -> List[table.Row]:
    """The rows of the locked layer."""
    rows = []
    for job in JOBS:
        rounds = job.rounds // QUICK_PART if pace == "quick" else job.rounds
        samples: Dict[pathlib.Path, List[float]] = {ours: [], theirs: []}
        for _ in range(QUICK_RUNS if pace == "quick" else RUNS):
            for program, taken in samples.items():
                taken.append(figure(program, job.name, rounds))
        rows.append(table.Row(
            "locked layer", job.what, job.size, "ns", table.figures_of(samples[ours]), job.beside, table.figures_of(samples[theirs])
        ))
    entry = table.figures_of([figure(ours, "entry", ENTRY_ROUNDS)])
    return rows + [table.Row("locked layer", "an entry of the journal, of a write or a read", 64, "bytes", entry)]
