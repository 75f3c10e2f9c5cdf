"""What scripts of pairs take by piperun: beside a program that makes the same calls of the host, and each way of a run beside the plain one."""
from __future__ import annotations

import pathlib
import subprocess
import time
from typing import Dict, List

import programs
import table

# a line writes 64 bytes, and the next one reads them
PAIR = "1 write 1 64*61\n1 read 0 64\n"
ANSWERED_PAIR = "1 write 1 64*61\n# => count 64\n1 read 0 64\n# => data 64*61\n"
LINES, ROUNDS = 1_000_000, 12
QUICK_LINES, QUICK_ROUNDS = 10_000, 2
MILLISECONDS = 1000


def write(work: pathlib.Path, name: str, begin: str, pair: str, lines: int) -> str:
    """Writes a script of so many lines of pairs, behind its begin."""
    path = work / name
    path.write_text("piperun 2\n" + begin + pair * (lines // 2), encoding="utf-8")
    return str(path)


def milliseconds(command: List[str]) -> float:
    """How long a command takes whose output nobody wants. With a timeout Python would look only now and then whether it has ended."""
    begun = time.perf_counter()
    ran = subprocess.run(command, stdin=subprocess.DEVNULL, stdout=subprocess.DEVNULL, check=False)
    took = time.perf_counter() - begun
    if ran.returncode != 0:
        raise programs.Failed(f"{' '.join(command)}: status {ran.returncode}")
    return took * MILLISECONDS


def measure(piperun: pathlib.Path, host_calls: pathlib.Path, work: pathlib.Path, pace: str) -> List[table.Row]:
    """The rows of scripts. A script has at most 16 MiB, and so has a record. As that has the answers too, it has half as many lines."""
    lines, rounds = (QUICK_LINES, QUICK_ROUNDS) if pace == "quick" else (LINES, ROUNDS)
    script = write(work, "pairs.script", "start\n1 pipe\n", PAIR, lines)
    half = write(work, "half.script", "start\n1 pipe\n", PAIR, lines // 2)
    record = write(work, "half.record", "start\n# => pid 1\n1 pipe\n# => fds 0 1\n", ANSWERED_PAIR, lines // 2)
    commands = {
        "plain": [str(piperun), script],
        "host": [str(host_calls), str(lines // 2)],
        "live": [str(piperun), "--live", script],
        "half": [str(piperun), half],
        "check": [str(piperun), "--check", record],
    }
    samples: Dict[str, List[float]] = {name: [] for name in commands}
    for _ in range(rounds):
        for name, command in commands.items():
            samples[name].append(milliseconds(command))
    figures = {name: table.figures_of(taken) for name, taken in samples.items()}
    return [
        table.Row("scripts", "a script of pair lines by piperun", lines, "ms", figures["plain"], "the host's calls alone, by C", figures["host"]),
        table.Row("scripts", "the same with --live", lines, "ms", figures["live"], "without --live", figures["plain"]),
        table.Row("scripts", "a record of half as many lines with --check", lines // 2, "ms", figures["check"], "without --check", figures["half"]),
    ]
