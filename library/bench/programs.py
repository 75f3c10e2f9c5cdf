"""The programs that measure: how they are built over the library, and run."""
from __future__ import annotations

import os
import pathlib
import re
import shlex
import subprocess
from typing import List, NamedTuple, Tuple

HERE = pathlib.Path(__file__).resolve().parent
ROOT = HERE.parent.parent
OPTIMIZED = "-O2"
FLAGS = ["-std=c11", OPTIMIZED, "-Wall", "-Wextra", "-Werror"]
# an hour, though the longest takes some minutes
MOST_SECONDS = 3600


class Failed(Exception):
    """Something can't be built, or a program failed."""


class Program(NamedTuple):
    """A program: its sources, and the library of the project that it stands on besides bindingclay, if any."""

    name: str
    sources: Tuple[str, ...]
    library: str = "bindingclay"


PROGRAMS = [
    Program("calls", ("calls.c", "queue.c")),
    Program("moves", ("moves.c",)),
    Program("files", ("files.c",)),
    Program("waiting", ("waiting.c",)),
    Program("queues", ("queues.c",)),
    Program("threads", ("threads.c", "queue.c"), "bindingclay_shared"),
    Program("memory", ("memory.c", "queue.c")),
]
HOST_CALLS = Program("host_calls", ("host_calls.c",))
HOST_JOBS = Program("host_jobs", ("host_jobs.c",))


def compiler() -> List[str]:
    """The words by which the compiler is called."""
    return shlex.split(os.environ.get("CC", "cc"))


def version() -> str:
    """The version of the header."""
    header = (HERE.parent / "include/bindingclay.h").read_text(encoding="utf-8")
    return ".".join(re.findall(r"^#define BINDINGCLAY_VERSION_(?:MAJOR|MINOR|PATCH) (\d+)$", header, re.MULTILINE))


def output(command: List[str]) -> str:
    """What a command prints. If it fails, that is told with what it complains of."""
    try:
        ran = subprocess.run(command, capture_output=True, text=True, check=False, timeout=MOST_SECONDS)
    except subprocess.TimeoutExpired as late:
        raise Failed(f"{shlex.join(command)} takes more than {MOST_SECONDS} seconds") from late
    if ran.returncode != 0:
        raise Failed(f"{shlex.join(command)}: status {ran.returncode}\n{ran.stdout}{ran.stderr}")
    return ran.stdout


class Library:
    """The library that programs are built over, in a folder in which they are built."""

    def __init__(self, work: pathlib.Path) -> None:
        self.work = work
        self.prefix = pathlib.Path(os.environ.get("PREFIX", work / "prefix"))
        if "PREFIX" not in os.environ:
            output([str(HERE.parent / "install.sh"), str(self.prefix)])
        if not (self.prefix / "lib/libbindingclay.a").is_file():
            raise Failed(f"no library is installed below {self.prefix}")

    def has(self, program: Program) -> bool:
        """Whether there is what a program stands on. The front for threads is installed only if there was a compiler."""
        return (self.prefix / f"lib/lib{program.library}.a").is_file()

    def build(self, program: Program) -> pathlib.Path:
        """Builds a program."""
        built = self.work / program.name
        sources = [str(HERE / source) for source in program.sources]
        folders = [f"-I{self.prefix}/include", f"-L{self.prefix}/lib"]
        libraries = dict.fromkeys([f"-l{program.library}", "-lbindingclay"])
        output([*compiler(), *FLAGS, *folders, "-o", str(built), *sources, *libraries, "-pthread"])
        return built

    def run(self, program: Program, pace: str) -> str:
        """Builds a program, and tells what it prints."""
        return output([str(self.build(program)), pace])
