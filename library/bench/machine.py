"""What the figures depend on: the machine, its kernel, and the compiler."""
from __future__ import annotations

import os
import pathlib
import platform
import re
import subprocess

import programs


def processor() -> str:
    """What the processors call themselves."""
    try:
        found = re.search(r"^model name\s*: (.*)$", pathlib.Path("/proc/cpuinfo").read_text(encoding="utf-8"), re.MULTILINE)
    except OSError:
        found = None
    return found.group(1) if found else platform.machine()


def compiler() -> str:
    """The first line in which the compiler names itself."""
    told = subprocess.run([*programs.compiler(), "--version"], capture_output=True, text=True, check=False).stdout
    return told.split("\n", 1)[0]


def described() -> str:
    """The machine in a list of Markdown."""
    load = os.getloadavg()[0]
    lines = [
        f"{len(os.sched_getaffinity(0))} of {os.cpu_count()} processors, {processor()}; a load of {load:.1f} before",
        f"{os.uname().sysname} {os.uname().release}",
        f"{compiler()}, with {programs.OPTIMIZED}",
        f"Bindingclay {programs.version()}",
    ]
    return "".join(f"- {line}\n" for line in lines)
