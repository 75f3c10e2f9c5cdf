"""Makes a script of piperun from a trace of a program: usage: from-strace [TRACE]

TRACE, or standard input, is what strace wrote by

  LC_ALL=C strace -f -y -s 1048576 -o TRACE -e trace=CALLS PROGRAM ..

CALLS, on one line:
  read,write,readv,writev,pwrite64,pwritev,close,close_range,dup,dup2,dup3,pipe,pipe2,fcntl,ioctl,open,openat,openat2,creat,unlink,unlinkat,
  mknod,mknodat,rename,renameat,renameat2,link,linkat,truncate,ftruncate,fallocate,lseek,poll,ppoll,select,pselect6,splice,tee,vmsplice,
  sendfile,copy_file_range,fork,vfork,clone,clone3,execve,execveat,exit,exit_group,chdir

The script makes the program's calls on pipes, on FIFOs and files that the trace makes or empties, and on what duplicates them. A comment
behind each has what the host answered. So `piperun --check SCRIPT` tells whether the layer answers the same. Calls on anything else aren't
in the script. A placeholder keeps a number that stands for such a thing, where a later descriptor depends on that.

A call that blocked is one that waits in the script, and is resumed where it returned. Calls of two processes that overlap have the order in
which they returned, unless their replies tell another one. What no line says, and what the trace doesn't tell, stands in the script as a
comment and on standard error.

If a process has a descriptor above 255, or a poll more than 256 entries, the script has a header `# piperun --descriptors-max N`, where N is
the least power of two that is enough. A check heeds it. To run the script, give piperun this option.

A trace that is cut or damaged becomes a script as far as what is left says so, or is refused: a line on standard error has the number of the
line of the trace and what is wrong, and nothing is printed.

Status: 0 good; 1 TRACE can't be read, or nothing can be written; 2 a bad command line, or TRACE is none, is damaged, or lacks what is needed;
3 TRACE is longer than 67108864 bytes; 4 no memory.
"""
from __future__ import annotations

import pathlib
import re
import sys
from typing import List

HERE = pathlib.Path(__file__).resolve().parent
sys.path.insert(1, str(HERE.parent / "model"))
sys.dont_write_bytecode = True

from reading import Unreadable  # noqa: E402
from writing import script_and_notes  # noqa: E402

MOST_BYTES = 67108864


def complain(what: str, status: int) -> int:
    """Tells a fault in one line. What comes of a trace may have bytes that a terminal takes for a command."""
    print(f"from-strace: {re.sub(r'[^ -~]', '?', what)}", file=sys.stderr)
    return status


def make(words: List[str]) -> int:
    """Reads the trace, and prints the script."""
    try:
        data = pathlib.Path(words[0]).read_bytes() if words else sys.stdin.buffer.read(MOST_BYTES + 1)
    except OSError:
        return complain("cannot read", 1)
    if len(data) > MOST_BYTES:
        return complain(f"the trace is longer than {MOST_BYTES} bytes", 3)
    try:
        script, told = script_and_notes(data.decode("latin-1"))
    except Unreadable as fault:
        return complain(str(fault), 2)
    for line, what in told:
        complain(f"line {line} of the trace: {what}", 0)
    try:
        sys.stdout.buffer.write(script.encode("latin-1"))
        sys.stdout.buffer.flush()
    except OSError:
        return complain("cannot write", 1)
    return 0


def main(words: List[str]) -> int:
    """Takes the command line."""
    if "-h" in words or "--help" in words:
        print(__doc__, end="")
        return 0
    if len(words) > 1 or any(word.startswith("-") for word in words):
        return complain("bad command line", 2)
    try:
        return make(words)
    except MemoryError:
        return complain("no memory", 4)


if __name__ == "__main__":
    sys.exit(main(sys.argv[1:]))
