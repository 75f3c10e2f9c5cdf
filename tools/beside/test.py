"""Tests of beside on a Linux host: python3 tools/beside/test.py BESIDE [PIPERUN | --sessions]

What calls answer is given here by POSIX.1-2017, pipe(7) and fifo(7), and by the columns of docs/LINUX.md. With --sessions these scripts
alone are run. Beside PIPERUN, each script of
docs/LINUX.md, docs/RULES.md and examples/ and 500 drawn ones may differ only by what a row of docs/LINUX.md explains. The last line is
'N passed, M failed', and the status is 1 if one failed.
"""
from __future__ import annotations

import os
import pathlib
import re
import subprocess
import sys
import tempfile
from typing import Iterator, List, NamedTuple, Tuple

ROOT = pathlib.Path(__file__).resolve().parent.parent.parent
sys.dont_write_bytecode = True
sys.path[:0] = [str(ROOT / "tools" / "documents"), str(ROOT / "tools" / "model")]

import markdown  # noqa: E402
from beside import examples  # noqa: E402
from draw import draw  # noqa: E402

DRAWN = 500
PAGE = (ROOT / "docs" / "LINUX.md").read_text(encoding="utf-8")
FULL_TABLE = ["1 pipe"] * 128

# Scripts with what each line prints, by POSIX and Linux's manual pages. Calls that wait are resumed where both ways of waiting agree.
SESSIONS = {
    "a pipe keeps order (pipe)": "start => pid 1; 1 pipe => fds 0 1; 1 write 1 6162 => count 2; 1 write 1 63 => count 1; 1 read 0 9 => data 616263",
    "end of file behind the last writer (read)": "start => pid 1; 1 pipe => fds 0 1; 1 write 1 61 => count 1; 1 close 1 => ok; "
    "1 read 0 9 => data 61; 1 read 0 9 => data -",
    "a broken pipe (write, EPIPE)": "start => pid 1; 1 pipe => fds 0 1; 1 close 0 => ok; 1 write 1 61 => EPIPE sigpipe",
    "a signal behind the first bytes (write; pipe(7))": "start => pid 1; 1 pipe => fds 0 1; 1 write 1 70000*61 => parked 1; 1 close 0 => ok; "
    "resume 1 => count 65536 sigpipe",
    "a read that waits (read)": "start => pid 1; 1 pipe => fds 0 1; 1 read 0 9 => parked 1; resume 1 => parked 1; 1 write 1 6162 => count 2; "
    "resume 1 => data 6162; resume 1 => no call",
    "a read that is interrupted (read, EINTR)": "start => pid 1; 1 pipe => fds 0 1; 1 read 0 9 => parked 1; interrupt 1 => EINTR; "
    "interrupt 1 => no call",
    "a child shares an offset (fork)": "start => pid 1; 1 open f rw creat => fd 0; 1 fork => pid 2; 2 write 0 616263 => count 3; "
    "1 lseek 0 0 cur => offset 3; file f => file 616263",
    "opens have offsets of their own (open)": "start => pid 1; 1 open f rw creat => fd 0; 1 open f rw => fd 1; 1 write 0 6162 => count 2; "
    "1 lseek 1 0 cur => offset 0; 1 unlink f => ok; file f => no file; 1 read 1 9 => data 6162",
    "a FIFO's opens meet (open)": "start => pid 1; 1 mkfifo q => ok; start => pid 2; 1 open q r => parked 1; 2 open q w => fd 0; resume 1 => fd 0; "
    "2 write 0 61 => count 1; 1 read 0 1 => data 61; 2 exit => ok; 1 read 0 1 => data -; 2 read 0 1 => no process",
    "a FIFO without a reader (open, ENXIO)": "start => pid 1; 1 mkfifo q => ok; 1 open q w nonblock => ENXIO; 1 mkfifo q => EEXIST; "
    "1 open q w => parked 1; interrupt 1 => EINTR; 1 open q r nonblock => fd 0; 1 read 0 1 => data -",
    "an open that waits ends with its process": "start => pid 1; 1 mkfifo q => ok; start => pid 2; 1 open q r => parked 1; 1 exit => ok; "
    "resume 1 => no call; 2 open q w nonblock => ENXIO",
    "a poll that waits (poll)": "start => pid 1; 1 pipe => fds 0 1; 1 poll wait 0:in => parked 1; 1 write 1 61 => count 1; "
    "resume 1 => masks 1 in; 1 poll now 0:in 1:out 9:in => masks 3 in out nval",
    "a splice and a tee (splice(2); tee(2))": "start => pid 1; 1 pipe => fds 0 1; 1 pipe => fds 2 3; 1 open f rw creat => fd 4; "
    "1 write 1 616263 => count 3; 1 tee 0 3 9 => count 3; 1 splice 0 - 4 - 2 => count 2; 1 read 2 9 => data 616263; file f => file 6162",
    "the most descriptors (open, EMFILE)": "start => pid 1; " + "".join(f"1 pipe => fds {n} {n + 1}; " for n in range(0, 256, 2))
    + "1 dup 0 => EMFILE; 1 dup 256 => EBADF; 1 close 255 => ok; 1 dup 0 => fd 255; 1 dup2 0 256 => EBADF",
    "the longest file (write, EFBIG)": "start => pid 1; 1 open f rw creat => fd 0; 1 lseek 0 16777214 set => offset 16777214; "
    "1 write 0 616263 => count 2; 1 write 0 61 => EFBIG",
    "names stay in the folder": "start => pid 1; 1 open %2fetc%2fpasswd r => not made; 1 open .. r => ENOENT; 1 open . rw creat => fd 0; "
    "1 write 0 61 => count 1; file . => file 61; file .%2f. => no file",
    "packets by version 2 (pipe(2), O_DIRECT)": "piperun 2 => ; start => pid 1; 1 pipe direct => fds 0 1; 1 write 1 5*61+62 => count 6; "
    "1 write 1 63 => count 1; 1 read 0 9 => data 5*61+62; 1 read 0 9 => data 63",
}
# Rows of the table of packet pipes, each with a script of version 2, and what its last line answers here and on Linux (pipe(2), O_DIRECT).
PACKETS = [
    ("*SetFl* doesn't clear `DIRECT`.", "1 pipe direct; 1 setfl 1 -; 1 write 1 616263; 1 write 1 6465; 1 read 0 4", "data 616263", "data 61626364"),
    ("A splice and a tee of a packet pipe are refused, whichever side it is.", "1 pipe direct; 1 write 1 61; 1 pipe; 1 tee 0 3 1", "EINVAL", "count 1"),
]
# Command lines, each with what is on standard input, and the status.
STATUSES: List[Tuple[List[str], str, int]] = [
    (["--help"], "", 0), (["-h", "--other"], "", 0), (["--other"], "", 2), (["--first-call"], "", 2), (["--first-call", "1x"], "", 2),
    (["a", "b"], "", 2), (["no/such/file"], "", 1), ([], "start\n1 read 0\nstart\n", 3), ([], "1 dup 2147483648\n", 3), ([], "x\n", 3),
    ([], " piperun 2\n", 3), ([], "1 write 0 616\n", 3), ([], "1 write 0 16777217*61\n", 3), ([], "#" * 16777217, 3), ([], "", 0),
    ([], "\t\r\n# 1 read\nstart", 0), (["--first-call", "18446744073709551615"], "start\n1 pipe\n1 read 0 1\n", 0),
]


class Ran(NamedTuple):
    """What a run printed, and its status."""

    lines: List[str]
    complaint: str
    status: int


class Tests:
    """Runs beside, and counts."""

    def __init__(self, program: str, piperun: str) -> None:
        self.program, self.piperun = program, piperun
        self.passed = self.failed = 0

    def run(self, words: List[str], script: bytes, piperun: str = "") -> Ran:
        """Runs beside on a script. The folder of its files has to be gone afterwards."""
        with tempfile.TemporaryDirectory(dir="/dev/shm" if os.access("/dev/shm", os.W_OK) else None) as folder:
            env = {**os.environ, "TMPDIR": folder, "PIPERUN": piperun or self.piperun}
            ran = subprocess.run([self.program, *words], input=script, capture_output=True, env=env, check=False, timeout=120)
            left = os.listdir(folder)
        complaint = ran.stderr.decode("latin-1") + ("a folder is left" if left else "")
        return Ran(ran.stdout.decode("latin-1").splitlines(), complaint, ran.returncode)

    def check(self, called: str, wanted: object, found: object) -> None:
        """Counts a test, and tells one that failed."""
        if wanted == found:
            self.passed += 1
        else:
            self.failed += 1
            print(f"FAILED: {called}: wanted {str(wanted)[:300]}, found {str(found)[:300]}")

    def end(self) -> int:
        """Tells the counts."""
        print(f"{self.passed} passed, {self.failed} failed")
        return int(self.failed != 0)

    def sessions(self) -> None:
        """The scripts of POSIX, in both ways of waiting."""
        for called, session in SESSIONS.items():
            pairs = [pair.strip().split(" => ") for pair in re.split(r";(?= )", session)]
            script = "\n".join(pair[0].replace(" =>", "") for pair in pairs).encode("ascii")
            wanted = [pair[1] for pair in pairs if len(pair) > 1]
            for words in ([], ["--threads"]):
                self.check(f"{called} {words}", Ran(wanted, "", 0), self.run(words, script))

    def statuses(self) -> None:
        """What the command line and bad scripts come to."""
        for words, script, status in STATUSES:
            found = self.run(words, script.encode("ascii"))
            self.check(f"{words}, {script[:40]!r}: the status", status, found.status)
            self.check(f"{words}, {script[:40]!r}: complains in one line", status != 0, found.complaint.count("\n") == 1)

    def rows(self) -> None:
        """Each row of docs/LINUX.md with a script: the host answers its last column, and beside names it."""
        for number, what, script, _, host in rows_with_scripts():
            found = self.run(["--threads"], script)
            self.check(f"docs/LINUX.md:{number}: the host's answer", host, found.lines[-1:])
            if self.piperun:
                told = self.run(["--threads", "--diff"], script)
                named = [line.strip() for line in told.lines if line.startswith("  docs/LINUX.md: ")]
                self.check(f"docs/LINUX.md:{number}: the row that is named", (0, [f"docs/LINUX.md: {what}"]), (told.status, named[:1]))

    def rows_of_packets(self) -> None:
        """Rows whose calls a script of version 2 makes."""
        for what, script, here, host in PACKETS:
            lines = "\n".join(["piperun 2", "start", *script.split("; ")]).encode("ascii")
            self.check(f"{what} the host's answer", host, self.run([], lines).lines[-1])
            if self.piperun:
                told = ["  here   " + here, "  host   " + host, "  docs/LINUX.md: " + what]
                self.check(f"{what} the row that is named", told, self.run(["--diff"], lines).lines[1:4])

    def names_of_rows(self) -> None:
        """Each row that beside can name is one of docs/LINUX.md."""
        firsts = {row[next(iter(row))] for table in markdown.tables(PAGE) for _, row in table}
        points = {" ".join(point.split()).rstrip(";.") for point in re.findall(r"^- ([^-]*)", PAGE, re.MULTILINE)}
        source = (ROOT / "tools" / "beside" / "rows.c").read_text(encoding="utf-8")
        named = re.findall(r'\{ of_\w+, "(.*)" \}', source)
        self.check("the rows that are named", [], [row for row in named if row not in firsts and row not in points])
        self.check("there are rows", True, len(named) > 20)

    def differences(self) -> None:
        """No script of the documents, of the examples and of those that are drawn has a difference that no row explains."""
        scripts = [*scripts_of_rules(), *((name, drawn.script, drawn.limits.first_call) for name, drawn in examples())]
        scripts += [(f"seed {seed}", draw(seed).script, draw(seed).limits.first_call) for seed in range(1, DRAWN + 1)]
        for called, script, first_call in scripts:
            found = self.run(["--diff", "--first-call", str(first_call)], script)
            told = [line for line in found.lines if "no row" in line] + ([found.complaint] if found.status not in (0, 3) else [])
            self.check(f"{called}: differences without a row", [], told)

    def session_of_guide(self) -> None:
        """The guide shows what beside prints."""
        text = (ROOT / "docs" / "guide" / "scripts-and-replay.md").read_text(encoding="utf-8")
        shown = next(block.text for block in markdown.blocks(text) if block.language == "text" and "docs/LINUX.md" in block.text)
        script = (ROOT / "crates" / "pl_examples" / "data" / "full_pipe.script").read_bytes()
        self.check("the guide's session", shown.splitlines(), self.run(["--diff"], script).lines)

    def false_piperun(self) -> None:
        """A difference that no row explains is told, and its status is 5. A program that isn't there is told too."""
        with tempfile.TemporaryDirectory() as folder:
            liar = pathlib.Path(folder) / "liar"
            liar.write_text("#!/bin/sh\nprintf 'pid 1\\nfds 0 1\\ncount 2\\n'\n", encoding="ascii")
            liar.chmod(0o755)
            found = self.run(["--diff"], b"start\n1 pipe\n1 dup 0\n", str(liar))
            self.check("a difference", 5, found.status)
            self.check("its line", ["line 3: 1 dup 0", "  here   count 2", "  host   fd 2", "  no row of docs/LINUX.md explains this"], found.lines[:4])
            self.check("no piperun", 1, self.run(["--diff"], b"start\n", str(liar) + "2").status)


def rows_with_scripts() -> Iterator[Tuple[int, str, bytes, str, List[str]]]:
    """The rows of docs/LINUX.md with a script: what it is about, the script, and what its last line answers here and on Linux."""
    for table in markdown.tables(PAGE):
        for number, row in table:
            if "Script" in row:
                before = FULL_TABLE if row["Script"].startswith("a full table, then ") else []
                lines = ["start", *before, *(line.strip() for line in markdown.code_of(row["Script"])[0].split(";"))]
                here = next(markdown.code_of(cell)[0] for head, cell in row.items() if head.startswith("Here"))
                yield number, row["What"], "\n".join(lines).encode("ascii"), here, markdown.code_of(row["Linux"])[:1]


def scripts_of_rules() -> Iterator[Tuple[str, bytes, int]]:
    """The scripts of tables in the documents: a column has the lines."""
    for path in sorted((ROOT / "docs").rglob("*.md")):
        for table in markdown.tables(path.read_text(encoding="utf-8")):
            if {"Line", "Reply", "Why"} == set(table[0][1]):
                lines = [code for _, row in table for code in markdown.code_of(row["Line"])]
                yield f"{path.name}:{table[0][0]}", "\n".join(lines).encode("ascii"), 1


def main(words: List[str]) -> int:
    """Runs all tests."""
    alone = words[1:] == ["--sessions"]
    tests = Tests(words[0], words[1] if len(words) > 1 and not alone else "")
    tests.sessions()
    if alone:
        return tests.end()
    tests.statuses()
    tests.names_of_rows()
    tests.rows()
    tests.rows_of_packets()
    tests.false_piperun()
    if tests.piperun:
        tests.session_of_guide()
        tests.differences()
    else:
        print("passed over: beside beside piperun")
    return tests.end()


if __name__ == "__main__":
    sys.exit(main(sys.argv[1:]))
