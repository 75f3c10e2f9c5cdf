"""Tests of from-strace: forks and ends, calls that overlap or wait, the program itself, and the examples of real programs.

PIPERUN is a program that checks the examples, if it is there.
"""
from __future__ import annotations

import os
import pathlib
import subprocess
import sys
import tempfile
import unittest

HERE = pathlib.Path(__file__).resolve().parent
REAL = HERE.parent.parent / "crates" / "pl_examples" / "data" / "real"
sys.path.insert(0, str(HERE))
sys.dont_write_bytecode = True

from testing import FORK, PIPE, PIPED, START, A, B, compared, run, told, turned  # noqa: E402


class Processes(unittest.TestCase):
    """Forks, execs, threads and ends."""

    def test_fork_and_exec(self) -> None:
        """A child has its parent's descriptors, and an exec closes those that close on it (fork; execve(2))."""
        self.assertEqual(
            turned(f"10 pipe2([3{A}, 4{A}], O_CLOEXEC) = 0", FORK, f"11 dup2(4{A}, 1) = 1{A}", '11 execve("/bin/x", ["x"], 0x7f /* 3 vars */) = 0',
                   f"10 close(4{A}) = 0", "11 exit_group(0) = ?", "11 +++ exited with 0 +++"),
            [*START, PIPED, "1 fork => pid 2", "2 dup2 4 1 => fd 1", "2 close 3 => ok", "2 close 4 => ok", "1 close 4 => ok", "2 exit => ok"],
        )

    def test_setfd_and_failed_exec(self) -> None:
        self.assertEqual(
            turned(PIPE, f"10 fcntl(3{A}, F_SETFD, FD_CLOEXEC) = 0", '10 execve("/none", ["x"], 0x7f) = -1 ENOENT (No such file or directory)',
                   '10 execve("/bin/x", ["x"], 0x7f) = 0'),
            [*START, PIPED, "1 close 3 => ok"],
        )

    def test_child_is_seen_before_its_fork_returns(self) -> None:
        self.assertEqual(
            turned(PIPE, "10 vfork( <unfinished ...>", f"11 close(3{A}) = 0", "10 <... vfork resumed>) = 11", f"10 close(4{A}) = 0"),
            [*START, PIPED, "1 fork => pid 2", "2 close 3 => ok", "1 close 4 => ok"],
        )

    def test_fork_that_never_returned(self) -> None:
        self.assertEqual(
            turned(PIPE, "10 clone(child_stack=NULL, flags=SIGCHLD <unfinished ...>", f"11 close(3{A}) = 0", "10 +++ killed by SIGKILL +++"),
            [*START, PIPED, "1 fork => pid 2", "2 close 3 => ok", "1 exit => ok"],
        )

    def test_process_that_nothing_made(self) -> None:
        """A trace of two programs, as of strace -p -p."""
        trace = [PIPE, "20 pipe2([3<pipe:[9]>, 4<pipe:[9]>], 0) = 0"]
        self.assertEqual(turned(*trace)[5:], ["start => pid 2", *(line.replace("1", "2", 1) for line in START[1:]), "2 pipe => fds 3 4"])
        self.assertEqual(told(*trace), ["2: nothing tells what made process 20: it begins with nothing of the others"])

    def test_threads_share(self) -> None:
        """A thread has its process's descriptors, and the process ends with its last thread (clone(2))."""
        thread = "10 clone3({flags=CLONE_VM|CLONE_FS|CLONE_FILES|CLONE_SIGHAND|CLONE_THREAD, exit_signal=0}, 88) = 11"
        self.assertEqual(
            turned(PIPE, thread, f"11 close(3{A}) = 0", "11 +++ exited with 0 +++", f"10 close(4{A}) = 0", "10 +++ exited with 0 +++"),
            [*START, PIPED, "1 close 3 => ok", "1 close 4 => ok", "1 exit => ok"],
        )

    def test_close_range(self) -> None:
        self.assertEqual(turned(PIPE, "10 close_range(3, 4294967295, 0) = 0"), [*START, PIPED, "1 close 3 => ok", "1 close 4 => ok"])

    def test_descriptor_by_its_path(self) -> None:
        trace = [PIPE, f'10 openat(AT_FDCWD</tmp>, "/dev/fd/3", O_RDONLY) = 5{A}']
        self.assertEqual(turned(*trace), [*START, PIPED, "1 dup 3 => fd 5"])
        self.assertEqual(len(told(*trace)), 1)


class Waits(unittest.TestCase):
    """Calls that blocked, and the order of effects."""

    def test_read_that_waits(self) -> None:
        self.assertEqual(
            turned(PIPE, FORK, f"11 read(3{A},  <unfinished ...>", f'10 write(4{A}, "hi", 2) = 2', '11 <... read resumed>"hi", 9) = 2'),
            [*START, PIPED, "1 fork => pid 2", "2 read 3 9 => parked 1", "1 write 4 6869 => count 2", "resume 1 => data 6869"],
        )

    def test_write_returns_after_the_read(self) -> None:
        """A read has the bytes of a write that didn't return yet: the write comes first."""
        self.assertEqual(
            turned(PIPE, FORK, f'10 write(4{A}, "hi", 2 <unfinished ...>', f'11 read(3{A}, "hi", 9) = 2', "10 <... write resumed>) = 2"),
            [*START, PIPED, "1 fork => pid 2", "1 write 4 6869 => count 2", "2 read 3 9 => data 6869"],
        )

    def test_order_that_later_bytes_tell(self) -> None:
        """Two writes overlap. The read tells that the one that returned later came first."""
        trace = [
            PIPE, FORK, f'10 write(4{A}, "a", 1 <unfinished ...>', f'11 write(4{A}, "b", 1 <unfinished ...>', "11 <... write resumed>) = 1",
            "10 <... write resumed>) = 1", f'10 read(3{A}, "ab", 9) = 2',
        ]
        self.assertEqual(turned(*trace)[-3:], ["1 write 4 61 => count 1", "2 write 4 62 => count 1", "1 read 3 9 => data 6162"])
        self.assertEqual([text.split(",")[0] for text in told(*trace)], ["5: write overlaps that of line 3"])

    def test_order_that_is_told_late(self) -> None:
        """One read tells of many pairs of writes which came first. No search through all orders would find it."""
        pair = [f'10 write(4{A}, "a", 1 <unfinished ...>', f'11 write(4{A}, "b", 1 <unfinished ...>', "11 <... write resumed>) = 1",
                "10 <... write resumed>) = 1"]
        told_by_read = "abbaabababbaababbaabbabaabababab"
        found = turned(PIPE, FORK, *pair * 16, f'10 read(3{A}, "{told_by_read}", 99) = 32')
        self.assertEqual([line.split()[3] for line in found if " write " in line], [letter.encode().hex() for letter in told_by_read])
        self.assertEqual(found[-1], f"1 read 3 99 => data {told_by_read.encode().hex()}")

    def test_large_write_by_turns(self) -> None:
        """A write of more than the pipe holds goes on as a reader takes bytes (pipe(7))."""
        trace = [
            PIPE, FORK, f'10 write(4{A}, "{"a" * 70000}", 70000 <unfinished ...>', f'11 read(3{A}, "{"a" * 65536}", 65536) = 65536',
            f'11 read(3{A}, "{"a" * 4464}", 65536) = 4464', "10 <... write resumed>) = 70000",
        ]
        self.assertEqual(
            turned(*trace)[-4:],
            ["1 write 4 70000*61 => parked 1", "2 read 3 65536 => data 65536*61", "resume 1 => count 70000", "2 read 3 65536 => data 4464*61"],
        )

    def test_fifo(self) -> None:
        """The opens of a FIFO meet, and its name may be gone as one returns (open)."""
        made = '10 mknodat(AT_FDCWD</tmp>, "q", S_IFIFO|0666) = 0'
        opened = '11 openat(AT_FDCWD</tmp>, "q", O_RDONLY <unfinished ...>'
        self.assertEqual(
            turned(made, FORK, opened, '10 openat(AT_FDCWD</tmp>, "q", O_WRONLY) = 3</tmp/q>', '10 unlinkat(AT_FDCWD</tmp>, "q", 0) = 0',
                   "11 <... openat resumed>) = 3</tmp/q>"),
            [*START, "1 mkfifo q => ok", "1 fork => pid 2", "2 open q r => parked 1", "1 open q w => fd 3", "1 unlink q => ok", "resume 1 => fd 3"],
        )

    def test_end_of_file_before_the_exit_is_told(self) -> None:
        """A read finds the end of the file while the writer's exit isn't told yet."""
        self.assertEqual(
            turned(PIPE, FORK, f"10 close(4{A}) = 0", f"10 read(3{A},  <unfinished ...>", "11 exit_group(0) = ?", '10 <... read resumed>"", 9) = 0',
                   "11 +++ exited with 0 +++")[-3:],
            ["1 read 3 9 => parked 1", "2 exit => ok", "resume 1 => data -"],
        )

    def test_exit_closes_one_after_another(self) -> None:
        """A poll sees one of the two pipes that an exit closes."""
        polled = f"poll([{{fd=3{A}, events=POLLIN}}, {{fd=5{B}, events=POLLIN}}], 2, -1"
        found = turned(
            PIPE, f"10 pipe2([5{B}, 6{B}], 0) = 0", FORK, f"10 close(4{A}) = 0", f"10 close(6{B}) = 0", f"10 {polled} <unfinished ...>",
            "11 exit_group(0) = ?", "10 <... poll resumed>) = 1 ([{fd=5, revents=POLLHUP}])", "11 +++ exited with 0 +++",
        )
        self.assertEqual(found[-4:], ["1 poll wait 3:in 5:in => parked 1", "2 close 6 => ok", "resume 1 => masks 1 - hup", "2 exit => ok"])

    def test_signals(self) -> None:
        """A call that a signal ends is interrupted, whether the host begins it again or not (read, EINTR; signal(7))."""
        for ended in ("-1 EINTR (Interrupted system call)", "? ERESTARTSYS (To be restarted if SA_RESTART is set)"):
            found = turned(PIPE, FORK, f"10 read(3{A},  <unfinished ...>", "11 getpid() = 11", f"10 <... read resumed>0x7ffc, 9) = {ended}")
            self.assertEqual(found[-2:], ["1 read 3 9 => parked 1", "interrupt 1 => EINTR"])

    def test_killed_while_it_waits(self) -> None:
        found = turned(PIPE, FORK, f"10 read(3{A},  <unfinished ...>", f"11 close(3{A}) = 0", "10 <... read resumed> <unfinished ...>) = ?",
                       "10 +++ killed by SIGKILL +++")
        self.assertEqual(found[-2:], ["2 close 3 => ok", "1 exit => ok"])

    def test_difference(self) -> None:
        """The layer takes bytes where Linux's page is full: docs/LINUX.md. The host's answer stands in the script, and it is told."""
        trace = [
            f"10 pipe2([3{A}, 4{A}], O_NONBLOCK) = 0", f"10 fcntl(4{A}, F_SETPIPE_SZ, 4096) = 4096", f'10 write(4{A}, "{"a" * 4096}", 4096) = 4096',
            f'10 read(3{A}, "a", 1) = 1', f'10 write(4{A}, "b", 1) = -1 EAGAIN (Resource temporarily unavailable)', f"10 close(4{A}) = 0",
        ]
        self.assertEqual(turned(*trace)[-2:], ["1 write 4 62 => EAGAIN", "1 close 4 => ok"])
        self.assertEqual(told(*trace), ["5: in no order of these calls does the layer answer so: it answers count 1"])

    def test_bytes_that_no_order_explains(self) -> None:
        """The read has a byte that nobody wrote: each difference is told once, and the script goes on."""
        trace = [PIPE, f'10 write(4{A}, "a", 1) = 1', f'10 read(3{A}, "b", 1) = 1', f'10 write(4{A}, "c", 1) = 1', f'10 read(3{A}, "c", 1) = 1']
        wanted = ["1 write 4 61 => count 1", "1 read 3 1 => data 62", "1 write 4 63 => count 1", "1 read 3 1 => data 63"]
        self.assertEqual(turned(*trace)[-4:], wanted)
        front = "in no order of these calls does the layer"
        self.assertEqual(told(*trace), [f"2: {front} put in the bytes that are read later", f"3: {front} answer so: it answers data 61"])

    def test_call_that_would_wait_here(self) -> None:
        """No order explains that a read returned: the script asks it, and interrupts it."""
        found = turned(PIPE, f'10 read(3{A}, "a", 1) = 1', f"10 close(4{A}) = 0")
        self.assertEqual(found[-3:], ["1 read 3 1 => data 61", "interrupt 1 => EINTR", "1 close 4 => ok"])


class Program(unittest.TestCase):
    """The program, and the examples of real programs."""

    @staticmethod
    def run_on(*words: str, text: bytes = b"") -> "subprocess.CompletedProcess[bytes]":
        """Runs the program."""
        return subprocess.run([sys.executable, "-B", str(HERE), *words], input=text, capture_output=True, check=False, timeout=120)

    def test_examples(self) -> None:
        """The very script comes of each trace, nothing is told, and the model answers as the host did."""
        traces = sorted(REAL.glob("*.strace"))
        self.assertGreaterEqual(len(traces), 5)
        for trace in traces:
            with self.subTest(trace.name):
                script = trace.with_suffix(".script").read_bytes()
                found = self.run_on(str(trace))
                self.assertEqual((found.stdout, found.stderr, found.returncode), (script, b"", 0))
                count, *differences = compared(script.decode("latin-1"))
                self.assertGreater(int(count), 20)
                self.assertEqual(differences, [])
                self.assertEqual(run(script).status, 0)

    @unittest.skipUnless(os.access(os.environ.get("PIPERUN", ""), os.X_OK), "there is no PIPERUN")
    def test_examples_by_piperun(self) -> None:
        for script in sorted(REAL.glob("*.script")):
            with self.subTest(script.name):
                done = subprocess.run([os.environ["PIPERUN"], "--check", "--all", str(script)], capture_output=True, text=True, check=False, timeout=60)
                count = compared(script.read_text(encoding="latin-1"))[0]
                self.assertEqual((done.stdout, done.returncode), (f"{count} replies as recorded\n", 0))

    def test_picture(self) -> None:
        """The picture of an example is the one that tools/picture makes of what the model prints."""
        for picture in sorted(REAL.glob("*.svg")):
            script = picture.with_suffix(".script")
            with self.subTest(picture.name), tempfile.NamedTemporaryFile(suffix=".out") as output:
                output.write(run(script.read_bytes()).output)
                output.flush()
                words = [sys.executable, "-B", str(HERE.parent / "picture"), str(script), output.name]
                drawn = subprocess.run(words, stdout=subprocess.PIPE, check=True, timeout=60).stdout
                self.assertEqual(drawn, picture.read_bytes(), "tools/picture makes it anew")

    def test_statuses(self) -> None:
        cut = f'{PIPE}\n10 write(4{A}, "a"..., 9) = 9\n'.encode()
        for words, text, status in (
            (["--help"], b"", 0), ([], PIPE.encode(), 0), ([], b"", 0), (["--other"], b"", 2), (["a", "b"], b"", 2), (["no/such/file"], b"", 1), ([], cut, 2),
        ):
            with self.subTest(words=words, text=text):
                found = self.run_on(*words, text=text)
                self.assertEqual(found.returncode, status, found.stderr)
                self.assertEqual(found.stderr.count(b"\n"), int(status != 0))

    def test_notes_stand_in_the_script(self) -> None:
        found = self.run_on(text=f"{PIPE}\n10 ftruncate(3{A}, 9) = 0\n".encode())
        what = b"ftruncate changes what the script has, and has no line"
        self.assertEqual(found.stderr, b"from-strace: line 2 of the trace: " + what + b"\n")
        self.assertIn(b"# 2: told: " + what + b"\n", found.stdout)

    def test_closed_output(self) -> None:
        reading, writing = os.pipe()
        os.close(reading)
        with tempfile.TemporaryFile() as trace:
            trace.write(PIPE.encode())
            trace.seek(0)
            done = subprocess.run([sys.executable, "-B", str(HERE)], stdin=trace, stdout=writing, stderr=subprocess.PIPE, check=False, timeout=60)
        os.close(writing)
        self.assertEqual(done.returncode, 1)


if __name__ == "__main__":
    unittest.main()
