"""Tests of what from-strace reads, and of the lines of each call, by docs/RULES.md and the pages of the calls.

The lines of these traces have the form in which strace 6.1 wrote such calls.
"""
from __future__ import annotations

import pathlib
import sys
import unittest
from typing import List

sys.path.insert(0, str(pathlib.Path(__file__).resolve().parent))
sys.dont_write_bytecode = True

from testing import PIPE, PIPED, START, A, B, compared, script_and_notes, told, turned  # noqa: E402
from arguments import Descriptor, Malformed, Text, parsed, unescaped  # noqa: E402
from reading import Unreadable, read_trace  # noqa: E402


class Arguments(unittest.TestCase):
    """What strace writes between brackets."""

    def test_texts(self) -> None:
        self.assertEqual(unescaped(r"a\"\\\0001>\n\377\x41"), b'a"\\\x00' + b"1>\n\xffA")

    def test_values(self) -> None:
        values, result = parsed(r'write(1<pipe:[7]>, "a\", 1)\n", 7) = 7')
        self.assertEqual((values, result.value), ([Descriptor(1, b"pipe:[7]"), Text(b'a", 1)\n'), "7"], 7))

    def test_structs_and_results(self) -> None:
        values, result = parsed("poll([{fd=3<pipe:[7]>, events=POLLIN|POLLOUT}, {fd=-1}], 2, 10) = 1 ([{fd=3, revents=POLLIN}])")
        self.assertEqual(values[0], [{"fd": Descriptor(3, b"pipe:[7]"), "events": "POLLIN|POLLOUT"}, {"fd": "-1"}])
        self.assertEqual((result.value, result.behind), (1, "([{fd=3, revents=POLLIN}])"))

    def test_paths(self) -> None:
        values, result = parsed(r'openat(AT_FDCWD</tmp/a b>, "f\"", O_RDONLY) = 3</tmp/a b/f">(deleted)')
        self.assertEqual((values[0].stands_for, values[1].data, result.stands_for), (b"/tmp/a b", b'f"', b'/tmp/a b/f"'))

    def test_device_of_yy(self) -> None:
        self.assertEqual(parsed("close(1</dev/pts/0<char 136:0>>) = 0")[0], [Descriptor(1, b"/dev/pts/0<char 136:0>")])

    def test_failures(self) -> None:
        _, result = parsed("read(3<pipe:[7]>, 0x7ffc, 1) = -1 EAGAIN (Resource temporarily unavailable)")
        self.assertEqual((result.value, result.error), (-1, "EAGAIN"))
        _, result = parsed("read(3<pipe:[7]>, 0x7ffc, 1) = ? ERESTARTSYS (To be restarted if SA_RESTART is set)")
        self.assertEqual((result.value, result.error), (None, "ERESTARTSYS"))

    def test_malformed(self) -> None:
        with self.assertRaises(Malformed):
            parsed('write(1<pipe:[7]>, "abc')


class Lines(unittest.TestCase):
    """The lines of a trace."""

    def test_split_call(self) -> None:
        trace = read_trace('10 read(3<pipe:[7]>,  <unfinished ...>\n11 close(4) = 0\n10 <... read resumed>"hi", 9) = 2\n')
        self.assertEqual([(call.text, call.first, call.last) for call in trace.calls][0], ('read(3<pipe:[7]>, "hi", 9) = 2', 1, 3))

    def test_times(self) -> None:
        for time in ("12:30:01 ", "12:30:01.123456 ", "1700000000.123456 ", "     0.000123 "):
            self.assertEqual(read_trace(f"10 {time}close(4) = 0\n").calls[0].text, "close(4) = 0")

    def test_faults(self) -> None:
        faults = ["close(4) = 0", "10 hello", "10 <... read resumed>) = 0", "[pid 10] close(4) = 0", "10 +++ superseded by execve in pid 11 +++"]
        for text in faults:
            with self.subTest(text), self.assertRaises(Unreadable):
                read_trace(text)


class Calls(unittest.TestCase):
    """Each call of a single process."""

    def check(self, trace: List[str], *wanted: str) -> None:
        """The script of a pipe and these calls. The model has to answer as the trace says."""
        self.assertEqual(turned(PIPE, *trace), [*START, PIPED, *wanted])
        script, _ = script_and_notes("\n".join([PIPE, *trace]) + "\n")
        self.assertEqual(compared(script)[1:], [])

    def test_read_and_write(self) -> None:
        self.check(
            [f'10 write(4{A}, "aaaab", 5) = 5', f'10 read(3{A}, "aaaab", 100) = 5', f"10 read(3{A}, 0x7f, 1) = -1 EBADF (x)"][:2],
            "1 write 4 4*61+62 => count 5", "1 read 3 100 => data 4*61+62",
        )

    def test_vectors_are_one_read_or_write(self) -> None:
        self.check(
            [
                f'10 writev(4{A}, [{{iov_base="ab", iov_len=2}}, {{iov_base="", iov_len=0}}, {{iov_base="c", iov_len=1}}], 3) = 3',
                f'10 readv(3{A}, [{{iov_base="ab", iov_len=2}}, {{iov_base="c", iov_len=9}}], 2) = 3',
            ],
            "1 write 4 616263 => count 3", "1 read 3 11 => data 616263",
        )

    def test_duplicates(self) -> None:
        self.check(
            [f"10 dup(3{A}) = 5{A}", f"10 dup2(4{A}, 1</dev/null>) = 1{A}", f"10 dup3(4{A}, 9, O_CLOEXEC) = 9{A}",
             f"10 fcntl(3{A}, F_DUPFD, 10) = 10{A}"],
            "1 dup 3 => fd 5", "1 dup2 4 1 => fd 1", "1 dup2 4 9 => fd 9", "1 dupfd 3 10 => fd 10",
        )

    def test_number_of_what_is_not_followed(self) -> None:
        """A library at 5 and a terminal at 10 and 11 keep their numbers (File Descriptor Allocation)."""
        self.check(
            ['10 openat(AT_FDCWD</>, "/lib/x.so", O_RDONLY|O_CLOEXEC) = 5</lib/x.so>', f"10 dup(3{A}) = 6{A}", "10 close(5</lib/x.so>) = 0",
             f"10 dup(3{A}) = 5{A}", f"10 fcntl(3{A}, F_DUPFD_CLOEXEC, 10) = 12{A}"],
            "1 dup2 0 5 => fd 5", "1 dup 3 => fd 6", "1 close 5 => ok", "1 dup 3 => fd 5",
            "1 dup2 0 10 => fd 10", "1 dup2 0 11 => fd 11", "1 dupfd 3 10 => fd 12",
        )

    def test_what_is_not_followed_takes_the_place(self) -> None:
        self.check([f"10 dup2(2</dev/pts/0>, 3{A}) = 3</dev/pts/0>"], "1 close 3 => ok")

    def check_with_header(self, header: str, trace: List[str], *wanted: str) -> None:
        """The same of a script that has this header, or none."""
        self.check(trace, *wanted)
        script, _ = script_and_notes("\n".join([PIPE, *trace]) + "\n")
        head = ["piperun 2", header] if header else ["piperun 2"]
        lines = script.split("\n")
        self.assertEqual(lines[: len(head)], head)
        self.assertTrue(lines[len(head)].startswith("# Made by "))

    def test_great_numbers(self) -> None:
        """A header names the least power of two that is above all numbers, if one is above 255 (RULES, Records)."""
        for number, most in ((255, 0), (256, 512), (300, 512), (511, 512), (512, 1024), (65535, 65536)):
            header = f"# piperun --descriptors-max {most}" if most else ""
            with self.subTest(number):
                self.check_with_header(header, [f"10 dup2(4{A}, {number}) = {number}{A}", f'10 write({number}{A}, "a", 1) = 1'],
                                       f"1 dup2 4 {number} => fd {number}", f"1 write {number} 61 => count 1")
                self.check_with_header(header, [f"10 fcntl(3{A}, F_DUPFD, {number}) = {number}{A}"], f"1 dupfd 3 {number} => fd {number}")
        # what the host refused needs none
        self.check_with_header("", [f"10 dup2(4{A}, 4096) = -1 EBADF (Bad file descriptor)", f"10 close(4{A}) = 0"], "1 dup2 4 4096 => EBADF", "1 close 4 => ok")
        self.check_with_header("", [f"10 fcntl(3{A}, F_DUPFD, 4096) = -1 EINVAL (Invalid argument)"], "1 dupfd 3 4096 => EINVAL")

    def test_many_entries(self) -> None:
        """A poll takes as many entries as there may be descriptors, and 256 at least (RULES, Limits)."""
        for count, most in ((256, 0), (257, 512), (600, 1024)):
            header = f"# piperun --descriptors-max {most}" if most else ""
            entries, told = ", ".join([f"{{fd=4{A}, events=POLLOUT}}"] * count), ", ".join(["{fd=4, revents=POLLOUT}"] * count)
            with self.subTest(count):
                self.check_with_header(header, [f"10 poll([{entries}], {count}, 0) = {count} ([{told}])"],
                                       f"1 poll now{' 4:out' * count} => masks {count}{' out' * count}")
        entries = ", ".join([f"{{fd=4{A}, events=POLLOUT}}"] * 257)
        self.check_with_header("", [f"10 poll([{entries}], 257, 0) = -1 EINVAL (Invalid argument)"], f"1 poll now{' 4:out' * 257} => EINVAL")

    def test_flags_and_sizes(self) -> None:
        self.check(
            [f"10 fcntl(3{A}, F_GETFL) = 0 (flags O_RDONLY)", f"10 fcntl(3{A}, F_SETFL, O_RDONLY|O_NONBLOCK) = 0",
             f"10 fcntl(3{A}, F_GETFL) = 0x800 (flags O_RDONLY|O_NONBLOCK)", f"10 read(3{A}, 0x7ffc, 1) = -1 EAGAIN (Resource ..)",
             f"10 fcntl(3{A}, F_SETFL, O_RDONLY) = 0", f"10 fcntl(4{A}, F_GETPIPE_SZ) = 65536", f"10 fcntl(4{A}, F_SETPIPE_SZ, 5000) = 8192"],
            "1 getfl 3 => flags r -", "1 setfl 3 nonblock => ok", "1 getfl 3 => flags r nonblock", "1 read 3 1 => EAGAIN",
            "1 setfl 3 - => ok", "1 getsz 4 => size 65536", "1 setsz 4 5000 => size 8192",
        )

    def test_broken_pipe(self) -> None:
        signal = "10 --- SIGPIPE {si_signo=SIGPIPE, si_code=SI_USER, si_pid=10, si_uid=0} ---"
        self.check(
            [f"10 close(3{A}) = 0", f'10 write(4{A}, "a", 1) = -1 EPIPE (Broken pipe)', signal, "10 +++ killed by SIGPIPE +++"],
            "1 close 3 => ok", "1 write 4 61 => EPIPE sigpipe", "1 exit => ok",
        )

    def test_files(self) -> None:
        self.check(
            ['10 openat(AT_FDCWD</tmp>, "f", O_RDWR|O_CREAT|O_EXCL, 0600) = 5</tmp/f>', '10 write(5</tmp/f>, "abc", 3) = 3',
             "10 lseek(5</tmp/f>, -2, SEEK_END) = 1", '10 read(5</tmp/f>, "bc", 9) = 2', f"10 lseek(3{A}, 0, SEEK_CUR) = -1 ESPIPE (Illegal seek)",
             '10 open("/tmp/f", O_RDONLY) = 6</tmp/f>', '10 unlink("/tmp/f") = 0', '10 creat("/tmp/f", 0600) = 7</tmp/f>'],
            "1 open f rw creat,excl => fd 5", "1 write 5 616263 => count 3", "1 lseek 5 -2 end => offset 1", "1 read 5 9 => data 6263",
            "1 lseek 3 0 cur => ESPIPE", "1 open f r => fd 6", "1 unlink f => ok", "1 open f w creat,trunc => fd 7",
        )

    def test_names(self) -> None:
        """Two files of one name, a name with blanks, a rename, and a file that was there before, which isn't followed."""
        self.check(
            ['10 openat(AT_FDCWD</tmp>, "a/x y", O_WRONLY|O_CREAT|O_TRUNC, 0600) = 5</tmp/a/x y>',
             '10 openat(AT_FDCWD</tmp>, "b/x y", O_WRONLY|O_CREAT|O_TRUNC, 0600) = 6</tmp/b/x y>',
             '10 rename("a/x y", "z") = 0', '10 openat(AT_FDCWD</tmp>, "z", O_RDONLY) = 7</tmp/z>',
             '10 openat(AT_FDCWD</tmp>, "old", O_RDONLY) = 8</tmp/old>', '10 read(8</tmp/old>, "abc", 9) = 3',
             '10 openat(AT_FDCWD</tmp>, "/dev/null", O_WRONLY|O_CREAT|O_TRUNC, 0600) = 9</dev/null>'],
            "1 open x%20y w creat,trunc => fd 5", "1 open x%20y~2 w creat,trunc => fd 6", "1 open x%20y r => fd 7",
        )

    def test_other_ways(self) -> None:
        """FIONBIO sets O_NONBLOCK (ioctl(2)), and openat2 opens as openat does."""
        self.check(
            [f"10 ioctl(3{A}, FIONBIO, [1]) = 0", f"10 read(3{A}, 0x7ffc, 1) = -1 EAGAIN (x)", f"10 ioctl(3{A}, FIONBIO, [0]) = 0",
             f"10 fcntl(3{A}, F_GETFL) = 0 (flags O_RDONLY)", f"10 ioctl(3{A}, FIONREAD, [0]) = 0",
             '10 openat2(AT_FDCWD</tmp>, "f", {flags=O_WRONLY|O_CREAT|O_TRUNC, mode=0600, resolve=0}, 24) = 5</tmp/f>'],
            "1 setfl 3 nonblock => ok", "1 read 3 1 => EAGAIN", "1 setfl 3 - => ok", "1 getfl 3 => flags r -", "1 open f w creat,trunc => fd 5",
        )
        made = '10 creat("/tmp/f", 0600) = 3</tmp/f>'
        self.assertEqual(told(made, '10 link("/tmp/f", "/tmp/g") = 0'), ["2: a link has no line: f has its first name alone in the script"])
        self.assertEqual(told(made, '10 truncate("/tmp/f", 3) = 0'), ["2: truncate isn't in the script: it changes f"])

    def test_splice_and_tee(self) -> None:
        self.check(
            [f"10 pipe2([5{B}, 6{B}], O_NONBLOCK|O_DIRECT) = 0"], "1 pipe nonblock,direct => fds 5 6",
        )
        self.check(
            [f"10 pipe([5{B}, 6{B}]) = 0", '10 openat(AT_FDCWD</tmp>, "f", O_RDWR|O_CREAT|O_TRUNC, 0600) = 7</tmp/f>',
             f'10 write(4{A}, "abc", 3) = 3', f"10 tee(3{A}, 6{B}, 100, SPLICE_F_NONBLOCK) = 3",
             f"10 splice(3{A}, NULL, 7</tmp/f>, [5], 2, SPLICE_F_MOVE|SPLICE_F_MORE) = 2", f"10 splice(7</tmp/f>, [5], 6{B}, NULL, 9, 0) = 2"],
            "1 pipe => fds 5 6", "1 open f rw creat,trunc => fd 7", "1 write 4 616263 => count 3", "1 tee 3 6 100 nonblock => count 3",
            "1 splice 3 - 7 5 2 move,more => count 2", "1 splice 7 5 6 - 9 => count 2",
        )

    def test_polls(self) -> None:
        self.check(
            [f"10 poll([{{fd=3{A}, events=POLLIN}}, {{fd=4{A}, events=POLLOUT}}], 2, -1) = 1 ([{{fd=4, revents=POLLOUT}}])",
             f"10 poll([{{fd=3{A}, events=POLLIN|POLLPRI}}], 1, 10) = 0 (Timeout)",
             f"10 ppoll([{{fd=4{A}, events=POLLOUT}}, {{fd=0</dev/pts/0>, events=POLLIN}}], 2, NULL, NULL, 8) = 1 ([{{fd=4, revents=POLLOUT}}])",
             f"10 close(4{A}) = 0", f"10 ppoll([{{fd=3{A}, events=POLLIN}}], 1, {{tv_sec=0, tv_nsec=0}}, NULL, 8) = 1 ([{{fd=3, revents=POLLHUP}}])"],
            "1 poll wait 3:in 4:out => masks 1 - out", "1 poll now 3:in => masks 0 -", "1 poll now 4:out => masks 1 out",
            "1 close 4 => ok", "1 poll now 3:in => masks 1 hup",
        )

    def test_selects(self) -> None:
        """A select tells neither `in` nor `hup`: it agrees with both (select(2))."""
        self.check(
            [f"10 pselect6(5, [3{A}], [4{A}], NULL, {{tv_sec=1, tv_nsec=0}}, NULL) = 1 (out [4], left {{tv_sec=0, tv_nsec=9}})",
             f"10 close(4{A}) = 0", f"10 select(4, [3{A}], NULL, NULL, NULL) = 1 (in [3])"],
            "1 poll now 3:in 4:out => masks 1 - out", "1 close 4 => ok", "1 poll wait 3:in => masks 1 hup",
        )
        differing = turned(PIPE, f"10 select(4, [3{A}], NULL, NULL, {{tv_sec=0, tv_usec=0}}) = 1 (in [3])")
        self.assertEqual(differing[-1], "1 poll now 3:in => masks 1 in")

    def test_what_is_left_out(self) -> None:
        script, notes = script_and_notes(f"{PIPE}\n10 fstat(3{A}, {{st_mode=S_IFIFO|0600}}) = 0\n10 getpid() = 10\n10 fstat(2</dev/null>, 1) = 0\n")
        self.assertIn("# 2: ? 10 fstat: fstat has no line\n", script)
        self.assertEqual((script.count("fstat"), notes), (2, []))
        for call, what in (
            (f"sendfile(4{A}, 5</tmp/old>, NULL, 9) = 9", "sendfile changes what the script has, and has no line"),
            (f"splice(5</tmp/old>, NULL, 4{A}, NULL, 9, 0) = 9", "splice isn't in the script: it brings bytes that the trace doesn't show"),
            ("epoll_wait(5<anon_inode:[eventpoll]>, [], 9, 0) = 0", None),
        ):
            self.assertEqual(told(PIPE, "10 " + call), [f"2: {what}"] if what else [])

    def test_cut_bytes(self) -> None:
        for call in (f'write(4{A}, "aaaa"..., 100) = 100', f'read(3{A}, "aaaa"..., 100) = 100', f'writev(4{A}, [{{iov_base="a"..., iov_len=9}}], 1) = 9'):
            with self.subTest(call), self.assertRaisesRegex(Unreadable, "line 2 .* strace -s 1048576"):
                turned(PIPE, "10 " + call)
        self.assertEqual(turned(PIPE, '10 read(5</lib/x.so>, "ELF"..., 832) = 832'), [*START, PIPED])

    def test_what_the_trace_lacks(self) -> None:
        with self.assertRaisesRegex(Unreadable, "strace -y"):
            turned("10 pipe2([3, 4], 0) = 0")
        with self.assertRaisesRegex(Unreadable, r"line 2 .* descriptor 1 is pipe:\[7\], by a call that the trace doesn't show"):
            turned(PIPE, f'10 write(1{A}, "a", 1) = 1')
        with self.assertRaisesRegex(Unreadable, "none above 65535"):
            turned(PIPE, f"10 dup2(4{A}, 65536) = 65536{A}")
        self.assertEqual(told(PIPE, '10 read(0<pipe:[99]>, "a", 1) = 1'), ["2: descriptor 0 is a pipe from before the trace: the script doesn't follow it"])
        self.assertEqual(len(told('10 openat(AT_FDCWD</tmp>, "log", O_WRONLY|O_CREAT|O_APPEND, 0600) = 3</tmp/log>')), 1)


if __name__ == "__main__":
    unittest.main()
