"""Tests of pictures of scripts and outputs that are damaged: each is drawn, or refused with the number of a line and what is wrong."""
from __future__ import annotations

import pathlib
import random
import re
import subprocess
import sys
import tempfile
import unittest
import xml.etree.ElementTree
from typing import List

HERE = pathlib.Path(__file__).resolve().parent
EXAMPLES = HERE.parent.parent / "crates" / "pl_examples" / "data"
# more steps or lanes than a picture may have
TOO_LARGE = ("limits", "full_table")
ROUNDS = 40
sys.path.insert(0, str(HERE))
sys.dont_write_bytecode = True

from lines import Unreadable  # noqa: E402
from story import Story  # noqa: E402
from svg import as_svg  # noqa: E402
from text import as_text  # noqa: E402

REFUSED = r"\bline [0-9]+\b"
WORD = re.compile(r"\d+|[A-Za-z]+")
# what replaces a number: other pids, descriptors and calls, limits, and more digits than Python reads
NUMBERS = ("-1", "0", "1", "2", "3", "255", "4294967296", "99999999999999999999", "9" * 5000)


def damaged(line: str, draw: random.Random) -> str:
    """A line of which something is lost, doubled or replaced."""
    at = draw.randrange(len(line) + 1)
    how = draw.randrange(5)
    if how == 0:
        return line[:at] + line[at + 1 :]
    if how == 1:
        return line[:at] + chr(draw.randrange(1, 256)) + line[at:]
    if how == 2:
        return line[:at]
    words = list(WORD.finditer(line))
    if not words:
        return ""
    word = draw.choice(words)
    new = draw.choice(NUMBERS) if word[0].isdigit() else draw.choice(words)[0]
    return line[: word.start()] + new + line[word.end() :]


def damage(lines: List[str], draw: random.Random) -> None:
    """Damages lines in one place."""
    if not lines:
        return
    at, how = draw.randrange(len(lines)), draw.randrange(6)
    if how == 0:
        del lines[at]
    elif how == 1:
        lines.insert(draw.randrange(len(lines) + 1), lines[at])
    elif how == 2:
        del lines[draw.randrange(len(lines)) :]
    elif how == 3:
        del lines[:at]
    else:
        lines[at] = damaged(lines[at], draw)


class Damage(unittest.TestCase):
    """The examples, damaged by a generator with a seed."""

    def check(self, script: str, output: str) -> None:
        """A picture comes of it, or it is refused with the number of a line. All else fails the test."""
        try:
            story = Story(script, output)
            picture, table = as_svg(story, "damaged"), as_text(story)
        except Unreadable as fault:
            self.assertRegex(str(fault), REFUSED)
        else:
            xml.etree.ElementTree.fromstring(picture)
            self.assertNotRegex(table, r"[\x00-\x09\x0b-\x1f\x7f-\x9f]")

    def test_examples(self) -> None:
        """Each is damaged in its script or in its output, and in some rounds in more places than one."""
        scripts = [script for script in sorted(EXAMPLES.glob("*.script")) if script.stem not in TOO_LARGE]
        self.assertGreater(len(scripts), 10)
        for seed, script in enumerate(scripts):
            draw = random.Random(seed)
            pair = [path.read_text(encoding="latin-1").split("\n")[:-1] for path in (script, script.with_suffix(".out"))]
            for place in range(ROUNDS):
                changed = [list(lines) for lines in pair]
                for _ in range(1 + place % 3):
                    damage(draw.choice(changed), draw)
                with self.subTest(f"{script.name}, round {place}"):
                    self.check(*("".join(line + "\n" for line in lines) for lines in changed))

    def test_faults(self) -> None:
        """What no run prints of a script, by docs/RULES.md, Scripts."""
        pipe = "start\n1 pipe\n", "pid 1\nfds 0 1\n"
        for name, script, output in (
            ("a call of nobody", "open q r\n", "parked 1\n"),
            ("a process that isn't there", "start\n2 open q r\n", "pid 1\nparked 1\n"),
            ("a pid that is given twice", "start\nstart\n", "pid 1\npid 1\n"),
            ("a number that is given twice", pipe[0] + "1 read 0 1\n1 read 0 1\n", pipe[1] + "parked 1\nparked 1\n"),
            ("more bytes than were written", pipe[0] + "1 write 1 61\n", pipe[1] + "count 99999999999999999999\n"),
            ("more bytes than any line has", pipe[0] + "1 read 0 1\n", pipe[1] + "data 99999999999999999999*61\n"),
            ("a splice over packets", "piperun 2\nstart\n1 pipe direct\n1 pipe\n1 splice 2 - 1 - 9\n", "pid 1\nfds 0 1\nfds 2 3\ncount 9\n"),
        ):
            with self.subTest(name), self.assertRaisesRegex(Unreadable, rf"\Aline {script.count(chr(10))} "):
                Story(script, output)
        with self.assertRaisesRegex(Unreadable, "line 2 of the output"):
            Story("start\n", "pid 1\npid 2\n")

    def test_control_characters(self) -> None:
        """XML has no such character (XML 1.0, 2.2), and a terminal takes it for a command."""
        self.check("# \x1b[31m\x00\nstart\n", "pid 1\n")

    def test_program(self) -> None:
        """A picture, or one line on standard error."""
        script, output = ((EXAMPLES / f"session.{end}").read_bytes() for end in ("script", "out"))
        with tempfile.TemporaryDirectory() as folder:
            files = pathlib.Path(folder, "a.script"), pathlib.Path(folder, "a.out")
            for name, changed in (("cut", (script, output[:40])), ("cut in front", (script[40:], output)), ("another", (output, script))):
                for path, data in zip(files, changed):
                    path.write_bytes(data)
                with self.subTest(name):
                    words = [sys.executable, "-B", str(HERE), str(files[0])]
                    found = subprocess.run(words, capture_output=True, encoding="utf-8", check=False, timeout=60)
                    self.assertIn(found.returncode, (0, 2), found.stderr)
                    if found.returncode:
                        self.assertRegex(found.stderr, rf"\Apicture: [^\n]*{REFUSED}[^\n]*\n\Z")
                        self.assertEqual(found.stdout, "")


if __name__ == "__main__":
    unittest.main()
