"""Tests of the pictures: what a run is told to be, by docs/RULES.md, and that the pictures of examples/ are those that are made."""
from __future__ import annotations

import os
import pathlib
import re
import subprocess
import sys
import unittest
import xml.etree.ElementTree
from typing import List

HERE = pathlib.Path(__file__).resolve().parent
ROOT = HERE.parent.parent
EXAMPLES = ROOT / "crates" / "pl_examples" / "data"
# more steps or lanes than a picture may have
TOO_LARGE = ("limits", "full_table")
sys.path.insert(0, str(HERE))
sys.dont_write_bytecode = True

from lines import Unreadable, length_of  # noqa: E402
from state import Node  # noqa: E402
from story import Step, Story  # noqa: E402
from svg import as_svg  # noqa: E402
from text import as_text  # noqa: E402
from words import notes  # noqa: E402


def story_of(*pairs: str) -> Story:
    """The story of lines, each with its reply behind =>."""
    lines, replies = zip(*(pair.split(" => ") for pair in pairs))
    return Story("\n".join(lines), "\n".join(replies))


def held(step: Step, node: Node) -> int:
    """What a node holds after a step."""
    return step.held[id(node)]


def node_of(story: Story, name: str) -> Node:
    """A node by its name."""
    return next(lane for lane in story.lanes if isinstance(lane, Node) and lane.name == name)


class Bytes(unittest.TestCase):
    """Where bytes go, and what is held."""

    def test_pieces(self) -> None:
        self.assertEqual([length_of(text) for text in ("-", "6162", "5*61", "62+4*61+0a", "0*61")], [0, 2, 5, 6, 0])

    def test_write_and_read(self) -> None:
        story = story_of("start => pid 1", "1 pipe => fds 0 1", "1 write 1 616263 => count 3", "1 read 0 2 => data 6162")
        pipe = node_of(story, "pipe 1")
        self.assertEqual([held(step, pipe) for step in story.steps[1:]], [0, 3, 1])
        self.assertEqual([(flow.source, flow.target, flow.count) for flow in story.steps[3].flows], [(pipe, 1, 2)])

    def test_packets(self) -> None:
        """A read takes a packet, and discards what it doesn't give (pipe(2), O_DIRECT)."""
        pairs = "piperun 2|start => pid 1|1 pipe direct => fds 0 1|1 write 1 6*61 => count 6|1 write 1 6162 => count 2|1 read 0 2 => data 6161"
        lines = [pair.partition(" => ") for pair in pairs.split("|")]
        story = Story("\n".join(line for line, _, _ in lines), "\n".join(reply for _, _, reply in lines if reply))
        self.assertEqual(held(story.steps[-1], node_of(story, "pipe 1")), 2)

    def test_large_write_by_turns(self) -> None:
        """A large write that waits puts in what there is room for, and the rest once there is room (write; pipe(7))."""
        story = story_of(
            *("start => pid 1", "1 pipe => fds 0 1", "1 write 1 70000*61 => parked 1", "1 read 0 4096 => data 4096*61"),
            *("resume 1 => parked 1", "1 read 0 4096 => data 4096*61", "resume 1 => count 70000"),
        )
        pipe = node_of(story, "pipe 1")
        self.assertEqual([held(step, pipe) for step in story.steps[2:]], [65536, 61440, 65536, 61440, 61808])
        self.assertEqual(story.steps[6].goes_on.helped_at, 6)

    def test_splice_and_tee(self) -> None:
        """A tee leaves what it copies, and a splice moves it; a file grows at the offset that is given."""
        story = story_of(
            *("start => pid 1", "1 pipe => fds 0 1", "1 pipe => fds 2 3", "1 open f w creat => fd 4", "1 write 1 616263 => count 3"),
            *("1 tee 0 3 9 => count 3", "1 splice 0 - 4 7 2 => count 2"),
        )
        first, second, file = (node_of(story, name) for name in ("pipe 1", "pipe 2", "f"))
        self.assertEqual([held(story.steps[5], node) for node in (first, second, file)], [3, 3, 0])
        self.assertEqual([held(story.steps[6], node) for node in (first, second, file)], [1, 3, 9])
        self.assertTrue(story.steps[5].flows[0].copies)

    def test_shared_offset(self) -> None:
        """A child shares its parent's offset (fork)."""
        story = story_of("start => pid 1", "1 open f w creat => fd 0", "1 fork => pid 2", "1 write 0 6161 => count 2", "2 write 0 61 => count 1")
        self.assertEqual(held(story.steps[-1], node_of(story, "f")), 3)


class Waits(unittest.TestCase):
    """Which step let a call go on."""

    def test_open_meets(self) -> None:
        story = story_of("start => pid 1", "1 mkfifo q => ok", "1 open q r => parked 4", "start => pid 2", "2 open q w => fd 0", "resume 4 => fd 0")
        self.assertEqual((story.steps[5].goes_on.number, story.steps[5].goes_on.helped_at), (4, 5))

    def test_help_that_was_taken_away(self) -> None:
        """Only a step behind which the call could go on until then helped."""
        story = story_of(
            *("start => pid 1", "1 pipe => fds 0 1", "1 read 0 1 => parked 1", "1 write 1 61 => count 1", "1 read 0 1 => data 61"),
            *("1 write 1 62 => count 1", "resume 1 => data 62"),
        )
        self.assertEqual(story.steps[6].goes_on.helped_at, 6)

    def test_interrupted(self) -> None:
        story = story_of("start => pid 1", "1 pipe => fds 0 1", "1 read 0 1 => parked 1", "interrupt 1 => EINTR")
        self.assertIsNone(story.steps[3].goes_on.helped_at)
        self.assertIn("call 1 ends, without what it waited for", notes(story.steps[3]))


class Ends(unittest.TestCase):
    """The last reader or writer goes once no descriptor and no waiting call is one (close)."""

    def test_last_writer_is_a_duplicate(self) -> None:
        story = story_of("start => pid 1", "1 pipe => fds 0 1", "1 dup 1 => fd 2", "1 close 1 => ok", "1 close 2 => ok")
        self.assertEqual([[end for _, end in step.lost] for step in story.steps[3:]], [[], ["writer"]])

    def test_child_keeps_it(self) -> None:
        story = story_of("start => pid 1", "1 pipe => fds 0 1", "1 fork => pid 2", "1 close 1 => ok", "2 exit => ok")
        self.assertEqual([[end for _, end in step.lost] for step in story.steps[3:]], [[], ["writer"]])

    def test_waiting_call_keeps_it(self) -> None:
        story = story_of("start => pid 1", "1 pipe => fds 0 1", "1 read 0 1 => parked 1", "1 close 0 => ok", "interrupt 1 => EINTR")
        self.assertEqual([[end for _, end in step.lost] for step in story.steps[3:]], [[], ["reader"]])


class Pictures(unittest.TestCase):
    """The pictures themselves, and the program."""

    def test_pictures_of_examples(self) -> None:
        pictures = sorted((EXAMPLES / "pictures").glob("*.svg"))
        self.assertGreaterEqual(len(pictures), 5)
        for picture in pictures:
            with self.subTest(picture.name):
                found = self.run_on(str(EXAMPLES / f"{picture.stem}.script"))
                self.assertEqual(found.stdout, picture.read_text(encoding="utf-8"), "tools/picture makes it anew")

    def test_all_examples_can_be_drawn(self) -> None:
        """Each is XML, with an arrow for each flow and a bar for each call that waited."""
        for script in sorted(EXAMPLES.glob("*.script")):
            text, output = script.read_text(encoding="latin-1"), script.with_suffix(".out").read_text(encoding="latin-1")
            if script.stem in TOO_LARGE:
                continue
            with self.subTest(script.name):
                story = Story(text, output)
                picture = as_svg(story, script.stem)
                root = xml.etree.ElementTree.fromstring(picture)
                self.assertEqual(len(root.findall(".//{*}path/{*}title")), sum(len(step.flows) for step in story.steps))
                self.assertEqual(picture.count('class="wait"'), sum(step.begins_to_wait is not None for step in story.steps))
                rows = len(story.steps) + sum(len(step.line.comments) for step in story.steps)
                self.assertEqual(as_text(story).count("\n"), rows + 4, "a head, an empty line and two of the legend")

    def test_output_of_another_script(self) -> None:
        """Replies that can't be those of the lines are told, and draw nothing."""
        before = ("start => pid 1", "1 pipe => fds 0 1")
        for last in (("1 write 1 61 => count -1",), ("1 write 1 70000*61 => parked 1", "resume 1 => count 7"), ("1 read 0 1 => data zz",)):
            with self.subTest(last), self.assertRaises(Unreadable):
                story_of(*before, *last)

    def test_pid_that_is_given_again(self) -> None:
        """A pid that is free goes to the next process (fork), and its lane is drawn for both."""
        pairs = ("start => pid 1", "1 fork => pid 2", "2 exit => ok", "1 fork => pid 2", "2 exit => ok", "1 fork => pid 2")
        story = story_of(*pairs)
        self.assertEqual(story.lanes, [1, 2])
        picture = as_svg(story, "pids")
        self.assertEqual(picture.count('class="line"'), 4, "a process that stays, and three in turn")
        self.assertEqual(picture.count("l10 10m0-10l-10 10"), 2, "two have ended")

    def test_records(self) -> None:
        """What a record expects is no comment of its picture: the reply stands there."""
        story = Story("start\n# => pid 1\n# a pipe\n1 pipe\n# => fds 0 1\n", "pid 1\nfds 0 1\n")
        self.assertEqual([step.line.comments for step in story.steps], [[], ["a pipe"]])

    def test_documents_show_one(self) -> None:
        """README and the guide show a picture that is there."""
        for page in ("README.md", "docs/guide/scripts-and-replay.md"):
            shown = re.findall(r"!\[[^]]*\]\(([^)]*pictures/\w+\.svg)\)", (ROOT / page).read_text(encoding="utf-8"))
            self.assertTrue(shown, page)
            for path in shown:
                self.assertTrue(((ROOT / page).parent / path).is_file(), path)

    def test_names_are_escaped(self) -> None:
        story = story_of("start => pid 1", "1 open <&\"f> w creat => fd 0")
        xml.etree.ElementTree.fromstring(as_svg(story, "<&>"))

    def test_too_much(self) -> None:
        with self.assertRaises(Unreadable):
            Story("1 getfl 0\n" * 1001, "EBADF\n" * 1001)
        with self.assertRaises(Unreadable):
            Story("start\n", "pid 1\npid 2\n")

    @staticmethod
    def run_on(*words: str) -> "subprocess.CompletedProcess[str]":
        """Runs the program."""
        return subprocess.run([sys.executable, "-B", str(HERE), *words], capture_output=True, encoding="utf-8", check=False, timeout=60)

    def test_statuses(self) -> None:
        session = str(EXAMPLES / "session.script")
        wanted: List[tuple[List[str], int]] = [
            (["--help"], 0), ([session], 0), (["--text", session], 0), ([], 2), (["--other", session], 2), (["none.script"], 1),
            ([session, str(EXAMPLES / "tee.out")], 2),
            ([str(EXAMPLES / "limits.script")], 3),
        ]
        for words, status in wanted:
            with self.subTest(words):
                found = self.run_on(*words)
                self.assertEqual(found.returncode, status, found.stderr)
                self.assertEqual(bool(found.stderr), status != 0)

    def test_closed_output(self) -> None:
        reading, writing = os.pipe()
        os.close(reading)
        words = [sys.executable, "-B", str(HERE), str(EXAMPLES / "session.script")]
        found = subprocess.run(words, stdout=writing, stderr=subprocess.PIPE, check=False, timeout=60)
        os.close(writing)
        self.assertEqual(found.returncode, 1)


if __name__ == "__main__":
    unittest.main()
