"""Draws scripts by a seed. The same seed draws the same script.

  python3 tools/model/draw.py SEED    prints the script, and to standard error the options that tell piperun its limits

A script is drawn beside the machine that runs it, so that most lines name processes, descriptors and waiting calls that are there.
Each third seed draws a script of version 2. Behind that some words are spelled otherwise, or a few bytes are changed, so that bad lines come.
"""
from __future__ import annotations

import enum
import random
import sys
from dataclasses import dataclass
from typing import Callable, Dict, List, Optional, Tuple, Type

from machine import Machine, OpenFlag, PipeFlag, SpliceFlag, Whence
from replies import Event
from script import Version, parse_line
from state import (
    FIRST_CAPACITY,
    GREATEST_CAPACITY,
    GREATEST_OFFSET,
    MOST_FILE_BYTES,
    NEVER_A_CALL,
    PIPE_BUF,
    USUAL,
    USUAL_PROCESSES,
    Description,
    File,
    Limits,
    Mode,
    Pipe,
)

FIRST_CALLS = (1, 1, 1, 0, 5, NEVER_A_CALL, NEVER_A_CALL - 1, NEVER_A_CALL - 3)
# Limits that aren't the usual ones. Each is drawn of this part of the scripts.
OTHER_LIMITS: Dict[str, Tuple[int, ...]] = {
    **{"descriptors": (3, 5, 8, 300), "descriptions": (3, 5, 8, 12), "processes": (1, 2, 3)},
    **{"waiting": (0, 1, 2, 3), "waiting_of_each": (0, 1, 2)},
}
PART_OTHER = 0.1
LENGTHS = (30, 100, 250)
SIZES = (0, 1, 2, 10, PIPE_BUF - 1, PIPE_BUF, PIPE_BUF, PIPE_BUF, PIPE_BUF + 1, 5000, FIRST_CAPACITY - 1, FIRST_CAPACITY, 70000)
CAPACITIES = (0, 1, 4096, 4097, 8192, 65536, 65537, GREATEST_CAPACITY, GREATEST_CAPACITY + 1, 2**32 - 1)
SPLICE_OFFSETS = (0, 1, 5, 100, 4096, 9000, MOST_FILE_BYTES - 6, MOST_FILE_BYTES, GREATEST_OFFSET, 2**63, 2**64 - 1)
SEEKS = (0, 0, 1, -1, 5, 4096, MOST_FILE_BYTES - 1, GREATEST_OFFSET, -(2**63))
USUAL_NAMES = ("q", "q", "f", "g")
ALL_NAMES = ("q", "f", "g", "-", "a%2fb", "%2d", "%00", "g" * 255, "g" * 256)
# what is seldom drawn of names is drawn of this part of them
SELDOM = 0.07
# of larger files the bytes aren't asked for, as their line would be most of what is printed
MOST_BYTES_TOLD = 1000000
BEGINNING = ("start", "1 mkfifo q", "1 open f rw creat", "1 fork")
# The first line of a script of version 2: as it is, mostly, and now and then as it may be written too, or as none.
HEADER = "piperun 2"
ODD_HEADERS = (f"{HEADER}\r", f" {HEADER}", f"{HEADER} ", f"{HEADER}\r\r", f"#{HEADER}", f"{HEADER}2", HEADER[:-1]) + (
    *("piperun  2", "piperun\t2", "piperun 02", "piperun 1", "Piperun 2"),
)
PART_ODD_HEADERS = 0.15
# How often a byte stands in a piece: beside the least run that is shown as one
TIMES = (0, 1, 2, 3, 3, 4, 4, 5, 8, 17)
# What now and then comes behind them. A process has few free descriptors, few descriptions are left, or few pids are.
FULL_TABLE = ("1 pipe",) * 126
ALL_DESCRIPTIONS = tuple(line for pid in range(2, 22) for line in ("start", *(f"{pid} pipe",) * 102))
ALL_PIDS = ("start",) * (USUAL_PROCESSES - 3)
CROWDS = (FULL_TABLE, ALL_DESCRIPTIONS, ALL_PIDS)
CHANGED_BYTES = b"0123456789 \t\r\n-,:*%#+abcdefrw\x00\x80\x0b\x7f"
PART_CHANGED = 0.15
# How words may be spelled otherwise, well or badly. Numbers are of 20 and of 21 digits, and at the edges of their types.
ODD_NUMBERS = ("0" * 19 + "1", "0" * 20 + "1", "-0", "-1", "--1", "+1", "1-", "0x1", "1.") + tuple(
    str(edge + beside) for edge in (-(2**63), -(2**31), 2**31, 2**32, 2**63, 2**64) for beside in (-1, 0)
)
ODD_CONTENTS = ("0*61", "0005*6a", "5*6A", "0" * 20 + "5*61", "16777217*61", "5*6", "5*611", "*61", "5**61", "-5*61", "616", "6g", "")
ODD_PIECES = (
    *("61+", "+61", "61++62", "-+61", "61+-", "61+6", "5*61+6g", "3*61*62", "+", "61+ 62", "5*61,62", "0*61+62", "0*61+0*62", "3*61+3*61"),
    *("8388609*61+8388608*62", "16777217*61+62", "61+16777217*62", "00000000000000000003*61+62"),
)
ODD_ENDINGS = ("", "", "", " 1", " nonblock", "\r\r", " \r", "\r \r", "\x0b")
PART_RESPELLED = 0.5
LINES_RESPELLED = 3
# respelled are some of so many last lines, as what is behind a bad line isn't run
LAST_LINES = 20


@dataclass(frozen=True)
class Drawn:
    """A script, and the limits within which it is run."""

    script: bytes
    limits: Limits = USUAL


class Scene:
    """A script that is being drawn: its version, its lines behind a first one that tells that, and the machine that ran them."""

    def __init__(self, chance: random.Random, version: Version, others: Dict[str, int]) -> None:
        self.chance = chance
        self.version = version
        self.limits = Limits(chance.choice(FIRST_CALLS), **others)
        self.machine = Machine(self.limits)
        self.lines: List[str] = []
        self.pid = 1

    def add(self, line: str) -> None:
        """Adds a line, and runs it."""
        self.lines.append(line)
        request = parse_line(line.encode("ascii"), self.version)
        if request is not None:
            request.step(self.machine)

    def happens(self, part: float) -> bool:
        """Whether something happens that happens in this part of the cases."""
        return self.chance.random() < part

    # The words of a line

    def draw_pid(self) -> int:
        """The pid of a process, mostly one that is there."""
        if self.machine.processes and not self.happens(0.03):
            return self.chance.choice(sorted(self.machine.processes))
        return self.chance.randrange(5)

    def descriptor(self, suits: Callable[[Description], bool] = lambda _: True) -> int:
        """A descriptor, mostly one that is open and suits."""
        process = self.machine.processes.get(self.pid)
        table = sorted(process.descriptors.items()) if process is not None else []
        suitable = [descriptor for descriptor, description in table if suits(description) or self.happens(0.05)]
        if suitable and not self.happens(0.05):
            return self.chance.choice(suitable)
        return self.chance.choice((-1, 0, 3, 7, 255, 256))

    def reading(self, of_pipes: bool = False) -> int:
        """A descriptor, mostly one for reading."""
        return self.descriptor(lambda found: found.mode.reads and not (of_pipes and isinstance(found.node, File)))

    def writing(self, of_pipes: bool = False) -> int:
        """A descriptor, mostly one for writing."""
        return self.descriptor(lambda found: found.mode.writes and not (of_pipes and isinstance(found.node, File)))

    def end_of_pipe(self) -> int:
        """A descriptor, mostly one of a pipe."""
        return self.descriptor(lambda found: isinstance(found.node, Pipe))

    def of_file(self) -> int:
        """A descriptor, mostly one of a file."""
        return self.descriptor(lambda found: isinstance(found.node, File))

    def size(self) -> int:
        """A number of bytes, mostly one at an edge."""
        return self.chance.randrange(200000) if self.happens(0.1) else self.chance.choice(SIZES)

    def content(self) -> str:
        """The bytes of a write."""
        if self.version is Version.TWO and self.happens(0.6):
            return "+".join(self.piece() for _ in range(self.chance.randrange(1, 6)))
        few = ("-", "61", "6162", "aAfF00")
        return self.chance.choice(few) if self.happens(0.4) else f"{self.size()}*{self.chance.randrange(256):02x}"

    def piece(self) -> str:
        """A piece of the bytes of a write, of few bytes mostly. Neighbours often have the same byte."""
        byte = self.chance.choice(("61", "61", "6A", "00"))
        times = self.size() if self.happens(0.1) else self.chance.choice(TIMES)
        return f"{times}*{byte}" if times > 8 or self.happens(0.5) else byte * max(times, 1)

    def name(self) -> str:
        """A name, mostly one of few."""
        return self.chance.choice(ALL_NAMES if self.happens(SELDOM) else USUAL_NAMES)

    def word(self, words: Type[enum.Enum]) -> str:
        """One word of a list."""
        return str(self.chance.choice(list(words)).value)

    def several(self, words: Type[enum.Enum]) -> str:
        """Up to three words of a list."""
        return ",".join(self.word(words) for _ in range(self.chance.randrange(1, 4)))

    def flags_if_any(self, words: Type[enum.Enum], part: float) -> str:
        """A word of flags, behind a blank, in this part of the cases."""
        return f" {self.several(words)}" if self.happens(part) else ""

    def offset_if_any(self, descriptor: int) -> str:
        """The offset of a splice for a descriptor, mostly for a file's."""
        process = self.machine.processes.get(self.pid)
        description = process.descriptors.get(descriptor) if process is not None else None
        part = 0.5 if description is not None and isinstance(description.node, File) else 0.05
        return str(self.chance.choice(SPLICE_OFFSETS)) if self.happens(part) else "-"

    def call_number(self) -> int:
        """The number of a call, mostly one that waits."""
        waiting = self.machine.waiting
        if waiting and not self.happens(0.05):
            return self.chance.choice(list(waiting))
        return (self.limits.first_call + self.chance.randrange(20)) % 2**64

    # The lines, each by the word that it has

    def pipe(self) -> str:
        """A pipe, now and then one that doesn't wait, or one of packets."""
        if self.version is Version.TWO:
            return f"pipe{self.flags_if_any(PipeFlag, 0.7)}"
        return "pipe nonblock" if self.happens(0.25) else "pipe"

    def mkfifo(self) -> str:
        """A FIFO."""
        return f"mkfifo {self.name()}"

    def open(self) -> str:
        """An open, often of a name that is to be made, or one that doesn't wait."""
        flags = self.chance.choice(("", " creat", " nonblock", f" {self.several(OpenFlag)}"))
        return f"open {self.name()} {self.word(Mode)}{flags}"

    def unlink(self) -> str:
        """An unlink."""
        return f"unlink {self.name()}"

    def read(self) -> str:
        """A read."""
        return f"read {self.reading()} {self.size()}"

    def write(self) -> str:
        """A write."""
        return f"write {self.writing()} {self.content()}"

    def splice(self) -> str:
        """A splice."""
        source, target = self.reading(), self.writing()
        ends = f"{source} {self.offset_if_any(source)} {target} {self.offset_if_any(target)}"
        return f"splice {ends} {self.size()}{self.flags_if_any(SpliceFlag, 0.25)}"

    def tee(self) -> str:
        """A tee."""
        ends = f"{self.reading(of_pipes=True)} {self.writing(of_pipes=True)}"
        return f"tee {ends} {self.size()}{self.flags_if_any(SpliceFlag, 0.25)}"

    def poll(self) -> str:
        """A poll of a few entries."""
        masks = ("-", "in", "out", self.several(Event))
        entries = [f" {self.descriptor()}:{self.chance.choice(masks)}" for _ in range(self.chance.randrange(4))]
        return f"poll {self.chance.choice(('now', 'wait', 'wait'))}{''.join(entries)}"

    def dup(self) -> str:
        """A dup."""
        return f"dup {self.descriptor()}"

    def dup2(self) -> str:
        """A dup2."""
        return f"dup2 {self.descriptor()} {self.descriptor()}"

    def dupfd(self) -> str:
        """A dupfd, from the end of the table on too."""
        return f"dupfd {self.descriptor()} {self.chance.choice((self.descriptor(), 254, 255, 256, -1))}"

    def close(self) -> str:
        """A close."""
        return f"close {self.descriptor()}"

    def lseek(self) -> str:
        """A seek."""
        return f"lseek {self.of_file()} {self.chance.choice(SEEKS)} {self.word(Whence)}"

    def getfl(self) -> str:
        """The flags told."""
        return f"getfl {self.descriptor()}"

    def setfl(self) -> str:
        """The flags set."""
        return f"setfl {self.descriptor()} {self.several(OpenFlag) if self.happens(0.6) else '-'}"

    def getsz(self) -> str:
        """The capacity told."""
        return f"getsz {self.end_of_pipe()}"

    def setsz(self) -> str:
        """The capacity set."""
        return f"setsz {self.end_of_pipe()} {self.chance.choice(CAPACITIES)}"

    def fork(self) -> str:
        """A fork."""
        return "fork"

    def exit(self) -> str:
        """An exit."""
        return "exit"

    def start(self) -> str:
        """A start."""
        return "start"

    def resume(self) -> str:
        """A resume."""
        return f"resume {self.call_number()}"

    def interrupt(self) -> str:
        """An interrupt."""
        return f"interrupt {self.call_number()}"

    def file(self) -> str:
        """The bytes of a file, if they aren't too many."""
        name = self.name()
        node = self.machine.names.get(name.encode("ascii"))
        return f"file {name}" if not isinstance(node, File) or len(node.content) <= MOST_BYTES_TOLD else "# too long"


Line = Callable[[Scene], str]

# How often each line of a process comes.
CALLS: Dict[Line, float] = {
    Scene.pipe: 6,
    Scene.mkfifo: 2,
    Scene.open: 9,
    Scene.unlink: 1.5,
    Scene.read: 12,
    Scene.write: 14,
    Scene.splice: 9,
    Scene.tee: 5,
    Scene.poll: 6,
    Scene.dup: 2,
    Scene.dup2: 2,
    Scene.dupfd: 2,
    Scene.close: 5,
    Scene.lseek: 3,
    Scene.getfl: 1,
    Scene.setfl: 2,
    Scene.getsz: 1,
    Scene.setsz: 4,
    Scene.fork: 2,
    Scene.exit: 0.5,
}

# How often each line comes that no process makes.
WITHOUT_PROCESS: Dict[Line, float] = {Scene.start: 0.7, Scene.resume: 16, Scene.interrupt: 2, Scene.file: 2}

# Lines that mostly are of use only if a call waits.
OF_WAITING_CALLS = (Scene.resume, Scene.interrupt)

# What keeps descriptions open beside their first descriptor.
OTHER_HOLDERS: Tuple[Line, ...] = (Scene.fork, Scene.dup, Scene.dup2, Scene.dupfd)

# What some scripts have more of, or less. In the last ones the ends of FIFOs come and go.
EMPHASES: Tuple[Dict[Line, float], ...] = (
    {},
    {Scene.open: 16},
    {Scene.splice: 18, Scene.tee: 12},
    {Scene.poll: 16, Scene.close: 12},
    {
        **{Scene.open: 20, Scene.close: 24, Scene.poll: 10, Scene.setsz: 8, Scene.getsz: 6, Scene.pipe: 0.2},
        **dict.fromkeys(OTHER_HOLDERS, 0.3),
    },
)


def begin(scene: Scene) -> None:
    """Adds the first lines: mostly a pipe, a FIFO, a file and a child, now and then a crowd that leaves little free."""
    start, *others = BEGINNING
    scene.add(start)
    if scene.happens(0.75):
        scene.add(f"1 {scene.pipe()}" if scene.version is Version.TWO else "1 pipe")
        for line in others:
            scene.add(line)
    for line in scene.chance.choices(((), *CROWDS), (0.93, 0.04, 0.015, 0.015))[0]:
        scene.add(line)


def as_written(scene: Scene, line: str) -> str:
    """A line as it may be written too: with other blanks, zeros before a number, or a return at its end."""
    if not scene.happens(0.05):
        return line
    other_number = f"00{line}" if line[0].isdigit() else line
    return scene.chance.choice((f"  {line}", line.replace(" ", "\t"), f"{line} ", f"{line}\r", other_number))


def other_limits(chance: random.Random) -> Dict[str, int]:
    """Draws the limits that aren't the usual ones."""
    return {name: chance.choice(numbers) for name, numbers in OTHER_LIMITS.items() if chance.random() < PART_OTHER}


def scene_of(chance: random.Random, version: Version, others: Dict[str, int]) -> Scene:
    """Draws the lines of a script of this version, within these limits."""
    scene = Scene(chance, version, others)
    weights = {**CALLS, **WITHOUT_PROCESS, **chance.choice(EMPHASES)}
    lines = list(weights)
    begin(scene)
    for line in chance.choices(lines, list(weights.values()), k=chance.choice(LENGTHS)):
        if line in OF_WAITING_CALLS and not scene.machine.waiting and not scene.happens(0.1):
            continue
        if line in WITHOUT_PROCESS:
            scene.add(as_written(scene, line(scene)))
        else:
            scene.pid = scene.draw_pid()
            scene.add(as_written(scene, f"{scene.pid} {line(scene)}"))
    return scene


def respell(chance: random.Random, line: str, contents: Tuple[str, ...]) -> str:
    """Spells a word of a line otherwise, mostly one of an argument, or its end. The line may be a bad one then."""
    words = line.split()
    first = 0 if chance.random() < 0.2 else min(2, len(words) - 1)
    place = chance.randrange(first, len(words))
    word = words[place]
    if word.lstrip("-").isdigit():
        words[place] = chance.choice(ODD_NUMBERS)
    elif "*" in word:
        words[place] = chance.choice(contents)
    else:
        words[place] = chance.choice((word.upper(), f"{word},", f",{word}", f"{word},{word}", f"{word}%", f"%6G{word}", word[:-1], "-"))
    return " ".join(words) + chance.choice(ODD_ENDINGS)


def respell_some(scene: Scene) -> None:
    """Spells some of the last lines otherwise."""
    last = range(max(0, len(scene.lines) - LAST_LINES), len(scene.lines))
    contents = ODD_CONTENTS if scene.version is Version.ONE else (*ODD_CONTENTS, *ODD_PIECES)
    for place in scene.chance.choices(last, k=LINES_RESPELLED):
        scene.lines[place] = respell(scene.chance, scene.lines[place], contents)


def headed(scene: Scene) -> List[str]:
    """The lines of a script, of version 2 behind the one that tells that."""
    if scene.version is Version.ONE:
        return scene.lines
    return [scene.chance.choice(ODD_HEADERS) if scene.happens(PART_ODD_HEADERS) else HEADER, *scene.lines]


def change(chance: random.Random, script: bytes) -> bytes:
    """Changes a few bytes of a script, puts some in, takes some away, or cuts it."""
    changed = bytearray(script)
    for _ in range(chance.randrange(1, 3)):
        place, byte = chance.randrange(len(changed)), chance.choice(CHANGED_BYTES)
        kind = chance.choices(("other", "more", "less", "cut"), (3, 3, 3, 1))[0]
        if kind == "other":
            changed[place] = byte
        elif kind == "more":
            changed.insert(place, byte)
        elif len(changed) > 1:
            del changed[max(1, place) : None if kind == "cut" else max(1, place) + 1]
    return bytes(changed)


def draw(seed: int) -> Drawn:
    """Draws a script by a seed."""
    chance = random.Random(seed)
    # they are drawn apart, so that a script within the usual limits is the same whatever other ones there are
    others = other_limits(random.Random(f"limits of {seed}"))
    scene = scene_of(chance, Version.TWO if seed % 3 == 0 else Version.ONE, others)
    if scene.happens(PART_RESPELLED):
        respell_some(scene)
    script = "".join(line + "\n" for line in headed(scene)).encode("ascii")
    if scene.happens(PART_CHANGED):
        script = change(chance, script)
    return Drawn(script, scene.limits)


def main(words: List[str]) -> Optional[str]:
    """Prints the script of a seed, and its limits."""
    if len(words) != 1:
        return "usage: draw.py SEED"
    drawn = draw(int(words[0]))
    sys.stdout.buffer.write(drawn.script)
    print(*drawn.limits.words, file=sys.stderr)
    return None


if __name__ == "__main__":
    sys.exit(main(sys.argv[1:]))
