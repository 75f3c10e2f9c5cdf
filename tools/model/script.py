"""The format of scripts, the texts of replies, and a run of a whole script, as docs/RULES.md has them in "Scripts"."""
from __future__ import annotations

import enum
import functools
import re
from dataclasses import dataclass
from typing import Any, Callable, Dict, FrozenSet, Iterator, List, Optional, Pattern, Tuple, Type, TypeVar

import replies
from machine import Machine, OpenFlag, PipeFlag, PipeFlags, SpliceFlag, Whence
from replies import Event, Mask, Reply
from state import USUAL, Limits, Mode, Process

MOST_SCRIPT_BYTES = 16777216
MOST_WRITTEN = 16777216
UNSIGNED_32 = range(2**32)
UNSIGNED_64 = range(2**64)
SIGNED_32 = range(-(2**31), 2**31)
SIGNED_64 = range(-(2**63), 2**63)
# the first line of a script of version 2, of which one carriage return may stand before the end
HEADER = b"piperun 2"
# so many equal bytes are shown as a piece of their own
LEAST_RUN = 4

DIGITS = re.compile(r"[0-9]{1,20}")
SIGNED_DIGITS = re.compile(r"-?[0-9]{1,20}")
NAME = re.compile(r"(?:[!-$&-~]|%[0-9a-fA-F]{2})+")
ESCAPE = re.compile(r"%([0-9a-fA-F]{2})")
HEXADECIMAL = re.compile(r"(?:[0-9a-fA-F]{2})+")
REPEATED = re.compile(r"([0-9]{1,20})\*([0-9a-fA-F]{2})")

Word = TypeVar("Word", bound=enum.Enum)
Parser = Callable[[str], Any]


class Version(enum.Enum):
    """The version of a script, which its first line tells."""

    ONE = 1
    TWO = 2


class BadLine(Exception):
    """A line, or a word of it, that the format doesn't give."""


# What the words of a line say


def number(text: str, values: range) -> int:
    """A number of 1 to 20 digits. It may have a sign if a value of its type may be negative."""
    form = SIGNED_DIGITS if values.start < 0 else DIGITS
    if not form.fullmatch(text) or int(text) not in values:
        raise BadLine
    return int(text)


def pid_or_length(text: str) -> int:
    """P, N or LEN: 32 bits."""
    return number(text, UNSIGNED_32)


def descriptor(text: str) -> int:
    """FD, or the N of dupfd: 32 bits with a sign."""
    return number(text, SIGNED_32)


def seek_offset(text: str) -> int:
    """OFFSET: 64 bits with a sign."""
    return number(text, SIGNED_64)


def call_number(text: str) -> int:
    """C: 64 bits."""
    return number(text, UNSIGNED_64)


def offset_if_any(text: str) -> Optional[int]:
    """OFF: 64 bits, or `-` if no offset is given. Whether it is too great for a file is for the step to see."""
    return None if text == "-" else number(text, UNSIGNED_64)


def name(text: str) -> bytes:
    """NAME: `-` is the empty name. `%hh` is the byte hh."""
    if text == "-":
        return b""
    if not NAME.fullmatch(text):
        raise BadLine
    return ESCAPE.sub(lambda found: chr(int(found[1], 16)), text).encode("latin-1")


def pieces(texts: List[str]) -> bytes:
    """The bytes of pieces, one behind another. Each is hexadecimal digits, or N*hh. All are looked at before any is made."""
    parts: List[Tuple[int, bytes]] = []
    for text in texts:
        repeated = REPEATED.fullmatch(text)
        if repeated:
            parts.append((int(repeated[1]), bytes.fromhex(repeated[2])))
        elif HEXADECIMAL.fullmatch(text):
            parts.append((1, bytes.fromhex(text)))
        else:
            raise BadLine
    if sum(times * len(part) for times, part in parts) > MOST_WRITTEN:
        raise BadLine
    return b"".join(part * times for times, part in parts)


def content(text: str) -> bytes:
    """BYTES of version 1: `-` for none, or one piece."""
    return b"" if text == "-" else pieces([text])


def content_of_pieces(text: str) -> bytes:
    """BYTES of version 2: `-` for none, or pieces that `+` joins."""
    return b"" if text == "-" else pieces(text.split("+"))


def one_of(words: Type[Word]) -> Callable[[str], Word]:
    """A parser of one of the words of a list."""

    def parse(text: str) -> Word:
        try:
            return words(text)
        except ValueError:
            raise BadLine from None

    return parse


def several_of(words: Type[Word]) -> Callable[[str], FrozenSet[Word]]:
    """A parser of words of a list that commas join, in any order and with repeats."""
    parse = one_of(words)
    return lambda text: frozenset(map(parse, text.split(",")))


def or_none(parse: Callable[[str], FrozenSet[Word]]) -> Callable[[str], FrozenSet[Word]]:
    """A parser that also takes `-` for no words."""
    return lambda text: frozenset() if text == "-" else parse(text)


def only(word: str) -> Parser:
    """A parser of one word, which says that something is so."""

    def parse(text: str) -> bool:
        if text != word:
            raise BadLine
        return True

    return parse


def waits(text: str) -> bool:
    """The word of a poll that tells whether it waits."""
    if text not in ("now", "wait"):
        raise BadLine
    return text == "wait"


MASK = or_none(several_of(Event))


def entry(text: str) -> Tuple[int, Mask]:
    """ENTRY: FD:MASK."""
    asked, colon, mask = text.partition(":")
    if not colon:
        raise BadLine
    return descriptor(asked), MASK(mask)


# What a line asks


@dataclass(frozen=True)
class Form:
    """How a line gives a call: the words that it has to have, and then one that it may lack, or any number of words.

    `without_last` is what is taken for the word that is lacking.
    """

    call: Callable[..., Reply]
    words: Tuple[Parser, ...] = ()
    last: Optional[Parser] = None
    without_last: object = None
    rest: Optional[Parser] = None

    def arguments(self, texts: List[str]) -> List[Any]:
        """The arguments of the call, of the words behind its name."""
        needed = len(self.words)
        behind = texts[needed:]
        if len(texts) < needed or (self.rest is None and len(behind) > (self.last is not None)):
            raise BadLine
        found = [parse(text) for parse, text in zip(self.words, texts)]
        if self.last is not None:
            found.append(self.last(behind[0]) if behind else self.without_last)
        if self.rest is not None:
            found.append([self.rest(text) for text in behind])
        return found


OPEN_FLAGS = several_of(OpenFlag)
SPLICE_FLAGS = several_of(SpliceFlag)


def pipe_with_flags(machine: Machine, process: Process, flags: PipeFlags) -> Reply:
    """A pipe as version 2 asks for it."""
    return machine.pipe(process, PipeFlag.NONBLOCK in flags, PipeFlag.DIRECT in flags)


# The lines of version 1
FORMS: Dict[str, Form] = {
    "pipe": Form(Machine.pipe, last=only("nonblock"), without_last=False),
    "mkfifo": Form(Machine.mkfifo, (name,)),
    "open": Form(Machine.open, (name, one_of(Mode)), last=OPEN_FLAGS, without_last=frozenset()),
    "read": Form(Machine.read, (descriptor, pid_or_length)),
    "write": Form(Machine.write, (descriptor, content)),
    "splice": Form(
        Machine.splice,
        (descriptor, offset_if_any, descriptor, offset_if_any, pid_or_length),
        last=SPLICE_FLAGS,
        without_last=frozenset(),
    ),
    "tee": Form(Machine.tee, (descriptor, descriptor, pid_or_length), last=SPLICE_FLAGS, without_last=frozenset()),
    "poll": Form(Machine.poll, (waits,), rest=entry),
    "dup": Form(Machine.dup, (descriptor,)),
    "dup2": Form(Machine.dup2, (descriptor, descriptor)),
    "dupfd": Form(Machine.dupfd, (descriptor, descriptor)),
    "close": Form(Machine.close, (descriptor,)),
    "lseek": Form(Machine.lseek, (descriptor, seek_offset, one_of(Whence))),
    "getfl": Form(Machine.getfl, (descriptor,)),
    "setfl": Form(Machine.setfl, (descriptor, or_none(OPEN_FLAGS))),
    "getsz": Form(Machine.getsz, (descriptor,)),
    "setsz": Form(Machine.setsz, (descriptor, pid_or_length)),
    "unlink": Form(Machine.unlink, (name,)),
    "fork": Form(Machine.fork),
    "exit": Form(Machine.exit),
}

# What version 2 has in place of some of these
FORMS_OF: Dict[Version, Dict[str, Form]] = {
    Version.ONE: FORMS,
    Version.TWO: {
        **FORMS,
        "pipe": Form(pipe_with_flags, last=several_of(PipeFlag), without_last=frozenset()),
        "write": Form(Machine.write, (descriptor, content_of_pieces)),
    },
}

# Lines that begin with a word and not with a pid.
WITHOUT_PROCESS: Dict[str, Form] = {
    "start": Form(Machine.start),
    "resume": Form(Machine.resume, (call_number,)),
    "interrupt": Form(Machine.interrupt, (call_number,)),
    "file": Form(Machine.file_content, (name,)),
}


@dataclass(frozen=True)
class Request:
    """What a line asks of the machine, with the word that names it."""

    line: bytes
    word: str
    step: Callable[[Machine], Reply]


def words_of(line: bytes) -> List[str]:
    """The words of a line, which blanks part. One carriage return that ends the line is a blank."""
    if line.endswith(b"\r"):
        line = line[:-1]
    # each byte becomes one character
    return [word for word in line.decode("latin-1").replace("\t", " ").split(" ") if word]


def parse_line(line: bytes, version: Version = Version.ONE) -> Optional[Request]:
    """What a line asks of the machine, or nothing. A line that the format doesn't give raises BadLine."""
    words = words_of(line)
    if not words or words[0].startswith("#"):
        return None
    alone = WITHOUT_PROCESS.get(words[0])
    if alone is not None:
        step, given = alone.call, alone.arguments(words[1:])
        return Request(line, words[0], lambda machine: step(machine, *given))
    pid = pid_or_length(words[0])
    form = FORMS_OF[version].get(words[1]) if len(words) > 1 else None
    if form is None:
        raise BadLine
    call, arguments = form.call, form.arguments(words[2:])
    return Request(line, words[1], lambda machine: machine.begin(pid, call, *arguments))


# The texts of replies


def digits(data: bytes) -> str:
    """Bytes as version 1 shows them: in hexadecimal digits of lower case, or `-` for none."""
    return data.hex() or "-"


@functools.lru_cache(maxsize=None)
def equal_to(byte: int) -> Pattern[bytes]:
    """A run of this byte."""
    return re.compile(re.escape(bytes([byte])) + b"+")


def runs(data: bytes) -> Iterator[Tuple[int, int]]:
    """Where the maximal runs of equal bytes begin, and how long they are."""
    place = 0
    while place < len(data):
        found = equal_to(data[place]).match(data, place)
        assert found is not None
        yield place, found.end() - place
        place = found.end()


def pieces_shown(data: bytes) -> Iterator[str]:
    """The pieces of bytes: one for each run of equal bytes that is long enough, and one for the bytes between two of these."""
    shown = 0
    for place, length in runs(data):
        if length >= LEAST_RUN:
            if shown < place:
                yield data[shown:place].hex()
            yield f"{length}*{data[place]:02x}"
            shown = place + length
    if shown < len(data):
        yield data[shown:].hex()


def by_runs(data: bytes) -> str:
    """Bytes as version 2 shows them: pieces that `+` joins, or `-` for none."""
    return "+".join(pieces_shown(data)) or "-"


SHOWN: Dict[Version, Callable[[bytes], str]] = {Version.ONE: digits, Version.TWO: by_runs}


def mask_text(mask: Mask) -> str:
    """The names of a mask in their order, or `-` for none."""
    return ",".join(event.value for event in Event if event in mask) or "-"


def flags_text(reply: replies.StatusFlags) -> str:
    """The mode, and the status flags in their order, or `-` for none."""
    held = ("append", reply.append), ("nonblock", reply.nonblock), ("direct", reply.direct)
    flags = [word for word, holds in held if holds]
    return f"flags {reply.mode.value} {','.join(flags) or '-'}"


def fault_text(reply: replies.Fault) -> str:
    """The name of the error. Beside EPIPE stands the mark of the signal."""
    return reply.error.name + (" sigpipe" if reply.error is replies.Errno.EPIPE else "")


def file_text(reply: replies.FileContent, version: Version) -> str:
    """The bytes of a file, or that there is no such file."""
    return "no file" if reply.content is None else f"file {SHOWN[version](reply.content)}"


TEXTS: Dict[type, Callable[[Any], str]] = {
    replies.NewProcess: lambda reply: f"pid {reply.pid}",
    replies.NewDescriptor: lambda reply: f"fd {reply.descriptor}",
    replies.NewPipe: lambda reply: f"fds {reply.read_end} {reply.write_end}",
    replies.Count: lambda reply: f"count {reply.bytes}" + (" sigpipe" if reply.sigpipe else ""),
    replies.Offset: lambda reply: f"offset {reply.offset}",
    replies.StatusFlags: flags_text,
    replies.Capacity: lambda reply: f"size {reply.bytes}",
    replies.Masks: lambda reply: " ".join([f"masks {reply.ready}", *map(mask_text, reply.masks)]),
    replies.Fault: fault_text,
    replies.Parked: lambda reply: f"parked {reply.number}",
    replies.Plain: lambda reply: reply.value,
}


def reply_text(reply: Reply, version: Version = Version.ONE) -> str:
    """The text of a reply, without its line feed. The versions differ at bytes."""
    if isinstance(reply, replies.Data):
        return f"data {SHOWN[version](reply.content)}"
    if isinstance(reply, replies.FileContent):
        return file_text(reply, version)
    return TEXTS[type(reply)](reply)


# A whole script


@dataclass(frozen=True)
class Answer:
    """The text that a line of a script printed. Lines are counted from 1."""

    line: int
    text: str


@dataclass(frozen=True)
class Run:
    """What a run of a script printed, and with which status it ends. A complaint is a line for standard error."""

    answers: List[Answer]
    complaint: str = ""
    status: int = 0

    @property
    def output(self) -> bytes:
        """What is printed to standard output."""
        return "".join(answer.text + "\n" for answer in self.answers).encode("ascii")


def lines_of(script: bytes) -> List[bytes]:
    """The lines of a script, of which the last may lack its line feed."""
    lines = script.split(b"\n")
    if not lines[-1]:
        lines.pop()
    return lines


def version_of(lines: List[bytes]) -> Version:
    """The version of a script of these lines."""
    return Version.TWO if lines and lines[0] in (HEADER, HEADER + b"\r") else Version.ONE


def answer(machine: Machine, request: Request) -> Reply:
    """Makes the step of a request."""
    return request.step(machine)


def run(script: bytes, limits: Limits = USUAL, answering: Callable[[Machine, Request], Reply] = answer) -> Run:
    """Runs a script until its end, or until its first bad line. A first line that tells the version asks nothing."""
    if len(script) > MOST_SCRIPT_BYTES:
        return Run([], f"piperun: script longer than {MOST_SCRIPT_BYTES} bytes", 3)
    machine = Machine(limits)
    answers: List[Answer] = []
    lines = lines_of(script)
    version = version_of(lines)
    for line_number, line in enumerate(lines, 1):
        if line_number == 1 and version is Version.TWO:
            continue
        try:
            request = parse_line(line, version)
        except BadLine:
            return Run(answers, f"piperun: line {line_number}: not a command", 3)
        if request is not None:
            answers.append(Answer(line_number, reply_text(answering(machine, request), version)))
    return Run(answers)
