"""The lines of a script and what each printed, as docs/RULES.md has them in "Scripts"."""
from __future__ import annotations

import re
from dataclasses import dataclass, field
from typing import Iterator, List, Optional

HEADER = "piperun 2"
# the bytes of a write, and of a file
MOST_BYTES = 16777216
# a comment of a record: the reply that it expects stands beside the line as it is
EXPECTED = "# => "
# times, if there are any, and digits
PIECE = re.compile(r"(?:([0-9]{1,20})\*)?((?:[0-9a-fA-F]{2})+)")


class Unreadable(Exception):
    """A script and an output that don't belong together, or a line that no script has."""


class TooLarge(Unreadable):
    """What would make a picture that can't be looked at."""


@dataclass
class Line:
    """A line that asks something: its number, its words, the comments before it, and its reply."""

    number: int
    words: List[str]
    reply: List[str]
    comments: List[str] = field(default_factory=list)

    @property
    def pid(self) -> Optional[int]:
        """The process that makes the call, if one does."""
        return int(self.words[0]) if self.words[0].isdigit() else None

    @property
    def call(self) -> str:
        """The word that names what is asked."""
        return self.words[0] if self.pid is None else self.words[1]

    @property
    def arguments(self) -> List[str]:
        """The words behind it."""
        return self.words[1:] if self.pid is None else self.words[2:]


def piece_length(text: str) -> int:
    """How many bytes a piece has: digits, or N*hh."""
    found = PIECE.fullmatch(text)
    if found is None:
        raise ValueError("no bytes")
    return int(found[1] or 1) * (len(found[2]) // 2)


def length_of(text: str) -> int:
    """How many bytes a word stands for: - for none, or pieces that + joins."""
    length = 0 if text == "-" else sum(piece_length(piece) for piece in text.split("+"))
    if length > MOST_BYTES:
        raise ValueError("more bytes than a line may have")
    return length


def lines_of(script: str, output: str) -> Iterator[Line]:
    """The lines that ask something, each with its reply. Lines that printed nothing, as behind a bad line, aren't there."""
    replies = iter(output.splitlines())
    answered = 0
    comments: List[str] = []
    for number, text in enumerate(script.split("\n"), 1):
        words = text.split()
        if not words or (number == 1 and text.rstrip("\r") == HEADER):
            continue
        if text.startswith(EXPECTED):
            continue
        if words[0].startswith("#"):
            comments.append(text.strip().lstrip("#").strip())
            continue
        reply = next(replies, None)
        if reply is None:
            return
        answered += 1
        if words[0].isdigit() and len(words) < 2:
            raise Unreadable(f"line {number} names no call")
        yield Line(number, words, reply.split() or [""], comments)
        comments = []
    if next(replies, None) is not None:
        raise Unreadable(f"line {answered + 1} of the output answers no line of the script")
