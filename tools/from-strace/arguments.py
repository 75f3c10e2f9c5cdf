"""The arguments and the result of a call, as strace writes them."""
from __future__ import annotations

import functools
import re
from dataclasses import dataclass
from typing import Any, Dict, List, Optional, Tuple

DESCRIPTOR = re.compile(r"(-?[0-9]+|AT_FDCWD)(?=<)")
WORD = re.compile(r"(?:/\*.*?\*/|\([^()]*\)|~\[[^\]]*\]|[^,\[\](){}\"<>= ]|=>|<<|>>| (?=/\*)| (?=\|))+")
KEY = re.compile(r"(\w+)=(?!>)")
# what stands behind a quotation mark
QUOTED = re.compile(r'((?:[^"\\]|\\.)*)"', re.DOTALL)
ESCAPE = re.compile(rb"\\(?:x([0-9a-fA-F]{2})|([0-7]{1,3})|(.))", re.DOTALL)
LETTERS = {b"n": b"\n", b"t": b"\t", b"r": b"\r", b"v": b"\v", b"f": b"\f", b"e": b"\x1b", b"a": b"\a", b"b": b"\b"}
RESULT = re.compile(r"\s*= (?P<value>\?|-?(?:0x[0-9a-f]+|[0-9]+))(?P<rest>.*)", re.DOTALL)
DELETED = "(deleted)"
# the number of AT_FDCWD, which stands for the folder of the process
OF_THE_PROCESS = -100
# a device has its numbers in a second pair, as of -yy
STANDS_FOR = re.compile(r"<((?:[^<>]|<[^<>]*>)*)>(?:\(deleted\))?")


class Malformed(Exception):
    """Arguments that can't be read."""


@dataclass(frozen=True)
class Descriptor:
    """A descriptor, with what -y told of it: a path, or a text such as pipe:[7]."""

    number: int
    stands_for: Optional[bytes] = None


@dataclass(frozen=True)
class Text:
    """The bytes of a buffer or a path. One that is cut lacks some."""

    data: bytes
    is_cut: bool = False


@dataclass(frozen=True)
class Result:
    """What a call returned. Without a value it never did. `error` is a name such as EAGAIN, and `behind` what stands in brackets."""

    value: Optional[int]
    error: str = ""
    behind: str = ""
    stands_for: Optional[bytes] = None


def unescaped(text: str) -> bytes:
    """The bytes of what strace wrote with escapes."""

    def one(found: "re.Match[bytes]") -> bytes:
        if found[1]:
            return bytes([int(found[1], 16)])
        if found[2]:
            return bytes([int(found[2], 8) & 255])
        return LETTERS.get(found[3], found[3])

    return ESCAPE.sub(one, text.encode("latin-1"))


class Parser:
    """Reads values from a place of a text on."""

    def __init__(self, text: str, place: int) -> None:
        self.text, self.place = text, place

    def at(self, what: str) -> bool:
        """Whether this comes next. It is then passed."""
        if self.text.startswith(what, self.place):
            self.place += len(what)
            return True
        return False

    def values(self, closing: str) -> List[Any]:
        """Values to the bracket that closes them."""
        found: List[Any] = []
        while not self.at(closing):
            before = self.place
            if not self.at(", ") and not self.at(" ") and not self.at(",") and not self.at("=> "):
                found.append(self.value())
            if self.place == before or self.place > len(self.text):
                raise Malformed
        return found

    def value(self) -> Any:
        """One value: a list, a struct, a text, a descriptor or a word."""
        key = KEY.match(self.text, self.place)
        if key:
            self.place = key.end()
            return {key[1]: self.value()}
        if self.at("["):
            return self.values("]")
        if self.at("{"):
            return self._struct()
        if self.at('"'):
            return self._text()
        number = DESCRIPTOR.match(self.text, self.place)
        if number:
            self.place = number.end()
            value = OF_THE_PROCESS if number[1] == "AT_FDCWD" else int(number[1])
            return Descriptor(value, self.stands_for())
        word = WORD.match(self.text, self.place)
        if not word:
            raise Malformed
        self.place = word.end()
        return word[0]

    def _struct(self) -> Any:
        values = self.values("}")
        if all(isinstance(value, dict) for value in values):
            merged: Dict[str, Any] = {}
            for value in values:
                merged.update(value)
            return merged
        return values

    def _text(self) -> Text:
        found = QUOTED.match(self.text, self.place)
        if not found:
            raise Malformed
        self.place = found.end()
        return Text(unescaped(found[1]), self.at("..."))

    def stands_for(self) -> Optional[bytes]:
        """What -y told of a descriptor."""
        found = STANDS_FOR.match(self.text, self.place)
        if found is None:
            return None
        self.place = found.end()
        return unescaped(found[1].removesuffix(" " + DELETED))


def result_of(text: str) -> Result:
    """What stands behind the arguments."""
    found = RESULT.fullmatch(text)
    if found is None:
        return Result(None)
    rest = Parser(found["rest"], 0)
    stands_for = rest.stands_for()
    behind = found["rest"][rest.place :].strip()
    error = re.match(r"E[A-Z0-9]+", behind)
    value = None if found["value"] == "?" else int(found["value"], 0)
    return Result(value, error[0] if error else "", behind, stands_for)


@functools.lru_cache(maxsize=1024)
def parsed(text: str) -> Tuple[List[Any], Result]:
    """The arguments of a call and its result."""
    parser = Parser(text, text.index("(") + 1)
    try:
        return parser.values(")"), result_of(text[parser.place :])
    except (IndexError, ValueError, RecursionError) as fault:
        raise Malformed from fault
