"""Draws what happened in a run of a script: usage: picture [--text] SCRIPT [OUTPUT]

SCRIPT is a script of piperun, and OUTPUT what was printed of it; without OUTPUT that is in the file beside SCRIPT whose name ends with .out.
It prints an SVG, or with --text a table for a terminal. Time goes down. Each process, pipe, FIFO and file is a lane. A bar stands where a
call waits, with its number and for what. An arrow is bytes that go from lane to lane. It is wider the more bytes they are, and so is the
area over what a pipe holds, both by the logarithm. Dashes go from the step that let a call go on to where it went on. Red is where a pipe
has lost its last reader or writer.

If a line of SCRIPT can't have had its reply, a line on standard error has its number and what is wrong, and nothing is drawn.

Status: 0 good; 1 a file can't be read, or nothing can be written; 2 a bad command line, or SCRIPT and OUTPUT don't belong together; 3 they
are longer than 16777216 bytes, or make more than 1000 steps or 100 lanes; 4 no memory.
"""
from __future__ import annotations

import pathlib
import sys
from typing import List, Optional

from lines import TooLarge, Unreadable
from story import Story
from svg import as_svg
from text import as_text

MOST_BYTES = 16777216


def read(path: pathlib.Path) -> str:
    """The text of a file. Its bytes are characters, one each."""
    data = path.read_bytes()
    if len(data) > MOST_BYTES:
        raise TooLarge(f"{path} is longer than {MOST_BYTES} bytes")
    return data.decode("latin-1")


def complain(what: str, status: int) -> int:
    """Tells a fault in one line."""
    print(f"picture: {what}", file=sys.stderr)
    return status


def draw(script: pathlib.Path, output: Optional[pathlib.Path], is_text: bool) -> int:
    """Draws a run, and prints the picture."""
    try:
        story = Story(read(script), read(output or script.with_suffix(".out")))
    except OSError:
        return complain("cannot read", 1)
    except TooLarge as fault:
        return complain(str(fault), 3)
    except Unreadable as fault:
        return complain(str(fault), 2)
    except MemoryError:
        return complain("no memory", 4)
    try:
        sys.stdout.buffer.write((as_text(story) if is_text else as_svg(story, script.stem)).encode("utf-8"))
        sys.stdout.buffer.flush()
    except OSError:
        return complain("cannot write", 1)
    return 0


def main(words: List[str]) -> int:
    """Takes the command line."""
    if "-h" in words or "--help" in words:
        print(__doc__, end="")
        return 0
    is_text = "--text" in words
    files = [pathlib.Path(word) for word in words if word != "--text"]
    if not 1 <= len(files) <= 2 or any(str(path).startswith("-") for path in files):
        return complain("bad command line", 2)
    return draw(files[0], files[1] if len(files) == 2 else None, is_text)


if __name__ == "__main__":
    sys.exit(main(sys.argv[1:]))
