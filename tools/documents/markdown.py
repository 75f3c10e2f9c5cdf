"""What the checks read of a document in Markdown: blocks of code, code in a line, links, anchors and tables."""
import re
from typing import NamedTuple

FENCED = re.compile(r"^[ \t]*```(\w*)\n(.*?)^[ \t]*```$", re.DOTALL | re.MULTILINE)
SPAN = re.compile(r"`([^`]+)`")
LINK = re.compile(r"\[[^\]]*\]\(([^)\s]+)\)")
HEADING = re.compile(r"^#+[ \t]+(.*)$", re.MULTILINE)
EDGE = re.compile(r"^\s*\||\|\s*$")
CELL_EDGE = re.compile(r"(?<!\\)\|")


class Block(NamedTuple):
    line: int
    language: str
    text: str


def line_at(text, place):
    return 1 + text.count("\n", 0, place)


def blocks(text):
    """Each block of code, with the line where it begins."""
    return [Block(line_at(text, found.start()), found.group(1), found.group(2)) for found in FENCED.finditer(text)]


def prose(text):
    """The text without its blocks of code. Its lines stay where they are."""
    return FENCED.sub(lambda found: "\n" * found.group().count("\n"), text)


def spans(text):
    """Each piece of code in a line of the prose, with its line."""
    outside = prose(text)
    return [(line_at(outside, found.start()), " ".join(found.group(1).split())) for found in SPAN.finditer(outside)]


def links(text):
    """The target of each link, with its line."""
    outside = SPAN.sub(lambda found: "code" + "\n" * found.group().count("\n"), prose(text))
    return [(line_at(outside, found.start()), found.group(1)) for found in LINK.finditer(outside)]


def anchors(text):
    """The anchors of the headings."""
    titles = (SPAN.sub(r"\1", LINK.sub("", title)) for title in HEADING.findall(prose(text)))
    return {re.sub(r"[^\w\- ]", "", title.strip().lower()).replace(" ", "-") for title in titles}


def cells(line):
    return [cell.strip() for cell in CELL_EDGE.split(EDGE.sub("", line))]


def tables(text):
    """The rows of each table, each with its line, and as a dictionary from the head of its column."""
    found, head = [], None
    for number, line in enumerate(prose(text).split("\n"), 1):
        if not line.strip().startswith("|"):
            head = None
        elif head is None:
            head = cells(line)
            found.append([])
        elif not re.fullmatch(r"[\s|:-]+", line):
            found[-1].append((number, dict(zip(head, cells(line)))))
    return found


def code_of(cell):
    """The pieces of code of a cell."""
    return SPAN.findall(cell)
