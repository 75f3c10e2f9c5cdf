"""A picture as text: a row for each step, a column for each lane."""
from __future__ import annotations

from typing import Dict, List, Set

from state import Node
from story import Lane, Step, Story
from words import lane_name, notes, printable, shortened

MOST_LINE = 34
MOST_REPLY = 22
LEGEND = """o  the process that makes the call     |  a process, a file      n  a call of this number waits
5  so many bytes are held               -  nothing is held         5!  a reader or a writer is missing
"""


def cell(lane: Lane, step: Step) -> str:
    """What a lane shows of a step."""
    if isinstance(lane, Node):
        held = step.held.get(id(lane), 0)
        missing = "!" if step.missing.get(id(lane)) else ""
        return f"{held or '-'}{missing}"
    calls = ",".join(str(call.number) for call in step.waiting if call.pid == lane)
    return ("o" if step.pid == lane else "|") + calls


def rows(story: Story) -> List[List[str]]:
    """The cells of each step."""
    alive: Set[Lane] = set()
    table = []
    for step in story.steps:
        alive.update(step.born)
        cells = [cell(lane, step) if lane in alive else "" for lane in story.lanes]
        alive.difference_update(step.gone)
        line, reply = " ".join(step.line.words), " ".join(step.line.reply)
        start = [str(step.line.number), shortened(line, MOST_LINE), shortened(reply, MOST_REPLY)]
        table.append([*start, *cells, "; ".join(notes(step))])
    return table


def as_text(story: Story) -> str:
    """The whole picture, with comments of the script over what they speak of."""
    head = ["line", "asked", "answered", *map(lane_name, story.lanes), "what happened"]
    table = rows(story)
    widths = [max(len(row[place]) for row in [head, *table]) for place in range(len(head))]
    comments: Dict[int, List[str]] = {place: step.line.comments for place, step in enumerate(story.steps)}

    def shown(row: List[str]) -> str:
        return "  ".join(text.ljust(width) for text, width in zip(row, widths)).rstrip()

    out = [shown(head)]
    for place, row in enumerate(table):
        out += [f"      # {comment}" for comment in comments[place]]
        out.append(shown(row))
    return printable("\n".join([*out, "", LEGEND]))
