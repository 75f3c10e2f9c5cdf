"""How a picture says what happened, in words: of lanes, of calls that wait, and of steps."""
from __future__ import annotations

import re
from typing import List

from state import Node, Waiting
from story import Lane, Step

MOST_NAME = 16
# what XML has no character for (XML 1.0, 2.2), and a terminal takes for a command
CONTROL = re.compile("[\x00-\x08\x0b-\x1f\x7f-\x9f]")


def printable(text: str) -> str:
    """A text without control characters."""
    return CONTROL.sub("\ufffd", text)


def counted(count: int) -> str:
    """A number of bytes."""
    return f"{count:,} byte" if count == 1 else f"{count:,} bytes"


def shortened(text: str, most: int) -> str:
    """A text, cut if it is too long."""
    return text if len(text) <= most else f"{text[: most - 1]}…"


def lane_name(lane: Lane) -> str:
    """What stands over a lane."""
    if not isinstance(lane, Node):
        return f"process {lane}"
    return lane.name if lane.kind == "pipe" else f"{lane.kind} {shortened(lane.name, MOST_NAME)}"


def names_of(call: Waiting) -> List[str]:
    """The nodes of a call that waits, each once."""
    return list(dict.fromkeys(lane_name(found.node) for found in call.descriptions))


def awaited(call: Waiting) -> str:
    """For what a call waits."""
    names = names_of(call)
    if call.call == "open":
        other = "writer" if call.descriptions[0].mode == "r" else "reader"
        return f"open waits for a {other} of {names[0]}"
    if call.call == "read":
        return f"read waits for bytes of {names[0]}"
    if call.call == "write":
        rest = f" ({counted(call.length - call.taken)} left)" if call.taken else ""
        return f"write waits for room in {names[0]}{rest}"
    if call.call == "poll":
        return f"poll waits for {', '.join(names) or 'nothing'}"
    return f"{call.call} waits for bytes of {names[0]}, or room in {names[-1]}"


def notes(step: Step) -> List[str]:
    """What a step did, in words."""
    told = []
    for flow in step.flows:
        if flow.count:
            verb = "copied" if flow.copies else "go"
            told.append(f"{counted(flow.count)} {verb}: {lane_name(flow.source)} to {lane_name(flow.target)}")
        else:
            told.append(f"{lane_name(flow.source)} makes {lane_name(flow.target)}")
    if step.begins_to_wait:
        told.append(f"call {step.begins_to_wait.number}: {awaited(step.begins_to_wait)}")
    if step.goes_on:
        helped = step.goes_on.helped_at
        by = f", as line {helped} let it" if helped else ", without what it waited for"
        told.append(f"call {step.goes_on.number} ends{by}")
    elif step.tried:
        told.append(f"call {step.tried.number} waits on")
    told += [f"{lane_name(node)} has no {end}" for node, end in step.lost]
    told += [f"{lane_name(lane)} is gone" for lane in step.gone]
    return told
