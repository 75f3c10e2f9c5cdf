"""A picture as SVG: lanes go down, and each line of the script is a row."""
from __future__ import annotations

import math
import re
import textwrap
from html import escape
from typing import Dict, List, Tuple

from state import Node, Waiting
from story import Flow, Lane, Step, Story
from words import awaited, counted, lane_name, printable, shortened

ROW, COMMENT_ROW, TOP = 34, 15, 66
# below a call that begins to wait there are words on that
ROOM_FOR_WORDS = 26
# how far below their row dashes come to its end
BELOW_ROW = 12
LEFT, SCRIPT_WIDTH, LANE_GAP = 16, 400, 150
CHARACTER = 6.7
MOST_LINE, MOST_REPLY, MOST_COMMENT = 34, 22, 62
# pixels of the area of a full pipe, and of the widest arrow
MOST_AREA, MOST_ARROW = 34.0, 13.0
FULL = math.log2(1 + 65536)
COLORS = {"process": "#37474f", "pipe": "#00695c", "FIFO": "#1565c0", "file": "#6a1b9a"}
STYLE = """
text { font: 12px ui-sans-serif, system-ui, Helvetica, Arial, sans-serif; fill: #263238 }
.mono { font: 11px ui-monospace, Menlo, Consolas, 'DejaVu Sans Mono', monospace }
.reply { fill: #00695c } .fault { fill: #b71c1c } .note { fill: #78909c; font-style: italic; font-size: 11px }
.label { font-size: 11px; paint-order: stroke; stroke: #fff; stroke-width: 3px; stroke-linejoin: round }
.wait { fill: #ffb300; stroke: #e65100; stroke-width: 1 } .waits { fill: #bf360c }
.help { stroke: #e65100; stroke-width: 1.5; stroke-dasharray: 5 4; fill: none }
.lost { fill: #d50000; font-weight: bold } .line { stroke: #b0bec5; stroke-width: 1.5 } .red { stroke: #d50000; stroke-width: 2.5 }
"""
LEGEND = (
    "Time goes down. An arrow is bytes, and an area is what a pipe holds, or the size of a file: both are wider by the logarithm of the bytes.",
    "A yellow bar is a call that waits. Dashes go from the step that let it go on to where it went on. Red: the last reader or writer is gone.",
)


def share(count: int) -> float:
    """How wide a number of bytes is, from 0 to 1."""
    return min(1.0, math.log2(1 + count) / FULL)


def kind_of(lane: Lane) -> str:
    """The kind of a lane, by which it has its colour."""
    return lane.kind if isinstance(lane, Node) else "process"


def unbroken(words: str) -> str:
    """Words in which no line ends within the name of a lane."""
    return re.sub(r"\b(pipe|FIFO|file) ", "\\1\u00a0", words)


class Picture:
    """A picture that is drawn: where each lane and each step is, and the pieces, those that lie below first."""

    def __init__(self, story: Story) -> None:
        self.story = story
        self.below: List[str] = []
        self.above: List[str] = []
        self.columns = {id_of(lane): LEFT + SCRIPT_WIDTH + 60 + LANE_GAP * place for place, lane in enumerate(story.lanes)}
        self.rows: List[float] = []
        self.by_line: Dict[int, int] = {}
        bottom = float(TOP)
        self.comments: List[Tuple[float, str]] = []
        for place, step in enumerate(story.steps):
            for comment in step.line.comments:
                for part in textwrap.wrap(comment, MOST_COMMENT) or [""]:
                    bottom += COMMENT_ROW
                    self.comments.append((bottom - 2, part))
            bottom += ROW
            self.rows.append(bottom - ROW / 2 + 2)
            bottom += ROOM_FOR_WORDS if step.begins_to_wait is not None else 0
            self.by_line[step.line.number] = place
        self.bottom = bottom + 14
        self.width = max(LEFT + SCRIPT_WIDTH + 60 + LANE_GAP * len(story.lanes), 860)

    def text(self, x: float, y: float, words: str, kind: str = "", anchor: str = "start") -> None:
        """Some words."""
        self.above.append(f'<text x="{x:.1f}" y="{y:.1f}" class="{kind}" text-anchor="{anchor}">{escape(words)}</text>')

    def stroke(self, x: float, top: float, bottom: float, kind: str) -> None:
        """A part of a lane."""
        self.below.append(f'<line x1="{x:.1f}" y1="{top:.1f}" x2="{x:.1f}" y2="{bottom:.1f}" class="{kind}"/>')

    # The script

    def script(self) -> None:
        """Lines, replies and comments, at the left."""
        for top, comment in self.comments:
            self.text(LEFT, top, comment, "note")
        for row, step in zip(self.rows, self.story.steps):
            line, reply = " ".join(step.line.words), " ".join(step.line.reply)
            kind = "fault" if reply.startswith("E") or reply.startswith("no ") else "reply"
            self.text(LEFT + 22, row + 4, str(step.line.number), "mono note", "end")
            self.text(LEFT + 30, row + 4, shortened(line, MOST_LINE), "mono")
            self.text(LEFT + 34 + CHARACTER * (MOST_LINE + 1), row + 4, shortened(reply, MOST_REPLY), f"mono {kind}")

    # Lanes

    def lane(self, lane: Lane) -> None:
        """A lane with its name. One of a pid is drawn for each process that has it in turn."""
        x, color = self.columns[id_of(lane)], COLORS[kind_of(lane)]
        name = lane_name(lane)
        width = 14 + 6.8 * len(name)
        self.above.append(f'<rect x="{x - width / 2:.1f}" y="28" width="{width:.1f}" height="22" rx="5" fill="{color}"/>')
        self.above.append(f'<text x="{x:.1f}" y="43" text-anchor="middle" style="fill:#fff">{escape(name)}</text>')
        for first, step in enumerate(self.story.steps):
            if lane in step.born:
                self.life(lane, first)

    def life(self, lane: Lane, first: int) -> None:
        """A lane from where it came to where it went."""
        x, color = self.columns[id_of(lane)], COLORS[kind_of(lane)]
        last = next((place for place, step in enumerate(self.story.steps) if place >= first and lane in step.gone), None)
        end = self.bottom - 8 if last is None else self.rows[last]
        if isinstance(lane, Node):
            self.node(lane, first, len(self.story.steps) if last is None else last + 1, end)
        else:
            self.stroke(x, self.rows[first], end, "line")
        self.above.append(f'<circle cx="{x:.1f}" cy="{self.rows[first]:.1f}" r="3.5" fill="{color}"/>')
        if last is not None:
            self.above.append(f'<path d="M{x - 5:.1f} {end - 5:.1f}l10 10m0-10l-10 10" stroke="{color}" stroke-width="2"/>')

    def node(self, node: Node, first: int, behind: int, end: float) -> None:
        """What a node holds, as an area beside its lane, and red where it lacks an end that it had."""
        x = self.columns[id_of(node)]
        red = False
        shown = 0
        for place in range(first, behind):
            step = self.story.steps[place]
            top = self.rows[place]
            bottom = self.rows[place + 1] if place + 1 < behind else end
            red = bool(step.missing.get(id(node))) and (red or any(found is node for found, _ in step.lost))
            self.stroke(x, top, bottom, "red" if red else "line")
            held = step.held.get(id(node), 0)
            if held:
                color = COLORS[node.kind]
                width = MOST_AREA * share(held)
                size = f'x="{x:.1f}" y="{top:.1f}" width="{width:.1f}" height="{bottom - top:.1f}"'
                self.below.append(f'<rect {size} fill="{color}" opacity="0.28"/>')
            if held != shown:
                self.text(x + MOST_AREA * share(held) + 4, top + 13, f"{held:,}", "label")
            shown = held

    def lost(self, row: float, step: Step) -> None:
        """A pipe has lost its last reader or writer."""
        for node, end in step.lost:
            x = self.columns[id_of(node)]
            self.above.append(f'<circle cx="{x:.1f}" cy="{row:.1f}" r="5" fill="#d50000"/>')
            self.text(x - 9, row + 4, f"no {end}", "label lost", "end")

    # Bytes

    def flow(self, row: float, flow: Flow) -> None:
        """An arrow from lane to lane. A copy is hollow; a child is a thin one."""
        start, end = self.columns[id_of(flow.source)], self.columns[id_of(flow.target)]
        way = 1 if end > start else -1
        width = max(1.6, MOST_ARROW * share(flow.count))
        head = width / 2 + 5
        color = COLORS[kind_of(flow.target if isinstance(flow.target, Node) else flow.source)]
        start, end = start + 6 * way, end - 2 * way
        neck = end - way * (head + 2)
        half = width / 2
        shape = f"M{start:.1f} {row - half:.1f}L{neck:.1f} {row - half:.1f}L{neck:.1f} {row - head:.1f}L{end:.1f} {row:.1f}"
        shape += f"L{neck:.1f} {row + head:.1f}L{neck:.1f} {row + half:.1f}L{start:.1f} {row + half:.1f}Z"
        fill = f'fill="#fff" stroke="{color}" stroke-width="1.4"' if flow.copies else f'fill="{color}" fill-opacity="0.85"'
        told = f"{counted(flow.count)} {'copied ' if flow.copies else ''}from {lane_name(flow.source)} to {lane_name(flow.target)}"
        self.above.append(f'<path d="{shape}" {fill}><title>{escape(told)}</title></path>')
        words = f"{flow.count:,}{' copied' if flow.copies else ''}" if flow.count else "fork"
        self.text(start + way * (LANE_GAP / 2 - 6), row - head - 1, words, "label", "middle")

    # Calls that wait

    def bar(self, call: Waiting, lean: int) -> None:
        """A bar from where a call began to wait to where it ended, and dashes from the step that let it go on."""
        begun = self.by_line[call.line]
        ended = next((place for place, step in enumerate(self.story.steps) if step.goes_on is call), None)
        gone = next((place for place, step in enumerate(self.story.steps) if call.pid in step.gone and place > begun), None)
        last = ended if ended is not None else gone
        x = self.columns[call.pid] + 11 * lean
        top, bottom = self.rows[begun], self.bottom - 10 if last is None else self.rows[last]
        self.above.append(f'<rect x="{x - 4:.1f}" y="{top:.1f}" width="8" height="{bottom - top:.1f}" rx="3" class="wait"/>')
        for part, words in enumerate(textwrap.wrap(f"{call.number}: {unbroken(awaited(call))}", 24)):
            self.text(x + 8, top + 15 + 12 * part, words, "label waits")
        if ended is not None and call.helped_at in self.by_line:
            self.help(self.by_line[call.helped_at], x, self.rows[ended])

    def help(self, helper: int, x: float, row: float) -> None:
        """Dashes from the step that helped."""
        step = self.story.steps[helper]
        from_x = self.columns[step.pid] if step.pid in self.columns else x
        from_y = self.rows[helper]
        # they come from below, as the arrow of the bytes may lie in the row
        way, low = (1 if x > from_x else -1), row + BELOW_ROW
        bend = f"M{from_x:.1f} {from_y:.1f}C{from_x:.1f} {low:.1f} {(x + from_x) / 2:.1f} {low:.1f} {x - 3 * way:.1f} {row + 4:.1f}"
        if abs(from_x - x) < LANE_GAP / 2:
            # the same process helped: the dashes go round the bar
            left = min(x, from_x) - 34
            bend = f"M{from_x:.1f} {from_y:.1f}C{left:.1f} {from_y:.1f} {left:.1f} {row:.1f} {x - 5:.1f} {row:.1f}"
        self.below.append(f'<path d="{bend}" class="help"/>')
        self.above.append(f'<circle cx="{x:.1f}" cy="{row:.1f}" r="4" fill="#e65100"/>')

    def steps(self) -> None:
        """What each step did."""
        bars: List[Waiting] = []
        for row, step in zip(self.rows, self.story.steps):
            if step.pid in self.columns:
                self.above.append(f'<circle cx="{self.columns[step.pid]:.1f}" cy="{row:.1f}" r="3.5" fill="#37474f"/>')
            for flow in step.flows:
                self.flow(row, flow)
            self.lost(row, step)
            bars = [call for call in bars if call in step.waiting]
            if step.begins_to_wait is not None:
                own = sum(call.pid == step.begins_to_wait.pid for call in bars)
                self.bar(step.begins_to_wait, own)
                bars.append(step.begins_to_wait)

    def drawn(self, title: str) -> str:
        """All of it."""
        self.script()
        for lane in self.story.lanes:
            self.lane(lane)
        self.steps()
        self.text(LEFT, 20, title, "")
        for place, words in enumerate(LEGEND):
            self.text(LEFT, self.bottom + 18 + 16 * place, words, "note")
        height = self.bottom + 46
        size = f'width="{self.width:.0f}" height="{height:.0f}" viewBox="0 0 {self.width:.0f} {height:.0f}"'
        front = f'<svg xmlns="http://www.w3.org/2000/svg" {size}>\n<title>{escape(title)}</title>\n<style>{STYLE}</style>'
        return printable("\n".join([front, '<rect width="100%" height="100%" fill="#fff"/>', *self.below, *self.above, "</svg>", ""]))


def id_of(lane: Lane) -> int:
    """By what the column of a lane is found: a pid, or a node's own."""
    return id(lane) if isinstance(lane, Node) else lane


def as_svg(story: Story, title: str) -> str:
    """The picture of a story."""
    return Picture(story).drawn(title)
