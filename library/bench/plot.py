"""The ratios as an SVG: a bar for each row that has something beside it, by the logarithm, and a line at 1."""
from __future__ import annotations

import math
from html import escape
from typing import List

from table import Row

ROW, TOP, WIDTH, RIGHT = 18, 40, 560, 70
CHARACTER = 6.7
LESS, MORE = "#00695c", "#b71c1c"
STYLE = "text { font: 12px ui-sans-serif, system-ui, Helvetica, Arial, sans-serif; fill: #263238 }"


def named(row: Row) -> str:
    """What a row compares."""
    return f"{row.what} ({row.size:,}), beside {row.beside}"


def as_svg(rows: List[Row]) -> str:
    """Draws the rows."""
    drawn = [(row, row.ratio) for row in rows if row.ratio]
    lowest = min([-2, *(math.floor(math.log10(ratio)) for _, ratio in drawn)])
    highest = max([1, *(math.ceil(math.log10(ratio)) for _, ratio in drawn)])
    bottom = TOP + ROW * len(drawn)
    left = round(24 + CHARACTER * max((len(named(row)) for row, _ in drawn), default=0))

    def place(ratio: float) -> float:
        """Where a ratio stands."""
        return left + WIDTH * (math.log10(ratio) - lowest) / (highest - lowest)

    width, height, one = left + WIDTH + RIGHT, bottom + 16, place(1)
    pieces = [
        f'<svg xmlns="http://www.w3.org/2000/svg" width="{width}" height="{height}" viewBox="0 0 {width} {height}">',
        f'<style>{STYLE}</style><rect width="{width}" height="{height}" fill="#fff"/>',
        '<text x="12" y="20">What is taken here, as a part of what is beside it: the ratio of the medians, by the logarithm</text>',
    ]
    for power in range(lowest, highest + 1):
        x = place(10.0**power)
        pieces.append(f'<line x1="{x:.1f}" y1="{TOP}" x2="{x:.1f}" y2="{bottom}" stroke="#cfd8dc"/>')
        pieces.append(f'<text x="{x:.1f}" y="{TOP - 6}" text-anchor="middle">{10.0**power:g}</text>')
    for number, (row, ratio) in enumerate(drawn):
        y, x = TOP + ROW * number, place(ratio)
        pieces.append(f'<text x="{left - 8}" y="{y + 13}" text-anchor="end">{escape(named(row))}</text>')
        color = LESS if ratio <= 1 else MORE
        pieces.append(f'<rect x="{min(x, one):.1f}" y="{y + 4}" width="{max(abs(x - one), 1):.1f}" height="{ROW - 7}" fill="{color}"/>')
        pieces.append(f'<text x="{left + WIDTH + 12}" y="{y + 13}">{ratio:.2f}</text>')
    pieces.append(f'<line x1="{one:.1f}" y1="{TOP}" x2="{one:.1f}" y2="{bottom}" stroke="#263238" stroke-width="2"/>')
    return "\n".join([*pieces, "</svg>"]) + "\n"
