"""The rows of the table: how programs print them, and how they are written in Markdown and as comma-separated values."""
from __future__ import annotations

import csv
import io
import math
from typing import List, NamedTuple, Optional

COLUMNS = [
    "group", "what", "size", "unit", "ours least", "ours median", "ours 90th percentile", "beside", "theirs least", "theirs median",
    "theirs 90th percentile", "ratio of medians",
]
HEAD = ["what", "size", "unit", "here: least", "median", "90 %", "beside it", "least", "median", "90 %", "ratio"]


class Figures(NamedTuple):
    """Of many samples the least one, the middle one, and the one that nine tenths don't exceed."""

    least: float
    median: float
    ninetieth: float


class Row(NamedTuple):
    """What was measured, and what is beside it, if anything is."""

    group: str
    what: str
    size: int
    unit: str
    ours: Figures
    beside: str = ""
    theirs: Optional[Figures] = None

    @property
    def ratio(self) -> Optional[float]:
        """How much ours takes of what is beside it, by the medians."""
        return self.ours.median / self.theirs.median if self.theirs and self.theirs.median else None


def figures_of(samples: List[float]) -> Figures:
    """The figures of samples."""
    ordered = sorted(samples)
    count = len(ordered)
    median = (ordered[(count - 1) // 2] + ordered[count // 2]) / 2
    return Figures(ordered[0], median, ordered[math.ceil(count * 0.9) - 1])


def read(printed: str) -> List[Row]:
    """The rows that a program printed, whose cells tabs separate."""
    rows = []
    for line in printed.splitlines():
        cells = line.split("\t")
        theirs = Figures(*map(float, cells[8:11])) if cells[7] else None
        rows.append(Row(cells[0], cells[1], int(cells[2]), cells[3], Figures(*map(float, cells[4:7])), cells[7], theirs))
    return rows


def faults(rows: List[Row]) -> List[str]:
    """Each row that hasn't a figure above 0 in each place. That no row is there is a fault too."""
    found = [] if rows else ["there are no rows"]
    for row in rows:
        if not all(figure > 0 for figure in (*row.ours, *(row.theirs or ()))):
            found.append(f"a figure of '{row.what}', {row.size} isn't above 0")
    return found


def shown(figure: float) -> str:
    """A figure of three digits or more."""
    return f"{figure:,.0f}" if figure >= 100 else f"{figure:.1f}"


def shown_figures(figures: Optional[Figures]) -> List[str]:
    """Figures, or empty cells."""
    return [shown(figure) for figure in figures] if figures else ["", "", ""]


def shown_ratio(ratio: Optional[float]) -> str:
    """A ratio of two digits behind the point."""
    return "" if ratio is None else f"{ratio:.2f}"


def as_markdown(rows: List[Row]) -> str:
    """A table for each group."""
    lines: List[str] = []
    group = ""
    for row in rows:
        if row.group != group:
            group = row.group
            lines += ["", f"## {group}", "", f"| {' | '.join(HEAD)} |", "|" + "---|" * len(HEAD)]
        cells = [row.what, f"{row.size:,}", row.unit, *shown_figures(row.ours), row.beside, *shown_figures(row.theirs), shown_ratio(row.ratio)]
        lines.append(f"| {' | '.join(cells)} |")
    return "\n".join(lines[1:])


def as_csv(rows: List[Row]) -> str:
    """All rows below the names of the columns."""
    text = io.StringIO()
    writer = csv.writer(text, lineterminator="\n")
    writer.writerow(COLUMNS)
    for row in rows:
        ratio = "" if row.ratio is None else f"{row.ratio:.4f}"
        writer.writerow([*row[:4], *row.ours, row.beside, *(row.theirs or ("", "", "")), ratio])
    return text.getvalue()
