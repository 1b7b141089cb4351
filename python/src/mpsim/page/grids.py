"""Makes the heat map of a grid of agents and loads."""

from __future__ import annotations

import json
from html import escape
from typing import List, NamedTuple, Optional, Sequence, TypedDict

from .parts import part, percent, sheet, spoken

# The lower bounds of the second to the fifth step of a service level.
LEVELS = 0.5, 0.7, 0.8, 0.9
WORK = "share of the whole time, nights included, that agents work"


class Figure(TypedDict):
    """A figure of all cells: its name, and the text and the step (1 to 5) of each cell."""

    name: str
    texts: List[str]
    steps: List[int]


class Cell(NamedTuple):
    """A cell of a grid: a load (str, such as "110 %"), a number of agents and of calls (int), the share served in time, the mean wait and the 90th
    percentile of the waits in seconds (float; None without calls), and the share of the span during which agents worked."""

    load: str
    agents: int
    calls: int
    within: Optional[float]
    mean_wait: Optional[float]
    p90: Optional[float]
    util: float


def _level(share: Optional[float]) -> int:
    return 1 + sum((share or 0) >= it for it in LEVELS)


def _fifth(value: Optional[float], most: float) -> int:
    """Returns the step (1 to 5) of a value by fifths of `most`."""
    return min(5, 1 + int(5 * (value or 0) / most)) if most else 1


def heat_map(cells: Sequence[Cell], title: str, within: str, goal: Optional[float] = None) -> str:
    """Returns a page (str) with a row per load and a column per number of agents, from cells that have every pair, load by load. Each cell has its
    figure as text, and its step as a colour; those that reach the goal (a share) have a tick. A list chooses the figure; arrow keys go from cell to
    cell. `within` is the time that counts as served in time, as text.

    >>> text = heat_map([Cell("100 %", 2, 90, 0.75, 31.0, 80.0, 0.4), Cell("100 %", 3, 90, 0.95, 4.0, 9.0, 0.3)], "Desk", "20 s", 0.8)
    >>> text.count("<td"), text.count("95.0 % ✓")
    (2, 1)
    """
    loads, agents = list(dict.fromkeys(it.load for it in cells)), list(dict.fromkeys(it.agents for it in cells))
    reached = [goal is not None and it.within is not None and it.within >= goal for it in cells]
    figures: list[Figure] = [
        {"name": f"served within {within}", "texts": [_share(it.within) for it in cells], "steps": [_level(it.within) for it in cells]},
        _waits("mean wait", [it.mean_wait for it in cells]),
        _waits("90 of 100 callers waited at most", [it.p90 for it in cells]),
        {"name": WORK, "texts": [percent(it.util) for it in cells], "steps": [_fifth(it.util, 1) for it in cells]},
    ]
    says = [_said(it, within) for it in cells]
    head = "".join(f'<th scope="col">{it}</th>' for it in agents)
    rows = []
    for row, load in enumerate(loads):
        mine = range(row * len(agents), (row + 1) * len(agents))
        tds = "".join(_cell(figures[0], reached, at) for at in mine)
        rows.append(f'<tr><th scope="row">{escape(load)}</th>{tds}</tr>')
    options = "".join(f"<option>{escape(it['name'])}</option>" for it in figures)
    bounds = ["below 50 %", "from 50 %", "from 70 %", "from 80 %", "from 90 %"]
    legend = "".join(f'<span class="load{at}">{it}</span>' for at, it in enumerate(bounds, 1))
    ticks = "" if goal is None else f"<p>A tick and a frame: the goal of {percent(goal)} within {escape(within)} is reached.</p>"
    body = (
        f'<p class="tools"><label>Figure <select id="figure">{options}</select></label></p>{ticks}'
        f'<div class="scroll"><table id="grid" class="heat" tabindex="0" aria-describedby="told"><caption>Rows: load. Columns: agents. Arrow keys go '
        f'from cell to cell.</caption><thead><tr><th scope="col">load</th>{head}</tr></thead><tbody>{"".join(rows)}</tbody></table></div>'
        f'<output id="told" aria-live="polite">{escape(says[0]) if says else ""}</output>'
        f'<p class="legend">Service level: {legend} Waits: by fifths of the longest; work: by fifths of the whole time.</p>'
    )
    data = {"wide": len(agents), "figures": figures, "reached": reached, "says": says}
    return sheet(title, body, json.dumps(data, separators=(",", ":"), allow_nan=False), part("grid.js"))


def _share(share: Optional[float]) -> str:
    return "–" if share is None else percent(share)


def _waits(name: str, values: List[Optional[float]]) -> Figure:
    most = max((it for it in values if it is not None), default=0)
    return {"name": name, "texts": ["–" if it is None else spoken(it) for it in values], "steps": [_fifth(it, most) for it in values]}


def _cell(figure: Figure, reached: List[bool], at: int) -> str:
    text = figure["texts"][at] + (" ✓" if reached[at] else "")
    return f'<td class="load{figure["steps"][at]}{" reached" if reached[at] else ""}">{text}</td>'


def _said(cell: Cell, within: str) -> str:
    front = f"Load {cell.load}, {cell.agents} agent{'' if cell.agents == 1 else 's'}"
    if cell.within is None or cell.mean_wait is None or cell.p90 is None:
        return f"{front}: no calls"
    waits = f"mean wait {spoken(cell.mean_wait)}, 90 of 100 waited at most {spoken(cell.p90)}"
    served = f"{cell.calls:,} calls, {percent(cell.within)} served within {within}"
    return f"{front}: {served}, {waits}, agents work {percent(cell.util)} of the whole time"
