"""Makes the page of a run, or of several side by side: one HTML file that loads nothing from the network; and the excerpt that a notebook shows."""

from __future__ import annotations

import json
import os
from html import escape
from string import Template
from typing import TYPE_CHECKING

from ..agents.pools import beside_pools, pool_lines
from ..files import written
from ..times.texts import DAY, SECOND
from .colours import in_light, style
from .flows import flows
from .network import arguments_of, network, network_of_model, nodes_that_are_drawn
from .pictures import NUMBERS, pictures_of, stays_of
from .parts import part, policy, shown_text
from .stations import intervals_for, station_names, stations_of
from .tables import columns_of, exits_table, facts, legend, nodes_table
from .units import units_of, visits_for

if TYPE_CHECKING:
    from collections.abc import Iterable, Mapping, Sequence
    from datetime import datetime
    from fractions import Fraction

    from ..lines import Node
    from ..node_visits import NodeVisits
    from ..report import Report
    from ..shapes import Path
    from ..times.calendar import Calendar
    from .tables import Column

SCRIPTS = "figures.js", "pictures.js", "stations.js", "units.js", "page.js"


def _first_node(nodes: Sequence[Node]) -> str:
    """Returns the node to select first: the one with the greatest utilisation, else the one with the longest waits."""
    return max(nodes, key=lambda item: (item.util or 0, item.util is not None, item.p90 or 0, item.max or 0, item.lost)).name


def _exact(value: object) -> object:
    """Returns figures for the script; as text if a double can't hold them."""
    if isinstance(value, (list, tuple)):
        return [_exact(item) for item in value]
    if isinstance(value, dict):
        return {name: _exact(item) for name, item in value.items()}
    return str(value) if isinstance(value, int) and value >= 1 << 53 else value


def _texts(label: object) -> list[str]:
    """Returns the texts (list of str) of a label; those of a tuple are several."""
    return list(map(shown_text, label if isinstance(label, tuple) else [label]))


def _data(
    reports: Sequence[Report],
    lines: Sequence[Sequence[Node]],
    labels: Sequence[list[str]],
    columns: Sequence[Column],
    tick: float | Fraction | None,
    start: datetime | None,
    chosen: str,
    within: int | None,
    working: Calendar | None,
    hour: int | None,
) -> dict[str, object]:
    """Returns the script's data: the figures and charts of the nodes of each run (`lines`, lists of Node), in the order of the columns, and the node
    to select first. `labels` are lists of texts; `working` is the Calendar of working time, or None."""
    runs = []
    for number, (label, report, mine) in enumerate(zip(labels, reports, lines)):
        nodes, stays = nodes_that_are_drawn(report), stays_of(report, mine)
        runs.append(
            {
                "label": ", ".join(label),
                "parts": label,
                "facts": facts(report),
                "span": report.span,
                "kinds": {item.name: item.kind for item in mine},
                "nodes": {item.name: _exact([column.of(report, item) for column in columns]) for item in mine},
                "pictures": _exact(pictures_of(mine, stays, report.span, NUMBERS // len(reports), tick)),
                "asked": {node.name: arguments_of(node) for node in nodes},
                "flows": {f"{name}.{output}": count for (name, output), count in flows(nodes, report).items()},
                **_over_time(report, stays, number, len(reports), tick, start, hour),
            }
        )
    return {
        "columns": [column.name for column in columns],
        "runs": runs,
        "node": chosen,
        "within": within,
        "tick": None if tick is None else float(tick),
        "date": start and start.date().isoformat(),
        "start": start.hour * 3600 + start.minute * 60 + start.second if start else 0,
        **({"working": _stretches(working, max(report.span for report in reports))} if working else {}),
    }


def _stretches(days: Calendar, last: int) -> list[list[int]]:
    """Returns the stretches of working time up to a tick: the first tick of each, and its wall-clock time in seconds after the midnight before time
    0."""
    midnight = days.wall(0) // DAY * DAY
    return [[tick, (wall - midnight) // SECOND] for tick, wall in days.stretches(last)]


def _over_time(
    report: Report,
    stays: Mapping[str, NodeVisits],
    number: int,
    runs: int,
    tick: float | Fraction | None,
    start: datetime | None,
    hour: int | None,
) -> dict[str, object]:
    """Returns the stations over time and the units of a run by its number; False each for a run past those that a page has room for, and None if
    there is nothing to show."""
    stations = {name: stays[name] for name in station_names(report, stays)}
    count, with_stations = intervals_for(len(stations), runs)
    visits, with_units = visits_for(runs)
    return {
        "has": report.has_visits,
        "line": number < with_stations and _exact(stations_of(report, stations, count, tick)),
        "units": number < with_units and _exact(units_of(report, stations, visits, tick, start, hour)),
    }


def _options(names: Iterable[str], chosen: str | None = None) -> str:
    return "".join(f'<option{" selected" if name == chosen else ""}>{escape(name)}</option>' for name in names)


def page(
    reports: Iterable[Report],
    labels: Iterable[object] | None = None,
    title: str | None = None,
    tick: float | Fraction | None = None,
    start: datetime | None = None,
    within: int | None = None,
    working: Calendar | None = None,
    hour: int | None = None,
) -> str:
    """Returns the page (str) of a report, or of several side by side, under their labels (by default 1, 2 and so on). The network and the rows of the
    tables are those of the first; figures follow the selected run. A pool is one node: the figures under its name are those of the whole. If all
    labels are tuples of one length, such as agents and load, the number with the most values is the axis of the curves, and there is a curve for
    each combination of the others.

    With `tick`, the seconds per tick (a number), axes show times of day; with `start`, the local datetime of time 0, also dates. With `within` (int,
    ticks), the share of all arrivals served within that time becomes a figure; each report then needs its visits. With `working`, a Calendar whose
    ticks count working time, times of day are those of its clock. With `hour` (int, ticks), the page shows the single jobs of the hour that begins
    then, instead of the one in which most jobs come. Raises ValueError if there is no report.
    """
    reports = list(reports)
    if not reports:
        raise ValueError("a page needs a report: none was given, or every model was rejected")
    parts = list(map(_texts, labels or range(1, len(reports) + 1)))
    names = [", ".join(texts) for texts in parts]
    first, is_several = reports[0], len(reports) > 1
    title = shown_text(title or (f"{len(reports)} runs" if is_several else "Run"))
    columns, lines = columns_of(reports, within), [beside_pools(report) for report in reports]
    chosen = _first_node(lines[0])
    data = _data(reports, lines, parts, columns, tick, start, chosen, within, working, hour)
    script = "(() => {\n'use strict';\n" + "".join(map(part, SCRIPTS)) + "})();\n"
    svg = network(first, lines[0], chosen)
    return Template(part("page.html")).substitute(
        policy=escape(policy(script)),
        title=escape(title),
        style=style() + part("piece.css") + part("page.css"),
        facts=facts(first),
        pools="".join(f"\n<p>{escape(pool_line)}</p>" for pool_line in pool_lines(reports, lacks=True)),
        runs=f'<label>Run <select id="run">{_options(names)}</select></label>' if is_several else "",
        network=Template(part("network.html")).substitute(legend=legend(), svg=svg) if svg else "",
        compared=part("compared.html") if is_several else "",
        stations=part("stations.html") if any(report.has_visits for report in reports) else "",
        units=part("units.html") if any(report.has_visits for report in reports) else "",
        nodes=_options([line.name for line in lines[0]], chosen),
        tables=nodes_table(first, lines[0], columns),
        exits="" if is_several else exits_table(first),
        # Nothing in a text may end the element that contains it.
        data=json.dumps(data, separators=(",", ":"), allow_nan=False).replace("<", "\\u003c"),
        script=script,
    )


def save(
    path: Path,
    reports: Iterable[Report],
    labels: Iterable[object] | None = None,
    title: str | None = None,
    tick: float | Fraction | None = None,
    start: datetime | None = None,
    within: int | None = None,
    working: Calendar | None = None,
    hour: int | None = None,
) -> None:
    """Writes a page, completely or not at all. Takes what `page` takes, and also raises OSError."""
    text = page(reports, labels, title, tick, start, within, working, hour)
    with written(os.fspath(path)) as file:
        file.write(text)


def drawing(report: Report) -> str:
    """Returns only the network (str), as an SVG file for documents, in light colours. Raises ValueError if the report's model isn't known."""
    svg = network(report, beside_pools(report), is_still=True)
    if not svg:
        raise ValueError("the network needs the model of the report")
    head, body = svg.split(">", 1)
    head = head.replace("<svg ", '<svg xmlns="http://www.w3.org/2000/svg" ', 1)
    rules = in_light(part("piece.css"))
    ground = in_light('<rect width="100%" height="100%" fill="var(--paper)"/>')
    return f'{head}><style>{rules}</style>{ground}<g class="mpsim">{body.removesuffix("</svg>")}</g></svg>\n'


def model_piece(text: str) -> str:
    """Returns what a notebook shows of a model's text (str): the network, without figures. Raises ValueError if the text isn't a model."""
    svg = network_of_model(text)
    return f'<div class="mpsim piece"><style>{style()}{part("piece.css")}</style><div class="scroll">{svg}</div></div>'


def piece(report: Report) -> str:
    """Returns what a notebook shows (str): the network and the tables, without a script."""
    lines = beside_pools(report)
    svg = network(report, lines, is_still=True)
    drawn = f'{legend()}<div class="scroll">{svg}</div>' if svg else ""
    tables = nodes_table(report, lines, columns_of([report]), is_still=True) + exits_table(report, is_still=True)
    text = f'<p>{facts(report)}</p>{drawn}<div class="scroll">{tables}</div>'
    return f'<div class="mpsim piece"><style>{style()}{part("piece.css")}</style>{text}</div>'
