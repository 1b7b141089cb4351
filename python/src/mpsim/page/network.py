"""Draws the network as SVG: loads as colours and as figures, flows as the width of the lines."""

from __future__ import annotations

from html import escape
from typing import TYPE_CHECKING

from ..model import nodes_of
from .flows import flows
from .layers import HIGH, WIDE, Layout
from .tables import shown

if TYPE_CHECKING:
    from collections.abc import Iterable, Mapping, Sequence

    from ..lines import Node
    from ..model import ModelNode
    from ..report import Report
    from .layers import Line

# The steps of the load scale.
STEPS = 5
# The corner radius of a box, by kind, and where its text begins.
ROUND, INDENT = {"source": 31, "delay": 31, "split": 2, "fork": 2, "join": 2}, {"source": 14, "delay": 14}
# No job waits at these, so the line of figures shows the arrivals.
TOLD_BY_IN = "source", "split", "fork", "delay", "trunk"


def nodes_that_are_drawn(report: Report) -> list[ModelNode]:
    """Returns the nodes of the report's model (list of ModelNode), none if it isn't known."""
    return nodes_of(report.model) if report.model else []


def step(util: float | None) -> int:
    """Returns the step of the load scale: 1 to 5 by fifths, 0 for a node without servers."""
    return 0 if util is None else min(int(util * STEPS), STEPS - 1) + 1


def _shortened(text: str, most: int, last: int = 0) -> str:
    """Returns a text of at most this many letters; the `last` ones stay."""
    return text if len(text) <= most else text[: most - 1 - last] + "…" + text[len(text) - last :]


# The letters that are narrower or wider than most, for an estimate of a text's width; its factors are a little above those of common fonts.
WIDTHS = {**dict.fromkeys("ijl ,.'|:", 0.36), **dict.fromkeys("frt/_-", 0.5), **dict.fromkeys("mwMW%", 1.05)}
ROOM = WIDE - 20


def fitted(text: str, size: float) -> str:
    """Returns the attributes (str) that fit a text of this size into a box if it may be wider; as `fitted` of figures.js does."""
    is_wide = sum(WIDTHS.get(letter, 0.72) for letter in text) * size > ROOM
    return f' textLength="{ROOM}" lengthAdjust="spacingAndGlyphs"' if is_wide else ""


def arguments_of(node: ModelNode) -> str:
    """Returns the second line of a box: the kind and its arguments in the model."""
    return _shortened(f"{node.kind} {node.arguments}".strip(), 22)


def figures_of(line: Node) -> str:
    """Returns the third line of a box, from a line of the report."""
    if line.kind in TOLD_BY_IN:
        text = f"{line.in_:,} in"
    elif line.p90 is None and line.max is None:
        # For a pool without job lines only the mean is known.
        text = f"mean wait {shown(None if line.mean_wait is None else round(line.mean_wait, 3))}"
    else:
        text = f"max {line.max:,}" if line.p90 is None else f"p90 {line.p90:,}"
    return text + (f", lost {line.lost:,}" if line.lost else f", held {line.held:,}" if line.held else "")


def said_of(line: Node) -> str:
    """Returns the text of a box for screen readers."""
    return f"{line.name}, {line.kind}, {'no servers' if line.util is None else f'util {line.util:.4f}'}, {figures_of(line)}"


def _servers(node: ModelNode) -> int | None:
    """Returns the number of servers of a model's node (ModelNode), or None if it has none or the number is a name in braces."""
    arguments = node.arguments.split()
    count = {"server": 1, "loss": 1, "tandem": 1 + arguments.count("/"), "forkjoin": len(arguments) - arguments.count("|")}
    return int(arguments[0]) if node.kind == "trunk" and arguments[0].isdecimal() else count.get(node.kind)


def unlike(report: Report) -> str | None:
    """Returns the name of the first node whose utilisation doesn't fit the number of servers in the model, or None."""
    for node in nodes_that_are_drawn(report) if report.span else ():
        count, util = _servers(node), report.by_name[node.name].util
        if count and util is not None and round(10**4 * util) != 10**4 * report.by_name[node.name].busy // (count * report.span):
            return node.name
    return None


def network(report: Report, lines: Iterable[Node], chosen: str | None = None, is_still: bool = False) -> str:
    """Returns the SVG (str), with the figures of `lines` (list of Node) and the selected node marked; "" if the report's model isn't known. In a
    still one no node is a button."""
    nodes, figures = nodes_that_are_drawn(report), {line.name: line for line in lines}
    if not nodes:
        return ""
    return _svg(nodes, figures, flows(nodes, report), chosen, is_still)


def network_of_model(text: str) -> str:
    """Returns the SVG (str) of a model's text, without figures. Raises ValueError if the text isn't a model."""
    return _svg(nodes_of(text), {}, None, None, True)


def _svg(
    nodes: Sequence[ModelNode], figures: Mapping[str, Node], counts: Mapping[tuple[str, int], int] | None, chosen: str | None, is_still: bool
) -> str:
    layout, outputs = Layout(nodes), {node.name: node.outputs for node in nodes}
    # A wide network shrinks to the page, as long as its text stays legible, and then scrolls.
    size = f'viewBox="0 0 {layout.width:.0f} {layout.height:.0f}" width="{layout.width:.0f}" style="min-width:{0.72 * layout.width:.0f}px"'
    parts = [f'<svg class="network" {size} role="group" aria-label="Network of {len(nodes)} nodes">']
    parts += [_line(it, [layout.places[name] for name in it.path], counts, outputs[it.output[0]]) for it in layout.lines]
    parts += [_box(figures.get(node.name), node, layout.places[node.name], node.name == chosen, is_still) for node in nodes]
    return "".join(parts) + "</svg>"


def _line(line: Line, places: Sequence[tuple[float, float]], counts: Mapping[tuple[str, int], int] | None, outputs: int) -> str:
    name, number = line.output
    (x, y), last = places[0], places[-1]
    x += WIDE
    path = f"M{x} {y:.1f}"
    for to_x, to_y in places[1:]:
        is_last = (to_x, to_y) == last
        end = to_x - (7 if is_last and line.is_read else 0)
        middle = (x + end) / 2
        path += f"C{middle:.0f} {y:.1f} {middle:.0f} {to_y:.1f} {end} {to_y:.1f}" + ("" if is_last else f"h{WIDE}")
        x, y = to_x + WIDE, to_y
    to_x, to_y = last
    count, most = (counts or {}).get(line.output), max([*(counts or {}).values(), 1])
    text = "" if counts is None else "unknown " if count is None else f"{count:,} "
    if line.is_read:
        tip = f'<path class="tip" d="M{to_x - 8} {to_y - 5:.1f}l8 5l-8 5z"/>'
    else:
        tip = f'<circle class="tip" cx="{to_x + 3}" cy="{to_y:.1f}" r="4"/>'
        tip += f'<text class="flow leave" x="{to_x + 11}" y="{to_y + 4:.1f}">{text}leave</text>'
    # The number of the output is near the next layer, where the lines of a split have separated.
    near_x, near_y = places[1]
    port = f'<text class="flow" x="{near_x - 12}" y="{near_y - 7:.1f}" text-anchor="end">.{number}</text>' if outputs > 1 and number else ""
    label = f"<title>output {number}{'' if counts is None else f': {text}jobs'}</title>"
    drawn = f'<path d="{path}" stroke-width="{1 + 5 * (count or 0) / most:.1f}"/>'
    return f'<g class="edge{" none" if count == 0 else ""}" data-flow="{name}.{number}">{label}{drawn}{tip}{port}</g>'


def _box(line: Node | None, node: ModelNode, place: tuple[float, float], is_chosen: bool, is_still: bool) -> str:
    x, middle = place
    top, said, left = middle - HIGH / 2, escape(said_of(line) if line else f"{node.name}, {arguments_of(node)}"), x + INDENT.get(node.kind, 10)
    parts = [f'<title>{said}</title><rect class="box" x="{x}" y="{top:.1f}" width="{WIDE}" height="{HIGH}" rx="{ROUND.get(node.kind, 8)}"/>']
    name = ("name long", 17, _shortened(node.name, 20, 8), 11.0) if len(node.name) > 14 else ("name", 18, node.name, 13.0)
    rows = name, ("kind", 32, arguments_of(node), 10.5), ("figures", 45, figures_of(line) if line else "", 11.0)
    parts += [f'<text class="{kind}" x="{left}" y="{top + down:.1f}"{fitted(text, size)}>{escape(text)}</text>' for kind, down, text, size in rows]
    if line and line.util is not None:
        parts.append(f'<text class="load" x="{x + WIDE - 10}" y="{top + 57:.1f}" text-anchor="end">{int(100 * line.util + 0.5)} %</text>')
        bar, wide = f'x="{x + 10}" y="{top + 51:.1f}" height="5" rx="2.5"', ROOM - 40
        parts.append(f'<rect class="rail" {bar} width="{wide}"/><rect class="meter" {bar} width="{wide * min(line.util, 1):.1f}"/>')
    button = "" if is_still else f' tabindex="0" role="button" aria-pressed="{str(is_chosen).lower()}" aria-label="{said}"'
    kinds = f"node load{step(line.util if line else None)}{' marked' if is_chosen else ''}"
    return f'<g class="{kinds}" data-node="{node.name}"{button}>{"".join(parts)}</g>'
