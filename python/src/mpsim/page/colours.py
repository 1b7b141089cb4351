"""The colours of a page, each for light and dark mode. They also differ in lightness, and none carries meaning alone."""

from __future__ import annotations

import re

COLOURS = {
    # Text, secondary text and lines, decorative borders, background, and keyboard focus.
    "ink": ("#1b1f24", "#e6e9ed"),
    "soft": ("#57606a", "#9aa4b0"),
    "line": ("#d0d7de", "#3a424c"),
    "paper": ("#ffffff", "#14181d"),
    "focus": ("#005fcc", "#8cc8ff"),
    "marked": ("#b35900", "#ffc857"),
    "row": ("#fff3c4", "#453a12"),
    # Nodes without servers, then by load, from the lowest fifth to the highest; then the text on them.
    "load0": ("#f3f4f6", "#232a32"),
    "load1": ("#eff6fc", "#16283a"),
    "load2": ("#c6dff3", "#1c4468"),
    "load3": ("#86bbe0", "#256ba3"),
    "load4": ("#2b7bba", "#58a8e0"),
    "load5": ("#08306b", "#c3e4ff"),
    "on0": ("#1b1f24", "#e6e9ed"),
    "on1": ("#1b1f24", "#e6e9ed"),
    "on2": ("#1b1f24", "#e6e9ed"),
    "on3": ("#1b1f24", "#ffffff"),
    "on4": ("#ffffff", "#10151a"),
    "on5": ("#ffffff", "#10151a"),
    # The colours of charts.
    "p50": ("#0072b2", "#56b4e9"),
    "p90": ("#c04a00", "#e69f00"),
    "max": ("#57606a", "#9aa4b0"),
    "came": ("#8a939d", "#69737f"),
    "lost": ("#7a3f9d", "#cc9be8"),
}
SCHEMES = "light", "dark"
# The page, or the notebook around an excerpt, may choose the mode.
LIGHT = "[data-theme=light] .mpsim,[data-jp-theme-light=true] .mpsim,.vscode-light .mpsim"
DARK = "[data-theme=dark] .mpsim,[data-jp-theme-light=false] .mpsim,.vscode-dark .mpsim"


def in_light(text: str) -> str:
    """Returns CSS with the light values of the colours filled in, for programs that don't support variables."""
    return re.sub(r"var\(--(\w+)\)", lambda found: COLOURS[found[1]][0], text)


def style() -> str:
    """Returns the CSS that sets the colours: by the system's mode unless another is chosen."""
    light, dark = (f"{';'.join(f'--{name}:{it[at]}' for name, it in COLOURS.items())};color-scheme:{scheme}" for at, scheme in enumerate(SCHEMES))
    return f".mpsim{{{light}}}\n@media (prefers-color-scheme:dark){{.mpsim{{{dark}}}}}\n{LIGHT}{{{light}}}\n{DARK}{{{dark}}}\n"
