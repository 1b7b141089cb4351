"""Reads the code blocks of README.md and the pages in docs, and the sections of the man pages."""
import collections
import re
from typing import NamedTuple

from programs import ROOT

# Marks, on the line above, a block that a check can't run. It is invisible when the page is shown.
MARK = "<!-- not run"


class Block(NamedTuple):
    """A code block: the heading above it, the number of its first line, its text, and whether it is marked as not to be run."""

    heading: str
    line: int
    text: str
    is_marked: bool


def blocks(page):
    """Returns the blocks of a page, in order."""
    found, heading, before, begun, block = [], "", "", 0, None
    for number, line in enumerate((ROOT / page).read_text().splitlines(), 1):
        if line.startswith("```"):
            if block is None:
                begun, block, is_marked = number + 1, [], before.startswith(MARK)
            else:
                found.append(Block(heading, begun, "".join(block), is_marked))
                block = None
        elif block is not None:
            block.append(line + "\n")
        elif line.startswith("#"):
            heading = line.lstrip("# ")
        before = line or before
    return found


def sections(page):
    """Returns the texts of the blocks of a page, in order, by heading."""
    texts = collections.defaultdict(list)
    for block in blocks(page):
        texts[block.heading].append(block.text)
    return texts


def manual_section(program, name):
    """Returns the lines of a section of a program's man page, with dashes as they are shown."""
    text = (ROOT / "docs" / f"{program}.1").read_text().replace("\\-", "-")
    sections = re.split(r"^\.SH ", text, flags=re.MULTILINE)
    return next(section for section in sections if section.strip('"').startswith(name)).splitlines()[1:]
