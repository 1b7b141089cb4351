"""The parts that all pages share: their files, the browser's policy, and the frame of a page with one table or chart after another."""

from __future__ import annotations

import base64
import hashlib
import os
from html import escape
from string import Template

from .colours import style

HERE = os.path.dirname(os.path.abspath(__file__))


def part(name: str) -> str:
    """Returns the text of a file of this directory."""
    with open(os.path.join(HERE, name), encoding="utf-8") as file:
        return file.read()


def policy(script: str) -> str:
    """Returns the browser's policy for a page: no network access, and only the page's own script."""
    digest = base64.b64encode(hashlib.sha256(script.encode()).digest()).decode()
    return f"default-src 'none'; style-src 'unsafe-inline'; script-src 'sha256-{digest}'; base-uri 'none'; form-action 'none'"


def shown_text(text: object) -> str:
    """Returns a text that a page can contain: bytes of file names that aren't UTF-8 are replaced."""
    return str(text).encode(errors="surrogateescape").decode(errors="replace")


def sheet(title: str, body: str, data: str = "{}", script: str = "") -> str:
    """Returns a page (str) with a title and a body of HTML, whose script, if any, reads `data` (JSON).

    >>> "<h1>Load &amp; agents</h1>" in sheet("Load & agents", "<p>5</p>")
    True
    """
    code = f"(() => {{\n'use strict';\n{script}}})();\n" if script else ""
    return Template(part("sheet.html")).substitute(
        policy=escape(policy(code)),
        title=escape(shown_text(title)),
        style=style() + part("piece.css") + part("sheet.css"),
        body=body,
        # Nothing in a text may end the element that contains it.
        data=data.replace("<", "\\u003c"),
        script=code,
    )


def spoken(seconds: float) -> str:
    """Returns a time for reading, in the two largest units; less than a minute with tenths of a second, unless there are none.

    >>> spoken(0), spoken(1.5), spoken(12.04), spoken(75), spoken(3600), spoken(7325)
    ('0 s', '1.5 s', '12 s', '1 min 15 s', '1 h 0 min', '2 h 2 min')
    """
    tenths = int(10 * seconds + 0.5)
    if tenths < 600 and tenths % 10:
        return f"{tenths / 10} s"
    whole = int(seconds + 0.5)
    if whole < 60:
        return f"{whole} s"
    if whole < 3600:
        return f"{whole // 60} min" + (f" {whole % 60} s" if whole % 60 else "")
    return f"{whole // 3600} h {whole % 3600 // 60} min"


def in_words(seconds: float) -> str:
    """Returns a time for reading, in words.

    >>> in_words(1), in_words(1.5), in_words(20), in_words(75), in_words(7260)
    ('1 second', '1.5 seconds', '20 seconds', '1 minute 15 seconds', '2 hours 1 minute')
    """
    words: list[str] = []
    for count, unit in zip(*[iter(spoken(seconds).split())] * 2):
        word = {"s": "second", "min": "minute", "h": "hour"}[unit]
        if count != "0" or not words and unit == "s":
            words.append(f"{count} {word}{'' if count == '1' else 's'}")
    return " ".join(words)


def percent(share: float) -> str:
    """Returns a share as a percentage with one decimal.

    >>> percent(0.8), percent(0.83341)
    ('80.0 %', '83.3 %')
    """
    return f"{100 * share:.1f} %"
