"""Texts that several checks give to the programs."""
import re

from programs import CASES


def unescaped(text):
    r"""Returns the bytes of a line in examples/cases, in which \n, \r, \t and an octal byte such as \0357 are escapes."""
    signs = {b"n": b"\n", b"r": b"\r", b"t": b"\t", b"\\": b"\\"}
    byte_of = lambda found: bytes([int(found[1], 8)]) if found[1][:1] == b"0" else signs[found[1]]
    return re.sub(rb"\\(0[0-7]{3}|.)", byte_of, text.encode())


def lines_of(name, fields=1):
    """Returns the lines of a file in examples/cases, split into fields at tabs."""
    lines = (CASES / name).read_text().splitlines()
    assert lines, f"{name} is empty"
    return [line.split("\t", fields - 1) if fields > 1 else line for line in lines]


def two_nodes(one, other=""):
    """Returns a model with a fork and two further lines."""
    return f"model 2\nbound 5\nsource src\nfork f 4 from src\n{one}\n{other}\n"


def records(many):
    """Returns a trace with this many records at time 0."""
    return "source,time\n" + "src,0\n" * many


def line_feeds(many):
    """Writes a file with this many line feeds, in parts."""
    part = b"\n" * 65536
    return [part] * (many // 65536) + [part[: many % 65536]]
