#!/usr/bin/env python3
"""Writes the help of the three programs from their man pages.

usage: check/help_texts.py     in any directory

Writes python/src/mpsim/help/PROGRAM.txt, which the commands print for --help. Run it whenever a man page changes: `check/run options` compares the
texts with the pages.
"""
import pathlib
import re
import shlex
import textwrap

ROOT = pathlib.Path(__file__).resolve().parent.parent
PROGRAMS, WIDTH = ("mpsim", "mpsweep", "mpedit"), 79
# How the lines of one kind are indented: text, the description of an option, an example.
TEXT, BELOW, EXAMPLE = "", "      ", "  "


def file_of(program):
    """Returns the file with a program's help."""
    return ROOT / "python" / "src" / "mpsim" / "help" / f"{program}.txt"


def plain(line):
    """Returns a line of a man page as shown: words in alternating fonts are joined without a space."""
    line = re.sub(r"\\f[BIPR]|\\&", "", line).replace("\\-", "-").replace("\\e", "\\")
    macro, *words = shlex.split(line.replace("'", "\\'")) or [""]
    if not macro.startswith("."):
        return line
    return ("" if len(macro) == 3 else " ").join(words)


def section(program, name):
    """Returns the lines of a section of a man page."""
    parts = re.split(r"^\.SH ", (ROOT / "docs" / f"{program}.1").read_text(), flags=re.MULTILINE)
    return next(part for part in parts if part.split("\n", 1)[0].strip('"') == name).splitlines()[1:]


def shown(lines):
    """Yields the lines of a section as shown in a terminal."""
    text, indent, verbatim, term = [], TEXT, False, False

    def paragraph():
        filled = textwrap.wrap(" ".join(text), WIDTH, initial_indent=indent, subsequent_indent=indent, break_long_words=False, break_on_hyphens=False)
        text.clear()
        return filled

    for line in lines:
        if verbatim and line != ".fi":
            if line not in (".RS", ".RE"):
                yield EXAMPLE + plain(line)
        elif line in (".PP", ".TP", ".nf", ".fi", ".br"):
            yield from paragraph()
            verbatim, term = line == ".nf", line == ".TP"
            if line in (".PP", ".TP"):
                yield ""
                indent = TEXT
        elif term:
            yield EXAMPLE + plain(line)
            term, indent = False, BELOW
        else:
            text.append(plain(line))
    yield from paragraph()


def help_of(program):
    """Returns the help of a program: what it is for, its arguments, examples, and where its manual is."""
    lines = [*shown(section(program, "NAME")), "", *(f"{'or:   ' if at else 'usage:'} {form}" for at, form in enumerate(synopsis(program))), ""]
    lines += ["Options:", "", *shown(section(program, "OPTIONS")), "", "Examples:", "", *shown(section(program, "EXAMPLES")), ""]
    lines += [f"Manual: man {program}; in a clone, man docs/{program}.1.", *shown(["See also", *section(program, "SEE ALSO")])]
    # Empty lines separate, once.
    return re.sub(r"\n{3,}", "\n\n", "\n".join(lines)) + "\n"


def synopsis(program):
    """Returns the forms of a program's arguments, one per line of the man page's synopsis."""
    return [form.strip() for form in " ".join("\n" if line == ".br" else plain(line) for line in section(program, "SYNOPSIS")).split("\n")]


def main():
    for program in PROGRAMS:
        file_of(program).parent.mkdir(exist_ok=True)
        file_of(program).write_text(help_of(program))


if __name__ == "__main__":
    main()
