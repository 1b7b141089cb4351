"""The options of `mpplan prepare`."""

from __future__ import annotations

import contextlib
import os
from typing import TYPE_CHECKING, Any

from ..exports.parts import KINDS
from ..exports.plan import OUTSIDE
from ..exports.prepare import prepare, prepare_parts
from ..files import all_written, judge_outputs, written
from ..runs import judged_text
from ..times.formats import NUMBERS
from ..times.lengths import Lengths
from ..times.zones import TWICE
from ..wording import counted
from .messages import say
from .parser import parser_for
from .recipes import Recipe, apply_recipe

if TYPE_CHECKING:
    from argparse import ArgumentParser, Namespace
    from collections.abc import Callable, Iterable, Mapping
    from typing import TextIO

    from ..exports.result import Prepared

EXAMPLE = (
    "mpplan prepare calls.csv --time Zeit --source Abteilung --demand 'Dauer=talk:min' --zone Europe/Berlin --out trace.csv --first-lines model.txt"
)


def words(parser: ArgumentParser) -> None:
    """Declares the arguments of `mpplan prepare`."""
    for declare in _times, _columns, _events, _rows, _recipe, file_words, _outputs:
        declare(parser.add_argument)


def _times(add: Callable[..., object]) -> None:
    add("export", help="the export: a file, also packed (.gz, .bz2, .xz, .zip) or a spreadsheet (.xlsx), or - for standard input")
    add("--time", required=True, metavar="COLUMN", help="column with the time at which a job arrives")
    says = f"format of the times: a strptime format, iso, rfc, clock (h:mm:ss) or {', '.join(NUMBERS)}; default: detected"
    add("--format", metavar="FORMAT", help=says)
    add("--date", metavar="COLUMN", help="column with the day, if the time is in a column of its own")
    add("--date-format", metavar="FORMAT", help="format of the day; default: detected")
    says = "three columns with the year, month and day as numbers, if the time is in another column"
    add("--day", nargs=3, metavar=("YEAR", "MONTH", "DAY"), help=says)
    add("--zone", metavar="NAME", help="time zone of times without an offset, e.g. Europe/Berlin; without it every day has 24 hours")
    twice = "which hour is meant when clocks are set back; order: the first until the times in the file go back, then the second"
    add("--twice", choices=list(TWICE), help=twice)
    add("--tick", metavar="LENGTH", help="length of a tick, e.g. 1s, 100ms, 1ns or 1min; default: from the comments of --model, or 1s")
    begins = "time 0: hour (the last full hour before the first job, the default), day, first, a time of day such as 8:00, or an ISO 8601 time"
    add("--begin", metavar="WHEN", help=begins)
    says = "count working time only, by a CSV file days,from,to with rows such as mon-fri,06:00,14:00; default: from the comments of --model"
    add("--calendar", metavar="FILE", help=says)
    says = "what to do with jobs that arrive outside of working time: move them to the next opening (the default), or refuse the export"
    add("--outside", choices=list(OUTSIDE), help=says)


def _columns(add: Callable[..., object]) -> None:
    add("--source", metavar="COLUMN", help="column with the source of a job, or one name for all jobs")
    units = f"UNIT is one of {', '.join(Lengths.NAMES)}, by default s"
    units += ", or data at a rate, e.g. bytes@10Gbps"
    says = f"column with a service time, or e.g. talk=End-Answered+Wrap; {units}; columns of one NAME are added up"
    add("--demand", action="append", metavar="COLUMN[=NAME][:UNIT]", help=says)
    says = "column with the end of a service, which begins at --answered, or else at --time"
    add("--end", action="append", metavar="COLUMN[=NAME]", help=says)
    says = "column with the time at which services of --end begin: one for all, or one per --end"
    add("--answered", action="append", metavar="COLUMN", help=says)
    add("--constant", action="append", metavar="NAME=LENGTH", help="a service time that all jobs have, e.g. wrap=90s")
    codes = "column of texts, written as numbers for a split; the numbers come from --model, or count from 0 in order of appearance"
    add("--code", action="append", metavar="COLUMN[=NAME]", help=codes)
    says = "column with the wait of a job, or (unit: time) the time at which it ended; the first that isn't empty, if repeated"
    add("--wait", action="append", metavar="COLUMN[=NAME][:UNIT]", help=says)
    says = "keep rows that meet this condition (as in --where) as abandoned calls: services of 0, and 1 in a column abandoned; may be repeated"
    add("--abandoned", action="append", metavar="CONDITION", help=says)
    add("--empty", metavar="LENGTH", help="service time of an empty field; default: its row is left out")
    add("--rename", action="append", metavar="OLD=NEW", help="name in the trace (NEW) of a source in the export (OLD)")


def _events(add: Callable[..., object]) -> None:
    add("--unit", metavar="COLUMN", help="an event log: rows with one value in this column are one job")
    says = "column with the station of an event, for --unit: the services of each station become a column of the trace"
    add("--steps", metavar="COLUMN", help=says)
    add("--event", metavar="COLUMN", help="column with the kind of event; default: the one that has those of --begin-event and --end-event")
    for name, says in (
        ("arrive", "at which a job arrives; default: its first"),
        ("begin", "at which a service begins"),
        ("end", "at which a service ends"),
        ("abandon", "at which a caller gives up; adds the columns wait and abandoned"),
    ):
        add(f"--{name}-event", action="append", metavar="EVENT", help=f"event {says}; may be repeated")
    add("--route", metavar="NAME", help="name of a column with the order in which a job passes its stations, as numbers for a split")


def _rows(add: Callable[..., object]) -> None:
    says = "use only rows that meet this condition: =, != (text), <, <=, >, >= (numbers or h:mm:ss) or ~ (contains); may be repeated"
    add("--where", action="append", metavar="CONDITION", help=says)
    add("--from", dest="begins", metavar="TIME", help="use only jobs that arrive at this time or later: ISO 8601, e.g. 2026-03-02, or h:mm")
    add("--until", metavar="TIME", help="use only jobs that arrive before this time")
    add("--far", action="store_true", default=None, help="keep records more than 30 days from the rest, and further than the rest spans")
    says = "what to do with rows that repeat an earlier row, field by field; default: keep, with a warning"
    add("--duplicates", choices=["drop", "keep"], help=says)
    says = "percentage of the rows that may be left out because they can't be read; default: 5%%"
    add("--left-out-most", metavar="PERCENT", help=says)


def _recipe(add: Callable[..., object]) -> None:
    says = "take options from this TOML file, e.g. one that mpplan inspect wrote; those given here override them"
    add("--recipe", action=Recipe, metavar="FILE", help=says)


def file_words(add: Callable[..., object]) -> None:
    """Declares the arguments that say how to read an export's file."""
    add("--decimal", choices=[".", ","], help="decimal mark; default: detected")
    add("--delimiter", metavar="CHARACTER", help="character between fields, \\t for a tab; default: detected")
    add("--fixed", metavar="WIDTHS", help="widths of the columns in characters, e.g. 8,20,6, for an export without delimiters")
    says = "text encoding; default: detected (UTF-8, UTF-16 with a byte order mark, or Windows-1252, a superset of printable Latin-1)"
    add("--encoding", metavar="NAME", help=says)
    add("--skip", type=int, metavar="N", help="number of lines to skip before the header")
    add("--sheet", metavar="NAME", help="the sheet of a spreadsheet; default: the only one")
    add("--header", metavar="NAMES", help="column names, separated by commas, for an export without a header")


def _outputs(add: Callable[..., object]) -> None:
    says = "write one trace per month, week or day, to FILE-2026-03.csv and so on for --out FILE.csv"
    add("--split-by", choices=list(KINDS), help=says)
    judges = "a model: it sets the order of sources at equal times; rows of other sources are left out; its columns must be present"
    add("--model", metavar="FILE", help=judges)
    add("--left-out", metavar="FILE", help="write the rows that are left out, with their number and the reason")
    add("--first-lines", metavar="FILE", help="write the first lines of a model for this trace")
    add("--out-model", metavar="FILE", help="write a copy of --model with the tick, time 0 and codes of this trace")
    add("--out", metavar="FILE", help="write the trace here; default: - (standard output)")


def _options_of(args: Namespace) -> dict[str, Any]:
    """Returns the options of the library that arguments give, with those of a recipe. Options that aren't given have the defaults of the library."""
    apply_recipe(args)
    own = "command", "main", "recipe", "export", "first_lines", "out_model", "out", "split_by"
    return {name: value for name, value in vars(args).items() if name not in own and value is not None}


def recipe_options(path: str) -> dict[str, Any]:
    """Returns the options of the library, but that of the model, in a recipe. Raises what the command does for an invalid one."""
    options = _options_of(parser_for("prepare").parse_args(["prepare", "-", "--recipe", path]))
    return {name: value for name, value in options.items() if name != "model"}


def main(args: Namespace) -> None:
    """Runs `mpplan prepare`."""
    options = _options_of(args)
    # Standard output, as without --out.
    args.out = None if args.out == "-" else args.out
    inputs = {"export": [args.export], "model": [args.model], "calendar": [args.calendar]}
    judge_outputs([args.out, args.left_out, args.first_lines, args.out_model], inputs)
    if args.out_model and not args.model:
        raise ValueError("--out-model requires --model")
    if args.split_by and not args.out:
        raise ValueError("--split-by requires --out FILE: each trace gets the name of its part, as in FILE-2026-03.csv")
    model = judged_text(args.model, say) if args.model else None
    if args.split_by:
        with all_written(args.left_out) as (left_out,):
            parts = prepare_parts(**{**options, "export": args.export, "by": args.split_by, "model": model, "left_out": left_out})
            _write_parts(args, model, parts, inputs)
        return
    with all_written(args.left_out, args.first_lines, args.out_model, args.out) as (left_out, lines, out_model, out):
        made = prepare(**{**options, "export": args.export, "model": model, "left_out": left_out})
        for line in [*_notes(args, made), _size(made)]:
            say(line)
        with contextlib.nullcontext(out) if out else written() as file:
            _write(made, model, lines, out_model, file)


def _notes(args: Namespace, made: Prepared) -> list[str]:
    """Returns the lines about a trace."""
    unlike = [] if args.out_model else [f"{item} (--out-model writes a model for this trace)" for item in made.unlike]
    return [*made.told, *(f"warning: {item}" for item in [*made.warned, *unlike])]


def _size(made: Prepared) -> str:
    return f"{counted(len(made), 'record')}, {counted(len(made.names), 'source')}"


def _write(made: Prepared, model: str | None, lines: TextIO | None, out_model: TextIO | None, out: TextIO | None) -> None:
    """Writes a trace, and the first lines and the copy of the model that go with it, to files (None for those that aren't wanted)."""
    if lines:
        lines.write(made.first_lines())
    if out_model:
        out_model.write(made.model(model or ""))
    if out:
        out.writelines(made.lines())


def _write_parts(args: Namespace, model: str | None, parts: Iterable[tuple[str, Prepared]], inputs: Mapping[str, Iterable[str | None]]) -> None:
    """Writes the trace of each part to a file of its own, whose name has that of the part before its suffix. A line that was printed for an earlier
    part isn't repeated."""
    said: set[str] = set()
    for name, made in parts:
        paths = [path and _named(path, name) for path in (args.first_lines, args.out_model, args.out)]
        judge_outputs(paths, inputs)
        for line in _notes(args, made):
            if line not in said:
                say(line)
        said.update(_notes(args, made))
        with all_written(*paths) as files:
            _write(made, model, *files)
        say(f"{paths[-1]}: {_size(made)}")
        del made


def _named(path: str, part: str) -> str:
    """Returns the name of a part's file.

    >>> _named("traces/calls.csv", "2026-03")
    'traces/calls-2026-03.csv'
    """
    begin, suffix = os.path.splitext(path)
    return f"{begin}-{part}{suffix}"
