"""Exports in Parquet and Arrow, by pyarrow or fastparquet: by stand-ins that have those of their calls which the package uses, as their documents
say."""

import gzip
import io
import os
import pickle
import sys
import tempfile
import types
import unittest
import zipfile
from datetime import date, datetime, timedelta, timezone
from decimal import Decimal
from unittest import mock

from commands import InFolder, planner
from ground import Test
from test_prepare import table

from mpsim.exports.cells import span_text, text_of
from mpsim.exports.inspection import inspected
from mpsim.exports.prepare import prepare
from mpsim.exports.streams import Stream

SECOND = 10**9


class ArrowInvalid(ValueError):
    pass


class ArrowNotImplementedError(NotImplementedError):
    pass


class Kind:
    """A type of pyarrow: its name, and the unit and the zone of times."""

    def __init__(self, name, unit=None, tz=None):
        self.name, self.unit, self.tz = name, unit, tz


class Array:
    """An array of pyarrow. Times are numbers inside."""

    CASTS = {"timestamp": "int64", "duration": "int64", "time32": "int32", "time64": "int64"}

    def __init__(self, kind, values):
        self.type, self._values = kind, values

    def cast(self, kind):
        if self.CASTS.get(self.type.name) != kind.name:
            raise ArrowNotImplementedError(f"Unsupported cast from {self.type.name} to {kind.name}")
        return Array(kind, self._values)

    def to_pylist(self):
        if self.type.unit is None:
            return list(self._values)
        raise ValueError("Nanosecond resolution temporal type is not safely convertible to microseconds")

    def slice(self, offset, length):
        return Array(self.type, self._values[offset : offset + length])


class Batch:
    """A record batch of pyarrow."""

    def __init__(self, columns):
        self.columns, self.num_rows = columns, len(columns[0]._values) if columns else 0

    def slice(self, offset=0, length=None):
        return Batch([column.slice(offset, length) for column in self.columns])


class Reader:
    """What pyarrow reads from a file: batches."""

    def __init__(self, source, mark):
        data = source.read()
        if not (data.startswith(mark) and data.endswith(mark)):
            raise ArrowInvalid("magic bytes not found in footer.\nEither the file is corrupted or this is not such a file.")
        self._names, batches = pickle.loads(data[len(mark) : -len(mark)])
        self._batches = [Batch([Array(Kind(*kind), values) for kind, values in columns]) for columns in batches]


class ParquetFile(Reader):
    def __init__(self, source):
        super().__init__(source, b"PAR1")
        self.schema_arrow = types.SimpleNamespace(names=self._names)
        self.metadata = types.SimpleNamespace(num_rows=sum(batch.num_rows for batch in self._batches))

    def iter_batches(self, batch_size=65536):
        for batch in self._batches:
            for at in range(0, batch.num_rows, batch_size):
                yield batch.slice(at, batch_size)


class FileReader(Reader):
    def __init__(self, source):
        super().__init__(source, b"ARROW1")
        self.schema, self.num_record_batches = types.SimpleNamespace(names=self._names), len(self._batches)

    def get_batch(self, at):
        return self._batches[at]


class StreamReader(Reader):
    def __init__(self, source):
        super().__init__(source, b"\xff\xff\xff\xff")
        self.schema = types.SimpleNamespace(names=self._names)

    def __iter__(self):
        return iter(self._batches)


def arrow():
    """Returns modules that stand in for pyarrow, by name."""
    library, parquet, ipc = (types.ModuleType(name) for name in ("pyarrow", "pyarrow.parquet", "pyarrow.ipc"))
    parquet.ParquetFile, ipc.open_file, ipc.open_stream = ParquetFile, FileReader, StreamReader
    library.int32, library.int64 = lambda: Kind("int32"), lambda: Kind("int64")
    kinds = {"is_timestamp": ["timestamp"], "is_duration": ["duration"], "is_time": ["time32", "time64"], "is_time32": ["time32"]}
    library.types = types.SimpleNamespace(**{name: lambda kind, names=names: kind.name in names for name, names in kinds.items()})
    library.parquet, library.ipc = parquet, ipc
    return {"pyarrow": library, "pyarrow.parquet": parquet, "pyarrow.ipc": ipc}


def file_of(names, *batches, mark=b"PAR1"):
    """Returns the bytes of a file for the stand-ins: each batch has, by column, the arguments of its Kind and its values."""
    return mark + pickle.dumps((names, batches)) + mark


ABSENT = dict.fromkeys(["pyarrow", "pyarrow.parquet", "pyarrow.ipc", "fastparquet"])
BEGIN = 1772438400 * SECOND
AT, LONG = ("timestamp", "ns"), ("duration", "ms")
CALLS = file_of(
    ["Start", "Queue", "Talk", "Wrap"],
    [[AT, [BEGIN, BEGIN + 17 * SECOND]], [("string",), ["Büro", "Desk"]], [LONG, [90000, 3725000]], [("double",), [1.5, 30.0]]],
    [[AT, [BEGIN + 60 * SECOND, None]], [("string",), ["Desk", "Desk"]], [LONG, [500, 1]], [("double",), [0.0, 1.0]]],
)
ASKS = {"source": "Queue", "demand": ["Talk", "Wrap"], "left_out_most": "40%"}
ROWS = [("buro", 0, 90, 2), ("desk", 17, 3725, 30), ("desk", 60, 1, 0)]


class Texts(Test):
    def test_values(self):
        for value, text in (
            (None, ""),
            (float("nan"), ""),
            (7, "7"),
            (7.0, "7"),
            (1.125, "1.1250"),
            (0.00005, "0.00005"),
            (Decimal("1.500"), "1.5000"),
            (Decimal("1E+3"), "1000"),
            (True, "True"),
            (b"a\xff", "a\\xff"),
            (date(2026, 3, 2), "2026-03-02"),
            (datetime(2026, 3, 2, 8, 0, 17, tzinfo=timezone(timedelta(hours=1))), "2026-03-02T08:00:17+01:00"),
            # Dates of 1900 are a spreadsheet's own matter.
            (datetime(1900, 1, 1), "1900-01-01T00:00:00"),
            (timedelta(days=2, seconds=1, microseconds=5), "48:00:01.000005"),
            (timedelta(seconds=-1), "-0:00:01"),
        ):
            self.assertEqual(text_of(value), text)
        self.assertEqual(span_text(25 * 3600 * SECOND + 7), "25:00:00.000000007")


class Arrow(InFolder):
    def setUp(self):
        super().setUp()
        patch = mock.patch.dict(sys.modules, {**ABSENT, **arrow()})
        patch.start()
        self.addCleanup(patch.stop)

    def test_parquet(self):
        """By its first bytes, from a file and from bytes; a row with an empty time is left out."""
        path = self.folder / "calls.csv"
        path.write_bytes(CALLS)
        for export in path, CALLS:
            made = prepare(export, "Start", **ASKS)
            self.assertEqual((list(made.rows()), made.left), (ROWS, {"Start is empty": 1}))
            self.assertEqual((made.zero, "1 row: Start is empty (row 4)" in made.told), ("2026-03-02T08:00:00", True))

    def test_arrow(self):
        """A file and a stream, whose batches are long."""
        many = 20000
        columns = [[("timestamp", "us"), [(BEGIN + at * SECOND) // 1000 for at in range(many)]], [("int64",), list(range(many))]]
        for mark in b"ARROW1", b"\xff\xff\xff\xff":
            made = prepare(file_of(["at", "n"], columns, columns, mark=mark), "at", demand=["n"], duplicates="drop")
            self.assertEqual((len(made), made.values[0].tolist()), (many, list(range(many))))

    def test_times(self):
        """Of each unit, exact to a nanosecond; with a zone they are moments of UTC."""
        units = {"s": 1, "ms": 10**3, "us": 10**6, "ns": 10**9}
        for unit, per in units.items():
            data = file_of(["at"], [[("timestamp", unit), [BEGIN // SECOND * per, BEGIN // SECOND * per + 1]]])
            self.assertEqual(list(prepare(data, "at", tick="1ns", begin="first").times), [0, SECOND // per])
            data = file_of(["at", "long"], [[("timestamp", unit, "Asia/Tokyo"), [BEGIN // SECOND * per]], [("duration", unit), [3 * per + 1]]])
            made = prepare(data, "at", demand=["long"], zone="Europe/Berlin", tick="1ns")
            self.assertEqual((made.zero, made.values[0].tolist()), ("2026-03-02T09:00:00+01:00", [3 * SECOND + SECOND // per]))
        for kind, per in (("time32", "ms"), 10**3), (("time64", "ns"), 10**9):
            data = file_of(["day", "clock"], [[("date32",), [date(2026, 3, 2)]], [kind, [(8 * 3600 + 17) * per]]])
            made = prepare(data, "clock", date="day")
            self.assertEqual((made.zero, list(made.times)), ("2026-03-02T08:00:00", [17]))

    def test_numbers_are_not_doubtful(self):
        """A decimal of three digits, and a number that counts from 1970."""
        data = file_of(["at", "long"], [[("int64",), [1772438400000, 1772438401000]], [("decimal128",), [Decimal("1.500"), Decimal("2.125")]]])
        self.assertEqual(list(prepare(data, "at", format="unixms", demand=["long"], tick="1ms").rows()), [("jobs", 0, 1500), ("jobs", 1000, 2125)])

    def test_the_command(self):
        """From standard input too, and looked at."""
        path = self.folder / "calls.parquet"
        path.write_bytes(CALLS)
        words = "--time", "Start", "--source", "Queue", "--demand", "Talk", "--left-out-most", "40%"
        self.assertEqual(planner("prepare", path, *words)[1], "source,time,talk\nburo,0,90\ndesk,17,3725\ndesk,60,1\n")
        with tempfile.TemporaryFile() as file:
            file.write(CALLS)
            file.seek(0)
            kept = os.dup(0)
            os.dup2(file.fileno(), 0)
            try:
                self.assertEqual(len(prepare("-", "Start", **ASKS)), 3)
            finally:
                os.dup2(kept, 0)
                os.close(kept)
        found = inspected(path)
        self.assertEqual([column.kind for column in found.columns], ["time", "text", "length", "number"])
        self.assertEqual(found.options, {"time": "Start", "source": "Queue", "demand": ["Talk", "Wrap"], "left-out-most": "25%"})

    def test_a_pipe(self):
        path = self.folder / "pipe"
        os.mkfifo(path)
        child = os.fork()
        if not child:
            with open(path, "wb") as pipe:
                pipe.write(CALLS)
            os._exit(0)
        self.assertEqual(len(prepare(path, "Start", **ASKS)), 3)
        os.waitpid(child, 0)

    def test_what_is_refused(self):
        for option in {"encoding": "utf-8"}, {"delimiter": ","}, {"fixed": "8"}, {"sheet": "a"}, {"skip": 1}, {"header": "a"}:
            says = "--encoding, --delimiter, --fixed, --sheet, --skip and --header can't be used with a Parquet or Arrow file"
            with self.assertRaisesRegex(ValueError, says):
                prepare(CALLS, "Start", **option)
        with self.assertRaisesRegex(ValueError, r"no column 'Begin'; it has 'Start', 'Queue', 'Talk', 'Wrap'$"):
            prepare(CALLS, "Begin")
        with self.assertRaisesRegex(ValueError, "a Parquet file that can't be read: ArrowInvalid: magic bytes not found in footer. Either the file"):
            prepare(CALLS[:-1], "Start")
        with self.assertRaisesRegex(ValueError, "an Arrow file that can't be read: ArrowInvalid"):
            prepare(b"ARROW1" + bytes(90), "Start")

    def test_damaged_within(self):
        with mock.patch.object(Array, "to_pylist", side_effect=OSError("Corrupt snappy compressed data.")):
            with self.assertRaisesRegex(ValueError, "a Parquet file that can't be read: OSError: Corrupt snappy compressed data."):
                prepare(CALLS, "Start")

    def test_what_is_packed(self):
        """Only text may be packed."""
        zipped = io.BytesIO()
        with zipfile.ZipFile(zipped, "w") as archive:
            archive.writestr("calls.parquet", CALLS)
        for data, what in (
            (zipped.getvalue(), "parquet"),
            (gzip.compress(CALLS), "parquet"),
            (gzip.compress(zipped.getvalue()), "a spreadsheet or an archive"),
            (gzip.compress(gzip.compress(table("8:00,a,1"))), "packed again"),
            (gzip.compress(b"\xd0\xcf\x11\xe0" + bytes(99)), r"an old spreadsheet \(.xls\)"),
        ):
            with self.assertRaisesRegex(ValueError, f"what is packed isn't text, but {what}: unpack it first"):
                prepare(data, "when")


class Column(list):
    """A column of a data frame of pandas."""

    @property
    def iloc(self):
        return self

    def __getitem__(self, piece):
        return Column(super().__getitem__(piece))

    def tolist(self):
        return list(self)


class Frame(dict):
    """A data frame of pandas."""

    def __init__(self, columns):
        super().__init__({name: Column(values) for name, values in columns.items()})

    def __len__(self):
        return len(next(iter(self.values())))


class Fast(InFolder):
    """fastparquet, which reads a file by its path into data frames: those of pandas, if it is there."""

    def setUp(self):
        super().setUp()
        try:
            from pandas import DataFrame
        except ImportError:
            DataFrame = Frame
        begin, second = datetime(2026, 3, 2, 8), timedelta(seconds=1)
        columns = {
            "Start": ([begin, begin + 17 * second], [begin + 60 * second, None]),
            "Queue": (["Büro", "Desk"], ["Desk", "Desk"]),
            "Talk": ([90 * second, 3725 * second], [second / 2, second]),
            "Wrap": ([1.5, 30.0], [0.0, float("nan")]),
        }
        groups = [{name: values[at] for name, values in columns.items()} for at in range(2)]
        library = types.ModuleType("fastparquet")
        self.paths = paths = []

        class File:
            def __init__(self, path):
                with open(path, "rb") as file:
                    if file.read() != CALLS:
                        raise ValueError("not a parquet file")
                paths.append(path)
                self.columns, self.row_groups = list(groups[0]), [types.SimpleNamespace(num_rows=2)] * 2

            def iter_row_groups(self, index=None):
                if index is not False:
                    raise KeyError("Start")
                yield from map(DataFrame, groups)

        library.ParquetFile = File
        patch = mock.patch.dict(sys.modules, {**ABSENT, "fastparquet": library})
        patch.start()
        self.addCleanup(patch.stop)

    def test_parquet(self):
        path = self.folder / "calls.parquet"
        path.write_bytes(CALLS)
        for export in path, CALLS:
            made = prepare(export, "Start", **ASKS)
            self.assertEqual((list(made.rows()), made.left), (ROWS, {"Start is empty": 1}))
        self.assertEqual(self.paths[0], str(path))
        # The copy of bytes is gone.
        self.assertFalse(os.path.exists(self.paths[1]))

    def test_arrow_is_refused(self):
        with self.assertRaisesRegex(ValueError, r"this is an Arrow file: .*, or install the Python package pyarrow \(pip [^()]*\)$"):
            prepare(file_of([], mark=b"ARROW1"), "Start")


class WithoutLibraries(InFolder):
    def test_one_line(self):
        path = self.folder / "calls.parquet"
        for data, what in (
            (CALLS, "a Parquet file: convert it to CSV, e.g. with duckdb -c \"COPY 'FILE' TO 'export.csv'\", or install the Python package pyarrow"),
            (file_of([], mark=b"ARROW1"), "an Arrow file: convert it to CSV, e.g. with polars or duckdb, or install the Python package pyarrow"),
        ):
            path.write_bytes(data)
            with mock.patch.dict(sys.modules, ABSENT):
                status, out, err = planner("prepare", path, "--time", "Start")
            line = f"mpplan: {path}: this is {what} (pip install 'mpsim[arrow]')" + " or fastparquet" * (b"PAR1" in data[:4])
            self.assertEqual((status, out, err), (1, "", f"{line}\n"))

    def test_forms(self):
        for data, form in (CALLS, "parquet"), (b"ARROW1" + bytes(9), "arrow"), (b"\xff\xff\xff\xff" + bytes(9), "arrow"), (b"a,b\n", "text"):
            with Stream(data) as stream:
                self.assertEqual(stream.form, form)
        with self.assertRaisesRegex(ValueError, "a Feather file of version 1: write it as version 2, with the Python package pyarrow"):
            Stream(b"FEA1" + bytes(99))


if __name__ == "__main__":
    unittest.main()
