"""Traces as columns: dicts, numpy arrays, data frames of pandas, and objects with Arrow's C stream or the interchange protocol, with dates and
lengths of time. Neither polars nor Arrow's library is needed: a stand-in makes the C stream byte by byte, as Arrow's documentation has it."""

import ctypes
import struct
import tempfile
import unittest
from datetime import datetime, timedelta, timezone

from ground import DESK, EXAMPLES, Test

import mpsim
from mpsim.agents.pools import with_pools
from mpsim.agents.queues import Queue
from mpsim.frames import arrow
from mpsim.traces import Trace

try:
    import numpy
    import pandas
except ImportError:
    numpy = pandas = None

EIGHT = datetime(2026, 3, 2, 8)
TIMES = [EIGHT + timedelta(seconds=5), EIGHT + timedelta(seconds=6)]
DATED = {"source": ["door", "door"], "time": TIMES, "d": [timedelta(seconds=4), timedelta(seconds=1)]}
NEW_YORK = timezone(timedelta(hours=-5))


def waited(trace, **more):
    """Returns the wait of the second of two jobs at a desk, and the times at which they arrive."""
    report = mpsim.run(DESK, trace, jobs=True, **more)
    return report["desk"].wait, list(report.visits["desk"].arrive)


class ArrowTable:
    """A stand-in for a table of Arrow or polars: its columns as Arrow's C stream, from the buffers of each chunk."""

    def __init__(self, columns, chunks=1, offset=0):
        """Columns are, by name, a format and the buffers of a chunk (bytes or None); each has two values after `offset` others."""
        self.kept, self.released, self.chunks, self.offset = [], [], chunks, offset
        self.columns_of_chunk = columns

    def _held(self, thing):
        self.kept.append(thing)
        return thing

    def _release(self, kind):
        return self._held(arrow._Release(lambda address: self.released.append(kind)))

    def _array(self, length, buffers, children=(), nulls=0, dictionary=None):
        array = self._held(arrow.Array(length=length, null_count=nulls, offset=0, n_buffers=len(buffers), n_children=len(children)))
        kept = [None if it is None else self._held(ctypes.create_string_buffer(it, len(it) + 1)) for it in buffers]
        array.buffers = self._held((ctypes.c_void_p * max(len(kept), 1))(*[None if it is None else ctypes.addressof(it) for it in kept]))
        array.children = self._held((ctypes.POINTER(arrow.Array) * max(len(children), 1))(*map(ctypes.pointer, children)))
        if dictionary is not None:
            array.dictionary = ctypes.pointer(dictionary)
        return array

    def _field(self, name, form, children=(), dictionary=None):
        field = self._held(arrow.Schema(format=form.encode(), name=name.encode(), n_children=len(children)))
        field.children = self._held((ctypes.POINTER(arrow.Schema) * max(len(children), 1))(*map(ctypes.pointer, children)))
        if dictionary is not None:
            field.dictionary = ctypes.pointer(dictionary)
        return field

    def __arrow_c_stream__(self, requested_schema=None):
        left = [self.chunks]

        def schema_into(_, target):
            texts, every = self._field("", "u"), self.columns_of_chunk.items()
            fields = [self._field(name, form, dictionary=texts if more else None) for name, (form, _, *more) in every]
            top = self._field("", "+s", fields)
            top.release = self._release("schema")
            ctypes.memmove(target, ctypes.addressof(top), ctypes.sizeof(top))
            return 0

        def next_into(_, target):
            ctypes.memset(target, 0, ctypes.sizeof(arrow.Array))
            if left[0]:
                left[0] -= 1
                children = []
                for form, buffers, *more in self.columns_of_chunk.values():
                    known = self._array(2, more[0]) if more else None
                    children.append(self._array(2 + self.offset, buffers, nulls=int(buffers[0] is not None), dictionary=known))
                top = self._array(2, [None], children)
                top.offset, top.release = self.offset, self._release("array")
                ctypes.memmove(target, ctypes.addressof(top), ctypes.sizeof(top))
            return 0

        get = [self._held(arrow._Get(it)) for it in (schema_into, next_into)]
        stream = self._held(arrow.Stream(get_schema=get[0], get_next=get[1]))
        capsule = ctypes.pythonapi.PyCapsule_New
        capsule.restype, capsule.argtypes = ctypes.py_object, [ctypes.c_void_p, ctypes.c_char_p, ctypes.c_void_p]
        return capsule(ctypes.addressof(stream), b"arrow_array_stream", None)


def numbers(code, *values):
    return struct.pack(f"<{len(values)}{code}", *values)


DOORS = "u", [None, numbers("i", 0, 4, 8), b"doordoor"]
SECONDS = int((EIGHT - datetime(1970, 1, 1)).total_seconds())


class Columns(Test):
    def test_dates_in_a_dict_and_in_rows(self):
        """Time 0 is the beginning of the hour; all forms of rows give the same."""
        rows = list(zip(*DATED.values()))
        for trace in DATED, rows, [list(DATED), *rows], [dict(zip(DATED, row)) for row in rows]:
            self.assertEqual(waited(trace), (3, [5, 6]))

    def test_what_a_tick_is(self):
        self.assertEqual(waited(DATED, tick="100ms"), (30, [50, 60]))
        self.assertEqual(waited(DATED, tick=timedelta(seconds=2))[1], [2, 3])
        self.assertEqual(waited(DATED, start=EIGHT), (3, [5, 6]))
        self.assertEqual(waited(DATED, start="2026-03-02T07:59"), (3, [65, 66]))
        model = DESK.replace("model 1\n", "model 1\n# a tick is 500ms, time 0 is 2026-03-02T08:00:04\n")
        self.assertEqual(list(mpsim.run(model, DATED, jobs=True).visits["desk"].arrive), [2, 4])
        self.assertEqual(mpsim.sweep(DATED, [DESK], tick="100ms")[1].report["desk"].wait, 30)
        with mpsim.visits(DESK, DATED, tick="100ms") as reading:
            self.assertEqual(reading.nodes[1].wait, 30)
        self.assertEqual(mpsim.edit(DESK, DATED, [mpsim.Set(2, "door", 60, (1,))], tick="100ms")["desk"].wait, 30)

    def test_what_cannot_be_known(self):
        """The error names the argument."""
        fine = {**DATED, "d": [timedelta(milliseconds=4250), timedelta(seconds=1)]}
        later = {**DATED, "time": [it.replace(tzinfo=NEW_YORK) for it in DATED["time"]]}
        mixed = {**DATED, "time": [DATED["time"][0], later["time"][1]]}
        for trace, more, says in (
            ({**DATED, "d": [4, 1]}, {}, "tick='1s'"),
            ({**DATED, "time": [5, 6]}, {}, "tick='1s'"),
            (fine, {}, "tick='1ms'"),
            (DATED, {"start": "2026-03-02T08:00+01:00"}, "give start"),
            (later, {"start": EIGHT}, "give start"),
            (DATED, {"start": "2026-03-02T09:00"}, "earlier start"),
            (DATED, {"start": "9 am"}, "start 9 am"),
            (DATED, {"tick": "soon"}, "tick soon"),
            (mixed, {}, "same kind"),
            ({**DATED, "d": DATED["time"]}, {}, "subtract"),
            ({"time": [0], "d": [1]}, {}, "no column 'source'"),
            ({**DATED, "d": [1]}, {}, "differ in length"),
            ({**DATED, "d": "long"}, {}, "column 'd' is str"),
        ):
            with self.subTest(says), self.assertRaisesRegex((ValueError, TypeError), says):
                mpsim.run(DESK, trace, **more)
        self.assertEqual(waited({**DATED, "d": [4, 1]}, tick="1s"), (3, [5, 6]))
        self.assertEqual(waited(later, start=EIGHT.replace(tzinfo=NEW_YORK)), (3, [5, 6]))

    def test_columns_of_codes(self):
        """A column by which a split divides isn't a length of time, and one that the model doesn't use may be anything."""
        model = "model 1\nsource door\nsplit kind 2 mod k from door\nserver desk d from kind\ndelay rest =0 from kind.1\n"
        trace = {**DATED, "k": [0, 1], "who": ["ann", None]}
        self.assertEqual(mpsim.run(model, trace)["rest"].in_, 1)

    def test_missing_values(self):
        with self.assertRaises(mpsim.TraceError) as caught:
            mpsim.run(DESK, {**DATED, "d": [DATED["d"][0], None]})
        self.assertEqual((caught.exception.record, caught.exception.column), (2, "d"))

    def test_a_prepared_trace(self):
        with tempfile.NamedTemporaryFile("w", suffix=".csv") as file:
            file.write("Start,Talk\n2026-03-02 08:00:05,4\n2026-03-02 08:00:06,1\n")
            file.flush()
            trace = mpsim.prepare(file.name, time="Start", source="jobs", demand="Talk=d:s")
        model = DESK.replace("door", "jobs")
        self.assertEqual(mpsim.run(model, trace)["desk"].wait, 3)
        self.assertEqual(mpsim.run(model, Trace("", trace.header, [list(map(str, row)) for row in trace.rows()]))["desk"].wait, 3)


class Arrow(Test):
    def test_times_and_texts(self):
        times = numbers("q", SECONDS * 1000 + 5000, SECONDS * 1000 + 6000)
        for form in "tsm:", "tsm:Europe/Berlin":
            table = ArrowTable({"source": DOORS, "time": (form, [None, times]), "d": ("tDu", [None, numbers("q", 4_000_000, 1_000_000)])})
            self.assertEqual(waited(table), (3, [5, 6]))
            self.assertEqual(table.released, ["array", "schema"])

    def test_forms(self):
        """Numbers of each width, texts of each form, dictionaries, missing values, chunks, and values before the first."""
        view = struct.pack("<i12s", 4, b"door") * 2
        for source in DOORS, ("U", [None, numbers("q", 0, 4, 8), b"doordoor"]), ("vu", [None, view]), ("c", [None, bytes(2)], [None, *DOORS[1][1:]]):
            table = ArrowTable({"source": source, "time": ("l", [None, numbers("q", 0, 1)]), "d": ("C", [None, bytes([4, 1])])})
            self.assertEqual(waited(table), (3, [0, 1]))
        for code, form in ("h", "s"), ("I", "I"), ("Q", "L"), ("d", "g"), ("f", "f"):
            table = ArrowTable({"source": DOORS, "time": ("i", [None, numbers("i", 0, 1)]), "d": (form, [None, numbers(code, 4, 1)])})
            self.assertEqual(waited(table), (3, [0, 1]))
        later = {"source": ("u", [None, numbers("i", 0, 1, 5, 9), b"xdoordoor"]), "time": ("i", [None, numbers("i", 9, 0, 1)])}
        self.assertEqual(waited(ArrowTable({**later, "d": ("C", [None, bytes([9, 4, 1])])}, offset=1)), (3, [0, 1]))
        twice = ArrowTable({"source": DOORS, "time": ("i", [None, numbers("i", 3, 3)]), "d": ("C", [None, bytes([4, 1])])}, chunks=2)
        self.assertEqual((mpsim.run(DESK, twice)["desk"].in_, twice.released), (4, ["array", "array", "schema"]))
        with self.assertRaises(mpsim.TraceError) as caught:
            mpsim.run(DESK, ArrowTable({"source": DOORS, "time": ("i", [None, numbers("i", 0, 1)]), "d": ("C", [b"\1", bytes([4, 1])])}))
        self.assertEqual((caught.exception.record, caught.exception.column), (2, "d"))

    def test_other_types(self):
        """They are rejected if the model uses them."""
        columns = {"source": DOORS, "time": ("i", [None, numbers("i", 0, 1)]), "d": ("C", [None, bytes([4, 1])]), "other": ("w:3", [None, b"abcdef"])}
        self.assertEqual(waited(ArrowTable(columns))[0], 3)
        table = ArrowTable({**columns, "d": columns["other"]})
        with self.assertRaisesRegex(ValueError, "column 'd' has Arrow's type 'w:3'"):
            mpsim.run(DESK, table)
        self.assertEqual(table.released, ["array", "schema"])


@unittest.skipUnless(pandas, "pandas and numpy aren't there")
class Frames(Test):
    def test_pandas(self):
        frame = pandas.DataFrame({**DATED, "who": [object(), None]})
        self.assertEqual(waited(frame), (3, [5, 6]))
        self.assertEqual(waited(frame.assign(time=frame.time.dt.tz_localize("Europe/Berlin"))), (3, [5, 6]))
        exact = frame.assign(d=pandas.to_timedelta([4_000_000_003, 1], unit="ns"))
        self.assertEqual(mpsim.run(DESK, exact, tick="1ns")["desk"].busy, 4_000_000_004)
        for column in [pandas.Timedelta(seconds=4), pandas.NaT], pandas.array([4, pandas.NA], dtype="Int64"):
            with self.assertRaises(mpsim.TraceError) as caught:
                mpsim.run(DESK, frame.assign(d=column), tick="1s")
            self.assertEqual((caught.exception.record, caught.exception.column), (2, "d"))
        whole = frame.assign(time=pandas.array([0, 1], dtype="Int64"), d=pandas.array([4, 1], dtype="Float64"))
        self.assertEqual(waited(whole), (3, [0, 1]))

    def test_numpy(self):
        kinds = [("source", "U9"), ("time", "M8[ms]"), ("d", "m8[s]")]
        named = numpy.array([("door", "2026-03-02T08:00:05", 4), ("door", "2026-03-02T08:00:06", 1)], dtype=kinds)
        self.assertEqual(waited(named), (3, [5, 6]))
        self.assertEqual(waited({name: named[name] for name in named.dtype.names}), (3, [5, 6]))
        self.assertEqual(waited(numpy.array([("door", 0, 4), ("door", 1, 1)], dtype=object)), (3, [0, 1]))
        self.assertEqual(waited({"source": ["door"] * 2, "time": numpy.array([0, 1]), "d": numpy.array([4.0, 1.0])}), (3, [0, 1]))
        named["d"][1] = "NaT"
        with self.assertRaises(mpsim.TraceError):
            mpsim.run(DESK, named)

    def test_the_interchange_protocol(self):
        """As pandas has it, behind an object with nothing else."""

        class Table:
            def __init__(self, frame):
                self.frame = frame

            def __dataframe__(self, nan_as_null=False, allow_copy=True):
                return self.frame.__dataframe__(nan_as_null, allow_copy)

        frame = pandas.DataFrame({**DATED, "d": [4, 1]})
        self.assertEqual(waited(Table(frame), tick="1s"), (3, [5, 6]))
        frame["source"] = frame.source.astype("category")
        self.assertEqual(waited(Table(frame.astype({"d": "float32"})), tick="1s"), (3, [5, 6]))
        with self.assertRaises(mpsim.TraceError):
            mpsim.run(DESK, Table(frame.assign(time=[EIGHT, pandas.NaT])), tick="1s")

    def test_levels_of_a_sweep(self):
        text = "model 1\nsource door\nloss desk {places} ={ticks} from door\n"
        for values, names in ({"places": [1, 2], "ticks": [3]}, ["scenario_1", "scenario_2", "name"]), ({"places": [1, 2]}, ["scenario", "name"]):
            models = mpsim.variants(text if len(values) > 1 else text.replace("{ticks}", "3"), **values)
            frame = mpsim.sweep([("door", 0), ("door", 1)], models).to_pandas()
            self.assertEqual((list(frame.index.names), len(frame)), (names, 4))
        mixed = mpsim.sweep([("door", 0)], {(1, 2): DESK.replace(" d ", " =1 "), "other": DESK.replace(" d ", " =1 ")}).to_pandas()
        self.assertEqual(list(mixed.index.names), ["scenario", "name"])


class Figures(Test):
    def test_a_pool_is_one_node(self):
        report = Queue(str(EXAMPLES / "week" / "model.txt"), Trace.read(EXAMPLES / "week" / "trace.csv"), "desk").run(2)
        self.assertEqual((report["desk"].kind, report["desk"].p90), ("pool", 18))
        self.assertEqual((report.by_name["desk"].kind, report.by_name["desk"].p90), ("trunk", 0))
        self.assertEqual(with_pools(report)["desk"], report["desk"])

    def test_visits_without_a_wait(self):
        """No mean of them is a number."""
        model = "model 1\nsource door\nloss desk 2 =4 from door\n"
        desk = mpsim.run(model, [("door", 0), ("door", 1), ("door", 2)], jobs=True).visits["desk"]
        for times in desk.wait, desk.depart:
            self.assertNotEqual(sum(times), sum(times))
            self.assertFalse(any(time < 0 for time in times))
        self.assertEqual((list(desk.raw_wait), list(desk.raw_depart)), ([0, 3, -1], [4, 8, -1]))
        source = mpsim.run(model, [("door", 0)], jobs=True).visits["desk"]
        self.assertEqual((source.wait.typecode, list(source.wait)), ("q", [0]))

    def test_visits_that_were_not_asked_for(self):
        report = mpsim.run(DESK, [("door", 0, 1)])
        self.assertFalse(report.has_visits)
        with self.assertRaisesRegex(ValueError, "jobs=True"):
            report.visits["desk"]


class Models(Test):
    def test_of_a_text(self):
        for folder in sorted(EXAMPLES.iterdir()):
            if (folder / "model.txt").is_file():
                text = (folder / "model.txt").read_text()
                self.assertEqual(str(mpsim.Model.parse(text)).split("\n"), text.split("\n"))
                self.assertEqual(str(mpsim.Model.read(folder / "model.txt")), str(mpsim.Model.parse(text)))

    def test_added_nodes(self):
        model = mpsim.Model.parse("# a desk\nmodel 1\nsource door\n")
        model.trunk("lines", 2, "d", "door")
        self.assertEqual(str(model), "# a desk\nmodel 2\nsource door\ntrunk lines 2 d from door\n")

    def test_other_texts(self):
        for text in "", "source door\n", "model 3\n":
            with self.assertRaisesRegex(ValueError, "model 1 or model 2"):
                mpsim.Model.parse(text)

    def test_several_servers(self):
        with self.assertRaisesRegex(ValueError, r"mpplan pool.*trunk\('desk', 5"):
            mpsim.Model().server("desk", "talk", "door", servers=5)


if __name__ == "__main__":
    unittest.main()
