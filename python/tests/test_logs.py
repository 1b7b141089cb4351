"""`mpplan inspect` recognises logs with a row per event or per step, and proposes how to gather their rows into records."""

import random
import shlex
import unittest
from datetime import datetime, timedelta

from commands import InFolder, planner
from ground import EXAMPLES

from mpsim.exports.inspection import inspected
from mpsim.exports.logs import found_units, log_options, queue_header
from mpsim.exports.prepare import prepare

WORDS = ("START", "END"), ("Beginn", "Ende"), ("in", "out"), ("1", "0"), ("zzz", "aaa")
STATIONS = "saw", "drill", "pack", "paint", "ship"


def way_of(dice, single):
    """Returns the stations of a unit, in order, none twice in a row."""
    way = dice.sample(STATIONS, dice.randrange(2, 5))
    return ["saw"] if single else way + way[:1] * dice.randrange(2)


class Events(InFolder):
    def log(self, dice, words, single, others=()):
        """Returns rows of a log, in order of time: the time, the unit, the station, the event, and an operator."""
        rows, clock = [], datetime(2026, 3, 2, 8)
        for unit in range(dice.randrange(8, 30)):
            clock += timedelta(seconds=dice.randrange(1, 200))
            at = clock
            for station in way_of(dice, single):
                operator = dice.choice(["Ann", "Bob", "Cem"])
                for word in words:
                    rows.append((at, f"A-{100 + unit}", station, word, operator))
                    at += timedelta(seconds=dice.randrange(1, 300))
                rows += [(at, f"A-{100 + unit}", station, dice.choice(others), operator)] if others and dice.random() < 0.2 else []
        return sorted(rows, key=lambda row: row[0])

    def test_random_logs(self):
        """In any order of columns, the newest rows first too; cut off at their end; with other events among them."""
        for seed in range(120):
            dice = random.Random(seed)
            words, single = WORDS[seed % len(WORDS)], seed % 4 == 3
            rows = self.log(dice, words, single, ("alarm", "note") if seed % 3 == 0 else ())
            rows = rows[: len(rows) - dice.randrange(3)]
            rows = rows[::-1] if dice.random() < 0.3 else rows
            names = ["when", "serial", "place" if single else "station", "what", "operator"]
            order = dice.sample(range(5), 5)
            lines = [",".join(str(row[at]) for at in order) for row in rows]
            path = self.file("log.csv", "\n".join([",".join(names[at] for at in order), *lines, ""]))
            found = inspected(path)
            options = dict(found.options or {})
            want = {"unit": "serial", "event": "what", "begin-event": [words[0]], "end-event": [words[1]], **({} if single else {"steps": "station"})}
            with self.subTest(seed):
                self.assertEqual({name: options.get(name) for name in want}, want, found.notes)
                self.assertEqual("steps" in options, not single)
                given = {name.replace("-", "_"): value for name, value in options.items()}
                truth = {name.replace("-", "_"): value for name, value in want.items()}
                more = {name: given[name] for name in ("source", "left_out_most") if name in given}
                self.assertEqual("".join(prepare(path, **given).lines()), "".join(prepare(path, "when", **truth, **more).lines()))

    def test_words_that_say_which_is_first(self):
        """If several events take turns, the one that is called a beginning; if there is none, no events are proposed."""
        for words, found in ((("SETUP", "START", "END"), True), (("one", "two", "three"), False)):
            rows = self.log(random.Random(1), words, False)
            text = "".join(f"{','.join(map(str, row))}\n" for row in rows)
            options = inspected(self.file("log.csv", f"when,serial,station,what,operator\n{text}")).options
            self.assertEqual("begin-event" in options, found)
            if found:
                self.assertEqual((options["begin-event"], options["end-event"]), (["START"], ["END"]))

    def test_the_example(self):
        """The command that is proposed works, and its note says what it does."""
        status, _, err = planner("inspect", EXAMPLES / "export" / "steps.csv")
        says = "rows look like events: one record per 'serial', one column per 'station'; a service begins with START and ends with END"
        self.assertEqual((status, says in err), (0, True), err)
        command = shlex.split(err.splitlines()[-1].split("proposed: mpplan ")[1])
        self.assertEqual(planner(*command)[1].splitlines(), ["source,time,saw,drill,drill_2,pack", "oak,0,70,90,0,40", "pine,75,50,45,20,35"])


class Steps(InFolder):
    def test_random_logs(self):
        """A length, two that are added up, an end, or a clock beside a day. Words are stations rather than numbers."""
        for seed in range(60):
            dice = random.Random(seed)
            rows, clock = [], datetime(2026, 3, 2, 8)
            for unit in range(dice.randrange(12, 40)):
                clock += timedelta(seconds=dice.randrange(1, 200))
                at = clock
                for number, station in enumerate(dice.sample(STATIONS, dice.randrange(2, 5))):
                    long, setup = dice.randrange(1, 300), dice.randrange(1, 50)
                    rows.append((at, at + timedelta(seconds=long), unit + 500, 10 * number, station, long, setup))
                    at += timedelta(seconds=long)
            form = seed % 4
            if form == 3:
                shown = "{0:%Y-%m-%d},{0:%H:%M:%S},{1:%H:%M:%S},{2},{3},{4}"
                header, text = "day,begin,finish,order,number,station", [shown.format(*row) for row in rows]
            else:
                columns = ["begin", "order", "number", "station", *(["finish"], ["working"], ["working", "setup"])[form]]
                places = [0, 2, 3, 4, *([1], [5], [5, 6])[form]]
                header, text = ",".join(columns), [",".join(str(row[at]) for at in places) for row in rows]
            found = inspected(self.file("log.csv", "\n".join([header, *text, ""])))
            want = {"time": "begin", "unit": "order", "steps": "station"}
            ends, both = {"end": ["finish"]}, {"demand": ["working=service", "setup=service"]}
            want.update([ends, {"demand": ["working"]}, both, {**ends, "date": "day"}][form])
            self.assertEqual(found.options, want, (seed, found.notes))
            says = "rows look like steps: one record per 'order', one column per 'station'; without --unit and --steps each row is a record"
            self.assertIn(says, found.notes)

    def test_what_is_no_log(self):
        """Callers who call again; calls of some agents in some queues; directions; and transfers of a few calls."""
        for seed in range(40):
            dice = random.Random(seed)
            lines = []
            for at in range(120):
                start = datetime(2026, 3, 2, 8) + timedelta(seconds=40 * at)
                lines.append(f"{start},C{dice.randrange(60)},{dice.choice('abc')},{dice.choice(['in', 'out'])},agent{at % 5},{dice.randrange(400)}")
            path = self.file("calls.csv", "\n".join(["Start,Caller,Queue,Direction,Agent,Talk", *lines, ""]))
            self.assertEqual(inspected(path).options, {"time": "Start", "source": "Queue", "demand": ["Talk"]})
        header = ["caller", "direction"]
        rows = [[f"C{dice.randrange(60)}", dice.choice(["in", "out"])] for _ in range(120)]
        self.assertIsNone(log_options(header, rows, range(120), [], False))
        self.assertIsNone(found_units(header, rows, []))

    def test_rows_that_can_not_be_gathered(self):
        """Then a command for a record per row is proposed, and a note says why."""
        rows = [f"2026-03-02 {8 + at // 60:02}:{at % 60:02},S{at // 4},m{at % 20},{at}" for at in range(300)]
        found = inspected(self.file("log.csv", "\n".join(["time,serial,machine,duration", *rows, ""])))
        self.assertEqual(found.options, {"time": "time", "source": "machine", "demand": ["duration"]})
        self.assertIn("log.csv: 20 columns; the limit of a trace is 16", "".join(note for note in found.notes if "can't be gathered: " in note))


class Queues(InFolder):
    def test_the_examples(self):
        """Without a header and with one; the trace is that of the recipe."""
        log = EXAMPLES / "recipes" / "asterisk.csv"
        want = {"time": "time", "format": "unix", "source": "queue", "unit": "call", "event": "event", "arrive-event": ["ENTERQUEUE"]}
        want.update({"begin-event": ["CONNECT"], "end-event": ["COMPLETECALLER", "COMPLETEAGENT"], "abandon-event": ["ABANDON"]})
        found = inspected(log)
        header = "time,call,queue,agent,event,data1,data2,data3"
        self.assertEqual(found.options, {**want, "header": header})
        options = {name.replace("-", "_"): value for name, value in found.options.items()}
        self.assertEqual("".join(prepare(log, zone="Europe/Berlin", **options).lines()), (EXAMPLES / "recipes" / "asterisk-trace.csv").read_text())
        own = {"time": "when", "unit": "uniqueid", "source": "queuename", "event": "what"}
        for name, own in ("when,uniqueid,queuename,agent,what,x,y,z,u,v", own), (header + ",data4,data5", {}):
            found = inspected(self.file("log.csv", f"{name.replace(',', '|')}\n{log.read_text()}"))
            self.assertEqual(found.options, {**want, **own})
        text = log.read_text().replace("COMPLETEAGENT", "BLINDTRANSFER")
        self.assertEqual(inspected(self.file("log.csv", text)).options["end-event"], ["COMPLETECALLER", "BLINDTRANSFER"])

    def test_a_row_that_is_no_header(self):
        self.assertEqual(queue_header("1772434800|NONE|NONE|NONE|QUEUESTART|".split("|")), "time,call,queue,agent,event,data1,data2,data3")
        for row in "time|call|queue|agent|event|a", "1772434800|a|b|c|SOLD|", "1772434800|CONNECT":
            self.assertIsNone(queue_header(row.split("|")))


if __name__ == "__main__":
    unittest.main()
