"""25,000 made calls as a telephone system in Germany and one in the United States write them: the same trace from both, by one command each."""

import csv
import io
import random
import unittest
from datetime import datetime, timedelta, timezone
from zoneinfo import ZoneInfo

from commands import InFolder, planner

CALLS, ABANDONED, EMPTY, DUPLICATES = 25_000, 700, 120, 90
BERLIN = ZoneInfo("Europe/Berlin")
WORDS = "--zone", "Europe/Berlin", "--twice", "order", "--begin", "day", "--duplicates", "drop"
GERMAN = (
    "--skip 2 --time Beginn --source Abteilung --demand Gespräch=talk --demand Nachbearbeitung=wrap --abandoned Ergebnis=aufgelegt "
    "--rename Verkauf=sales --rename Störung=faults --where Abteilung!="
).split()
AMERICAN = [
    *"--date Date --time Time --source Department --demand Talk=talk:min --demand Wrap=wrap --abandoned Result=abandoned".split(),
    *"--rename Sales=sales --rename Trouble=faults --where Department!= --format".split(),
    "%I:%M:%S %p",
]


def calls():
    """Yields calls from the Friday to the Tuesday around the change of clocks in October, day and night: the moment, the department, the seconds of
    talk and of wrap-up, and whether the caller gave up. Some have no date (None), and some come twice."""
    drawn, moment = random.Random(2026), datetime(2026, 10, 22, 22, 0, 0, tzinfo=timezone.utc)
    gone, empty, again = (set(drawn.sample(range(CALLS), count)) for count in (ABANDONED, EMPTY, DUPLICATES))
    for number in range(CALLS):
        moment += timedelta(seconds=drawn.randrange(1, 35))
        talk = drawn.randrange(1, 30) * 30
        call = None if number in empty else moment, drawn.choice(["sales", "faults"]), talk, drawn.randrange(121), number in gone
        yield call
        if number in again:
            yield call


def german():
    """Yields the rows of a report: two lines before the header, and a row of totals at the end."""
    yield ["Anrufe je Abteilung"]
    yield []
    yield ["Nr", "Beginn", "Abteilung", "Gespräch", "Nachbearbeitung", "Ergebnis"]
    last, number = None, 0
    for call in calls():
        moment, department, talk, wrap, is_gone = call
        number, last = number + (call != last), call
        begin = moment and moment.astimezone(BERLIN).replace(tzinfo=None)
        times = [None, None] if is_gone else [timedelta(seconds=talk), timedelta(seconds=wrap)]
        yield [number, begin, {"sales": "Verkauf", "faults": "Störung"}[department], *times, "aufgelegt" if is_gone else "bedient"]
    yield ["Summe", None, None, timedelta(days=90), None, None]


def american():
    """Yields the rows of the same calls: days and times apart, minutes with a decimal point, seconds, and the totals at the end."""
    yield ["Call", "Date", "Time", "Department", "Talk", "Wrap", "Result"]
    last, number = None, 0
    for call in calls():
        moment, department, talk, wrap, is_gone = call
        number, last = number + (call != last), call
        begin = moment and moment.astimezone(BERLIN)
        when = [begin.strftime("%m/%d/%Y"), begin.strftime("%I:%M:%S %p")] if begin else ["", ""]
        times = ["", ""] if is_gone else [f"{talk / 60:.1f}", wrap]
        yield [number, *when, {"sales": "Sales", "faults": "Trouble"}[department], *times, "abandoned" if is_gone else "answered"]
    yield ["Total", "", "", "", "129600.0", "", ""]


def expected():
    """Returns the records of the trace, worked out from the calls: without those that have no date, each once."""
    begin, rows = datetime(2026, 10, 23, tzinfo=BERLIN), []
    for moment, department, talk, wrap, is_gone in dict.fromkeys(calls()):
        if moment:
            rows.append((department, int((moment - begin).total_seconds()), *((0, 0, 1) if is_gone else (talk, wrap, 0))))
    return rows


class TwoFormats(InFolder):
    def trace(self, path, words):
        status, out, err = planner("prepare", path, *words, *WORDS)
        self.assertEqual(status, 0, err)
        return out, err

    def us_csv(self):
        made = io.StringIO()
        csv.writer(made, lineterminator="\r\n").writerows(american())
        return self.trace(self.file("calls.csv", made.getvalue()), AMERICAN)

    def test_us_csv(self):
        out, err = self.us_csv()
        rows = [(row[0], *map(int, row[1:])) for row in csv.reader(io.StringIO(out)) if row[0] != "source"]
        self.assertEqual(rows, expected())
        self.assertEqual(len(rows), CALLS - EMPTY)
        self.assertEqual(sum(row[-1] for row in rows), sum(call[-1] and call[0] is not None for call in dict.fromkeys(calls())))
        for what in (
            f"{EMPTY} rows are left out",
            "rows that repeat an earlier row, field by field",
            "1 row excluded by --where",
            "times are in the hour that occurs twice on 2026-10-25 in Europe/Berlin",
            f"{len(rows):,} records, 2 sources",
        ):
            self.assertIn(what, err)
        # Some calls end on the next day, and the last day is after the change, which made one of them longer.
        self.assertTrue(any(time % 86400 + talk > 86400 for _, time, talk, _, _ in rows if time < 2 * 86400))
        self.assertGreater(rows[-1][1], 4 * 86400)

    def test_the_same_from_a_german_spreadsheet(self):
        try:
            from openpyxl import Workbook
        except ImportError:
            raise unittest.SkipTest("needs openpyxl") from None
        book = Workbook(write_only=True)
        sheet = book.create_sheet("Anrufe")
        for row in german():
            sheet.append(row)
        path = self.folder / "anrufe.xlsx"
        book.save(path)
        self.assertEqual(self.trace(path, GERMAN)[0], self.us_csv()[0])


if __name__ == "__main__":
    unittest.main()
