#!/usr/bin/env python3
"""Writes the made exports of this directory, from a seed: each has the form in which one system writes its records.

usage: examples/recipes/make.py [DIRECTORY]     default: the one of this script
"""
import pathlib
import random
import sys
from datetime import datetime, timedelta, timezone

ROWS = 30
BEGIN = datetime(2026, 3, 2, 8, 0, 0)


def arrivals(drawn, gap=40):
    """Yields the times of arrivals."""
    time = BEGIN
    for _ in range(ROWS):
        time += timedelta(seconds=drawn.randrange(1, 2 * gap))
        yield time


def seconds(number):
    return timedelta(seconds=number)


def genesys(drawn):
    """The view of interactions of Genesys Cloud: durations in milliseconds, the direction, and an abandoned column."""
    yield '"Full Export Completed","Date","Duration","Direction","Queue","Abandoned","Total Talk","Total ACW"'
    for time in arrivals(drawn):
        gone = drawn.random() < 0.15
        talk, wrap = (0, 0) if gone else (drawn.randrange(20000, 400000), drawn.randrange(5000, 60000))
        direction = "Outbound" if drawn.random() < 0.1 else "Inbound"
        queue, shown = drawn.choice(["Sales", "Support"]), f"{time.month}/{time.day}/{time:%y} {time:%I:%M:%S %p}"
        yield f'"YES","{shown}","{talk + wrap + 15000}","{direction}","{queue}","{"YES" if gone else ""}","{talk or ""}","{wrap or ""}"'


def avaya(drawn):
    """A report of Avaya CMS on calls: three lines before its header, semicolons, and a row of totals at its end."""
    yield "Call Records;;;;;"
    yield "Printed: 03/03/2026 06:00;;;;;"
    yield ";;;;;"
    yield "Date;Start Time;Split/Skill;Wait Time;Talk Time;ACW Time"
    total = 0
    for time in arrivals(drawn):
        talk, total = drawn.randrange(20, 600), total + 1
        wait, wrap = (f"0:{number // 60:02}:{number % 60:02}" for number in (drawn.randrange(90), drawn.randrange(120)))
        yield f"{time:%m/%d/%Y};{time:%I:%M:%S %p};{drawn.choice(['1 Sales', '2 Service'])};{wait};0:{talk // 60:02}:{talk % 60:02};{wrap}"
    yield f"Totals;;;;{total};"


def cucm(drawn):
    """Call detail records of Cisco CUCM: a second row with types, times in seconds since 1970, and 0 for calls that nobody answered."""
    yield '"cdrRecordType","globalCallID_callId","dateTimeOrigination","finalCalledPartyNumber","dateTimeConnect","dateTimeDisconnect","duration"'
    yield "INTEGER,INTEGER,INTEGER,VARCHAR(50),INTEGER,INTEGER,INTEGER"
    for number, time in enumerate(arrivals(drawn), 7001):
        begin = int(time.replace(tzinfo=timezone.utc).timestamp())
        wait, talk = drawn.randrange(2, 25), drawn.choice([0, drawn.randrange(20, 500), drawn.randrange(20, 500)])
        connect = begin + wait if talk else 0
        yield f'1,{number},{begin},"{drawn.choice(["4100", "4200"])}",{connect},{begin + wait + talk},{talk}'


def asterisk(drawn):
    """The queue_log of Asterisk: a line per event, with bars, from a clock in seconds since 1970."""
    events = []
    for number, time in enumerate(arrivals(drawn, 60), 1):
        begin = int(time.replace(tzinfo=timezone.utc).timestamp())
        queue, wait, talk = drawn.choice(["sales", "support"]), drawn.randrange(40), drawn.randrange(20, 300)
        call, agent = f"{begin}.{number}", drawn.choice(["SIP/201", "SIP/202", "SIP/203"])
        events.append((begin, f"{call}|{queue}|NONE|ENTERQUEUE||0170{number:04}|1||"))
        if drawn.random() < 0.15:
            events.append((begin + wait, f"{call}|{queue}|NONE|ABANDON|1|1|{wait}||"))
            continue
        events.append((begin + wait, f"{call}|{queue}|{agent}|CONNECT|{wait}|{call}|2||"))
        how = drawn.choice(["COMPLETECALLER", "COMPLETEAGENT"])
        events.append((begin + wait + talk, f"{call}|{queue}|{agent}|{how}|{wait}|{talk}|1||"))
    for time, line in sorted(events):
        yield f"{time}|{line}"


def sap(drawn):
    """Confirmations of operations as a list of SAP shows them: tabs, days and times apart, and numbers with a decimal comma."""
    yield "Auftrag\tVorgang\tArbeitsplatz\tIststart\tIststart (Zeit)\tIstende\tIstende (Zeit)\tGutmenge"
    for number, time in enumerate(arrivals(drawn, 400), 1000311):
        for step, (place, least) in enumerate((("SAEGEN", 60), ("DREHEN", 180), ("PRUEFEN", 45)), 1):
            time += seconds(drawn.randrange(30, 600))
            end = time + seconds(drawn.randrange(least, 4 * least))
            day, clock = "%d.%m.%Y", "%H:%M:%S"
            yield f"{number}\t{10 * step:04}\t{place}\t{time:{day}}\t{time:{clock}}\t{end:{day}}\t{end:{clock}}\t{drawn.randrange(1, 9)},000"
            time = end


def tshark(drawn):
    """Fields of packets by tshark -T fields -E header=y: tabs, times since 1970 to the nanosecond, and lengths in bytes."""
    yield "frame.time_epoch\tip.src\tip.dst\tframe.len"
    time = int(BEGIN.replace(tzinfo=timezone.utc).timestamp()) * 10**9
    for _ in range(2 * ROWS):
        time += drawn.randrange(60, 1500)
        yield f"{time // 10**9}.{time % 10**9:09}\t10.0.0.{drawn.choice([2, 3])}\t10.0.1.9\t{drawn.choice([64, 576, 1518])}"


FILES = {"genesys.csv": genesys, "avaya.csv": avaya, "cucm.csv": cucm, "asterisk.csv": asterisk, "sap.csv": sap, "tshark.csv": tshark}


def main():
    folder = pathlib.Path(sys.argv[1]) if sys.argv[1:] else pathlib.Path(__file__).resolve().parent
    for name, lines in FILES.items():
        with open(folder / name, "w", encoding="utf-8", newline="\n") as file:
            file.writelines(f"{line}\n" for line in lines(random.Random(name)))


main()
