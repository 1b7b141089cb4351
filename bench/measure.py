"""Shared by the scripts of this directory: the inputs on which mpsim is timed, and how a run is measured."""
import ctypes
import os
import random
import subprocess
import time
from collections import namedtuple

MEMORY = os.path.join(os.path.dirname(os.path.dirname(os.path.abspath(__file__))), "tools", "memory.sh")
# The `prctl` option for a process that adopts orphaned descendants, from <linux/prctl.h>.
SUBREAPER = 36
# A shell that sets a variable, reports that it is ready, waits until its input ends, and ends while the command goes on.
BEGINS = 'export "$1"; shift; echo; read -r line; "$@" </dev/null &'

# The lines of a model after its sources, the columns of its trace and their content: a random number below this one, or this text. From one record to
# the next the time grows by a random number below `step`, or by 1 if that is 0. The model has this version. If a record visits a node several times,
# the trace has correspondingly fewer records: a node has at most 1,048,576 visits.
Input = namedtuple("Input", "sources lines columns step version visits", defaults=[1, 1])


def in_a_row(nodes, step, *lines):
    """Returns a source and this many nodes in a row, which alternate between these lines of a model; {} is the name of a node, and then its input."""
    names = ["src", *(f"n{number}" for number in range(1, nodes + 1))]
    return Input(["src"], [lines[at % len(lines)].format(name, names[at]) for at, name in enumerate(names[1:])], {"d": 9, "e": 9}, step)


def servers_in_a_row(servers):
    """Returns a source and this many servers, which alternate between the service times of the two columns."""
    return in_a_row(servers, 10, "server {} d from {}", "server {} e from {}")


TANDEM = "tandem {} d / 2 e / 1 d / 3 e from {}"

INPUTS = {
    "server": Input(["src"], ["server desk d from src"], {"d": 9}, 10),
    "two-servers": Input(["src"], ["server a d from src", "server b e from a"], {"d": 9, "e": 9}, 10),
    "split": Input(
        ["a", "b"],
        ["server s d from a b", "split p 2 mod d from s", "server u =3 from p", "server v =4 from p.1"],
        {"d": 5},
        6,
    ),
    "delay": Input(["src"], ["delay w d from src", "server q e from w"], {"d": 100, "e": 9}, 10),
    "fork-join": Input(["src"], ["forkjoin f d | e e from src"], {"d": 9, "e": 5}, 12),
    "tandem": in_a_row(1, 12, TANDEM),
    "three-tandems": in_a_row(3, 12, TANDEM),
    "ten-tandems": in_a_row(10, 12, TANDEM),
    "forty-servers": servers_in_a_row(40),
    # links with tail drop, each followed by its propagation delay
    "six-links": in_a_row(12, 10, "loss {} 8 d from {}", "delay {} =50 from {}", "loss {} 8 e from {}", "delay {} =50 from {}"),
    "loss": Input(["src"], ["loss l 3 d from src"], {"d": 9}, 6),
    "overload": Input(["src"], ["loss l 1 =2 from src"], {}, 0),
    "trunk": Input(["src"], ["trunk t 30 d from src"], {"d": 300}, 10, 2),
    # as a spreadsheet writes it: a column of quoted text that the model doesn't read
    "quoted": Input(["src"], ["server desk d from src"], {"d": 9, "note": '"seen, then called back"'}, 10),
    "fork-and-join": Input(
        ["src"],
        ["fork f 2 from src", "server a d from f", "server b e from f.1", "join j from a b"],
        {"d": 9, "e": 9},
        12,
        2,
        2,
    ),
    "call-centre": Input(
        ["phone", "web"],
        [
            "server greet g from phone web",
            "split menu cut kind 1 from greet",
            "loss expert 2 e from menu.1",
            "tandem desk a / 1 b from menu expert.1",
            "delay wrap =2 from desk expert",
        ],
        {"g": 4, "kind": 2, "e": 9, "a": 5, "b": 5},
        12,
    ),
    # twelve stations in series, all visited by every job
    "twelve": Input(
        ["a", "b"],
        [
            "server s1 d from a b",
            "delay s2 e from s1",
            "server s3 e from s2",
            "tandem s4 d / 2 e from s3",
            "server s5 d from s4",
            "forkjoin s6 d | e from s5",
            "server s7 e from s6",
            "delay s8 d from s7",
            "loss s9 4 d from s8",
            "server s10 e from s9 s9.1",
            "split s11 2 turn from s10",
            "server s12 d from s11 s11.1",
        ],
        {"d": 9, "e": 9},
        12,
    ),
}


class Failed(Exception):
    """Why a series of runs can't go on."""


# Times are in seconds: wall-clock time, and CPU time.
Measure = namedtuple("Measure", "seconds worked megabytes status out err")


def write_model(path, given):
    with open(path, "w") as out:
        for line in [f"model {given.version}", *(f"source {name}" for name in given.sources), *given.lines]:
            print(line, file=out)


def write_trace(path, given, rows):
    draw = random.Random(7)
    now = 0
    with open(path, "w") as out:
        print("source", "time", *given.columns, sep=",", file=out)
        for _ in range(rows):
            now += draw.randrange(given.step) if given.step else 1
            values = [held if isinstance(held, str) else draw.randrange(held) for held in given.columns.values()]
            print(draw.choice(given.sources), now, *values, sep=",", file=out)


def measure(words):
    began = time.perf_counter()
    child = subprocess.Popen(words, stdout=subprocess.PIPE, stderr=subprocess.PIPE)
    out = child.stdout.read()
    err = child.stderr.read()
    _, status, usage = os.wait4(child.pid, 0)
    child.returncode = os.waitstatus_to_exitcode(status)
    return Measure(time.perf_counter() - began, usage.ru_utime + usage.ru_stime, usage.ru_maxrss / 1024, child.returncode, out, err)


def least(runs):
    return min(run.seconds for run in runs)


def memory_settings():
    """Returns the memory settings with which the scripts at the root run their programs, as NAME=VALUE."""
    words = ["sh", "-c", '. "$0"; echo "GLIBC_TUNABLES=$GLIBC_TUNABLES"', MEMORY]
    return subprocess.run(words, check=True, stdout=subprocess.PIPE, text=True).stdout.rstrip("\n")


def measure_small(words, setting):
    """Does what `measure` does, for a run that may take little memory, with an environment variable set, as NAME=VALUE.

    The system counts, for a child, the memory that its parent had when starting it, some 15 MB for this interpreter. So a shell starts the run and
    ends at once, and the orphaned run is adopted. The clock starts when the shell is ready.
    """
    if ctypes.CDLL(None, use_errno=True).prctl(SUBREAPER, 1, 0, 0, 0):
        raise OSError(ctypes.get_errno(), "no process is taken in whose parent ends")
    pipes = dict.fromkeys(("stdin", "stdout", "stderr"), subprocess.PIPE)
    with subprocess.Popen(["sh", "-c", BEGINS, "sh", setting, *words], **pipes) as shell:
        shell.stdout.readline()
        began = time.perf_counter()
        shell.stdin.close()
        out, err = shell.stdout.read(), shell.stderr.read()
        ends = [os.wait4(-1, 0) for _ in ("the shell", "the run")]
        seconds = time.perf_counter() - began
        shell.returncode = 0
    status, usage = next(end[1:] for end in ends if end[0] != shell.pid)
    return Measure(seconds, usage.ru_utime + usage.ru_stime, usage.ru_maxrss / 1024, os.waitstatus_to_exitcode(status), out, err)


def in_turn(calls, runs, setting):
    """Makes these calls, given by name, this many times in turn, so that a slow minute affects all of them equally. Returns the runs of each. The
    series ends with the first run that fails or writes another report."""
    done = {name: [] for name in calls}
    for name, words in [*calls.items()] * runs:
        run = measure_small(words, setting)
        if run.status:
            raise Failed(f"{name}: status {run.status}: {run.err.decode(errors='replace').strip()}")
        done[name].append(run)
        if run.out != done[next(iter(calls))][0].out:
            raise Failed(f"{name}: another report")
    return done


def call(program, model, trace, workers):
    """Returns the words of a call in form 2, with this many workers."""
    return [program, model, trace, "--report", "2", "--workers", str(workers)]


def processors():
    """Returns the CPU time of the whole machine since it started, and the time that its host took away (`steal`), in seconds."""
    with open("/proc/stat") as file:
        user, nice, system, _, _, interrupts, soft, steal = map(int, file.readline().split()[1:9])
    ticks = os.sysconf("SC_CLK_TCK")
    return (user + nice + system + interrupts + soft) / ticks, steal / ticks
