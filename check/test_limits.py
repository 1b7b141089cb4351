"""Limits, each reached and exceeded by one, and large inputs that must be fast."""
from inputs import line_feeds, records, two_nodes
from programs import CASES, DESK, EXAMPLES, PROGRAMS, Check, form_of, run

ONE_SOURCE = EXAMPLES / "source" / "model.txt"
# Rows of jobs, one per tick, each with this service time.
TICKS = "source,time,d\n" + "".join(f"src,{time},%s\n" for time in range(100000))
LARGE = """mpsim report 1
jobs 100000 span 100000
node src source in 100000 out 100000 lost 0 wait 0 max 0 busy 0 area 0 peak 0 util -
node desk server in 100000 out 100000 lost 0 wait 0 max 0 busy 100000 area 100000 peak 1 util 1.0000
exit desk.0 100000 sojourn 100000
"""
BEHIND = """mpsim report 2
jobs 100000 span 200000
node src source in 100000 out 100000 lost 0 held 0 wait 0 max 0 p50 0 p90 0 p99 0 busy 0 area 0 peak 0 util -
node desk server in 100000 out 100000 lost 0 held 0 wait 4999950000 max 99999 p50 49999 p90 89999 p99 98999 busy 200000 area 5000150000 peak 50001 util 1.0000
exit desk.0 100000 sojourn 5000150000
"""
FEW = """mpsim report 2
jobs 100 span 100000
node src source in 100 out 100 lost 0 held 0 wait 0 max 0 p50 0 p90 0 p99 0 busy 0 area 0 peak 0 util -
node desk server in 100 out 100 lost 0 held 0 wait 4945050 max 98901 p50 48951 p90 88911 p99 97902 busy 100000 area 5045050 peak 100 util 1.0000
exit desk.0 100 sojourn 5045050
"""
HALF_LOST = """mpsim report 1
jobs 200000 span 200000
node src source in 200000 out 200000 lost 0 wait 0 max 0 busy 0 area 0 peak 0 util -
node l loss in 200000 out 100000 lost 100000 wait 0 max 0 busy 200000 area 200000 peak 1 util 1.0000
exit l.0 100000 sojourn 200000
exit l.1 100000 sojourn 0
"""
THIRD_LOST = """mpsim report 1
jobs 200000 span 200002
node src source in 200000 out 200000 lost 0 held 0 wait 0 max 0 busy 0 area 0 peak 0 util -
node t trunk in 200000 out 133334 lost 66666 held 0 wait 0 max 0 busy 400002 area 400002 peak 2 util 0.9999
exit t.0 133334 sojourn 400002
exit t.1 66666 sojourn 0
"""
# Each row visits the delay four times, and leaves at once.
FOUR_VISITS = """model 2
source src
fork f 4 from src
delay w =0 from f f.1 f.2 f.3
"""
MOST_VISITS = """mpsim report 1
jobs 262144 span 0
node src source in 262144 out 262144 lost 0 held 0 wait 0 max 0 busy 0 area 0 peak 0 util -
node f fork in 262144 out 262144 lost 0 held 0 wait 0 max 0 busy 0 area 0 peak 0 util -
node w delay in 1048576 out 1048576 lost 0 held 0 wait 0 max 0 busy 0 area 0 peak 1 util -
exit w.0 1048576 sojourn 0
"""
# Stations whose jobs leave in order of arrival, in series.
IN_TURN = """model 1
source src
server a =1 from src
tandem t =1 / 1 =0 from a
forkjoin f =0 | =1 from t
server b =0 from f
"""
ALL_IN_TURN = """mpsim report 1
jobs 1048576 span 1048578
node src source in 1048576 out 1048576 lost 0 wait 0 max 0 busy 0 area 0 peak 0 util -
node a server in 1048576 out 1048576 lost 0 wait 549755289600 max 1048575 busy 1048576 area 549756338176 peak 1048576 util 0.9999
node t tandem in 1048576 out 1048576 lost 0 wait 0 max 0 busy 1048576 area 1048576 peak 1 util 0.4999
node f forkjoin in 1048576 out 1048576 lost 0 wait 0 max 0 busy 1048576 area 1048576 peak 1 util 0.4999
node b server in 1048576 out 1048576 lost 0 wait 0 max 0 busy 0 area 0 peak 1 util 0.0000
exit b.0 1048576 sojourn 549758435328
"""
# Four forks in series, a fifth, and a server that exceeds the bound.
FIVE_FORKS = """model 2
bound 5
source src
fork a 4 from src
fork b 4 from a a.1 a.2 a.3
fork c 4 from b b.1 b.2 b.3
fork d 4 from c c.1 c.2 c.3
fork e 4 from d d.1 d.2 d.3
server z =9 from e e.1 e.2 e.3
"""


def servers(many, demand="c{}"):
    """A model with this many servers in series, each with a column of its own, or with this service time."""
    lines = [f"server q{node + 1} {demand.format(node)} from q{node}" for node in range(many)]
    return "\n".join(["model 1", "source q0", *lines, ""])


def header(many):
    """The header of a trace with this many columns after the time."""
    return ",".join(["source", "time", *(f"c{column}" for column in range(many))]) + "\n"


class Limits(Check):
    def accepts_texts(self, model, *trace):
        self.accepts(self.file("model.txt", model), self.file("trace.csv", *trace))

    def refuses_texts(self, status, line, model, *trace):
        self.refuses(status, line, "mpsim", self.file("model.txt", model), self.file("trace.csv", *trace))

    def test_bytes_of_a_model(self):
        of_bytes = lambda many: "model 1\nsource s\n#".ljust(many, "-")
        self.accepts_texts(of_bytes(65536), header(0))
        self.refuses_texts(3, "mpsim: model: longer than 65536 bytes", of_bytes(65537), header(0))

    def test_nodes(self):
        trace = header(0) + "q0,0\n"
        self.accepts_texts(servers(63, "=1"), trace)
        self.refuses_texts(3, "mpsim: model line 66: too many nodes or columns", servers(64, "=1"), trace)

    def test_columns(self):
        self.accepts_texts(servers(16), header(16))
        self.refuses_texts(4, "mpsim: trace header: field 19 not allowed", servers(16), header(17))
        self.refuses_texts(3, "mpsim: model line 19: too many nodes or columns", servers(17), header(17))

    def test_records(self):
        self.accepts_texts(ONE_SOURCE, records(1048576))
        self.refuses_texts(4, "mpsim: trace: more than 1048576 records", ONE_SOURCE, records(1048577))

    def test_bytes_of_a_trace(self):
        self.refuses_texts(4, "mpsim: trace header: field 1 not allowed", ONE_SOURCE, *line_feeds(134217728))
        self.refuses_texts(4, "mpsim: trace: longer than 134217728 bytes", ONE_SOURCE, *line_feeds(134217729))

    def test_visits(self):
        model = self.file("four.txt", FOUR_VISITS)
        self.writes(MOST_VISITS, model, self.file("trace.csv", records(262144)))
        self.refuses_texts(9, "mpsim: node w has 1048580 visits", model, records(262145))

    def test_visits_in_turn(self):
        """The greatest number of visits per node, at stations that store no visits, each read by the next."""
        model, trace = self.file("turn.txt", IN_TURN), self.file("trace.csv", records(1048576))
        for workers in "1", "4":
            self.writes(ALL_IN_TURN, model, trace, "--workers", workers)

    def test_visits_behind_forks(self):
        """After four forks in series a few thousand rows are too many. What follows the fifth isn't run: it would exceed the bound."""
        self.refuses_texts(9, "mpsim: node z has 4194304 visits", FIVE_FORKS, records(4096))
        self.refuses_texts(9, "mpsim: node e has 1048832 visits", FIVE_FORKS, records(4097))

    def test_late_or_too_many(self):
        """If one node exceeds the bound and one has too many visits, the error names the first by rank."""
        late, many, both = "delay p =9 from f.3", "delay w =0 from f f.1 f.2", "delay w =9 from f f.1 f.2"
        trace = records(349526)
        self.refuses_texts(5, "mpsim: node p position 0 passes the bound at time 9", two_nodes(late, many), trace)
        self.refuses_texts(9, "mpsim: node w has 1048578 visits", two_nodes(many, late), trace)
        self.refuses_texts(9, "mpsim: node w has 1048578 visits", two_nodes(both), trace)


class Large(Check):
    def test_trace_of_a_megabyte(self):
        """It is read completely: a job per tick, each served for one."""
        self.writes(LARGE, DESK / "model.txt", self.file("large.csv", TICKS.replace("%s", "1")))

    def test_long_waits(self):
        """A desk that falls behind by a tick per job: the waits are 0 to 99,999 ticks, each once, and are counted in long pieces. With a hundred jobs
        of 1,000 ticks each, the waits are longer than the number of jobs, and are sorted."""
        behind = self.file("behind.csv", TICKS.replace("%s", "2"))
        few = self.file("few.csv", *TICKS.replace("%s", "1000").splitlines(True)[:101])
        for workers in "1", "4":
            self.writes(BEHIND, "--workers", workers, DESK / "model.txt", behind)
            self.writes(FEW, "--workers", workers, DESK / "model.txt", few)

    def test_overload(self):
        """Half of an overload is lost at a loss station, and a third at a trunk group: full rounds over all arrivals would be too slow."""
        trace = self.file("overload.csv", "source,time\n", *(f"src,{time}\n" for time in range(200000)))
        for report, case in (HALF_LOST, "loss"), (THIRD_LOST, "trunk"):
            # A minute of processor time, which a busy machine doesn't lengthen; it takes a tenth of a second.
            limited = ["sh", "-c", 'ulimit -t 60 && exec "$@"', "sh", PROGRAMS["mpsim"]]
            self.did(run(*limited, CASES / case / "model.txt", trace, *form_of(report)), 0, report)
