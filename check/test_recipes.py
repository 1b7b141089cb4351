"""The recipes of docs/MODEL.md, with the models, traces and commands shown there, and small cases worked by hand.

The output shown on the page must be in the output of the command. If a recipe is called exact, or the truth is said to lie between two runs, random
traces are compared with a simulation of the real rule (rules.py).
"""
import re
import shutil
from itertools import product

from pages import sections
from programs import EXAMPLES, PROGRAMS, ROOT, Check, executable, run
from rules import drawn, in_line, queued, simulated

TRACES = 20
MODEL = sections("docs/MODEL.md")
# A pool of two agents: the model with one server in its place, the commands, and what the new model contains.
DESK = "model 1\nsource door\nserver desk d from door\n"
POOL = "./mpplan pool desk.txt trace.csv --node desk --agents 2 --out served.csv --out-model served.txt\n./mpsim served.txt served.csv\n"
POOLED = "delay desk_queue desk_wait from door\ntrunk desk 2 d from desk_queue\n"


def visits(text, *nodes):
    """Returns the wait and the departure of each job at one of these nodes; None if it is lost."""
    lines = [line.split() for line in text.splitlines() if line.startswith("job ")]
    return {int(w[1]): (int(w[6]), int(w[8])) if w[5] == "wait" else None for w in lines if w[2] in nodes}


def pool_visits(text):
    """Returns the wait, in the delay before the trunk group, and the departure of each job at the queue `desk`."""
    ends = visits(text, "desk")
    lines = [line.split() for line in text.splitlines() if line.startswith("job ")]
    return {int(w[1]): (int(w[8]) - int(w[4]), ends[int(w[1])][1]) for w in lines if w[2] == "desk_queue"}


def table(columns, rows):
    return "".join(",".join(map(str, row)) + "\n" for row in [columns.split(","), *rows])


class Recipes(Check):
    def setUp(self):
        super().setUp()
        (self.folder / "mpsim").symlink_to(PROGRAMS["mpsim"])
        (self.folder / "examples").symlink_to(EXAMPLES)
        for name in "tools", "mpplan":
            (self.folder / name).symlink_to(ROOT / name)
        (self.folder / "programs").mkdir()
        (self.folder / "programs" / "mpsim").symlink_to(executable("mpsim"))

    def kept(self, **texts):
        """Writes these texts into the directory: model_txt becomes model.txt."""
        for name, text in texts.items():
            self.file(name.replace("_", "."), text)

    def output_of(self, command, shell="sh"):
        """Returns what a command writes in the directory."""
        ran = run(shell, "-c", command, folder=self.folder, settings={"MPSIM_PROGRAMS": str(self.folder / "programs")})
        self.assertEqual(ran.status, 0, f"{ran.command}\n{ran.line.decode()}")
        return ran.out.decode()

    def served(self, commands):
        """Returns the output of the run of a pool, with job lines; messages about the pool are dropped."""
        pool, run_it = commands.splitlines()
        return self.output_of(f"{pool} >/dev/null && {run_it} --jobs")

    def report(self, model, trace):
        """Returns the report of two texts, with job lines."""
        self.kept(model_txt=model, trace_csv=trace)
        return self.output_of("./mpsim model.txt trace.csv --jobs")

    def shows(self, what, text, lines):
        """A case: each of these lines is in a text."""
        missing = set(lines.splitlines()) - set(text.splitlines())
        self.same(f"{what}: lines that aren't in the answer", sorted(missing), [])

    def test_several_servers_at_one_queue(self):
        (turns,), desk, commands, pool = MODEL["Several servers at one queue"], DESK, POOL, POOLED
        mod = turns.replace("split turns 2 turn", "split turns 2 mod teller")
        rows = [("door", 0, 6, 0), ("door", 1, 1, 1), ("door", 2, 1, 1), ("door", 3, 1, 1)]
        trace = table("source,time,d", [row[:3] for row in rows])
        self.same("by turns", visits(self.report(turns, trace), "ann", "ben"), {1: (0, 6), 2: (0, 2), 3: (4, 7), 4: (0, 4)})
        ends = {1: (0, 6), 2: (0, 2), 3: (0, 3), 4: (0, 4)}
        self.same("by tellers", visits(self.report(mod, table("source,time,d,teller", rows)), "ann", "ben"), ends)
        self.kept(desk_txt=desk, trace_csv=trace)
        self.same("a pool", pool_visits(self.served(commands)), ends)
        self.shows("the model of a pool", (self.folder / "served.txt").read_text(), pool)
        self.same("who serves", [line.split(",")[3] for line in (self.folder / "served.csv").read_text().split()[1:]], ["1", "2", "2", "2"])

        for seed in range(TRACES):
            rows = drawn(seed, ["door"], (4, 4))
            text = self.report(turns, table("source,time,d", rows))
            self.same("equal services", visits(text, "ann", "ben"), simulated(queued(rows, ["door"]), 2))
            rows = drawn(seed, ["door", "gate"], (0, 9), (0, 5))
            self.kept(trace_csv=table("source,time,d,w", rows))
            for inputs in "door gate", "gate door":
                two = desk.replace("source door", "source door\nsource gate").replace("from door", f"from {inputs}")
                self.kept(desk_txt=two)
                jobs = queued(rows, inputs.split())
                self.same("two sources", pool_visits(self.served(commands)), simulated(jobs, 2))
                # After a way that takes w ticks: ordered by the end of the way, then by arrival at it.
                self.kept(desk_txt=two.replace(f"from {inputs}", f"from way\ndelay way w from {inputs}"))
                jobs = sorted((job._replace(time=job.time + rows[job.number - 1][3]) for job in jobs), key=lambda job: job.time)
                self.same("after a delay", pool_visits(self.served(commands)), simulated(jobs, 2))

    def test_many_servers_at_one_queue(self):
        """Also with a node per agent, after two splits and before a further station; 55 of them make 64 nodes."""
        desk, commands = DESK, POOL
        for servers, seeds in (14, range(5)), (55, [0]):
            behind = "delay out =0 from desk\n" if servers == 14 else ""
            each = commands.replace("--agents 2", f"--agents {servers} --by agents")
            self.kept(desk_txt=desk + behind)
            for seed in seeds:
                rows = drawn(seed, ["door"], (0, 40), jobs=40 if servers == 14 else 120)
                self.kept(trace_csv=table("source,time,d", rows))
                wanted = simulated(queued(rows, ["door"]), servers)
                self.same(f"{servers} servers", pool_visits(self.served(commands.replace("--agents 2", f"--agents {servers}"))), wanted)
                text = self.served(each)
                self.same(f"{servers} nodes of servers", visits(text, *(f"desk_{k}" for k in range(1, servers + 1))), wanted)
                if behind:
                    self.same("what goes on", {job: end[1] for job, end in visits(text, "out").items()}, {job: end[1] for job, end in wanted.items()})
            self.same("nodes", text.count("\nnode "), {14: 20, 55: 64}[servers])

    def test_links(self):
        model, trace = MODEL["Links"]
        self.shows("links", self.report(model, trace), "job 4 first arrive 30 lost\nexit first.1 1 sojourn 0\n")
        for seed in range(TRACES):
            rows = drawn(seed, ["left", "right"], (1, 9))
            text = self.report(model, table("source,time,bytes", rows))
            self.same("links", visits(text, "first"), simulated(queued(rows, ["left", "right"]), places=3))

    def test_priorities(self):
        (model,) = MODEL["Priorities"]
        shown = [("plain", 0, 5), ("plain", 1, 5), ("urgent", 2, 3), ("plain", 3, 4), ("urgent", 4, 3)]
        trace = table("source,time,d", shown)
        alone = model.replace("from urgent plain", "from urgent")
        waits = lambda ends: [ends[job][0] for job in (3, 5)]
        self.same("first run", waits(visits(self.report(model, trace), "desk")), [8, 13])
        self.same("second run", waits(visits(self.report(alone, trace), "desk")), [0, 1])
        first_urgent = lambda rows: simulated(queued(rows, ["urgent", "plain"], urgent=lambda row: row[0] == "urgent"), urgent_first=True)
        self.same("in truth", waits(first_urgent(shown)), [3, 4])
        for seed in range(TRACES):
            rows = drawn(seed, ["urgent", "plain"], (1, 6))
            truth = first_urgent(rows)
            both, one = (visits(self.report(text, table("source,time,d", rows)), "desk") for text in (model, alone))
            most = max(demand for source, _, demand in rows if source == "plain")
            for job, (source, _, _) in enumerate(rows, 1):
                if source == "urgent":
                    self.holds(f"urgent job {job} of {rows}", one[job][0] <= truth[job][0] <= min(both[job][0], one[job][0] + most))
                else:
                    self.holds(f"plain job {job} of {rows}", both[job][0] <= truth[job][0])

    def test_shifts_and_breaks(self):
        model, trace = MODEL["Shifts and breaks"]
        text = self.report(model, trace)
        self.same("breaks", visits(text, "desk"), {1: (0, 10), 2: (7, 14), 3: (2, 19), 4: (4, 39), 5: (23, 41)})
        self.shows("breaks", text, "exit kind.0 3 sojourn 43\n")
        for seed in range(TRACES):
            rows = [(*row, int(row[0] == "pause")) for row in drawn(seed, ["pause", "door", "door", "door"], (1, 6))]
            found = visits(self.report(model, table("source,time,d,pausing", rows)), "desk")
            jobs = queued(rows, ["pause", "door"], urgent=lambda row: row[0] == "pause")
            self.same("breaks", found, simulated(jobs))
            # If a break begins as soon as a service ends, those waiting at that time wait longer, and no one else.
            soon = simulated(jobs, urgent_first=True)
            for job in (job for job in jobs if not job.urgent):
                waits = range(job.time, job.time + soon[job.number][0] + 1)
                stands = any(other.urgent and other.time in waits for other in jobs)
                longer = stands and soon[job.number] > found[job.number]
                self.holds(f"who waits when a break comes: {job} of {rows}", soon[job.number] == found[job.number] or longer)

    def test_feedback_and_rework(self):
        model, script = MODEL["Feedback and rework"]
        self.kept(model_txt=model, first_csv=table("source,time,d,back", [("new", 0, 4, 3), ("new", 1, 2, 0), ("new", 6, 5, 0)]), rework_py=script)
        self.same("rework", visits(self.output_of("python3 rework.py"), "desk"), {1: (0, 4), 2: (3, 6), 4: (2, 9), 3: (3, 14)})
        for seed in range(TRACES):
            rows = [(*row[:3], max(0, row[3] - 4)) for row in drawn(seed, ["new"], (1, 6), (1, 9))]
            self.kept(first_csv=table("source,time,d,back", rows))
            found = visits(self.output_of("python3 rework.py"), "desk")
            ends = simulated(queued(rows, ["new"], back=lambda row: row[3]))
            firsts = {job: end for job, end in found.items() if job <= len(rows)}
            self.same("first visits", firsts, {job: end for job, end in sorted(ends.items()) if job > 0})
            seconds = sorted(end for job, end in found.items() if job > len(rows))
            self.same("second visits", seconds, sorted(end for job, end in ends.items() if job < 0))

    def test_customers_who_give_up(self):
        model = "model 1\nsource door\nloss desk 3 =4 from door\n"
        text = self.report(model, table("source,time", [("door", time) for time in range(5)]))
        self.same("patience", visits(text, "desk"), {1: (0, 4), 2: (3, 8), 3: (6, 12), 4: None, 5: (8, 16)})
        for seed in range(TRACES):
            rows = drawn(seed, ["door"])
            # Jobs that would wait more than 8 ticks aren't served; all others are, one after another.
            free, wanted = 0, {}
            for job, (_, time) in enumerate(rows, 1):
                wait = max(0, free - time)
                wanted[job] = (wait, time + wait + 4) if wait <= 8 else None
                free = time + wait + 4 if wait <= 8 else free
            self.same("patience", visits(self.report(model, table("source,time", rows)), "desk"), wanted)

    def tandems(self, lines, rows):
        """Returns the report of several tandems with these words, each of which gets all of these rows; and when each job leaves each of them."""
        model = "model 1\n" + "".join(f"source p{at}\ntandem line{at} {line} from p{at}\n" for at, line in enumerate(lines))
        text = self.report(model, table("source,time,a,b,c,d", [(f"p{at}", *row[1:]) for at in range(len(lines)) for row in rows]))
        found = [visits(text, f"line{at}") for at in range(len(lines))]
        return text, [{job - at * len(rows): end[1] for job, end in ends.items()} for at, ends in enumerate(found)]

    def test_buffers_of_more_than_4(self):
        """Every tandem, with every choice of the stages that work: stages of demand 0 add their places to those of the next machine."""
        command, made = MODEL["Buffers of more than 4"]
        self.same("the tandem of the page", self.output_of(command), made)
        every = [it for n in (1, 2, 3) for it in product(product(range(1, 5), repeat=n), product([False, True], repeat=n - 1))]
        forms = [(places, (*works, True)) for places, works in every]
        lines, rooms = [], []
        for places, works in forms:
            names, own = iter("bcd"), [0]
            lines.append("a" + "".join(f" / {room} {next(names) if work else '=0'}" for room, work in zip(places, works)))
            for room, work in zip(places, works):
                own[-1] += room
                own += [0] * work
            rooms.append(own[:-1])
        self.same("tandems", (len(lines), {len(own): max(own) for own in rooms}), (292, {1: 12, 2: 8, 3: 4}))
        for first in range(0, len(forms), 20):
            rows, some = drawn(first, ["p"], (0, 5), (0, 9), (0, 6), (0, 9)), slice(first, first + 20)
            text, found = self.tandems(lines[some], rows)
            span = int(text.split()[6])
            for at, (line, own, ends) in enumerate(zip(lines[some], rooms[some], found)):
                parts = [(row[1], row[2 : 3 + len(own)]) for row in rows]
                self.same(f"{line}: departures", ends, {job: gone[-1] for job, gone in in_line(parts, own).items()})
                # `util` counts the stages of demand 0 too.
                busy, node = sum(sum(services) for _, services in parts), re.search(rf"node line{at} tandem .* busy (\d+) .* util (.*)", text)
                util = 10**4 * busy // ((line.count("/") + 1) * span) / 10**4
                self.same(f"{line}: util", node.groups(), (str(busy), f"{util:.4f}"))
        # With 20 places the truth is between servers in series and 12 places.
        for seed in range(TRACES):
            rows = drawn(seed, ["p"], (0, 5), (0, 9), (0, 0), (0, 0))
            _, (late,) = self.tandems(["a / 4 =0 / 4 =0 / 4 b"], rows)
            truth = in_line([(row[1], row[2:4]) for row in rows], [20])
            two = "model 1\nsource p\nserver one a from p\nserver two b from one\n"
            soon = visits(self.report(two, table("source,time,a,b", [row[:4] for row in rows])), "two")
            self.holds(f"20 places: {rows}", all(soon[job][1] <= truth[job][-1] <= late[job] for job in truth))

    def test_making_a_trace(self):
        """A packed trace is read by each of the commands; a bound doesn't end a run, but rejects it."""
        (commands,) = MODEL["Making a trace"]
        model = "model 1\nsource phone\nsource web\nserver desk talk from phone web\n"
        self.kept(model_txt=model, trace_csv=table("source,time,talk", [("phone", 5, 95), ("web", 40, 120), ("phone", 70, 30)]))
        self.output_of("gzip -c trace.csv >trace.csv.gz")
        wanted = self.output_of("./mpsim model.txt trace.csv")
        for command in commands.splitlines():
            # `<(` needs bash or zsh.
            shell = "bash" if "<(" in command else "sh"
            if shutil.which(shell):
                self.same(command, self.output_of(command, shell), wanted)
        # The end of a run.
        self.kept(model_txt=model.replace("model 1", "model 1\nbound 200"))
        self.refuses(5, "mpsim: node desk position 1 passes the bound at time 220", "mpsim", "model.txt", "trace.csv", folder=self.folder)

    def test_every_tenth_job(self):
        """It is picked by two splits."""
        model = "model 1\nsource x\nsplit half 2 turn from x\nsplit fifth 5 turn from half.1\ndelay picked =0 from fifth.4\n"
        text = self.report(model, table("source,time", [("x", time) for time in range(35)]))
        self.same("every tenth", sorted(visits(text, "picked")), [10, 20, 30])

    def test_trunk_groups(self):
        (model,) = MODEL["Trunk groups"]
        text = self.report(model, table("source,time,hold", [("calls", time, 3) for time in range(5)]))
        self.same("trunk groups", visits(text, "lines"), {1: (0, 3), 2: (0, 4), 3: None, 4: (0, 6), 5: (0, 7)})
        line = "node lines trunk in 5 out 4 lost 1 held 0 wait 0 max 0 p50 0 p90 0 p99 0 busy 12 area 12 peak 2 util 0.8571\n"
        self.shows("trunk groups", text, line + "exit lines.0 4 sojourn 12\nexit lines.1 1 sojourn 0\n")

    def test_forks_and_joins(self):
        """As docs/REPORT.md shows them."""
        model, lines = MODEL["Forks and joins"][0], sections("docs/REPORT.md")["Forks and joins"]
        trace = table("source,time", [("src", 0), ("src", 1)])
        self.shows("forks and joins", self.report(model, trace), lines[0])
        self.shows("held", self.report(model.replace("server a =3", "loss a 1 =3"), trace), lines[1])
