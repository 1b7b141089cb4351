#!/usr/bin/env python3
"""Proves and builds a program and the crates that it depends on, in parallel: one more at a time than there are processors, if memory allows.

usage: build.py [--needed] [PROGRAM]     in any directory; PROGRAM is mpsim by default

RT names the toolchain's command, if rt is not on the PATH. Proofs of unchanged crates are kept, for all programs, and so are some earlier states of
each crate, in case a change is undone. Each crate is reported on stderr when it is done.

With --needed nothing is done if the existing program is built from the current sources, whatever their timestamps; and if nothing can be built, an
existing program may still be run, with a warning. The scripts at the root use this option.

Each crate is proved from scratch, from the statements of those below it, as in the gate. rt itself works on one crate at a time, and lets each crate
read all proofs below it, so this program issues the toolchain's own commands. The crate with the most to prove from it up to the program goes first.
Several jobs for one crate take a quarter to three quarters more CPU time for the same proofs, so a crate gets more than one only if processors would
otherwise be idle.
"""
import contextlib
import fcntl
import functools
import hashlib
import os
import shutil
import signal
import subprocess
import sys

ROOT = os.path.dirname(os.path.realpath(__file__))
# What is proved, for whichever program: the statements of each crate, with a record of what they were made from.
PROVED = f"{ROOT}/crates/mpsim/out/proved"
# The latest earlier states of each crate, by the checksum of what they were proved from.
KEPT, STATES = f"{ROOT}/crates/mpsim/out/kept", 2
RT = os.environ.get("RT", "rt")
# The memory, in bytes, for a check with one job; each further job needs less.
CHECK = 2 << 30


# The signals that end a build.
STOPS = [signal.SIGINT, signal.SIGTERM, signal.SIGHUP]


class Stopped(BaseException):
    """A signal has arrived that ends the build."""


class Unable(Exception):
    """Nothing can be built here, and why."""


def tell(program, text):
    """Prints a line on stderr, prefixed with the program's name."""
    print(f"{program}: {text}", file=sys.stderr, flush=True)


@functools.lru_cache(maxsize=None)
def said(*words):
    """Returns the output of a toolchain command."""
    if not shutil.which(RT):
        raise Unable(f"{RT}, the toolchain's command, is not on the PATH")
    ran = subprocess.run([RT, *words], stdin=subprocess.DEVNULL, stdout=subprocess.PIPE, text=True)
    if ran.returncode:
        raise Unable(f"{RT} {' '.join(words)} failed with status {ran.returncode}")
    return ran.stdout.strip()


def text_of(file):
    """Returns the content of a file, empty if there is none."""
    if not os.path.isfile(file):
        return ""
    with open(file, errors="replace") as text:
        return text.read()


def listed():
    """Returns the crates in crates.txt, lowest first, each with all libraries that it names."""
    rows = [line.split(":") for line in text_of(f"{ROOT}/crates.txt").splitlines() if line and not line.startswith("#")]
    return {name: uses.split() for name, uses in rows}


def is_program(name):
    """Returns whether a crate is a program, not a library."""
    return os.path.isfile(f"{ROOT}/crates/{name}/src/main.rt")


def below(name, uses):
    """Returns all crates of the repository that a crate depends on."""
    found, left = set(), [name]
    while left:
        new = {use for use in uses[left.pop()] if use in uses} - found
        found |= new
        left += new
    return found


def crates_of(program, uses):
    """Returns a program and all crates that it depends on, lowest first."""
    needed = below(program, uses)
    return [use for use in uses if use in needed] + [program]


def executable(name):
    """Returns the path of a built program."""
    return f"{ROOT}/crates/{name}/out/{name}"


def files_of(name, parts=("src", "specs", "proofs")):
    """Returns the sources, definitions and proofs of a crate."""
    found = []
    for part in parts:
        for folder, _, files in os.walk(f"{ROOT}/crates/{name}/{part}"):
            found += [f"{folder}/{file}" for file in files]
    return sorted(found)


def looks_of(name):
    """Returns the size of each file of a crate and when it was last written. A file that is written again counts as changed, whatever its content."""
    looks = [(file, os.stat(file)) for file in files_of(name)]
    return [(it, look.st_mtime_ns, look.st_size) for it, look in looks]


def lines_of(name):
    """Returns the number of lines of code in a crate."""
    return sum(text_of(file).count("\n") for file in files_of(name) if file.endswith(".rt"))


def chains(lines, uses):
    """Returns, for each crate, the most lines proved on a path from it up to the program. The crates are given lowest first."""
    chain = {}
    for name in reversed(lines):
        above = [chain[item] for item in chain if name in uses[item]]
        chain[name] = lines[name] + max(above, default=0)
    return chain


def jobs_for(name, left, running, lines, uses, most, room):
    """Returns how many jobs a crate gets, with this many processors, memory for this many jobs, and those in `running` being proved, each with its
    own number. It gets enough that each job has fewer lines than each of the other processors, among what can be proved beside it. Crates being
    proved count as half done."""
    beside = sum(lines[item] for item in left if item != name and name not in below(item, uses)) + sum(lines[item] // 2 for item in running)
    jobs = 1
    while jobs < min(most, room - sum(running.values())) and lines[name] * (most - jobs) > beside * jobs:
        jobs += 1
    return jobs


def stamps(names, uses):
    """Returns, for each crate, a checksum of what it is proved from: the toolchain, its files, and the checksums of the crates below it."""
    version, made = said("version"), {}
    for name in names:
        total = hashlib.sha256(version.encode())
        for use in uses[name]:
            total.update(made.get(use, use).encode())
        for file in files_of(name):
            with open(file, "rb") as text:
                total.update(repr((os.path.relpath(file, ROOT), text.read())).encode())
        made[name] = total.hexdigest()
    return made


def made_of(program, uses):
    """Returns a checksum of what a program is made from: what its crates depend on, and their sources and definitions. Proofs don't count, because
    they don't change the program."""
    total = hashlib.sha256()
    for name in crates_of(program, uses):
        total.update(repr((name, uses[name])).encode())
        for file in files_of(name, ["src", "specs"]):
            total.update(f"{os.path.relpath(file, ROOT)} {sum_of(file)}\n".encode())
    return total.hexdigest()


def sum_of(file):
    """Returns the checksum of a file's content."""
    with open(file, "rb") as text:
        return hashlib.sha256(text.read()).hexdigest()


def put(file, text):
    """Writes a file completely, or leaves it as it was."""
    with open(f"{file}.part", "w") as out:
        out.write(text)
    os.replace(f"{file}.part", file)


def record(program, made):
    """Records next to a program what it is made from."""
    put(f"{executable(program)}.made", f"{sum_of(executable(program))} {made}\n")


def is_current(program, uses):
    """Returns whether the existing program is made from the current sources. Its record says so; if it has none, as when rt made it, nothing that it
    is made from may have been written since, and then it is recorded."""
    if not os.access(executable(program), os.X_OK):
        return False
    made, words = made_of(program, uses), text_of(f"{executable(program)}.made").split()
    if len(words) == 2 and words[0] == sum_of(executable(program)):
        return words[1] == made
    files = [f"{ROOT}/crates.txt", *(file for name in crates_of(program, uses) for file in files_of(name, ["src", "specs"]))]
    if any(os.stat(file).st_mtime_ns > os.stat(executable(program)).st_mtime_ns for file in files):
        return False
    with contextlib.suppress(OSError):
        record(program, made)
    return True


def is_noted(program, uses):
    """Returns whether the program is made from the current sources. If so, it stores what tools/looks.sh printed before, by which a script sees that
    nothing has changed since."""
    words = ["sh", "-c", 'root=$1 name=$2; . "$root/tools/looks.sh"', "sh", ROOT, program]
    looks = subprocess.run(words, stdin=subprocess.DEVNULL, stdout=subprocess.PIPE, text=True).stdout
    if not is_current(program, uses):
        return False
    with contextlib.suppress(OSError):
        put(f"{executable(program)}.looks", looks)
    return True


def lanes():
    """Returns for how many jobs there are processors and memory, and for how many there is memory."""
    count = len(os.sched_getaffinity(0))
    free = count * CHECK
    for line in text_of("/proc/meminfo").splitlines():
        if line.startswith("MemAvailable:"):
            free = 1024 * int(line.split()[1])
    room = max(free // CHECK, 1)
    return min(count, room), room


def made_by(name, uses, kit, jobs):
    """Returns the command that proves a library with this many jobs and writes its statements, or a program and writes its code."""
    words = [f"{kit}/bin/rattle", "build", "--crate-name", name, "src/main.rt" if is_program(name) else "src/lib.rt"]
    for use in ["std", *uses[name]]:
        words += ["--extern", f"{use}={PROVED if use in uses else f'{kit}/rlibs'}/{use}.rlib"]
    words += ["-L", f"dependency={kit}/rlibs", "-L", f"dependency={PROVED}", "--links", f"{name}="]
    words += ["--antt-project", f"{kit}/rattle/logic/antt-project.json", "--logic-built", f"{kit}/logic_built", "--jobs", str(jobs)]
    if is_program(name):
        return [*words, "--toolchain", f"{kit}/toolchain", "--backend", "llvm", "-o", f"{PROVED}/{name}.o"]
    return [*words, "--statements", "-o", f"{PROVED}/{name}.rlib"]


def result_of(name):
    """Returns what the check of a crate produces: the statements of a library, the code of a program."""
    return f"{PROVED}/{name}.{'o' if is_program(name) else 'rlib'}"


def remove(path):
    """Removes a file or a directory, if it exists: a directory under another name, so that remains of it are never mistaken for it."""
    if os.path.isdir(path):
        shutil.rmtree(f"{path}.gone", ignore_errors=True)
        os.rename(path, f"{path}.gone")
        shutil.rmtree(f"{path}.gone")
    elif os.path.exists(path):
        os.remove(path)


def set_aside(name):
    """Moves the proved state of a crate to its earlier states, of which the latest are kept; an incomplete one is removed."""
    stamp, states = text_of(f"{PROVED}/{name}.stamp"), f"{KEPT}/{name}"
    remove(f"{PROVED}/{name}.stamp")
    if not stamp or not os.path.exists(result_of(name)):
        return remove(result_of(name))
    os.makedirs(states, exist_ok=True)
    remove(f"{states}/{stamp}")
    os.rename(result_of(name), f"{states}/{stamp}")
    os.utime(f"{states}/{stamp}")
    whole = [item for item in os.listdir(states) if not item.endswith(".gone")]
    for each in sorted(whole, key=lambda item: -os.stat(f"{states}/{item}").st_mtime_ns)[STATES:]:
        remove(f"{states}/{each}")


def take_back(name, stamp):
    """Returns whether a crate is proved from its current content, restoring an earlier state if that matches."""
    if text_of(f"{PROVED}/{name}.stamp") == stamp:
        return True
    if not os.path.exists(f"{KEPT}/{name}/{stamp}"):
        return False
    # Out of the way of the states to be removed.
    remove(f"{PROVED}/{name}.back")
    os.rename(f"{KEPT}/{name}/{stamp}", f"{PROVED}/{name}.back")
    set_aside(name)
    os.rename(f"{PROVED}/{name}.back", result_of(name))
    put(f"{PROVED}/{name}.stamp", stamp)
    return True


def begin(name, uses, kit, jobs, nice):
    """Begins to prove a crate, with this many jobs, at low priority. Its earlier state is set aside. It runs in a session of its own, so that Ctrl-C
    at the terminal reaches only this build, which then ends all checks."""
    set_aside(name)
    words, folder = ["nice", "-n", str(nice), *made_by(name, uses, kit, jobs)], f"{ROOT}/crates/{name}"
    with open(f"{PROVED}/{name}.log", "w") as log:
        files = {"stdin": subprocess.DEVNULL, "stdout": log, "stderr": log}
        return subprocess.Popen(words, cwd=folder, **files, start_new_session=True, preexec_fn=stoppable)


@contextlib.contextmanager
def unstopped():
    """Defers the signals that end the build: a check that was started but not yet registered would go on."""
    signal.pthread_sigmask(signal.SIG_BLOCK, STOPS)
    try:
        yield
    finally:
        stoppable()


def stoppable():
    """Lets the signals through that end the build, in this process or in one that it starts while they are deferred."""
    signal.pthread_sigmask(signal.SIG_UNBLOCK, STOPS)


def end(checks):
    """Ends these checks and everything that they started. A process that a check was just starting can miss the signal, so what is left of its group
    is killed, before the number of the group may be given to another."""
    for check in checks:
        with contextlib.suppress(ProcessLookupError):
            os.killpg(check.pid, signal.SIGTERM)
    for check in checks:
        with contextlib.suppress(ChildProcessError, ProcessLookupError):
            os.waitid(os.P_PID, check.pid, os.WEXITED | os.WNOWAIT)
            os.killpg(check.pid, signal.SIGKILL)
        check.wait()


def wait_for_one(checks):
    """Waits until one of these processes has ended, and keeps its status. Other children that have ended are reaped."""
    while (ended := os.waitid(os.P_ALL, 0, os.WEXITED | os.WNOWAIT).si_pid) not in checks:
        os.waitpid(ended, 0)


def prove_all(program, uses, kit):
    """Proves all crates below the program and then the program. Returns whether all are proved."""
    names = crates_of(program, uses)
    lines, looks = {name: lines_of(name) for name in names}, {name: looks_of(name) for name in names}
    made, chain, (most, room) = stamps(names, uses), chains(lines, uses), lanes()
    done = {name for name in names if take_back(name, made[name])}
    left, running, jobs = sorted([name for name in names if name not in done], key=lambda item: -chain[item]), {}, {}
    failed = False
    if left:
        time = ", about nine to fourteen minutes on four processors" if 2 * len(left) > len(names) else ""
        tell(program, f"proving {len(left)} of {len(names)} crates, once{time}")
    else:
        tell(program, f"all {len(names)} crates are proved; linking")
    try:
        while running or (left and not failed):
            ready = [] if failed else [item for item in left if done >= below(item, uses)]
            for name in ready:
                # One crate more than there are processors, so that none is idle while a check reads, writes, or has work for only one job.
                if len(running) > most or sum(jobs[item] for item in running) >= room:
                    break
                # Crates further from the program go first.
                others = [item for item in [*left, *running] if chain[item] > chain[name]]
                jobs[name] = jobs_for(name, left, {item: jobs[item] for item in running}, lines, uses, most, room)
                with unstopped():
                    running[name] = begin(name, uses, kit, jobs[name], min(len(others), 10))
                left.remove(name)
            wait_for_one([check.pid for check in running.values()])
            for name in [it for it, check in running.items() if check.poll() is not None]:
                status = running.pop(name).returncode
                if status:
                    why = f"the check of {name} was ended by signal {-status}" if status < 0 else f"{name} is not proved"
                    tell(program, f"{text_of(f'{PROVED}/{name}.log')}{why}")
                    failed = True
                    continue
                if any(looks_of(item) != looks[item] for item in [name, *below(name, uses)]):
                    tell(program, f"{name} was changed during the build")
                    failed = True
                    continue
                put(f"{PROVED}/{name}.stamp", made[name])
                done.add(name)
                tell(program, f"{name} is proved ({len(done)} of {len(names)})")
    finally:
        end(running.values())
    return not failed


def link(program, kit):
    """Links the program. Returns whether that succeeded."""
    words = ["--target", "x86_64-unknown-linux-gnu", "--toolchain", f"{kit}/toolchain", "-o", f"{PROVED}/{program}", f"{PROVED}/{program}.o"]
    words += [f"{kit}/c/libos_c.a", f"{kit}/c/liblibc_c.a"]
    ran = subprocess.run([f"{kit}/bin/rattle-link", *words], stdin=subprocess.DEVNULL, stdout=subprocess.PIPE, stderr=subprocess.STDOUT)
    if ran.returncode:
        sys.stderr.buffer.write(ran.stdout)
    return ran.returncode == 0


def does_as_stored(program):
    """Returns whether the linked program gives the output and the status stored with an example."""
    folder = f"{ROOT}/crates/{program}"
    words = [f"{PROVED}/{program}", *text_of(f"{folder}/args").splitlines()]
    ran = subprocess.run(words, cwd=f"{folder}/data", stdin=subprocess.DEVNULL, stdout=subprocess.PIPE)
    return ran.stdout == text_of(f"{folder}/stdout").encode() and ran.returncode == int(text_of(f"{folder}/status") or 0)


def build(program, uses):
    """Proves and builds the program. Returns whether it exists."""
    kit = os.path.dirname(said("doc"))
    names = crates_of(program, uses)
    looks, made = [looks_of(name) for name in names], made_of(program, uses)
    if not prove_all(program, uses, kit):
        return False
    if not link(program, kit) or not does_as_stored(program):
        tell(program, "the build failed")
        return False
    os.makedirs(os.path.dirname(executable(program)), exist_ok=True)
    os.replace(f"{PROVED}/{program}", executable(program))
    # Changes made in the meantime aren't in the program.
    if [looks_of(name) for name in names] == looks:
        record(program, made)
    return True


def build_alone(program, uses):
    """Builds while no other build does: a second one waits, whatever its program, and then finds what the first proved."""
    said("version")
    try:
        os.makedirs(PROVED, exist_ok=True)
        with open(f"{PROVED}/lock", "w") as lock:
            try:
                fcntl.flock(lock, fcntl.LOCK_EX | fcntl.LOCK_NB)
            except BlockingIOError:
                tell(program, "waiting for another build")
                fcntl.flock(lock, fcntl.LOCK_EX)
            return build(program, uses)
    except OSError as error:
        raise Unable(f"{os.path.relpath(error.filename or PROVED, ROOT)}: {error.strerror}") from None


def stop(number, _):
    """Ends this build, once: a second signal doesn't interrupt how the first ends the checks."""
    for item in STOPS:
        signal.signal(item, signal.SIG_IGN)
    raise Stopped(number)


def main(words):
    needed, program = words[:1] == ["--needed"], ([word for word in words if word != "--needed"] or ["mpsim"])[0]
    if len(words) > 1 + needed or not is_program(program):
        print("usage: build.py [--needed] [PROGRAM]", file=sys.stderr)
        return 2
    signal.signal(signal.SIGINT, stop)
    signal.signal(signal.SIGTERM, stop)
    if signal.getsignal(signal.SIGHUP) != signal.SIG_IGN:
        signal.signal(signal.SIGHUP, stop)
    # The status of a check is kept until it is collected.
    signal.signal(signal.SIGCHLD, signal.SIG_DFL)
    uses = listed()
    try:
        if needed and is_noted(program, uses):
            return 0
        if not build_alone(program, uses):
            return 1
        is_noted(program, uses)
        return 0
    except Stopped as signal_of:
        tell(program, "stopped; what is proved is kept")
        return 128 + signal_of.args[0]
    except Unable as why:
        if needed and os.access(executable(program), os.X_OK):
            tell(program, f"this program may be older than its sources, and can't be rebuilt: {why}")
            return 0
        tell(program, f"there is no program yet, and it can't be built: {why} (README.md, Install)" if needed else f"can't build: {why}")
        return 1


if __name__ == "__main__":
    sys.exit(main(sys.argv[1:]))
