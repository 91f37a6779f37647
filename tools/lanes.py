"""Has the kit's compiler prove and build crates side by side, with a lane for each core.

It keeps proofs where `rt` keeps them. `rt` takes a library only if its stamp has the sum of its sources. These have none, so
`rt` builds them once more, over the kept proofs.
"""
import contextlib
import fcntl
import os
import pathlib
import re
import signal
import subprocess
import sys
import tempfile
from typing import IO, NamedTuple

from crates import below, compile_words, folder, is_stale, rlib, with_below

# where a build of a crate keeps its proofs
KEPT = "out/incremental"
# kB of memory for a job of the compiler
MEMORY = 2_500_000
# a crate has at most this many jobs: it keeps them to its end, and a crate that is ready later would wait for one
MOST_JOBS = 2


@contextlib.contextmanager
def locked(crates):
    """Waits until no build and no `rt` works in the folders of these crates, and keeps others out, by the locks of `rt`."""
    with contextlib.ExitStack() as held:
        for it in sorted(crates):
            file = os.open(folder(it), os.O_RDONLY)
            held.callback(os.close, file)
            try:
                fcntl.flock(file, fcntl.LOCK_EX | fcntl.LOCK_NB)
            except BlockingIOError:
                print(f"waiting for another build in crates/{it}", file=sys.stderr, flush=True)
                fcntl.flock(file, fcntl.LOCK_EX)
        yield


def longest_first(crates, uses):
    """Returns these crates, given lowest first, by the bytes of source on the longest chain of crates from one upward."""
    chains = {}
    for it in reversed(crates):
        own = sum(os.path.getsize(os.path.join(at, file)) for at, _, files in os.walk(f"{folder(it)}/src") for file in files)
        chains[it] = own + max((chains[above] for above in chains if it in uses[above]), default=0)
    return sorted(crates, key=lambda it: -chains[it])


def most_jobs():
    """Returns how many jobs may run at a time, as far as there is free memory for them: one for each core, and one more. A crate
    keeps the jobs that it began with, so without that one a core waits while the crates that remain have a job each."""
    free = int(re.search(r"MemAvailable: *(\d+) kB", pathlib.Path("/proc/meminfo").read_text(encoding="ascii")).group(1))
    cores = len(os.sched_getaffinity(0))
    return max(1, min(cores + 1 if cores > 1 else 1, free // MEMORY))


class Call(NamedTuple):
    """A call of the kit's compiler: its process, its jobs, and the file with its output."""
    run: subprocess.Popen
    jobs: int
    output: IO[str]


def next_crates(left, running, uses, most):
    """Returns the first crates left that wait for none left or running, as far as jobs are free. Each has its share of these,
    up to two. If they do not divide, the first crates get one more."""
    free = max(0, most - sum(it.jobs for it in running.values()))
    ready = [it for it in left if not {*below(it, uses)} & {*left, *running}][:free]
    return [(it, min(MOST_JOBS, free // len(ready) + (place < free % len(ready)))) for place, it in enumerate(ready)]


def call(name, uses, jobs, words, group):
    """Calls the kit's compiler for a crate, in this group of processes. The last word is the path to make."""
    for it in (os.path.dirname(words[-1]), os.path.join(folder(name), KEPT)):
        os.makedirs(it, exist_ok=True)
    output = tempfile.TemporaryFile("w+", encoding="utf-8", errors="replace")
    words = compile_words(name, uses, jobs, "--incremental", KEPT, *words)
    return Call(subprocess.Popen(words, cwd=folder(name), stdin=subprocess.DEVNULL, stdout=output, stderr=subprocess.STDOUT,
                                 preexec_fn=lambda: os.setpgid(0, group)), jobs, output)


def ended(running):
    """Waits for the first of these calls that ends, and takes it out. Returns its crate, its status and what it printed."""
    pid = os.waitid(os.P_ALL, 0, os.WEXITED | os.WNOWAIT).si_pid
    name = next(it for it in running if running[it].run.pid == pid)
    run, _, output = running.pop(name)
    with output:
        output.seek(0)
        return name, run.wait(), output.read()


def prove(words, uses, begun, count):
    """Proves and builds crates, given lowest first with the words that end their calls. Each begins when all below it are
    built: a line says so, and counts on from this many begun. Yields each with what the compiler printed of it. Ends the
    script if one is not proved. The calls end when the script does, however it ends."""
    left, running, most = longest_first([*words], uses), {}, most_jobs()
    with subprocess.Popen(["sh", "-c", "read _; kill -9 0"], stdin=subprocess.PIPE, preexec_fn=os.setpgrp) as guard:
        while left or running:
            for name, jobs in next_crates(left, running, uses, most):
                left.remove(name)
                begun += 1
                print(f"proving {name} ({begun} of {count})", file=sys.stderr, flush=True)
                running[name] = call(name, uses, jobs, words[name], guard.pid)
            name, status, printed = ended(running)
            if status == -signal.SIGKILL and most > 1:
                print(f"{name} was killed, most likely for memory: now one job at a time", file=sys.stderr, flush=True)
                left, begun, most = [name, *left], begun - 1, 1
            elif status:
                sys.exit(f"{printed}{name} NOT PROVED")
            else:
                yield name, printed


def mark(name, by="built"):
    """Returns the path of the file that says that this script built the library of the crate: for `rt` that is its stamp. Each
    build by `rt` takes both away."""
    return pathlib.Path(rlib(name)).with_name(by)


def has_statements(name):
    """Returns whether `rt ci` or `rt verdict` built the library of the crate. It holds the statements of its proofs, has no
    mark, and fits only such libraries below it."""
    return "\ncarries " in pathlib.Path(rlib(name), "format").read_text(encoding="utf-8")


def stale_libraries(crates, uses):
    """Returns those of these crates, lowest first, whose library is missing or stale, or does not fit those below it. One has
    no mark if a source changed while `rt` built it."""
    found = []
    for it in crates:
        under = below(it, uses)
        if {*under} & {*found} or is_stale(rlib(it), it, uses) or not (
                mark(it).exists() or mark(it, "stamp").exists() or all(map(has_statements, [*under, it]))):
            found.append(it)
    return found


def build_below(names, uses, now):
    """Proves and builds the libraries below these crates that are missing or stale, and gives them this time: a source that
    changed meanwhile is newer. Ends the script if one is not proved."""
    crates = with_below(names, uses)
    lower = [it for it in crates if any(it in below(name, uses) for name in names)]
    stale = stale_libraries(lower, uses)
    for it in stale:
        mark(it).unlink(missing_ok=True)
        mark(it, "stamp").unlink(missing_ok=True)
    for it, _ in prove({it: ["-o", rlib(it)] for it in stale}, uses, len(lower) - len(stale), len(crates)):
        os.utime(rlib(it), ns=(now, now))
        mark(it).touch()
