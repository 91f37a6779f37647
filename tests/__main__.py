"""Runs the tests side by side. The last line is `N passed, M failed, K skipped`: methods of tests, not their checks. The line
before it says why K were skipped, and what to type.

usage: python3 -m tests [--target aarch64 | --unproved] [NAME..]

A NAME is a module, a class or a method: test_slots, test_slots.Live, test_slots.Live.test_full_output_is_noted. Each
class runs in a process of its own, and a line says how many of them are done. If that process ends in the middle of a
test, this test has failed, and the next process runs the others.

The tests stop if a source is newer than the program. With --unproved they take an unproved build of the sources then,
which takes 40 seconds to 2 minutes.

--target runs the tests of the program alone, with the program for 64-bit Arm under an emulator. All of them take about
half an hour on 4 cores.
"""
import argparse
import collections
import itertools
import json
import math
import os
import signal
import subprocess
import sys
import tempfile
import threading
import unittest
from concurrent.futures import ThreadPoolExecutor

from tests import needed

ROOT = os.path.dirname(os.path.dirname(os.path.abspath(__file__)))
# seconds that one class may take
LIMIT = 7200
# the modules that take longest begin first
LONGEST = ("test_page_build", "test_arm", "test_microcontrollers", "test_witness", "test_c_library", "test_fm",
           "test_random_scripts", "test_radios", "test_failing_calls", "test_audit", "test_python_package", "test_json",
           "test_worlds", "test_clocks", "test_monitor", "test_station", "test_page_log", "test_page_links", "test_page_files",
           "test_page_faults", "test_page_access", "test_page_colours")
# lines of a failed test that stand at the end again
MOST_AGAIN = 3
running, printing = set(), threading.Lock()


def asked():
    """Returns the arguments. Which program it is goes to the environment, which tests.support reads."""
    words = argparse.ArgumentParser(prog="python3 -m tests", allow_abbrev=False)
    which = words.add_mutually_exclusive_group()
    which.add_argument("--target", choices=["aarch64"])
    which.add_argument("--unproved", action="store_true")
    words.add_argument("names", nargs="*", metavar="NAME")
    found = words.parse_args()
    if found.target:
        os.environ["RDSRT_TARGET"] = found.target
        # test_arm runs them for the target beside those of this machine's program
        os.environ.pop("RDSRT_TESTED", None)
    if found.unproved:
        os.environ["RDSRT_UNPROVED"] = "1"
    return found


def flat(suite):
    """Gives the tests of a suite."""
    for it in suite:
        yield from flat(it) if isinstance(it, unittest.TestSuite) else [it]


def tests_of(names):
    """Returns the tests of these names, or all tests."""
    loader = unittest.defaultTestLoader
    if names:
        return list(flat(loader.loadTestsFromNames([f"tests.{it.removeprefix('tests.')}" for it in names])))
    return list(flat(loader.discover(os.path.join(ROOT, "tests"), top_level_dir=ROOT)))


def classes_of(tests):
    """Returns the tests by class, those first that take longest."""
    found = {}
    for test in tests:
        found.setdefault(type(test), []).append(test)
    order = {f"tests.{name}": place for place, name in enumerate(LONGEST)}
    return sorted(found.values(), key=lambda its: order.get(type(its[0]).__module__, len(order)))


def worker(names, folder):
    """Runs these tests in a process. Returns its lines, its output, and why it did not end well."""
    with (tempfile.TemporaryFile(dir=folder) as printed,
          tempfile.NamedTemporaryFile("r", dir=folder, encoding="utf-8") as lines):
        words = [sys.executable, "-B", "-m", "tests.worker", lines.name, *names]
        process = subprocess.Popen(words, cwd=ROOT, stdin=subprocess.DEVNULL, stdout=printed, stderr=subprocess.STDOUT,
                                   start_new_session=True)
        running.add(process)
        try:
            status = process.wait(LIMIT)
            why = None if status == 0 else f"its process ended with status {status}"
        except subprocess.TimeoutExpired:
            os.killpg(process.pid, signal.SIGKILL)
            process.wait()
            why = f"its class took more than {LIMIT} s"
        running.discard(process)
        printed.seek(0)
        whole = [json.loads(it) for it in lines if it.endswith("\n")]
        return whole, printed.read().decode(errors="replace"), why


def outcomes_of(names, folder):
    """Runs these tests of one class. Returns outcome, name and text of each, and the output."""
    found, printed, left = [], "", list(names)
    while left:
        lines, more, why = worker(left, folder)
        ended = [it for it in lines if it[0] != "started"]
        found, printed = found + ended, printed + more
        known = {name for _, name, _ in ended}
        begun = [it[1] for it in lines if it[0] == "started" and it[1] not in known]
        left = [it for it in left if it not in known]
        if left:
            # without a test that began, the class could not be set up
            lost = begun or left
            found += [("failed", name, f"{why or 'the test wrote no outcome'}\n{more[-2000:]}") for name in lost]
            left = [it for it in left if it not in lost]
        elif why:
            found.append(("failed", names[0].rpartition(".")[0], f"after its tests {why}"))
    return found, printed


def reports(found):
    """Gives the lines on outcomes of one class. Tests that were skipped for the same reason share a line."""
    skipped = {}
    for outcome, name, text in found:
        name = name.removeprefix("tests.")
        if outcome == "failed":
            yield f"FAILED: {name}: {text}"
        elif outcome == "skipped":
            skipped.setdefault(text, []).append(name)
    for text, names in skipped.items():
        name = names[0] if len(names) == 1 else f"{names[0].rpartition('.')[0]}, {len(names)} tests"
        yield f"skipped: {name}: {text}"


def run_class(tests, folder, steps):
    """Runs the tests of one class and prints their reports, below a line with its number. Returns what came of each."""
    found, printed = outcomes_of([it.id() for it in tests], folder)
    with printing:
        print(f"== {tests[0].id().removeprefix('tests.').rpartition('.')[0]} ({next(steps)})")
        print(printed, end="")
        for line in reports(found):
            print(line)
        sys.stdout.flush()
    return found


def run_classes(classes, count, folder, steps):
    """Runs so many classes at a time. Returns what came of their tests. An interrupt ends the processes of all."""
    pool = ThreadPoolExecutor(count)
    try:
        return [it for found in pool.map(lambda its: run_class(its, folder, steps), classes) for it in found]
    finally:
        pool.shutdown(wait=False, cancel_futures=True)
        for process in list(running):
            os.killpg(process.pid, signal.SIGKILL)


def turns(classes, cores):
    """Returns the classes that run in each turn, with how many of them run at a time: first those that may run beside any
    others, which build what the later ones test, and last those that run alone."""
    found = {}
    for its in classes:
        found.setdefault(getattr(its[0], "most", None) or math.inf, []).append(its)
    return [(min(most, cores), its) for most, its in sorted(found.items(), reverse=True)]


def why_skipped(reasons):
    """Returns why so many tests were skipped, and what to type for those that want packages. None if none was."""
    packages = [found[1].split() for found in map(needed.WANTS.search, reasons) if found]
    words = []
    if packages:
        names = sorted({it for its in packages for it in its})
        words.append(f"{len(packages)} want packages (type: {needed.INSTALL} {' '.join(names)})")
    others = collections.Counter(it for it in reasons if not needed.WANTS.search(it))
    words += [f"{count} for this: {reason}" for reason, count in others.items()]
    return f"skipped: {'; '.join(words)}" if words else None


def last_lines(found):
    """Gives the last lines: the first lines of each failed test again, why tests were skipped, and the counts."""
    for outcome, name, text in found:
        if outcome == "failed":
            yield "\n".join(f"FAILED: {name.removeprefix('tests.')}: {text}".split("\n")[:MOST_AGAIN])
    why = why_skipped([text for outcome, _, text in found if outcome == "skipped"])
    if why:
        yield why
    yield ", ".join(f"{sum(it[0] == outcome for it in found)} {outcome}" for outcome in ("passed", "failed", "skipped"))


def run_all(tests):
    """Runs the tests, and prints the last lines. Returns whether none failed."""
    broken = [it for it in tests if isinstance(it, unittest.loader._FailedTest)]
    classes = classes_of(it for it in tests if it not in broken)
    steps = (f"{number} of {len(classes)}" for number in itertools.count(1))
    found = [("failed", it.id(), str(it._exception)) for it in broken]
    for _, _, text in found:
        print(f"FAILED: {text}")
    with tempfile.TemporaryDirectory() as folder:
        for count, its in turns(classes, os.cpu_count()):
            found += run_classes(its, count, folder, steps)
    for line in last_lines(found):
        print(line)
    return all(outcome != "failed" for outcome, _, _ in found)


def no_tests(why):
    """Prints why no test can run. Returns the status."""
    print(f"FAILED: {why}\n0 passed, 1 failed, 0 skipped")
    return 1


def main():
    words = asked()
    # the processes of the tests end with this one
    signal.signal(signal.SIGTERM, lambda *_: sys.exit(1))
    try:
        from tests import support
        support.found_program()
    except SystemExit as why:
        return no_tests(why)
    tests = tests_of(words.names)
    if words.target:
        tests = [it for it in tests if isinstance(it, (support.ProgramCase, unittest.loader._FailedTest))]
    return 0 if run_all(tests) else 1


if __name__ == "__main__":
    sys.exit(main())
