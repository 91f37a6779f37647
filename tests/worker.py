"""Runs the tests of one class, and writes a line of JSON for each to a file: `python3 -m tests.worker FILE TEST..`.

A line `["started", TEST]` comes before a test. `["passed", TEST, ""]`, `["failed", TEST, REPORT]` or `["skipped", TEST,
WHY]` comes after it. So a process that ends in the middle of a test leaves the name of that test.
"""
import json
import sys
import traceback
import unittest

from tests.support import line_of_the_check

# the reports of one test that are kept
MOST_REPORTS = 10


class Outcomes(unittest.TestResult):
    """Writes the lines. Keeps the outcome of the set-up of the class, for the tests that it prevents."""

    def __init__(self, file):
        super().__init__()
        self.file, self.known = file, set()
        self.reports, self.why, self.set_up = [], None, ("failed", "the test did not run")

    def write(self, *line):
        self.file.write(json.dumps(line) + "\n")
        self.file.flush()

    def conclude(self, name, outcome, text):
        self.known.add(name)
        self.write(outcome, name, text)

    def startTest(self, test):
        super().startTest(test)
        self.reports, self.why = [], None
        self.write("started", test.id())

    def stopTest(self, test):
        super().stopTest(test)
        reports = self.reports[:MOST_REPORTS]
        if len(self.reports) > MOST_REPORTS:
            reports.append(f"and {len(self.reports) - MOST_REPORTS} more")
        outcome = "failed" if reports else "passed" if self.why is None else "skipped"
        self.conclude(test.id(), outcome, "\n".join(reports) or self.why or "")
        self.reports = []

    def report(self, test, error):
        kind, value, trace = error
        if issubclass(kind, AssertionError):
            # a check names its line itself
            text = "\n".join(it for it in (line_of_the_check(traceback.extract_tb(trace)), str(value)) if it)
        else:
            text = self._exc_info_to_string(error, test)
        if isinstance(test, unittest.suite._ErrorHolder):
            self.set_up = "failed", f"{test.id()}: {text}"
            if test.id().startswith("tearDown"):
                self.conclude(test.id(), "failed", text)
        else:
            detail = test._subDescription() + ": " if hasattr(test, "_subDescription") else ""
            self.reports.append(detail + text)

    def addError(self, test, err):
        self.report(test, err)

    addFailure = addError

    def addSubTest(self, test, subtest, err):
        if err is not None:
            self.report(subtest, err)

    def addSkip(self, test, reason):
        if isinstance(test, unittest.suite._ErrorHolder):
            self.set_up = "skipped", reason
        else:
            self.why = reason


def run(suite, names, file):
    """Runs the suite of these tests, and writes their lines."""
    outcomes = Outcomes(file)
    suite.run(outcomes)
    for name in names:
        if name not in outcomes.known:
            outcomes.conclude(name, *outcomes.set_up)


if __name__ == "__main__":
    with open(sys.argv[1], "a", encoding="utf-8") as lines:
        run(unittest.defaultTestLoader.loadTestsFromNames(sys.argv[2:]), sys.argv[2:], lines)
