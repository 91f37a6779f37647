"""The runs that failed once on an input by chance, and what `check_run` does with a new one."""
import os
import unittest
from unittest import mock

from tests import support
from tests.support import ProgramCase, kept_runs, ran, temporary_folder

WORDS, GIVEN = ["decode", "--pi", "C201"], b"C201 2140 4849 0D20\n\xFF"
WANTED = (1, b'0 text "HI"\nfault line 2\n')


class Failing(ProgramCase):
    """Cases that test_kept runs by hand."""

    def fails(self):
        self.check_run("a wrong value", WORDS, GIVEN, (0, b"\xFE"))

    def passes(self):
        self.check_run("the right value", WORDS, GIVEN, WANTED)


class Kept(ProgramCase):
    def test_each_kept_run_ends_as_wanted(self):
        for name, words, given, wanted in kept_runs():
            self.check(name, ran(words, given), wanted, given)

    def test_a_run_that_fails_is_kept(self):
        folder = temporary_folder(self)
        with mock.patch.object(support, "INPUTS", folder):
            for name, count in (("passes", 0), ("fails", 1), ("fails", 1)):
                result = unittest.TestResult()
                Failing(name).run(result)
                self.check(f"failures if it {name}", len(result.failures), count)
                self.check(f"files if it {name}", len(os.listdir(folder)), count)
            self.check("the run", [it[1:] for it in kept_runs()], [(WORDS, GIVEN, (0, b"\xFE"))])


if __name__ == "__main__":
    unittest.main()
