"""What a failed check shows: its line, the lines that differ, and the input; how one case is tried alone; and which
classes run at a time."""
import os
import re
import unittest
from unittest import mock

from tests import __main__ as runner
from tests import support
from tests.support import Case, temporary_folder

LONG = b"".join(b"line %d\n" % it for it in range(1000))


class Failing(Case):
    """Checks that fail. The loader of tests does not take it, since its method has another name."""

    def compare(self, got, wanted, given=None):
        self.check("a name", got, wanted, given)

    def fails(self):
        self.compare(*self.values)

    def fails_by_chance(self):
        for number, case in self.cases("abc"):
            self.check(f"case {number}", case, "b")
        self.check_all("all cases", self.values, None)


def failures(method, values=None, only=None):
    """Runs a method of the failing test. Returns the text of each failure."""
    test, result = Failing(method), unittest.TestResult()
    test.values = values
    with mock.patch.object(support, "ONLY", only):
        test.run(result)
    return [text.split("AssertionError: ")[1].rstrip("\n") for _, text in result.failures]


class Checks(Case):
    def shown(self, *values):
        """Returns the lines of the failure for these values, after the first one, which has the place."""
        place, *lines = failures("fails", values)[0].split("\n")
        self.check("the line of the check, and of its caller", bool(re.fullmatch(
            r"tests/test_checks\.py:\d+ \(from tests/test_checks\.py:\d+, .*\)", place)), True, place)
        return lines

    def test_equal_values_pass(self):
        self.check("no failure", failures("fails", [b"a", b"a"]), [])

    def test_the_lines_that_differ_are_shown(self):
        self.check("a text", self.shown("a\nb\nc\n", "a\nx\nc\n")[1:], [" a", "-x", "+b", " c", " "])
        self.check("bytes", self.shown(b"a\nb\x07\n", b"a\n\xffc\n")[1:], [" a", "-\\xffc", "+b\\x07", " "])
        self.check("one line", self.shown(b"a", b"b"), ["got      'a'", "expected 'b'"])
        self.check("other types", self.shown(b"a", "a"), ["got b'a', expected 'a'"])
        lines = self.shown((0, LONG), (0, LONG.replace(b"line 500\n", b"")))
        self.check("a long output", (len(lines) < 12, "+ 'line 500\\n'" in lines), (True, True))

    def test_the_input_is_shown_or_kept(self):
        self.check("a short one", self.shown(1, 2, b"C201\n---- \n")[2:], ["the input:", "C201", "---- "])
        folder = temporary_folder(self)
        with mock.patch.object(support, "KEPT", folder):
            lines = self.shown(1, 2, LONG)[2:]
        kept = os.path.join(folder, *os.listdir(folder))
        self.check("a long one", (lines[0].endswith(f"{os.path.basename(kept)}. It begins:"), lines[1:4]),
                   (True, ["line 0", "line 1", "line 2"]))
        with open(kept, "rb") as file:
            self.check("its file", file.read(), LONG)

    def test_a_case_by_chance_can_be_tried_alone(self):
        texts = failures("fails_by_chance", "the values")
        alone = "this case alone: RDSRT_CASE=2 python3 -m unittest tests.test_checks.Failing.fails_by_chance"
        self.check("three failures", (len(texts), texts[1].endswith(alone), "RDSRT" in texts[2]), (3, True, False))
        self.check("the last case alone", len(failures("fails_by_chance", "the values", "2")), 1)
        self.check("a case that passes", failures("fails_by_chance", "the values", "1"), [])

    def test_classes_that_may_not_run_together_have_turns(self):
        many, pair, lone = (type("Some", (), {"most": most})() for most in (None, 2, 1))
        classes = [[pair], [many], [lone], [many, many]]
        for cores, counts in ((4, (4, 2, 1)), (2, (2, 2, 1)), (1, (1, 1, 1))):
            wanted = [*zip(counts, ([[many], [many, many]], [[pair]], [[lone]]))]
            self.check(f"on {cores} cores", runner.turns(classes, cores), wanted)
