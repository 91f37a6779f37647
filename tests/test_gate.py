"""./test beside what it proves: the packages that it installs, the lines that say how far it is, and its last lines."""
import contextlib
import io
import os
import sys
from unittest import mock

from tests import __main__ as runner
from tests import needed
from tests.support import Case, script, temporary_folder, text_of

# what `rt ci` prints of a crate that is proved, of one that is not, and of one whose files were proved before
CI = """rt: waiting for another rt ci in this copy of the repository to end
== rds_low
rt: chose --jobs 4 for rds_low
fn rds_low::f: proved
logic=proved functions=1
rt: rds_low proved
== rds_low: its tests
fn rds_low::tests::t: proved
rt: rds_low: its tests are proved
rt: rds_mid is kept: an earlier run on this machine proved the same files over the same libraries
== rds_top
fn rds_top::f: proved
fn rds_top::g: not proved
src/g.rt:7:1: error: no proof of `returns`
rt: rds_top NOT PROVED
rt: must-fail rds_low/wrong.edit: refused, as it must be: src/f.rt:1:1: error
rt: FAILED: rds_top
2 passed, 1 failed
"""
EDITS = """crates/rds_low/edits/wrong.edit: refused: rds_low::f: not proved
crates/rds_low/edits/same.edit: NOT REFUSED: all that it changes is proved
== rds_low: 2 edits (1 of 3)
"""
SHOWN = """rt: waiting for another rt ci in this copy of the repository to end
== rds_low (1 of 3), 0 min
== rds_mid (2 of 3), 0 min
== rds_top
fn rds_top::g: not proved
src/g.rt:7:1: error: no proof of `returns`
rt: rds_top NOT PROVED
rt: FAILED: rds_top
2 passed, 1 failed
crates/rds_low/edits/same.edit: NOT REFUSED: all that it changes is proved
== rds_low: 2 edits (1 of 3), 0 min
"""


def printed(call, *given):
    """Returns what a call prints."""
    with contextlib.redirect_stdout(io.StringIO()) as out:
        call(*given)
    return out.getvalue()


class Progress(Case):
    def test_crates_are_counted_and_only_faults_are_shown(self):
        out = io.StringIO()
        progress = script("tools/progress").Progress(3, out)
        for line in (CI + EDITS).splitlines():
            progress.take(line)
        self.check("lines", out.getvalue(), SHOWN)

    def test_the_minutes_are_those_since_the_start(self):
        tool, out = script("tools/progress"), io.StringIO()
        with mock.patch.object(tool.time, "monotonic", side_effect=[100, 100 + 4.2 * 60]):
            tool.Progress(3, out).take("== test_slots.Live (57 of 171)")
        self.check("minutes", out.getvalue(), "== test_slots.Live (57 of 171), 4 min\n")


class Needed(Case):
    def setUp(self):
        """A folder of programs with an apt-get that notes how it is called and installs nothing."""
        self.programs = temporary_folder(self)
        self.calls = os.path.join(self.programs, "calls")
        with open(os.path.join(self.programs, "apt-get"), "w", encoding="utf-8") as file:
            file.write(f'#!/bin/sh\necho "$DEBIAN_FRONTEND $*" >> {self.calls}\n')
        os.chmod(file.name, 0o755)

    def ran(self, *words, user=0, lacking=("fish", "zsh")):
        """Returns what tests.needed prints for this user where these packages are missing, and the calls of apt-get."""
        with (mock.patch.object(needed, "missing", lambda *names: next((it for it in names if it in lacking), None)),
              mock.patch.object(os, "geteuid", lambda: user), mock.patch.object(sys, "argv", ["needed", *words]),
              mock.patch.dict(os.environ, PATH=self.programs + os.pathsep + os.environ["PATH"])):
            said = printed(needed.main)
        calls = text_of(self.calls).splitlines() if os.path.exists(self.calls) else []
        return said, calls

    def test_root_installs_what_is_missing_and_says_so_first(self):
        said, calls = self.ran()
        self.check("what is said", said, "installing 2 packages for the tests (./test --as-it-is installs none): fish zsh\n")
        self.check("apt-get", calls, ["noninteractive -qq update",
                                      "noninteractive install -y --no-install-recommends -qq fish zsh"])

    def test_nothing_is_done_if_nothing_is_missing(self):
        for words in ((), ("--as-it-is",)):
            self.check(f"{words}", self.ran(*words, lacking=()), ("", []))

    def test_a_failure_of_apt_get_ends_nothing(self):
        with open(os.path.join(self.programs, "apt-get"), "a", encoding="utf-8") as file:
            file.write("exit 100\n")
        said, calls = self.ran()
        self.check("what is said", said.splitlines()[1:],
                   ["apt-get -qq failed with status 100: the tests go on without these packages"])
        self.check("apt-get", len(calls), 1)

    def test_others_are_told_what_to_type(self):
        for words, user in ((("--as-it-is",), 0), ((), 1000)):
            said, calls = self.ran(*words, user=user)
            first, line = said.splitlines()
            self.check("the line", line, "    apt-get install -y --no-install-recommends fish zsh")
            # those of test_completions that want a shell
            self.check("how many are skipped", first, "4 tests are skipped without these packages. To install them:")
            self.check("apt-get", calls, [])

    def test_a_message_names_the_package_of_the_list(self):
        rows = [("fish", "no fish here (apt-get install fish)"), ("python3-numpy", "no numpy here (apt-get install python3-numpy)"),
                ("chromium", "no chromium here (apt-get install chromium)")]
        with mock.patch.object(needed, "is_there", lambda thing: False):
            for package, why in rows:
                self.check(package, needed.missing(package), why)
            self.check("several", needed.missing("fish", "zsh"), "no fish here (apt-get install fish zsh)")
        with mock.patch.object(needed, "is_there", lambda thing: True):
            self.check("none", needed.missing("fish", "zsh"), None)

    def test_each_package_but_those_of_releases_is_wanted(self):
        wanted = set().union(*map(needed.wanted_by, runner.tests_of([])))
        self.check("packages that no test wants", {*needed.packages()} - wanted, {"lintian", "mmdebstrap"})


class LastLines(Case):
    def test_failures_are_told_again_and_skips_are_explained(self):
        found = [("passed", "tests.test_a.A.test_b", ""), ("failed", "tests.test_a.A.test_c", "got 1\nline 2\nline 3\nline 4"),
                 ("skipped", "tests.test_a.A.test_d", "no fish here (apt-get install fish)"),
                 ("skipped", "tests.test_a.A.test_e", "no zsh here (apt-get install zsh fish)"),
                 ("skipped", "tests.test_a.A.test_f", "8 cores are needed")]
        self.check("lines", [*runner.last_lines(found)], [
            "FAILED: test_a.A.test_c: got 1\nline 2\nline 3",
            "skipped: 2 want packages (type: apt-get install -y --no-install-recommends fish zsh); 1 for this: 8 cores are needed",
            "1 passed, 1 failed, 3 skipped"])
        self.check("all pass", [*runner.last_lines(found[:1])], ["1 passed, 0 failed, 0 skipped"])
