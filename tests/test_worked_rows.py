"""The worked rows: for each, the status and the output of the program."""
import shlex

from tests.support import ProgramCase, ran
from tests.worked_rows import rows


class WorkedRows(ProgramCase):
    def test_each_row_has_its_status_and_output(self):
        for name, words, status, given, shown in rows():
            self.check(f"{name}, {words}, {given[:80]!r}", ran(shlex.split(words), given), (status, shown))
