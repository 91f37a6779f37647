"""Statuses with the last lines of the output, in calls that no worked row makes."""
from tests.calls import ALL_OPTIONS, AUDIT, DECODE, ENCODE, SHOWS_HI, SIM
from tests.support import ProgramCase, ran
from tests.worked_rows import CHANGED, HI, NO_GROUP

LATE_TEXT = b"2 text ok\n2 sent C201 2140 4849 0D20\n"
ARGUMENTS = [
    ("another programme", ["decode", "--pi", "F000"], b"F000" + HI[4:] + HI, 0, SHOWS_HI),
    ("programme with a space before it", ["decode", "--pi", " C201"], HI, 2, b"fault pi\n"),
    ("programme with a space after it", ["encode", "--pi", "C201 "], HI, 2, b"# fault pi\n"),
    ("programme of spaces", ["audit", "--pi", "    "], HI, 2, b"fault pi\n"),
    ("eleven words", [*ALL_OPTIONS, "--"], b"-,,1,\n" * 3 + b"text,HI,1,\n", 0,
     b"3 text ok\n3 sent C201 2700 4849 0D20\n"),
    ("word that is not UTF-8", ["decode", "--pi", b"C201\xff"], HI, 2, b""),
    ("subcommand that is not UTF-8", [b"sim\xff", "--pi", "C201"], HI, 2, b""),
    ("letters of options", [*SIM, "-m", "1", "-k1"], b"-,,1,\n" * 2 + b"text,HI,1,\n", 0, LATE_TEXT),
    ("window that is too long for the lateness", [*SIM, "--k", "1023", "--confirm", "3"], b"", 2, b"fault confirm\n"),
    ("slots to lose that go back", ["witness", "--pi", "C201", "--lose", "3,2"], b"", 2, b"fault lose\n"),
    ("longest window for the lateness", [*SIM, "--k", "1023", "--confirm", "2"], b"", 0, b""),
    ("quiet", [*DECODE, "--quiet", "-m=1"], HI + NO_GROUP, 0, SHOWS_HI + b"1 text none\n"),
    ("quiet at a fault", [*DECODE, "--quiet"], HI + b"x\n", 1, SHOWS_HI + b"fault line 2\n"),
]
SCRIPTS = [
    ("late group", [*SIM, "--m", "1", "--k", "1"], b"-,,1,\n" * 2 + b"text,HI,1,\n", 0, LATE_TEXT),
    ("group that comes too late", SIM, b"-,,1,G\n-,,1,G1\n", 1, b"fault row 2\n"),
    ("bad row", SIM, b"text,HI,1,G\nx\n", 1, b"0 text silent 128\nfault row 2\n"),
    ("text at the default dwell", [*ENCODE, "--k", "0"], b"-,,1,\n" * 128 + b"text,HI,1,\n", 0,
     NO_GROUP * 128 + b"# 128 text ok\nC201 2140 4849 0D20\n"),
]
LOGS = [
    ("bad line", DECODE, HI + b"x\n", 1, SHOWS_HI + b"fault line 2\n"),
    ("audited log", AUDIT, HI, 0, b"yes 1\n"),
    ("audited log that does not pass", AUDIT, CHANGED, 1, b"no 1 Changed\n"),
    ("listed log", [*AUDIT, "--all"], HI, 0, b"yes 1\n"),
    ("listed log that does not pass", [*AUDIT, "--all"], CHANGED, 1, b"no 1 Changed\n"),
    ("bad line behind a listed fault", [*AUDIT, "--all"], CHANGED + b"x\n", 1, b"no 1 Changed\nfault line 3\n"),
    ("bad line of an audited log", AUDIT, HI + b"x\n" + CHANGED, 1, b"fault line 2\n"),
]


class Status(ProgramCase):
    def compare(self, rows):
        for name, words, given, status, shown in rows:
            self.check(name, ran(words, given), (status, shown))

    def test_arguments(self):
        self.compare(ARGUMENTS)

    def test_scripts(self):
        self.compare(SCRIPTS)

    def test_logs(self):
        self.compare(LOGS)
