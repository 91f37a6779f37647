"""Reads and writes that fail in the middle of a stream, and how many reads and writes there are."""
import itertools

from tests import preload
from tests.calls import AUDIT, DECODE, ENCODE, ENGINES, LOSE, SIM, WITNESS
from tests.support import ProgramCase, ran, temporary_folder
from tests.worked_rows import CHANGED, ENCODED_SCRIPT, HI, MIXED_LOG, TAGGED_LOG, TAGS_ON_AIR

# how fail_calls.c lets a write take no byte: it fails, or it answers 0
FAILED_WRITES = ("WRITE_FAILS", "WRITE_TAKES_0")
PI = ["--pi", "C20"]


class FailingCalls(ProgramCase):
    @classmethod
    def setUpClass(cls):
        cls.library = preload.made("fail_calls.c", temporary_folder(cls))

    def failing(self, words, given, **names):
        return preload.failing(self.library, words, given, **names)

    def test_each_read_fails_in_turn(self):
        """The output is that of the rows that were read whole, and the fault. No call reads after it."""
        for words, given, mark in ENGINES:
            for number in range(1, len(given) + 9):
                whole, _, _ = given[:number - 1].rpartition(b"\n")
                wanted = b"" if words in (AUDIT, LOSE, WITNESS) or not whole else ran(words, whole + b"\n")[1]
                # the yes of a list of faults is at its end
                wanted = b"" if wanted.startswith(b"yes") else wanted
                got, calls = self.failing(words, given, READ_MOST=1, READ_FAILS=number)
                if "R" not in calls:
                    self.check(f"reads of a byte by {words[0]}", got, ran(words, given))
                    break
                self.check(f"{words[0]}, read {number} fails", got, (1, wanted + mark + b"fault read\n"))
                self.check(f"{words[0]}, read {number} fails: the last read", calls.rstrip("w")[-1], "R")
            self.check(f"{words[0]}: some read failed, and then none", (number > 3, "R" in calls), (True, False))

    def test_each_write_fails_in_turn(self):
        """The output is the bytes before the write that failed or answered 0, and no call comes after it."""
        for words, given, mark in ENGINES:
            for most, end, how in itertools.product((7, 0), (b"", b"x\n"), FAILED_WRITES):
                _, wanted = ran(words, given + end)
                for number in range(1, len(wanted) + 3):
                    got, calls = self.failing(words, given + end, READ_MOST=most, WRITE_MOST=1, **{how: number})
                    if "W" not in calls:
                        self.check(f"writes of a byte by {words[0]}", got, ran(words, given + end))
                        break
                    self.check(f"{words[0]}, {how} {number}", got, (1, wanted[:number - 1]))
                    self.check(f"{words[0]}, {how} {number}: the last call", calls[-1], "W")
                self.check(f"{words[0]}, {how}: some write did, and then none", (number > 1, "W" in calls),
                           (True, False))

    def test_a_failed_write_changes_no_status_that_the_arguments_decide(self):
        for words, status in ((["--help"], 0), (["-h"], 0), (["help"], 0), (["help", "decode"], 0),
                              (["help", "nonsense"], 2),
                              ([], 2), (["sing"], 2), ([*DECODE, "--m", "0"], 2), (["decode", *PI], 2),
                              (["encode", *PI], 2)):
            for number, how in itertools.product((1, 2), FAILED_WRITES):
                (got, _), calls = self.failing(words, HI, WRITE_MOST=5, **{how: number})
                self.check(f"{words}, {how} {number}", (got, calls), (status, "w" * (number - 1) + "W"))

    def test_one_write_answers_all_rows_of_a_read(self):
        row = {"encode": b"text,HI,1,\n", "sim": b"text,HI,1,GGGGGGGG\n"}
        for words in (ENCODE, SIM):
            name, given = words[0], row[words[0]] * 100_000
            got, calls = self.failing(words, given)
            self.check(f"{name} of a long script", got, ran(words, given))
            counts = (calls.count("w") <= calls.count("r"), "ww" in calls)
            self.check(f"{name} of a long script: at most a write for a read", counts, (True, False))
            _, calls = self.failing(words, row[name] * 10, READ_MOST=1)
            self.check(f"{name} of a byte a read", calls.rstrip("r"), ("r" * len(row[name]) + "w") * 10)

    def test_the_output_does_not_depend_on_the_reads(self):
        """Nothing is read after a bad line, or after the no of an audit."""
        for most in (1, 2, 3, 7):
            got, _ = self.failing(DECODE, MIXED_LOG, READ_MOST=most)
            self.check(f"mixed log, {most} bytes a read", got, (1, b'2 text "HI"\nfault line 10\n'))
        got, calls = self.failing(DECODE, b"x\n" + HI, READ_MOST=1)
        self.check("no read after a bad line", (got, calls), ((1, b"fault line 1\n"), "rrw"))
        for most, last in ((1, 40), (2, 20), (3, 14), (7, 6), (20, 2), (40, 1)):
            got, calls = self.failing([*AUDIT, "--m", "4"], CHANGED + TAGGED_LOG, READ_MOST=most)
            self.check(f"no read after the no, {most} bytes a read", (got, calls),
                       ((1, b"no 1 Changed\n"), "r" * last + "w"))

    def test_the_lines_of_a_row_go_out_in_one_write_before_the_next_read(self):
        for words, script, wanted in (([*SIM, "--m", "4"], TAGS_ON_AIR, [63, 90, 99, 117, 126, 135, 144]),
                                      ([*ENCODE, "--m", "1"], ENCODED_SCRIPT, [11, 22])):
            _, calls = self.failing(words, script, READ_MOST=1)
            written = [calls[:at].count("r") for at, call in enumerate(calls) if call == "w"]
            self.check(f"reads before each write of {words[0]}", written, wanted)
