"""Tests of logs and of groups with times."""
import io
import math
import random
import unittest

from rdsrt import (MalformedLine, Receiver, format_group, read_log, read_timed, slot_time, slots,
                   timed_slots)

SLOT = slot_time(19_000_000) / 19e6

HI = (0xC201, 0x2140, 0x4849, 0x0D20)
HOUR = 3_600


class OfFour(tuple):
    """A sequence that says another length than it has."""

    def __len__(self):
        return 4


class Logs(unittest.TestCase):
    def test_times_of_lines(self):
        """A date counts from 1970, with its zone; a line without a time is left out."""
        day = 1717200000                # 2024-06-01 00:00:00 UTC
        lines = ["# note", "C201 2140 4849 0D20 @2024/06/01 07:58:12.25",
                 "C201 2140 4849 0D20 2024-06-01T09:58:12+02:00 x", "C201 ---- 4849 0D20 12.5",
                 "C201 2140 4849 0D20", "C201 2140 4849 0D20 soon"]
        seconds = 7 * 3600 + 58 * 60 + 12
        self.assertEqual(list(read_timed(lines)), [(day + seconds + 0.25, HI), (day + seconds, HI), (12.5, None)])
        self.assertEqual(list(read_timed(io.BytesIO("\n".join(lines).encode()))), list(read_timed(lines)))
        with self.assertRaises(MalformedLine):
            list(read_timed(["C201 2140"]))

    def test_each_form_of_a_time(self):
        """A time of day counts from midnight, and a date from 1970, also behind blanks and in brackets."""
        day, seconds = 1717200000, 7 * 3600 + 58 * 60 + 12
        for text, time in (("2024-06-01 07:58:12,080", day + seconds + 0.08), ("[2024-06-01 07:58:12,080]", day + seconds + 0.08),
                           (" \t@2024/06/01 07:58:12", day + seconds), ("07:58:12.08", seconds + 0.08),
                           ("[07:58:12]", seconds), ("1717228692080", day + seconds + 0.08), (" 12.5\t57", 12.5)):
            self.assertEqual(list(read_timed([f"C201 2140 4849 0D20 {text}"])), [(time, HI)], text)
        for text in ("07:58", "12,5", "17172286920800", "[12.5", "[ 12.5]"):
            self.assertEqual(list(read_timed([f"C201 2140 4849 0D20 {text}"])), [], text)

    def test_a_change_has_the_time_of_its_slot(self):
        """The text goes M slots after its group, in a slot that was lost."""
        timed = [(5.0, HI), (9.0, HI)]
        times = [(round(seconds - 5.0, 6), view.text) for seconds, view in Receiver(0xC201, dwell=8).watch_timed(timed)]
        self.assertEqual(times, [(0.0, "HI"), (round(slot_time(8), 6), None), (4.0, "HI")])
        slots_of = list(timed_slots(timed))
        self.assertEqual([group for _, group in slots_of], list(slots(timed)))
        self.assertEqual([seconds for seconds, group in slots_of if group], [5.0, 9.0])
        self.assertAlmostEqual(slots_of[3][0], 5.0 + slot_time(3))

    def test_nothing_is_kept_over_a_break(self):
        """The clock goes back: no text of before is shown after it."""
        receiver = Receiver(0xC201, dwell=8, keep_seconds=60)
        views = [view.text for _, view in receiver.watch_timed([(7000.0, HI), (100.0, None)])]
        self.assertEqual((views, receiver.view.text), (["HI", None], None))

    def test_lines(self):
        log = b"# note\n\n%x\n<y\nC201 2140 4849 0d20\r\nC201 2140 4849 0D20 @12:00 \xff\rx\nC201 ---- 4849 0D20\n\r\n"
        self.assertEqual(list(read_log(io.BytesIO(log))), [HI, HI, None])
        self.assertEqual(list(read_log(log.decode("latin-1").split("\n"))), [HI, HI, None])
        self.assertEqual((format_group(HI), format_group(None)), ("C201 2140 4849 0D20", "---- ---- ---- ----"))
        self.assertEqual(list(read_log([format_group((1, 2, 3, 0xFFFF))])), [(1, 2, 3, 0xFFFF)])

    def test_malformed_lines(self):
        for bad in ("C201", "C201 2140 4849 0D2", "C201 2140 4849 0D20x", " C201 2140 4849 0D20", "C20١ 2140 4849 0D20",
                    "C201 2140 4849 0D20\r\r\n", "C201  2140 4849 0D20", "---- ---- ---- ---", "C201 -140 4849 0D20"):
            for line in (bad, bad.encode()):
                with self.assertRaises(MalformedLine) as fault:
                    list(read_log(["# note", line]))
                self.assertEqual(fault.exception.line, 2)
                with self.assertRaises(MalformedLine) as fault:
                    next(read_log([line], first=7))
                self.assertEqual(fault.exception.line, 7)

    def test_the_cause_of_a_malformed_line(self):
        for line, why in (("hello", "it has no space"), ('{"pi": 1}', "it looks like JSON"),
                          ("text,A B,1,", "it looks like a row of a script, which encode and sim read"),
                          ("C201 2140", "it ends after block 2"),
                          ("C201 214 4849 0D20", "block 2 has 3 characters, expected 4"),
                          ("C201 2140 4849 0G20", "block 4 has a character that is not a hexadecimal digit")):
            with self.assertRaises(MalformedLine) as fault:
                list(read_log([line]))
            self.assertEqual(fault.exception.why, why)
            self.assertEqual(str(fault.exception),
                             f"line 1 is malformed: {why}; a log line looks like C201 2140 4849 0D20")

    def test_wrong_types_and_numbers(self):
        for given in ("file.log", b"C201 2140 4849 0D20\n"):
            with self.assertRaisesRegex(TypeError, "open file or a list"):
                list(read_log(given))
        for given in ([1, 2], [None], [(0xC201, 1, 2, 3)]):
            with self.assertRaisesRegex(TypeError, "a line of a log is a str or bytes and not"):
                list(read_log(given))
        self.assertEqual(list(read_log([bytearray(b"C201 2140 4849 0D20")])), [HI])
        for group in (b"abcd", memoryview(b"abcd"), "abcd", {1, 2, 3, 4}, {1: 1, 2: 2, 3: 3, 4: 4}, (1, 2, 3, 4.0)):
            with self.assertRaisesRegex(TypeError, "a group is|a block is an int"):
                format_group(group)
        for group in ((1, 2, 3, 0x12345), (1, 2, 3, -5), (1, 2, 3), OfFour((1, 2)), OfFour((1, 2, 3, 4, 5))):
            with self.assertRaisesRegex(ValueError, "a block is|a group has 4 blocks"):
                format_group(group)
        for dwell in (-1, 0, 131_071):
            with self.assertRaisesRegex(ValueError, "dwell is"):
                list(slots([(0.0, HI)], dwell=dwell))
        with self.assertRaisesRegex(TypeError, "dwell is an int"):
            list(slots([(0.0, HI)], dwell=1.5))


class Times(unittest.TestCase):
    def test_worked_times(self):
        self.assertEqual(list(slots([(0.0, HI), (0.0876, HI), (0.0876 * 4, HI)])), [HI, HI, None, None, HI])
        self.assertEqual(list(slots([(0.0, HI), (0.1075, HI)])), [HI, HI])
        self.assertEqual(list(slots([(0.0, HI), (0.1076, HI)])), [HI, None, HI])
        self.assertEqual(list(slots([(0.0, HI), (0.08, HI), (0.1, HI)], grain=0)), [HI] * 3)
        self.assertEqual(list(slots([(5.0, HI), (1.0, HI)], dwell=3)), [HI, None, None, None, HI])
        self.assertEqual(list(slots([(0.0, HI), (HOUR + 1, HI)], dwell=3)), [HI, None, None, None, HI])
        self.assertEqual(list(slots([(9.0, None), (9.5, HI)])), [None] * 5 + [HI])
        for grain in (-0.1, SLOT):
            with self.assertRaises(ValueError):
                list(slots([(0.0, HI)], grain=grain))

    def test_a_clock_may_begin_anywhere(self):
        """Only the time between two groups counts: a clock from a trigger begins below 0."""
        self.assertEqual(list(slots([(-0.05, HI), (0.05, HI)])), [HI, HI])
        self.assertEqual(list(slots([(-1.0, None), (-0.0876, HI), (0.0876, HI)])), [None] * 10 + [HI, None, HI])
        timed, rng = [], random.Random(4)
        for _ in range(300):
            timed.append(((timed[-1][0] if timed else 0) + rng.choice([0.0625, 0.125, 2.5, -1.0]), rng.choice([HI, None])))
        for begins in (-20.0, -1e6, 1e6):
            self.assertEqual(list(slots((begins + time, it) for time, it in timed)), list(slots(timed)))
        # a microsecond is no part of such a time
        for times in ((1e300, 1e300), (-1e300, -1e300)):
            self.assertEqual(list(slots([(it, HI) for it in times])), [HI, HI])
        for times in ((1e300, 2e300), (0.0, 2.0 ** 64), (0.0, 1e300), (2.0 ** 64 / 1e6, 0.0)):
            self.assertEqual(list(slots([(it, HI) for it in times], dwell=3)), [HI, None, None, None, HI])
        for time in (math.inf, -math.inf, math.nan, 1e305, 10 ** 400):
            with self.assertRaisesRegex(ValueError, "a time is"):
                list(slots([(time, HI)]))
        with self.assertRaises(TypeError):
            list(slots([("5.0", HI)]))

    def test_times_without_a_group(self):
        # slots 1 to 11 are over after 1 s, less the grain
        self.assertEqual(list(slots([(0.0, HI), (1.0, None)])), [HI] + [None] * 11)
        self.assertEqual(list(slots([(0.0, HI), (1.0, None), (0.5, None), (0.6, HI)], dwell=3)),
                         [HI] + [None] * 11 + [None] * 3 + [HI])
        # a group that came just before the time that was given first
        self.assertEqual(list(slots([(0.0, HI), (0.2, None), (0.19, HI), (0.28, HI)])), [HI, None, None, HI, HI])
        self.assertEqual(list(slots([(0.0, HI), (0.2, None), (0.17, HI)], dwell=3)), [HI] + [None] * 5 + [HI])
        # more than an hour without a group
        count = sum(1 for _ in slots(((n * HOUR / 2, None) for n in range(4)), dwell=3))
        self.assertEqual(count, math.ceil((HOUR - 0.02) / SLOT) - 1 + 3)

    def test_times_without_a_group_change_no_slot(self):
        rng = random.Random(3)
        for _ in range(30):
            time, timed = 0.0, [(0.0, HI)]
            for _ in range(300):
                time += rng.choice([SLOT, 0.01, rng.random()])
                timed.append((time, HI if rng.random() < 0.5 else None))
            row = list(slots(timed))
            # lost slots behind the last group are those of the timers alone
            self.assertEqual(row[:len(row) - row[::-1].index(HI)], list(slots(it for it in timed if it[1])))

    def test_each_group_is_given_before_the_next_time_is_taken(self):
        taken = []

        def timed():
            for n in range(3):
                taken.append(n)
                yield n * SLOT, HI
        row = slots(timed())
        for n in range(3):
            self.assertEqual((next(row), taken[-1]), (HI, n))


if __name__ == "__main__":
    unittest.main()
