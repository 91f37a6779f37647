"""`rdsrt slots`: worked times, each form of a time, a line for each slot of random logs, and what `decode` then shows.

n slots are lost between two groups whose times are apart by more than n slots and the grain, and by no more than n + 1
slots and the grain (or n is 0). The grain is 20 ms.
"""
import datetime
import json
import random
import select
import subprocess

from tests.calls import DECODE
from tests.plain_times import time_in
from tests.slot import NINETEEN_SLOTS, SLOT
from tests.support import PROGRAM, SECONDS, ProgramCase, ran

HI = "C201 2140 4849 0D20"
LOST = "---- ---- ---- ----"
HOUR, M = 3_600_000_000, 128
SEED = 20261123
JUNE = "@2024/06/01 {}".format
# name, times of groups, and how many lost slots come before each group
SPACINGS = [
    ("one slot", ["0", "0.0876"], [0, 0]),
    ("two groups at once", ["5", "5"], [0, 0]),
    ("a slot and the grain", ["0", "0.107578"], [0, 0]),
    ("a microsecond more", ["0", "0.107579"], [0, 1]),
    ("19 slots and the grain", ["0", "1.684"], [0, 18]),
    ("a microsecond more than 19 slots", ["0", "1.684001"], [0, 19]),
    ("slot 100 after slot 0", ["7", "15.75"], [0, 99]),
    ("three groups, each from the one before", ["0", "0.15", "0.3"], [0, 1, 1]),
    ("hundredths", [JUNE("07:58:12.00"), JUNE("07:58:12.08"), JUNE("07:58:12.18")], [0, 0, 0]),
    ("a minute: 685.1 slots, less the grain 684.9", [JUNE("07:58:12.00"), JUNE("07:59:12.00")], [0, 684]),
]
# 1 s is 11.4 slots
CALENDAR = [
    ("across midnight", [JUNE("23:59:59.00"), "@2024/06/02 00:00:00.00"], [0, 11]),
    ("across a month", ["@2024/06/30 23:59:59.00", "@2024/07/01 00:00:00.00"], [0, 11]),
    ("across a leap day", ["@2024/02/28 23:59:59.00", "@2024/02/29 00:00:00.00"], [0, 11]),
    ("across a year", ["@2023/12/31 23:59:59.50", "@2024/01/01 00:00:00.00"], [0, 5]),
    ("a leap second", ["@2016/12/31 23:59:59.00", "@2016/12/31 23:59:60.00"], [0, 11]),
    ("the same moment in two zones", ["2024-06-01T07:58:12.25Z", "2024-06-01T09:58:12.25+02:00"], [0, 0]),
    ("a second later in another zone", ["2024-06-01T07:58:12Z", "2024-06-01 02:58:13-0500"], [0, 11]),
    ("exactly an hour", [JUNE("00:00:00.00"), JUNE("01:00:00.00")], [0, 41_105]),
]
# two times with a second between them, in each form
WRITTEN = [
    ("a comma before the fraction", ["2024-06-01 07:58:12,080", "@2024/06/01 07:58:13.08"]),
    ("a comma, and a zone", ["2024-06-01T09:58:12,08+02:00", "2024-06-01T07:58:13,080Z"]),
    ("a time of day", ["07:58:12.08", "07:58:13.08"]),
    ("a time of day with a comma", ["07:58:12,080", "07:58:13.08"]),
    ("a time of day in whole seconds", ["07:59:59", "08:00:00"]),
    ("a leap second of the day", ["23:59:59", "23:59:60"]),
    ("a point without digits", ["07:58:12.", "07:58:13,"]),
    ("milliseconds", ["1717228692080", "1717228693080"]),
    ("milliseconds, then seconds", ["1717228692080", "1717228693.08"]),
    ("seconds of 12 digits", ["171722869208", "171722869209"]),
    ("more spaces", [" 1.0", "   2.0"]),
    ("tabs", ["\t1.0", " \t \t2.0"]),
    ("brackets around a date", ["[2024-06-01 07:58:12,080]", "[@2024/06/01 07:58:13.08]"]),
    ("brackets around a time of day", ["[07:58:12.08]", "  [07:58:13.08]"]),
    ("brackets around seconds", ["[1.0]", "2.0"]),
    ("brackets around milliseconds", ["\t[1717228692080]", "1717228693080"]),
]
JUMPS = [
    ("an hour back", ["@2024/10/27 02:59:59.00", "@2024/10/27 02:00:00.00", "@2024/10/27 02:00:00.09"], [0, M, 0]),
    ("a hundredth back", ["9", "8.99", "9.08"], [0, M, 0]),
    ("more than an hour on", [JUNE("00:00:00.00"), JUNE("01:00:00.01")], [0, M]),
]
SKIPPED = ["", "# note", '<recorder="balcony">', "% end"]
UNTIMED = ["", " soon", " @2024/13/01 00:00:00.00", " @2024/06/01 24:00:00.00", " @2024/02/30 00:00:00.00", " -1",
           " @2024/06/01 07:58:12.00x", " 2024-06-01 07:58:12;080", " 2024-06-01  07:58:12", " 2024-06-01", " 07:58",
           " 7:58:12", " 24:00:00", " 07:60:00", " 07:58:61", " 07:58:12Z", " 07:58:12+01:00", " 07:58:12:08", " @07:58:12",
           " 12,5", " 1e3", " .5", " 17172286920800", " 1717228692080.5", " 1717228692080,5", " [12.5", " 12.5]", " [ 12.5]",
           " [12.5 ]", " [12.5]s", " [[12.5]]", " []", " (12.5)", " \t", " INFO 07:58:12", " 01.06.2024 07:58:12",
           " Jun 1 07:58:12", " \xa012.5", " \x0b12.5"]
# the note on groups that were left out
LEFT_OUT = ("rdsrt: {}. A time looks like @2024/06/01 07:58:12.08, 2024-06-01 07:58:12,080, 07:58:12.08, 12.5 or "
            "1717228692080. slots does not read 12,5, 07:58, 07:58:12Z, 01.06.2024 07:58:12, names of months, or a time after "
            "another word. An audit of this output does not judge {}\n")
# the note on all breaks at the end: how many there are, and where to cut the log
END = "rdsrt: the times have {}. Do not audit this output: cut the log before {}, and audit each part with --running\n"
MALFORMED = ["C201 2140 4849 0D2 1", "C201  2140 4849 0D20 1", "hello", HI + "5", HI + "\t1.5"]


def filled(lines, *words):
    """Returns the status, the lines that are no comments, the comments and the notes of `rdsrt slots`."""
    given = "".join(f"{line}\n" for line in lines).encode()
    done = subprocess.run([PROGRAM, "slots", *words], input=given, capture_output=True, timeout=SECONDS)
    rows, notes = done.stdout.decode().splitlines(), done.stderr.decode()
    return done.returncode, [row for row in rows if row[0] != "#"], [row for row in rows if row[0] == "#"], notes


def note_at(why, line):
    """Returns the note on a break, which comes at once."""
    return f"rdsrt: {why} before line {line}: nobody knows how many slots were lost, so M lost slots stand for them\n"


def lost(earlier, later, grain=20_000):
    """Returns how many slots are lost between two times in microseconds, by the rule above. M after a break."""
    apart = later - earlier
    return max(0, -(-19 * (apart - grain) // NINETEEN_SLOTS) - 1) if 0 <= apart <= HOUR else M


def written(rng, base):
    """Returns a time in one of the forms, or something near it. `base` is in microseconds."""
    date = datetime.datetime(1900, 1, 1) + datetime.timedelta(microseconds=base)
    clock = date.strftime("%H:%M:%S") + rng.choice(["", f".{date.microsecond:06}", f",{date.microsecond // 1000:03}", ".", ",5"])
    text = rng.choice([
        rng.choice(["", "@"]) + date.strftime(rng.choice(["%Y-%m-%d", "%Y/%m/%d"])) + rng.choice(" T") + clock
        + rng.choice(["", "", "Z", "+01:00", "-0330"]),
        clock, f"{base / 1e6:.{rng.randrange(7)}f}", str(base)[:13], str(base // 1000), str(base // 1000 + 10**12)])
    text = rng.choice(["", "", "", " ", "\t", " \t "]) + rng.choice(["{}", "{}", "[{}]"]).format(text)
    text += rng.choice(["", "", " 57", "\t57", "\r"])
    if rng.random() < 0.5:
        place = rng.randrange(len(text) + 1)
        text = text[:place] + rng.choice(["", *" \t[]@:-/.,TZ+0127x"]) + text[place + rng.randrange(2):]
    return text


def spoiled(rng, m):
    """Returns the slots of a station that keeps its texts for M slots or somewhat more, some of them for less."""
    slots, flag = [], 0
    is_right = rng.random() < 0.4
    for _ in range(rng.randrange(3, 9)):
        stays = m + rng.randrange(4) if is_right or rng.random() < 0.7 else rng.randrange(1, m)
        text = f"C201 21{4 + flag}0 41{rng.randrange(0x41, 0x5B):02X} 0D20"
        slots += [text if rng.random() < 0.8 else LOST for _ in range(stays)]
        flag ^= 1
    return slots


def recorded(rng, slots):
    """Returns a recording of these slots: its lines with times, its slots from the first group to the last one, and the
    breaks of its clock: the cause and the line of each, by the rule of `slots`. A lost group has no line, or one with a
    time and no group. The clock is set back by more than a gap lasts, so a group is then earlier than the one before it."""
    lines, log, breaks, last = ["# a recording"], [], [], None
    clock, rate, is_set = 200_000, rng.choice([0, 0.02, 0.05]), False
    for number, group in enumerate(slots):
        if not is_set and rng.random() < rate:
            clock += rng.choice([-rng.randrange(10, 4000), rng.randrange(3700, 9000)])
            is_set = True
        time = f"{clock + number * SLOT + rng.uniform(0, 0.018):.3f}"
        if group == LOST or rng.random() < 0.05:
            log.append(LOST)
            lines += [f"{LOST} {time}"] if rng.random() < 0.1 else []
            continue
        log.append(group)
        lines += [f"{group} {time}"] if rng.random() < 0.95 else ["", f"{group} {time} 57"]
        if last is not None and not 0 <= float(time) - last <= 3600:
            breaks.append(("back" if float(time) < last else "hour", len(lines)))
        last, is_set = float(time), False
    return lines, inner(log), breaks


def inner(slots):
    """Returns these slots without the lost ones before the first group and after the last one."""
    groups = [number for number, it in enumerate(slots) if it != LOST]
    return slots[groups[0]:groups[-1] + 1] if groups else []


class Worked(ProgramCase):
    def compare(self, rows, breaks=0):
        for name, times, before in rows:
            lines = [f"{HI} {time}" for time in times]
            wanted = [it for count, line in zip(before, lines) for it in [LOST] * count + [line]]
            _, slots, comments, _ = filled(lines)
            self.check(name, (slots, len(comments)), (wanted, breaks))

    def test_the_times_of_groups_give_the_lost_slots_between_them(self):
        self.compare(SPACINGS)

    def test_dates_zones_and_leap_seconds_are_understood(self):
        self.compare(CALENDAR)

    def test_each_form_of_a_time_is_read(self):
        self.compare([(name, times, [0, 11]) for name, times in WRITTEN])

    def test_a_time_of_day_goes_back_at_midnight(self):
        """The line does not show whether midnight passed or a clock was set."""
        lines = [f"{HI} {time}" for time in ("23:59:59.96", "00:00:00.04", "00:00:01.09")]
        status, slots, comments, notes = filled(lines, "--m", "3")
        self.check("midnight", (status, slots, comments), (1, [lines[0], *[LOST] * 3, lines[1], *[LOST] * 11, lines[2]],
                                                          ["# time went back"]))
        self.check("the notes", notes, note_at("time went back", 2) + END.format("1 break, before line 2", "line 2"))

    def test_a_time_that_jumps_begins_a_new_count_after_a_dwell(self):
        self.compare(JUMPS, breaks=1)
        _, slots, _, _ = filled([f"{HI} 2", f"{HI} 1"], "--m", "3")
        self.check("a dwell of 3", slots, [f"{HI} 2", LOST, LOST, LOST, f"{HI} 1"])

    def test_a_log_whose_time_jumps_ends_with_status_1_and_the_line_to_cut_at(self):
        for (name, times, _), why in zip(JUMPS, ("time went back", "time went back", "more than an hour passed")):
            status, _, _, notes = filled([f"{HI} {time}" for time in times])
            self.check(name, (status, notes), (1, note_at(why, 2) + END.format("1 break, before line 2", "line 2")))
        # too coarse is said first, and each has its note
        status, _, _, notes = filled([f"{HI} {time}" for time in (7, 7, 8, 7)], "--json-notes")
        self.check("coarse, and a break", (status, [json.loads(it)["kind"] for it in notes.splitlines()]),
                   (1, ["break", "coarse", "breaks"]))

    def test_the_output_of_a_log_whose_clock_was_set_back_is_not_to_be_audited(self):
        """In slot 4 the flag comes back too early. The lost slots at the break hide that."""
        groups = ["2140 4A41 5A5A", "2141 2046 4D0D", "2150 4E45 5753", "2151 2046 4D0D", "2140 504F 5020", "2141 204D 4958"]
        lines = [f"C201 {group} {time}" for group, time in
                 zip(groups, ("100.000", "100.088", "100.175", "97.000", "97.088", "97.175"))]
        status, slots, comments, notes = filled(lines, "--m", "8")
        self.check("the status", status, 1)
        self.check("the notes", notes, note_at("time went back", 4) + END.format("1 break, before line 4", "line 4"))
        answers = [ran(["audit", "--running", "--m", "8", "--pi", "C201"], "".join(f"{it}\n" for it in of).encode())
                   for of in (lines, slots)]
        self.check("the log, and its slots", answers, [(1, b"no 4 EarlyFlag\n"), (0, b"yes 14\n")])
        self.check("the comment", comments, ["# time went back"])

    def test_what_follows_the_time_is_left_out(self):
        lines = [f"{HI} {JUNE('07:58:12.00')}", f"{HI} {JUNE('07:58:13.00')}"]
        wanted = filled(lines)[1]
        self.check("a signal strength", filled([f"{lines[0]} 57", f"{lines[1]} 55"])[1], wanted)
        self.check("a tab before it", filled([f"{lines[0]}\t57", f"{lines[1]}\t55"])[1], wanted)
        self.check("eleven lost slots", wanted, [lines[0], *[LOST] * 11, lines[1]])
        endless = [f"{line} {'x' * 1_000_000}" for line in lines]
        self.check("a line of a megabyte", filled(endless)[1], wanted)
        self.check("and no line feed at its end", ran(["slots"], endless[0].encode()), (0, f"{lines[0]}\n".encode()))

    def test_the_grain_is_an_option(self):
        for grain, count in (("0", 1), ("87", 0)):
            _, slots, _, _ = filled([f"{HI} 0", f"{HI} 0.09"], "--grain", grain)
            self.check(f"grain {grain}", slots.count(LOST), count)

    def test_a_line_without_a_time_is_left_out_and_counted(self):
        for more in UNTIMED:
            status, slots, _, notes = filled([f"{HI} 1.00", HI + more, f"{HI} 1.09\r"])
            self.check(f"{more!r}", (status, slots), (0, [f"{HI} 1.00", f"{HI} 1.09"]))
            self.check(f"the note on {more!r}", notes, LEFT_OUT.format("1 group without a time was left out", "it"))
            self.check(f"{more!r} by the rule", time_in(more[1:]), None)
        _, _, _, notes = filled([f"{HI} 1.00", HI, HI])
        self.check("two of them", notes, LEFT_OUT.format("2 groups without a time were left out", "them"))
        for line in SKIPPED:
            self.check(f"{line!r}", filled([f"{HI} 1.00", line])[:3], (0, [f"{HI} 1.00"], []))

    def test_a_log_whose_times_nobody_understands_ends_with_status_1(self):
        """Groups alone count, and one group with a time is enough."""
        for times in (["07:58"], ["17172286920800"], ["12,5", "", "soon"]):
            lines = [f"{HI} {time}" for time in times]
            for words in ([], ["--quiet"], ["--pi", "C201"]):
                status, slots, _, notes = filled([LOST, *lines, LOST], *words)
                self.check(f"{times} {words}", (status, slots), (1, []))
                self.check(f"the note on {times} {words}", notes.startswith(f"rdsrt: {len(times)} group"),
                           words != ["--quiet"], notes)
            self.check(f"{times} and one time", filled([*lines, f"{HI} 1"])[:2], (0, [f"{HI} 1"]))
        self.check("no group", filled([LOST, "# note"])[:2], (0, []))
        self.check("no log", filled([])[:2], (0, []))

    def test_a_time_ends_within_the_first_59_bytes(self):
        for zeros, count in ((19, 1), (20, 0)):
            line = f"{HI} 2024-06-01T07:58:12.{'0' * zeros}"
            for more in ("", " 57", "+01:00"):
                self.check(f"{zeros} zeros and {more!r}", len(filled([line + more])[1]), count * (more != "+01:00"))
        # 20 bytes before the zeros, and those around them
        for front, back in (("", "]"), ("   ", ""), ("\t", "]")):
            for zeros, count in ((19, 1), (20, 0)):
                zeros -= len(front + back + "[" * len(back))
                line = f"{HI} {front}{'[' * len(back)}2024-06-01T07:58:12.{'0' * zeros}{back}"
                self.check(f"{line!r}", len(filled([line])[1]), count)

    def test_lost_slots_that_were_told_too_early_count(self):
        """Eleven lost slots, and the next group is 0.09 s after the last one. Without the line between them the times are fine.
        """
        for words, between, before in (([], "2", 11), (["--m", "4"], "0.5", 4)):
            status, slots, comments, notes = filled([f"{HI} 1", f"{LOST} {between}", f"{HI} 1.09"], *words)
            wanted = [f"{HI} 1", *[LOST] * before, f"{HI} 1.09"]
            self.check(f"a line at {between}", (status, slots, comments), (1, wanted, []))
            self.check(f"the note on a line at {between}", f" {before + 1} slots were counted" in notes, True, notes)
        self.check("no line between", filled([f"{HI} 1", f"{HI} 1.09"])[::3], (0, ""))

    def test_each_group_whose_time_breaks_has_a_comment(self):
        """Also if as many slots are lost before it anyway. A line without a group has none."""
        _, slots, comments, notes = filled([f"{HI} 100", f"{LOST} 103", f"{HI} 99"], "--m", "8")
        self.check("M slots were told", (slots, comments),
                   ([f"{HI} 100", *[LOST] * 34, f"{HI} 99"], ["# time went back"]))
        self.check("the notes on it", notes, note_at("time went back", 3) + END.format("1 break, before line 3", "line 3"))
        self.check("no group", filled([f"{HI} 9", f"{LOST} 1"], "--m", "2"), (0, [f"{HI} 9", LOST, LOST], [], ""))
        self.check("no group at the break", filled([f"{HI} 9", f"{LOST} 1", f"{HI} 100"], "--m", "2")[::2], (0, []))
        _, _, comments, notes = filled([f"{HI} {time}" for time in (5, 4, 3, 2)], "--m", "2")
        self.check("three breaks", (len(comments), notes), (3, note_at("time went back", 2) + END.format(
            "3 breaks, the first before line 2", "line 2 and before each later break")))
        # in the order of the log, whatever comes first
        for times, whys in (((1, 9000, 2), ("more than an hour passed", "time went back")),
                            ((9000, 1, 9000), ("time went back", "more than an hour passed"))):
            _, _, _, notes = filled([f"{HI} {time}" for time in times], "--m", "1")
            self.check(f"two kinds at {times}", notes, "".join(map(note_at, whys, (2, 3))) + END.format(
                "2 breaks, the first before line 2", "line 2 and before each later break"))

    def test_a_line_without_a_whole_group_only_tells_the_time(self):
        """Slots 1 to 11 are over after 1 s, less the grain. The next group changes none of them."""
        for line in (f"{LOST} 2", "C201 2140 ---- 0D20 2"):
            self.check(f"{line!r}", filled([f"{HI} 1", line])[1], [f"{HI} 1", *[LOST] * 11])
            self.check(f"{line!r}, and a group", filled([f"{HI} 1", line, f"{HI} 3"])[1],
                       filled([f"{HI} 1", f"{HI} 3"])[1])
        self.check("before the first group", filled([f"{LOST} 1", f"{HI} 3"])[1], [f"{HI} 3"])
        _, slots, comments, _ = filled([f"{HI} 9", f"{LOST} 1", f"{HI} 2"], "--m", "3")
        self.check("a break is told once", (slots, len(comments)), ([f"{HI} 9", *[LOST] * 3, f"{HI} 2"], 1))

    def test_times_that_are_too_coarse_are_noted(self):
        """A lossless log with times in steps of 0.2 s has more slots than its clock."""
        coarse = [f"{HI} {number * NINETEEN_SLOTS // 19 // 200_000 / 5}" for number in range(100)]
        fine = [f"{HI} {number * NINETEEN_SLOTS / 19e6:.2f}" for number in range(100)]
        status, slots, _, notes = filled(coarse)
        self.check("coarse times", (status, len(slots) > 110, notes.count("\n")), (1, True, 1), notes)
        status, slots, _, notes = filled(fine)
        self.check("fine times", (status, len(slots), notes), (0, 100, ""))

    def test_a_malformed_line_ends_the_log_with_a_comment(self):
        for line in MALFORMED:
            found = filled([f"{HI} 1", line, f"{HI} 2"])[:3]
            self.check(f"{line!r}", found, (1, [f"{HI} 1"], ["# fault line 2"]))


class ByChance(ProgramCase):
    def test_each_slot_has_its_line(self):
        """If delays vary by less than the grain, each group is in its slot. If they vary by less than a slot less the
        grain, no slot is missing."""
        rng = random.Random(SEED)
        for spread, is_exact in ((19_000, True), (67_000, False)):
            slots = [slot for slot in range(4000) if slot == 0 or rng.random() < 0.3]
            times = [slot * NINETEEN_SLOTS // 19 + rng.randrange(spread) for slot in slots]
            lines = [f"C201 0000 0000 {slot:04X} {time / 1e6:.6f}" for slot, time in zip(slots, times)]
            status, rows, _, _ = filled(lines)
            places = [at for at, row in enumerate(rows) if row != LOST]
            written = [int(rows[at][15:19], 16) for at in places]
            given = "\n".join(lines)
            self.check(f"seed {SEED}, each group once, {spread}", written, slots, given)
            gaps = [b - a - (d - c) for a, b, c, d in zip(places, places[1:], slots, slots[1:])]
            self.check(f"seed {SEED}, no slot too few, {spread}", min(gaps), 0, given)
            self.check(f"seed {SEED}, and none too many, {spread}", max(gaps) == 0, is_exact, given)

    def test_random_logs_are_filled_by_the_rule(self):
        """2,000 logs with seconds or dates, and a clock that jumps now and then."""
        for number, rng in self.cases(random.Random(f"{SEED} {it}") for it in range(2000)):
            grain = rng.randrange(88)
            time, lines, wanted, last = rng.randrange(10**9) * 10_000, [], [], None
            for _ in range(rng.randrange(1, 9)):
                lines.append(f"C201 {rng.randrange(65536):04X} 0000 0000 {self.shown(rng, time)}")
                wanted += [LOST] * (0 if last is None else lost(last, time, 1000 * grain)) + lines[-1:]
                last = time
                time += 10_000 * rng.choice([0, 8, 9, 10, 20, rng.randrange(300), rng.randrange(9000)])
                if rng.random() < 0.05:
                    time = max(0, time + rng.choice([-10_000, -HOUR, HOUR + 10_000]))
            found = filled(lines, "--grain", str(grain))
            self.check(f"seed {SEED}, log {number}, grain {grain}", found[1], wanted, "\n".join(lines))

    def test_random_texts_after_a_group_are_times_by_the_rule(self):
        """4,000 logs of times in each form, half of them with a character changed, put in or left out. What comes out
        shows which texts are times, where they end, and what they count."""
        seen = {"times": 0, "none": 0, "an hour or less": 0}
        for number, rng in self.cases(random.Random(f"{SEED} forms {it}") for it in range(4000)):
            lines, wanted, last, base = [], [], None, rng.randrange(10**16)
            for _ in range(6):
                base += rng.randrange(10**6)
                lines.append(f"{HI} {written(rng, base)}")
                read = time_in(lines[-1][len(HI) + 1:])
                seen["times" if read else "none"] += 1
                if read:
                    time, end = read
                    near = last is not None and 0 <= time - last <= HOUR
                    wanted += ([LOST] * (lost(last, time) if near else last is not None)
                               + [lines[-1][:len(HI) + 1 + end]])
                    seen["an hour or less"] += near
                    last = time
            self.check(f"seed {SEED}, log {number}", filled(lines, "--m", "1")[1], wanted, "\n".join(lines))
        self.check_all(f"each kind of texts: {seen}", min(seen.values()) > 1000, True)

    @staticmethod
    def shown(rng, time):
        """Returns a time of hundredths in one of its forms."""
        date = datetime.datetime(2000, 1, 1) + datetime.timedelta(microseconds=time)
        return date.strftime(rng.choice(["@%Y/%m/%d %H:%M:%S.%f", "%Y-%m-%dT%H:%M:%S.%fZ", "%Y-%m-%d %H:%M:%S.%f"]))

    def test_a_yes_to_the_output_is_a_yes_to_the_log(self):
        """300 recordings with times, faults and lost groups. In some the clock is set back, or on by more than an hour.
        Then `slots` has status 1 and names the line, and `audit` of its output may say yes to a log with a fault."""
        seen = {"false yes": 0, "yes": 0, "no": 0, "several breaks": 0}
        for number, rng in self.cases(random.Random(f"{SEED} set back {it}") for it in range(300)):
            m = rng.randrange(4, 17)
            lines, log, breaks = recorded(rng, spoiled(rng, m))
            status, slots, _, notes = filled(lines, "--m", str(m), "--json-notes")
            told = [(it["kind"], it.get("line"), it.get("count")) for it in map(json.loads, notes.splitlines())]
            kinds = dict(reversed(breaks))
            wanted = [("break", line, None) for line in sorted(kinds.values())]
            wanted += [("breaks", breaks[0][1], len(breaks))] if breaks else []
            shown = "\n".join(lines)
            self.check(f"seed {SEED}, log {number}, M = {m}: the breaks", (status, told), (bool(breaks), wanted), shown)
            answers = [ran(["audit", "--running", "--m", str(m), "--pi", "C201"], "".join(f"{it}\n" for it in of).encode())
                       for of in (inner(slots), log)]
            if not breaks:
                self.check(f"seed {SEED}, log {number}, M = {m}: the answer", *answers, shown)
            passes = [status == 0 for status, _ in answers]
            seen["several breaks"] += len(breaks) > 1
            seen["false yes"] += passes == [True, False]
            seen["yes" if passes[0] else "no"] += not breaks
        self.check_all(f"each kind of logs: {seen}", min(seen.values()) > 4, True)

    def test_a_receiver_of_the_filled_log_shows_no_mix(self):
        """A station with a text every 2 M slots; bursts of slots are lost, and their lines are left out."""
        rng = random.Random(SEED)
        texts = [f"{rng.choice(['ALPHA', 'BRAVO', 'CHARLIE', 'DELTA', 'ECHO'])} {number:03d}" for number in range(100)]
        rows = ["-,,1,"] * M
        for text in texts:
            rows += [f"text,{text},1,"] + ["-,,1,"] * (2 * M - 1)
        _, sent = ran(["encode", "--pi", "C201"], "\n".join(rows).encode())
        lines, until = [], 0
        for slot, line in enumerate(it for it in sent.decode().splitlines() if it[0] != "#"):
            if slot >= until and rng.random() < 0.02:
                until = slot + rng.randrange(60, 700)
            if slot >= until and line != LOST:
                lines.append(f"{line} {1000 + slot * NINETEEN_SLOTS / 19e6 + rng.uniform(0, 0.06):.6f}")
        plain, whole = lines, filled(lines)[1]
        counts = [self.mixes(log, texts) for log in (plain, whole)]
        self.check(f"seed {SEED}: mixes with the lost slots", counts[1], 0)
        self.check(f"seed {SEED}: and without them", counts[0] > 10, True)

    @staticmethod
    def mixes(lines, texts):
        """Returns how many texts are shown that nobody set."""
        _, shown = ran(DECODE, "".join(f"{line}\n" for line in lines).encode())
        return sum(line.split('"')[1] not in texts for line in shown.decode().splitlines() if ' text "' in line)


class Live(ProgramCase):
    def test_a_group_is_written_before_the_next_is_read(self):
        with subprocess.Popen([PROGRAM, "slots"], stdin=subprocess.PIPE, stdout=subprocess.PIPE, bufsize=0) as program:
            for time in ("1.00", "1.09"):
                program.stdin.write(f"{HI} {time}\n".encode())
                is_there = select.select([program.stdout], [], [], SECONDS)[0]
                line = program.stdout.readline() if is_there else None
                self.check(f"live pipe at {time}", line, f"{HI} {time}\n".encode())
            program.stdin.close()
            self.check("end of a live pipe", program.wait(SECONDS), 0)

    def test_a_break_is_told_while_the_log_is_open(self):
        """Each break has a line on standard error at once, and --quiet has none."""
        with subprocess.Popen([PROGRAM, "slots"], stdin=subprocess.PIPE, stdout=subprocess.DEVNULL,
                              stderr=subprocess.PIPE, bufsize=0) as program:
            program.stdin.write(f"{HI} 1.0\n".encode())
            for line, time, why in ((2, "0.5", "time went back"), (3, "9000", "more than an hour passed")):
                program.stdin.write(f"{HI} {time}\n".encode())
                is_there = select.select([program.stderr], [], [], SECONDS)[0]
                self.check(f"a break at {time}", program.stderr.readline() if is_there else None,
                           note_at(why, line).encode())
            program.stdin.write(b"no line\n")
            program.stdin.close()
            self.check("a fault is no break", b"nobody knows" in program.stderr.read(), False)
        self.check("--quiet", filled([f"{HI} 2", f"{HI} 1"], "--quiet")[3], "")

    def test_a_command_that_reads_a_log_notes_that_it_lacks_slots(self):
        """The note comes while the log is still open, and once; not for a log with all its slots."""
        line = f"{HI} {{}}\n".format
        lacks = "rdsrt: the first 2 lines span 23 slots by the times in them. Put rdsrt slots before this command\n"
        for command in ("decode", "audit", "witness"):
            words = [PROGRAM, command, "--pi", "C201"]
            with subprocess.Popen(words, stdin=subprocess.PIPE, stdout=subprocess.DEVNULL, stderr=subprocess.PIPE,
                                  bufsize=0) as program:
                program.stdin.write((line("1.0") + line("3.0")).encode())
                is_there = select.select([program.stderr], [], [], SECONDS)[0]
                self.check(f"{command}, live", program.stderr.readline() if is_there else None, lacks.encode())
                program.stdin.write(line("9.0").encode())
                program.stdin.close()
                self.check(f"{command}, once", b"Put rdsrt slots" in program.stderr.read(), False)
        whole = "".join(line(f"{number * NINETEEN_SLOTS / 19e6:.2f}") for number in range(200)).encode()
        many = "".join(line(f"{number / 4:.2f}") for number in range(4000)).encode()
        for name, given, wanted in (("whole", whole, 0), ("long", many, 1), ("no times", f"{HI}\n".encode() * 9, 0)):
            done = subprocess.run([PROGRAM, *DECODE], input=given, capture_output=True, timeout=SECONDS)
            self.check(f"a {name} log", done.stderr.count(b"Put rdsrt slots"), wanted)
        for day in ("2024-06-01", "2024-06-03"):
            times = [f"2024-06-01T00:00:{second:02}Z" for second in range(9)] + [f"{day}T00:00:09Z"]
            _, slots, comments, _ = filled([f"{HI} {time}" for time in times], "--m", "8")
            log = "".join(f"{line}\n" for line in [*slots[:-9], *comments, *slots[-9:]]).encode()
            for command in ("decode", "audit", "witness"):
                done = subprocess.run([PROGRAM, command, "--pi", "C201", "--m", "8"], input=log, capture_output=True,
                                      timeout=SECONDS)
                self.check(f"{command} of a filled log to {day}", done.stderr.count(b"Put rdsrt slots"), 0)
        quiet = subprocess.run([PROGRAM, *DECODE, "--quiet"], input=many, capture_output=True, timeout=SECONDS)
        self.check("--quiet", quiet.stderr, b"")

    def test_after_a_no_the_note_counts_the_lines_that_it_speaks_of(self):
        """The log spans 11413 slots and has 2000 lines, but after a no the lines up to it decide. Line 4 changes the
        text, 1.5 s or 17.1 slots after the first one."""
        lines = [f"{HI} {number / 2:.2f}\n" for number in range(2000)]
        lines[3] = f"C201 2140 484F 0D20 {3 / 2:.2f}\n"
        for options, count in (("", "the first 4 lines span 18 slots by the times in them"),
                               ("--all", "the log spans 11413 slots by its times and has 2000 lines")):
            done = subprocess.run([PROGRAM, "audit", "--running", "--pi", "C201", *options.split()],
                                  input="".join(lines).encode(), capture_output=True, timeout=SECONDS)
            self.check(f"audit {options}", [it for it in done.stderr.decode().splitlines() if "by " in it],
                       [f"rdsrt: {count}. Put rdsrt slots before this command"])

    def test_after_a_no_the_note_comes_if_as_many_slots_lack_as_would_have_cured_it(self):
        """At M = 8 the third text comes 2 slots after the first one: it lacks 6, or one fewer, since times are rounded. A
        lack of one slot is never told."""
        for m, second, lacks in ((8, 0.70, True), (8, 0.61, False), (8, 0.50, False), (3, 0.36, True), (3, 0.34, False),
                                 (40, 1.20, False), (40, 1.40, True)):
            lines = [f"{HI} 0.00\n", "C201 2150 594F 0D20 0.09\n", f"{HI} {second:.2f}\n"]
            done = subprocess.run([PROGRAM, "audit", "--pi", "C201", "--m", str(m)], input="".join(lines).encode(),
                                  capture_output=True, timeout=SECONDS)
            self.check(f"M = {m}, {second} s", (done.stdout, b"Put rdsrt slots" in done.stderr), (b"no 2 EarlyFlag\n", lacks))

    def test_a_log_of_other_programmes_alone_has_status_1(self):
        """It has groups, and none of them is of the programme and has a time."""
        other = "C202 2140 4849 0D20 {}\n".format
        for log, wanted in ((other("1.0") + other("2.0"), 1), (other(""), 1), (other("1.0") + f"{HI} 1.5\n", 0),
                            ("C202 ---- ---- ---- 1.0\n", 0), ("", 0)):
            done = subprocess.run([PROGRAM, "slots", "--pi", "C201"], input=log.encode(), capture_output=True,
                                  timeout=SECONDS)
            self.check(f"slots --pi C201 of {log}", done.returncode, wanted)

    def test_coarse_times_have_a_cause(self):
        """A clock that was set half an hour on, and a line without a group that came too early."""
        times = [number * NINETEEN_SLOTS / 19e6 + 1800 * (number >= 150) + number % 2 / 100
                 for number in range(300)]
        jump = "".join(f"{HI} {time:.3f}\n" for time in times)
        # line 151 comes 1800.078 s after line 150: 20553.8 slots, rounded up less one are lost
        cause = "The longest gap has 20553 lost slots, before line 151: if a clock was set there, cut the log in two"
        for name, log, words, wanted in (
                ("a clock that was set", jump, ["--grain", "0"], cause),
                ("whole seconds", f"{HI} 7\n{HI} 7\n{HI} 8\n", [], None),
                ("a line without a group", f"{HI} 0.0\n---- ---- ---- ---- 5.0\n{HI} 1.0512\n", ["--m", "128"],
                 "A line without a group before line 3 has a time that does not fit the group of that line")):
            done = subprocess.run([PROGRAM, "slots", *words], input=log.encode(), capture_output=True, timeout=SECONDS)
            told = done.stderr.decode()
            self.check(f"{name}: coarse", (done.returncode, "vary by more than the grain" in told), (1, True), log)
            self.check(name, told.rstrip("\n").endswith(f". {wanted or 'If the recording lost nothing, audit the log itself'}"),
                       True, told)

    def test_full_output_is_noted(self):
        with open("/dev/full", "wb") as full:
            done = subprocess.run([PROGRAM, "slots"], input=f"{HI} 1\n".encode(), stdout=full, stderr=subprocess.PIPE,
                                  timeout=SECONDS)
        self.check("status and note", (done.returncode, b"writing standard output failed" in done.stderr), (1, True))
