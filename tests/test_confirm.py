"""`decode --confirm W`: worked logs, and random logs beside `decode` of the segments that count.

A segment counts if the last one at its address was the same and came less than W slots before. A pair of tags counts if
the last pair was the same, came less than W slots before, and came later than the first segment of the text that counted.
"""
import collections
import random

from tests import random_scripts
from tests.calls import DECODE, ENCODE, SIM
from tests.plain_receiver import LOST, Segment, counting
from tests.support import ProgramCase, ran

SEED, LOGS, SLOTS = 20261127, 300, 80
OTHER = "F000 2140 4849 0D20"
HI, HO, HI_FLAG_1 = "C201 2140 4849 0D20", "C201 2140 484F 0D20", "C201 2150 4849 0D20"
# the two segments of AAAACCC, and a wrong second one
AAAA, CCC, DDD = "C201 2140 4141 4141", "C201 2141 4343 430D", "C201 2141 4444 440D"
JAZZ, FM = "C201 A140 4A41 5A5A", "C201 A141 2046 4D20"
ANNOUNCED, TITLE = "C201 3156 0000 4BD7", "C201 B148 2002 0000"
# name, window, lines of the log, and the output
SEGMENTS = [
    ("a text once", 4, [HI], ""),
    ("a text twice", 4, [HI, HI], '1 text "HI"\n'),
    ("less than W slots apart", 4, [HI, LOST, LOST, HI], '3 text "HI"\n'),
    ("W slots apart", 4, [HI, LOST, LOST, LOST, HI], ""),
    ("one slot more in the window", 5, [HI, LOST, LOST, LOST, HI], '4 text "HI"\n'),
    ("slots of another programme", 4, [HI, OTHER, LOST, OTHER, HI], ""),
    ("the smallest window", 2, [HI, LOST, HI, HI], '3 text "HI"\n'),
    ("the largest window", 255, [HI, *[LOST] * 253, HI], '254 text "HI"\n'),
    ("past the largest window", 255, [HI, *[LOST] * 254, HI], ""),
    ("a wrong segment between", 4, [HI, HO, HI], ""),
    ("after a wrong segment", 4, [HI, HO, HI, HI], '3 text "HI"\n'),
    ("wrong in the same way twice", 4, [HI, HO, HO], '2 text "HO"\n'),
    ("the other flag", 4, [HI, HI_FLAG_1], ""),
    ("another address between", 4, [AAAA, CCC, AAAA, CCC], '3 text "AAAACCC"\n'),
    ("a wrong segment of two", 4, [AAAA, DDD, AAAA, CCC, CCC], '4 text "AAAACCC"\n'),
    ("a name", 4, [JAZZ, FM, JAZZ, FM], '3 name "JAZZ FM "\n'),
    ("half a name twice", 4, [JAZZ, FM, JAZZ], ""),
]
TAGGED = '{0} item 0 1\n{0} tag1 ITEM.TITLE "HI"\n'
TAGS = [
    ("tags twice", 8, [ANNOUNCED, HI, HI, TITLE, TITLE], '2 text "HI"\n' + TAGGED.format(4)),
    ("tags once", 8, [ANNOUNCED, HI, HI, TITLE], '2 text "HI"\n'),
    ("other tags between", 8, [ANNOUNCED, HI, HI, TITLE, "C201 B148 4002 0000", TITLE], '2 text "HI"\n'),
    ("tags before the text counts", 8, [ANNOUNCED, HI, TITLE, HI, TITLE], '3 text "HI"\n'),
    ("tags after it", 8, [ANNOUNCED, HI, TITLE, HI, TITLE, TITLE], '3 text "HI"\n' + TAGGED.format(5)),
]


def shown(log, *words):
    """Returns the status and the output of `decode` for the lines of a log."""
    status, output = ran([*DECODE, *words], "".join(f"{line}\n" for line in log).encode())
    return status, output.decode()


def random_slot(rng, flag):
    """Returns a segment with few different bodies, mostly with this flag, or None for a lost slot."""
    if rng.random() < 0.25:
        return None
    service = rng.choice(("text", "name"))
    address = rng.randrange(2)
    body = rng.choices((b"AAAA", b"ABBA") if address == 0 else (b"CC\r ", b"CCC\r"), (4, 1))[0]
    return Segment(service, flag if rng.random() < 0.9 else 1 - flag, address, body)


def line_of(segment):
    """Returns the line of a segment in a log, or of a lost slot."""
    if segment is None:
        return LOST
    second = (0x2140 if segment.service == "text" else 0xA140) | segment.flag << 4 | segment.address
    return f"C201 {second:04X} {segment.body[:2].hex().upper()} {segment.body[2:].hex().upper()}"


class Confirm(ProgramCase):
    def compare(self, rows):
        for name, window, log, wanted in rows:
            self.check(name, shown(log, "--confirm", str(window)), (0, wanted), "\n".join(log))

    def test_segments(self):
        self.compare(SEGMENTS)

    def test_tags(self):
        self.compare(TAGS)

    def test_without_the_option_a_wrong_segment_is_shown(self):
        self.check("a wrong segment between", shown([HI, HO, HI]), (0, '0 text "HI"\n1 text "HO"\n2 text "HI"\n'))

    def test_the_dwell_counts_from_the_segment_that_counted(self):
        """At M = 4 a segment of slot 1 stays up to slot 4."""
        self.check("two segments", shown([HI, HI, *[LOST] * 4], "--confirm", "4", "--m", "4"),
                   (0, '1 text "HI"\n5 text none\n'))

    def test_a_station_at_the_default_dwell(self):
        """It is silent for 128 slots, and then sends the text in every other slot."""
        log = ran(["encode", "--pi", "C201"], b"-,,1,\n" * 128 + b"text,HI,1,\n" + b"-,,1,\n" * 4)[1]
        self.check("once", ran(DECODE, log), (0, b'128 text "HI"\n'))
        self.check("twice", ran([*DECODE, "-m", "64", "--confirm", "65"], log), (0, b'130 text "HI"\n'))

    def test_sim(self):
        """A receiver of `sim` shows what `decode` shows of the groups that it got, and the station keeps M + K + W - 1
        slots apart: its log is that of `encode` for this sum."""
        seen = 0
        for number, _ in self.cases(range(60)):
            rng = random.Random(f"{SEED} {number}")
            dwell, window = rng.randrange(2, 10), rng.randrange(2, 6)
            rows = [row for row, _ in random_scripts.rows(rng, 160, 2, 0)]
            script = b"".join(map(random_scripts.line, rows))
            of_station = b"".join(random_scripts.line(row._replace(receptions="")) for row in rows)
            words, sums = ["--m", str(dwell)], ["--m", str(dwell + window - 1)]
            status, output = ran([*SIM, *words, "--confirm", str(window)], script)
            said = [line.split(" ", 2) for line in output.decode().splitlines()]
            sent = {int(slot): group[0] for slot, what, *group in said if what == "sent"}
            log = [sent.get(slot, LOST) for slot in range(160)]
            encoded = ran([*ENCODE, *sums], of_station)[1].decode().splitlines()
            self.check(f"script {number}: the log", (status, log), (0, [it for it in encoded if it[0] != "#"]),
                       script.decode())
            views = "".join(f"{slot} {what[0]}\n" for slot, who, *what in said if who == "r0")
            self.check(f"script {number}: receiver 0", (0, views), shown(log, *words, "--confirm", str(window)),
                       script.decode())
            seen += ' text "' in views
        self.check_all("texts: often", seen > 15, True)

    def test_random_logs(self):
        """The output is that of `decode` for the same log in which only the segments that count came."""
        seen = collections.Counter()
        for number, _ in self.cases(range(LOGS)):
            rng = random.Random(f"{SEED} {number}")
            dwell, window = str(rng.randrange(2, 13)), rng.randrange(2, 10)
            turns = sorted(rng.sample(range(SLOTS), 3))
            slots = [random_slot(rng, sum(turn <= slot for turn in turns) % 2) for slot in range(SLOTS)]
            log, kept = ([line_of(it) for it in each] for each in (slots, counting(slots, window)))
            status, wanted = shown(kept, "--m", dwell)
            self.check(f"log {number}, M {dwell}, W {window}", shown(log, "--m", dwell, "--confirm", str(window)),
                       (status, wanted), "\n".join(log))
            seen["text"] += ' text "' in wanted
            seen["name"] += ' name "' in wanted
            seen["other than once"] += shown(log, "--m", dwell)[1] != wanted
        for what in ("text", "name", "other than once"):
            self.check_all(f"{what}: often", seen[what] > LOGS // 4, True)
