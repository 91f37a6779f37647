"""`witness --lose` beside a plain check of the definition on short logs by chance, and on worked logs.

The plain check compares the output of `decode` for the log without the lost slots with that for the whole log.
"""
import random

from tests.calls import FLAGS
from tests.support import ProgramCase, ran
from tests.test_witness import LOST, decoded, line, logged, random_log, thing_of

NONE = "no mix with these slots lost"
LOGS = 250
SEED = 20261128
LONGEST_DWELL = 65535
NEVER = 1 << 64


def lose(slots, dwell, spans, alone=False):
    """Returns the status and the lines of the command."""
    words = ["witness", "--pi", "C201", "--m", str(dwell), f"--lose={spans}"] + ["--flag-alone"] * alone
    status, output = ran(words, logged(slots))
    return status, output.decode().splitlines()


def written(bursts):
    """Returns bursts as the option takes them."""
    return ",".join(str(first) if first == last else f"{first}-{last}" for first, last in bursts)


def first_slots(lines):
    """Returns the slot in which each thing is shown first."""
    first = {}
    for it in lines:
        first.setdefault(thing_of(it), int(it.split(" ")[0]))
    return first


def mixes(slots, dwell, bursts, alone):
    """Returns the line of each text, name or tag that is new in a slot if these bursts are lost, and that a receiver
    that loses nothing does not show up to M - 1 slots later."""
    own = LONGEST_DWELL if alone else dwell
    emptied = [LOST if any(first <= at <= last for first, last in bursts) else it for at, it in enumerate(slots)]
    known = first_slots(decoded(slots, own))
    shown, before, now, lines = {}, {}, -1, []
    for it in decoded(emptied, own):
        at, part, *_ = it.split(" ")
        if int(at) != now:
            before, now = dict(shown), int(at)
        if part == "item":
            continue
        thing = thing_of(it)
        shown[part] = thing
        if not it.endswith(" none") and thing not in before.values() and known.get(thing, NEVER) >= now + dwell:
            lines.append(it)
    return lines


def logs_by_chance():
    """Gives a dwell, a log, and the bursts to lose, of which the last may be behind its end."""
    rng = random.Random(SEED)
    for _ in range(LOGS):
        slots, bursts, at = sum((random_log(rng) for _ in range(4)), []), [], rng.randrange(6)
        while at < len(slots):
            bursts.append((at, at + rng.randrange(3)))
            at = bursts[-1][1] + 1 + rng.randrange(12)
        yield rng.choice((3, 4, 6, 9)), slots, bursts


class ByChance(ProgramCase):
    def test_the_lines_are_those_of_all_mixes(self):
        counts = {False: 0, True: 0}
        several = 0
        for number, (dwell, slots, bursts) in self.cases(logs_by_chance()):
            for alone in (False, True):
                wanted = mixes(slots, dwell, bursts, alone)
                name = f"seed {SEED}, log {number}, dwell {dwell}, lost {written(bursts)}, flag alone: {alone}"
                self.check(name, lose(slots, dwell, written(bursts), alone),
                           (1, wanted) if wanted else (0, [NONE]), logged(slots))
                counts[alone] += bool(wanted)
                several += len(wanted) > 1
        self.check_all("logs with mixes, by the dwell and by the flag alone",
                       all(LOGS // 15 < it < LOGS - LOGS // 15 for it in counts.values()) or counts, True)
        self.check_all("logs with several mixes", several > 10, True)


class Worked(ProgramCase):
    # six texts of two segments whose flag turns each time, in 12 slots
    TEXTS = [line(2, at % 2, part, bytes([65 + 4 * at + 2 * part] * 4) if part == 0 else b"%d%d\r " % (at, at))
             for at in range(6) for part in (0, 1)]

    def test_the_log_of_readme(self):
        flags = FLAGS.decode().splitlines()
        found = (1, ['4 text "POP  FM"'])
        for spans in ("2-3", "2,3", "02-3", "2-3,6-4294967295"):
            self.check(f"flags.log, {spans} lost", lose(flags, 8, spans), found)
        for spans in ("0", "5", "9-12", "0-5"):
            self.check(f"flags.log, {spans} lost", lose(flags, 8, spans), (0, [NONE]))
        self.check("no log", lose([], 8, "0"), (0, [NONE]))
        self.check("a bad line", lose([*flags, "x"], 8, "2-3"), (1, ["fault line 7"]))

    def test_two_bursts_that_make_a_mix_each(self):
        """The first segment of a text with the second one of the text before the previous one, in slots 4 and 8."""
        both = lose(self.TEXTS, 12, "2-3,6-7")
        self.check("two bursts", both, (1, mixes(self.TEXTS, 12, [(2, 3), (6, 7)], False)))
        slots = [it.split(" ")[0] for it in both[1]]
        self.check("slots of both", slots, ["4", "8"])
        self.check("the first one", lose(self.TEXTS, 12, "2-3"), (1, both[1][:1]))
        self.check("the second one", lose(self.TEXTS, 12, "6-7"), (1, both[1][1:]))

    def test_the_flag_alone_has_no_dwell(self):
        """With M = 2 the old segment is dropped. A radio by the flag alone joins it to the next text of its flag."""
        log = [self.TEXTS[0], *[LOST] * 9, self.TEXTS[2], self.TEXTS[3], self.TEXTS[5]]
        self.check("with the dwell", lose(log, 2, "10-11"), (0, [NONE]))
        status, lines = lose(log, 2, "10-11", alone=True)
        self.check("by the flag alone", (status, lines), (1, mixes(log, 2, [(10, 11)], True)))
        self.check("slot of the mix", [it.split(" ")[0] for it in lines], ["12"])

    def test_spans_that_are_none(self):
        bad = ["", ",", "3-", "-3", "7-3", "3,3", "3-7,7", "3-7,5", "3,,4", ",3", "3,", "3-4-5", "a", "0x3", "3 ", "+3",
               "3;4", "4294967296", "0-4294967296", "99999999999999999999"]
        for spans in bad:
            self.check(f"--lose={spans}", lose([], 8, spans), (2, ["fault lose"]))
        words = ["witness", "--pi", "C201"]
        self.check("no spans", ran([*words, "--flag-alone"]), (2, b"fault lose\n"))
        self.check("no PI", ran(["witness", "--pi", "C20", "--lose", "x"]), (2, b"fault pi\n"))
        self.check("many spans", lose([], 8, ",".join(str(2 * at) for at in range(10_000))), (0, [NONE]))
        self.check("twice", ran([*words, "--lose", "1", "--lose", "2"])[0], 2)

    def test_a_long_log(self):
        """A log of 40,000 slots with 625 texts, of which each fourth is lost."""
        rows = [f"text,{at // 64:03} at {at // 64:03},1,\n" if at % 64 == 0 else "-,,1,\n" for at in range(40_000)]
        log = ran(["encode", "--pi", "C201", "--m", "16"], "".join(rows).encode())[1].decode().splitlines()
        slots = [it for it in log if it[0] != "#"]
        bursts = [(at, at + 67) for at in range(0, 40_000, 256)]
        self.check("a lawful log", lose(slots, 16, written(bursts)), (0, [NONE]))
        status, lines = lose(slots, 65535, written(bursts))
        self.check("a dwell that is too long for it", (status, lines), (1, mixes(slots, 65535, bursts, False)))
        self.check("mixes of it", len(lines) > 10 or lines, True)
