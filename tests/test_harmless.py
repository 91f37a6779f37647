"""Faults that `audit --all` calls harmless, beside a plain model by force on short logs by chance.

A fault that begins a text or a name is harmless only if no receiver that loses one burst of slots shows a mix between this
fault and the next one: a text or a name of which no text or name of the log has all segments.
"""
import json
import random

from tests.plain_audit import Audit
from tests.plain_receiver import LOST, run_of, segment_of
from tests.support import PROGRAM, ProgramCase, output
from tests.test_witness import line, logged

LOGS = 1000
SEED = 20261130
BEGIN = ("Changed", "EarlyFlag")
# texts that differ in one segment, in two, or in their length
TEXTS = ([b"98.0", b" MHz", b"\r   "], [b"98.5", b" MHz", b"\r   "], [b"99.0", b" MHz", b"\r   "], [b"98.0", b" FM\r"],
         [b"NEWS", b" FM\r"], [b"NEWS", b" MHz", b"\r   "])
NAMES = ([b"JAZZ", b" FM "], [b"ROCK", b" FM "], [b"JAZZ", b" AM "])


def log_by_chance(rng):
    """Returns some slots of an encoder that keeps no rule, mostly with whole texts of few different segments."""
    number, values = (2, TEXTS) if rng.random() < 0.7 else (10, NAMES)
    value, flag, slots = rng.choice(values), 0, []
    few = rng.sample(values, 2)
    while len(slots) < 18:
        if rng.random() < 0.6:
            value = rng.choice(few if rng.random() < 0.8 else values)
        flag ^= rng.random() < 0.7
        count = len(value) * rng.randrange(1, 3) - (rng.random() < 0.2)
        slots += [line(number, flag, at % len(value), value[at % len(value)]) for at in range(count)]
        slots += [LOST] * rng.choice((0, 0, 0, 1, 3))
    return slots


def values_of(slots, spacing):
    """Returns the texts or names of a log as (first slot, faults by which it begins, segments by their addresses), and the
    slots with a fault."""
    audit, faults = Audit(spacing, is_running=True), []
    for slot, it in enumerate(slots):
        if audit.slot(None if it == LOST else it.split(" ")):
            faults.append(slot)
    values = [value for of_service in audit.values.values() for value in of_service]
    return [(value.opened - spacing, value.broken, {(at, data) for _, at, data in value.segments})
            for value in values], faults


def shown(heard, dwell, slot):
    """Returns the segments of the text or name that is shown at the end of a slot, by their addresses, or None."""
    run, cells = run_of(heard, dwell, slot), {}
    for _, segment in run:
        cells.setdefault(segment.address, segment.body)
    size, found = 2 if run and run[0][1].service == "name" else 16, set()
    for address in range(size):
        if address not in cells:
            return None
        found.add((address, cells[address]))
        if size == 16 and b"\r" in cells[address]:
            break
    return found


def mixes(slots, dwell, sent):
    """Returns the slots in which a receiver that loses one burst shows a mix that it did not show before."""
    segments, found = [segment_of(it) for it in slots], set()
    for first in range(len(slots)):
        for last in range(first, len(slots)):
            heard, before = [], None
            for slot, segment in enumerate(segments):
                if segment and not first <= slot <= last:
                    heard.append((slot, segment))
                    now = shown(heard, dwell, slot)
                    if now and now != before and not any(now <= it for it in sent):
                        found.add(slot)
                    before = now
    return found


def harmless(slots, dwell):
    """Returns how many faults that begin a text or a name are called harmless."""
    words = ["audit", "--all", "--running", "--json-notes", "--pi", "C201", "--m", str(dwell)]
    notes = [json.loads(it) for it in output([PROGRAM, *words], logged(slots))[1].decode().splitlines() if it[:1] == "{"]
    return sum(it["harmless"] for it in notes if it["kind"] == "faults" and it["fault"] in BEGIN)


class ByChance(ProgramCase):
    def test_no_receiver_mixes_a_text_after_a_fault_that_is_called_harmless(self):
        """What is called harmless of a text is known at its end, so the log is cut there."""
        rng, counts = random.Random(SEED), {True: 0, False: 0}
        logs = ((rng.choice((3, 4, 6, 8, 12)), log_by_chance(rng)) for _ in range(LOGS))
        for number, (dwell, slots) in self.cases(logs):
            values, faults = values_of(slots, dwell)
            found, called = mixes(slots, dwell, [segments for *_, segments in values]), 0
            for (begin, broken, _), end in zip(values, [it[0] for it in values[1:]] + [len(slots)]):
                if not broken:
                    continue
                before, called = called, harmless(slots[:end], dwell)
                limit = min((it for it in faults if it > begin), default=len(slots))
                may_mix = any(begin <= it < limit for it in found)
                counts[may_mix] += 1
                if called > before:
                    self.check(f"seed {SEED}, log {number}, dwell {dwell}, slot {begin}: no mix", may_mix, False, logged(slots))
                    self.called = getattr(self, "called", 0) + 1
        self.check_all("faults with a mix, without one, and called harmless",
                       counts[True] > LOGS // 4 and counts[False] > LOGS // 4 and self.called > LOGS // 8, True)
