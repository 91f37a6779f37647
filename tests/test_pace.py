"""docs/AIR.md, "Another maker's encoder": encode and decode pace the texts of an encoder without a dwell, and the audit of
its log says yes.

The encoders here are computed. They send a segment in every other slot, late or on time, and at once or after their
round.
"""
import random
import re
import subprocess

from tests.support import PROGRAM, SECONDS, Case

M, SLOTS, SEEDS = 128, 4000, range(8)
WORDS = "ABBA WATERLOO NEWS JAZZ WEATHER SONG NIGHT TRAIN SUN MOON RIVER HOUSE".split()
OTHER = "C201 0408 E0CD 2020"                                # a group without a text
LATEST = M // 2                                              # slots from a line of decode to the text on air


def ran(words, given):
    """Returns the output of the program."""
    return subprocess.run([PROGRAM, *words, "--pi", "C201"], input=given, stdout=subprocess.PIPE,
                          stderr=subprocess.DEVNULL, timeout=SECONDS, text=True).stdout


def text_of(rng):
    return " ".join(rng.sample(WORDS, rng.randint(2, 8)))[:64]


def paced(rng):
    """Returns the lines of the guide's pipe, as slots and texts, for a station with a new text whenever it may set one.
    One slot in two is free."""
    rows = [f"text,{text_of(rng)}" if slot % (2 * M) == M else "-," for slot in range(SLOTS)]
    log = ran(["encode"], "".join(f"{row},{slot % 2},\n" for slot, row in enumerate(rows)))
    return [(int(slot), text) for slot, text in re.findall(r'^(\d+) text "(.*)"$', ran(["decode"], log), re.M)]


def segments_of(text):
    """Returns the third and the fourth block of each segment of a text."""
    whole = text if len(text) == 64 else text + "\r"
    data = whole.encode() + b" " * (-len(whole) % 4)
    return [data[at:at + 4].hex().upper() for at in range(0, len(data), 4)]


def sent(commands, rng, latest, ends_its_round, flips=True):
    """Returns the log of an encoder that gets these texts, and has each on air up to `latest` slots later."""
    due = sorted((slot + rng.randint(0, latest), text) for slot, text in commands)
    lines, now, flag, place, waiting = [], [], 0, 0, None
    for slot in range(SLOTS + 2 * M):
        while due and due[0][0] <= slot:
            waiting = due.pop(0)[1]
        if waiting is not None and not (ends_its_round and place):
            now, waiting, place, flag = segments_of(waiting), None, 0, flag ^ flips
        if not now or slot % 2:
            lines.append(OTHER)
            continue
        lines.append(f"C201 {0x2000 | flag << 4 | place:04X} {now[place][:4]} {now[place][4:]}")
        place = (place + 1) % len(now)
    return "".join(f"{it}\n" for it in lines)


def judged(log):
    """Returns the answer of the audit: yes, or the fault."""
    answer = ran(["audit", "--running"], log).split()
    return answer[0] if answer[0] == "yes" else answer[2]


class Pace(Case):
    def test_two_lines_are_far_apart(self):
        for _, seed in self.cases(SEEDS):
            slots = [slot for slot, _ in paced(random.Random(seed))]
            self.check(f"seed {seed}: texts", len(slots) > 10, True)
            self.check(f"seed {seed}: too near", [b - a for a, b in zip(slots, slots[1:]) if b - a < 2 * M - 62], [])

    def test_an_encoder_that_flips_and_is_not_too_late_passes(self):
        for _, seed in self.cases(SEEDS):
            for ends_its_round in (False, True):
                rng = random.Random(seed)
                # up to 32 slots more go by until the round is over
                latest = LATEST - 32 if ends_its_round else LATEST
                log = sent(paced(rng), rng, latest, ends_its_round)
                self.check(f"seed {seed}, ends its round: {ends_its_round}", judged(log), "yes")

    def test_other_encoders_fail(self):
        """So the test above can fail: without the pace, without a flip, and much too late."""
        for _, seed in self.cases(SEEDS):
            rng = random.Random(seed)
            lines = paced(rng)
            often = [(slot, text_of(rng)) for slot in range(M, SLOTS, 60)]
            self.check(f"seed {seed}: without the pace", judged(sent(often, rng, 0, False)), "EarlyFlag")
            self.check(f"seed {seed}: without a flip", judged(sent(lines, rng, 0, False, flips=False)), "Changed")
            self.check(f"seed {seed}: too late", judged(sent(lines, rng, 300, False)), "EarlyFlag")
