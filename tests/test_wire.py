"""The headline itself, by the program alone: `encode`, damage by chance, and `decode` for two receivers.

plain_headline.py, which has the definitions of the headline once more, judges each line that is printed. It asks the
program nothing.
"""
import collections
import random

from tests import plain_headline, random_scripts
from tests.plain_worlds import LOST, random_rows, script
from tests.support import ProgramCase, ran

SCRIPTS, SLOTS = 500, 96
# a dwell that is longer by so many slots shows mixes
LONGER = 6
OTHERS = ("D3C2 2140 4849 0D20", "D3C2 2150 5448 4952", "C201 2140 ---- 0D20")
PARTS = ("text", "name", "tag1", "tag2")


def origins(rng, late):
    """Gives the slot of the log from which a receiver gets the group of each of its slots, or None: at most so many slots
    before, in the order of sending. It also loses groups in a row."""
    last, fading = -1, 0
    for slot in range(SLOTS):
        fading = fading - 1 if fading else rng.choice((0,) * 30 + (4, 12))
        reception, got = random_scripts.reception(rng, slot, late, last)
        lost = fading or reception in ("L", "R")
        last = last if lost else got
        yield None if lost else got


def as_log(rng, slots):
    """Returns the slots as a log in one of the forms that `decode` reads: with comments, groups of another programme and
    damaged groups in lost slots, small letters, more after the blocks, and either end of a line."""
    log = []
    for line in slots:
        if rng.random() < 1 / 32:
            log.append(rng.choice(("", "# 3 text ok", "<recorder>", "% 1")) + "\n")
        line = rng.choice(OTHERS) if line == LOST and rng.random() < 1 / 4 else line
        line = line.lower() if rng.random() < 1 / 8 else line
        log.append(line + rng.choice(("", "", "", " and more")) + rng.choice(("\n", "\n", "\r\n")))
    return log


def decoded(rng, dwell, log):
    """Returns the output of `decode`, and how many slots it reached. One run in eight ends at a malformed line."""
    if rng.random() < 1 / 8:
        log = [*log]
        log.insert(rng.randrange(len(log) + 1), "C201 2140 4849\n")
    reasons = ["--why"] if rng.random() < 1 / 4 else []
    status, output = ran(["decode", "--pi", "C201", "--m", str(dwell), *reasons], "".join(log).encode())
    output = output.decode()
    if status:
        # the slots before the malformed line
        log = log[:int(output.splitlines()[-1].removeprefix("fault line ")) - 1]
    return output, len(plain_headline.slots("".join(log)))


class Wire(ProgramCase):
    """`encode`, damage, `decode`."""

    def play(self, seed, longer=0):
        """Plays a script with two receivers. Returns the parts that they show, slot by slot, and those that are not safe,
        and M, K and the rows."""
        rng = random.Random(seed)
        dwell, late = rng.randrange(1, 9), rng.randrange(4)
        rows = list(random_rows(rng, SLOTS))
        log = ran(["encode", "--pi", "C201", "--m", str(dwell), "--k", str(late)], script(rows))[1].decode()
        slots = plain_headline.slots(log)
        self.check(f"seed {seed}: a line for each row", len(slots), SLOTS, script(rows))
        both = []
        for _ in range(2):
            # a slot without a group comes from no slot
            origin = [it if it is not None and slots[it] != LOST else None for it in origins(rng, late)]
            received = as_log(rng, (LOST if it is None else slots[it] for it in origin))
            self.check(f"seed {seed}: reaches", plain_headline.reaches(0xC201, late, log, "".join(received), origin), True)
            both.append(decoded(rng, dwell + longer, received))
        outputs, counts = zip(*both)
        unsafe = plain_headline.Script(script(rows).decode(), dwell + late).unsafe(*outputs, min(counts))
        shown = [word for word in PARTS for output in outputs
                 for content in plain_headline.displays(output, word, min(counts)) if not content.startswith("none")]
        return shown, list(unsafe), (dwell, late, rows)

    def test_what_is_decoded_was_on_air_by_the_script(self):
        """Whatever two receivers of the log lose, and however late groups come, each printed line is safe."""
        seen = collections.Counter()
        for _, seed in self.cases(range(SCRIPTS)):
            parts, found, (dwell, late, rows) = self.play(seed)
            self.check(f"seed {seed}, M {dwell}, K {late}: what is not safe", found, [], script(rows))
            seen.update(parts)
        self.check_all("slots with each part", min(seen[it] for it in PARTS) > 200, True)

    def test_the_judge_finds_the_mixes_of_a_longer_dwell(self):
        found = [word for seed in range(50) for _, word, _ in self.play(seed, LONGER)[1]]
        self.check("parts that are not safe", {"text", "name", "tag1"} <= set(found), True)
