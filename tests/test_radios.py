"""Radios with the flag bit alone, by chance, beside the diary of plain_radios.py and beside `decode --m 65535`."""
import collections
import random

from tests.plain_radios import LONG_DWELL, PROMISES, Judge, decoded, lives, played, receptions, sent
from tests.support import ProgramCase

WORLDS, RADIOS = 400, 5


class Radios(ProgramCase):
    def test_2000_radios_keep_the_promises_whose_premises_hold(self):
        """Some break those whose premises fail."""
        seen, mixed_alone = collections.Counter(), 0
        for _, seed in self.cases(range(WORLDS)):
            rng = random.Random(seed)
            dwell, late = rng.choice((3, 4, 5)), rng.choice((0, 0, 1, 2))
            slots, broadcasts = sent(rng, dwell, late)
            for number in range(RADIOS):
                name, breaches, logs = f"radio {number} of world {seed}, M {dwell}, K {late}", [], []
                for life in lives(rng, receptions(rng, number > 0)):
                    views, judgements, log = played(life, slots, Judge(*broadcasts, dwell + late))
                    self.check(f"{name}: as decode --m {LONG_DWELL}", views, decoded(log), "\n".join(log))
                    logs += [*log, ""]
                    breaches += [it for it in judgements if it[1] and not it[2]]
                    seen.update(it[:3] for it in judgements)
                    mixed_alone += number == 0 and any(it[0] == "text" and not it[2] for it in judgements)
                self.check(f"{name}: breaches", breaches[:3], [], "\n".join(logs))
        for promise in PROMISES:
            self.check_all(f"{promise}: the premise holds often", seen[promise, True, True] > 1000, True)
            self.check_all(f"{promise}: some break it without the premise", seen[promise, False, False] > 20, True)
        self.check_all("some mix that lose nothing, after a restart with an unsafe text", mixed_alone > 5, True)
