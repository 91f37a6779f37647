"""Receivers with clocks of their own, by chance, beside the diary of plain_worlds.py."""
from tests.plain_worlds import DWELL, WORLDS, clocks
from tests.support import ProgramCase


class Clocks(ProgramCase):
    def test_clocks_that_lose_up_to_k_slots_within_a_dwell_show_what_was_on_air(self):
        for late in range(4):
            for _, seed in self.cases(range(WORLDS)):
                slots, wrongs = clocks(seed, late, late)
                self.check(f"seed {seed}, K = {late}", wrongs, [], "\n".join(slots))

    def test_some_clocks_that_lose_more_are_wrong(self):
        self.check("some view is wrong", any(clocks(seed, 0, DWELL)[1] for seed in range(WORLDS)), True)
