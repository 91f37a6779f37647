"""Worlds by chance beside a diary of all that was on air: plain_worlds.py keeps it, and shares no code with the
program."""
import collections
import random

from tests import outputs, random_scripts
from tests.plain_worlds import (DWELL, LOST, SLOTS, WORLDS, Diary, Wrongs, accepted_in, decoded, encoded, random_rows,
                                script, shown)
from tests.support import ProgramCase, ran

PARTS = ("text", "name", "item", "tag1", "tag2")
# of a script with receivers that have a window, which show less
LONG = 200


def receptions_of(rng, late, window, slots):
    """Gives the receptions of a receiver: groups come late or not at all, and with a window some are wrong."""
    last, wrongs = -1, Wrongs(rng, window)
    for slot in range(slots):
        if window and rng.random() < 1 / 6:
            yield wrongs.reception(slot)
        elif window and rng.random() < 3 / 4:
            last = slot
            yield "G"
        else:
            reception, last = random_scripts.reception(rng, slot, late, last)
            yield reception


class Worlds(ProgramCase):
    def play(self, seed, dwell, late, window=0, slots=SLOTS):
        """Plays a world of two receivers, and tests what they show. Returns the parts that they show, slot by slot."""
        rng = random.Random(seed)
        both = zip(*(receptions_of(rng, late, window, slots) for _ in range(2)))
        rows = [row._replace(receptions="".join(it)) for row, it in zip(random_rows(rng, slots), both)]
        confirm = ["--confirm", str(window)] if window else []
        status, output = ran(["sim", "--pi", "C201", "--m", str(dwell), "--k", str(late), *confirm], script(rows))
        replies, _, changes, _ = outputs.parts_of(output, False)
        diary, within = Diary(rows, accepted_in(replies)), dwell + late + max(0, window - 1)
        views = [shown(changes[receiver], slots) for receiver in range(2)]
        found = [it for slot, pair in enumerate(zip(*views)) for it in diary.wrongs(slot, within, pair)]
        self.check(f"seed {seed}, M {dwell}, K {late}, W {window}: wrong views", (status, found), (0, []), script(rows))
        return [part for view in (*views[0], *views[1]) for part in view]

    def test_receivers_show_what_was_on_air(self):
        """All that two receivers show is right, whatever they lose and however late groups come."""
        seen = collections.Counter()
        for _, seed in self.cases(range(WORLDS)):
            seen.update(self.play(seed, DWELL, seed % 4))
        self.check_all("slots with each part", min(seen[it] for it in PARTS) > 100, True)

    def test_receivers_with_a_window_show_what_was_on_air(self):
        """The same with wrong groups, of which none comes twice within the window."""
        seen = collections.Counter()
        for _, seed in self.cases(range(WORLDS)):
            seen.update(self.play(seed, 6 + seed % 7, seed % 3, 2 + seed % 9, LONG))
        # few pairs of tags come twice within a window
        self.check_all("slots with each part", (seen["text"] > 1000, min(seen[it] for it in PARTS) > 5), (True, True))

    def test_some_receivers_of_twice_the_dwell_show_a_mix(self):
        found = []
        for seed in range(WORLDS):
            rng = random.Random(seed)
            slots, diary = encoded(rng, 0)
            log = [LOST if rng.random() < 1 / 4 else it for it in slots]
            for slot, view in enumerate(decoded(2 * DWELL, log)):
                found += diary.wrongs(slot, 2 * DWELL, [view])
        self.check("parts that were not on air", {"text"} <= {part for _, part, _ in found}, True)
