"""A short run of bench/fades: three of its stations, with the fades that our encoder is promised to survive.

2 (M + K) slots are 22.4 s at M + K = 128, so after a fade of up to 21 s some slots of each text are left. A radio with
the flag bit alone then shows no text that nobody set, also after restarts if the empty text comes first. Without the
empty text it shows some.
"""
from tests.support import PROGRAM, Case, script

LONGEST, RUNS = 240, 1


class Fades(Case):
    def play(self, place, is_right):
        """Plays a station of bench/fades with each fade. The rule says how many of its texts may be mixed."""
        fades = script("bench/fades")
        fades.PROGRAM = PROGRAM
        name, station = fades.STATIONS[place]
        for fade in (it for it in fades.FADES if it <= LONGEST):
            wrong, count = fades.played(station, fade, RUNS)
            self.check(f"{name}, fades of {fade} slots", is_right(wrong) or f"{wrong} of {count} are mixed", True)
            self.check(f"{name}, fades of {fade} slots: texts are shown", count > 100, True)

    def test_no_text_is_mixed(self):
        self.play(0, lambda wrong: wrong == 0)

    def test_some_texts_are_mixed_after_restarts_without_the_empty_text(self):
        self.play(-2, lambda wrong: wrong > 0)

    def test_no_text_is_mixed_after_restarts_with_the_empty_text(self):
        self.play(-1, lambda wrong: wrong == 0)
