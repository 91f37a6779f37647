"""A short run of bench/listener: what displays show while groups are lost.

A display that keeps its text for a minute shows the right text as often as a radio that follows the A/B flag alone, and
no display of a receiver with M = 128 shows a mix.
"""
import re

from tests.support import PROGRAM, Case, ran, script, text_of

HOURS, SEED = 0.5, 7
# by which the right text of the display may be behind
POINTS = 0.5


class Listener(Case):
    def setUp(self):
        self.listener = script("bench/listener")
        self.displays = {name: self.display(*options) for name, options in self.listener.OPTIONS.items()}

    def display(self, *options):
        """Returns the display of `decode` with these options."""
        return self.listener.decoder(PROGRAM, options)

    def airs(self, stations):
        """Returns what these stations send."""
        return self.listener.airs_of(PROGRAM, stations, HOURS, SEED)

    def plays(self, airs):
        """Gives each loss, and the kinds of each display by its name."""
        for percent in self.listener.PERCENTS:
            for loss, seconds in self.listener.LOSSES.items():
                found = {name: self.listener.played(display, airs, percent, seconds, SEED)
                         for name, display in self.displays.items()}
                yield f"{percent} % lost, {loss}", found

    def check_no_mix(self, loss, found):
        """Checks that only the radio with the flag alone shows a mix."""
        mixes = {name: it["mix"] for name, it in found.items() if name != self.listener.FLAG_ALONE}
        self.check(f"{loss}: slots with a mix", mixes, dict.fromkeys(mixes, 0))

    def check_rules(self, name, air, dwell):
        """Checks that `audit` says yes to a station."""
        words = ["audit", "--running", "--padded", "--pi", "C201", "--m", str(dwell)]
        wanted = f"yes {len(air.lines)}\n".encode()
        self.check(f"{name}, M = {dwell}", ran(words, "\n".join(air.lines).encode())[1], wanted)

    def test_the_stations_keep_the_rules(self):
        stations = [*self.listener.WITHOUT_PAUSES, *self.listener.WITH_PAUSES]
        for number, air in enumerate(self.airs(stations)):
            self.check_rules(f"station {number}", air, self.listener.DWELL)

    def test_a_kept_text_is_as_often_right_as_by_the_flag_alone(self):
        mixes = 0
        for loss, found in self.plays(self.airs(self.listener.WITHOUT_PAUSES)):
            self.check_no_mix(loss, found)
            kept, alone = (found[it] for it in (self.listener.KEPT, self.listener.FLAG_ALONE))
            behind = 100 * (alone["right"] - kept["right"]) / alone.total()
            self.check(f"{loss}: points behind the flag alone", behind <= POINTS or behind, True)
            mixes += alone["mix"]
        self.check("the flag alone shows mixes", mixes > 0, True)

    def test_no_text_is_mixed_if_the_station_pauses(self):
        for loss, found in self.plays(self.airs(self.listener.WITH_PAUSES)):
            self.check_no_mix(loss, found)

    def test_an_m_of_a_slow_hour_is_none_for_a_fast_one(self):
        """Songs of 200 s pass with M = 1024. With texts of 30 s a receiver with this M shows mixes."""
        slow, fast = self.airs(self.listener.WITHOUT_PAUSES[:2])
        self.check_rules("songs of 200 s", slow, 1024)
        tunnels = self.listener.LOSSES["tunnels of 5 to 40 s"]
        mixes = {name: self.listener.played(display, [fast], 50, tunnels, SEED)["mix"] > 0
                 for name, display in (("M = 1024", self.display("--m", "1024")), ("kept", self.displays[self.listener.KEPT]))}
        self.check("texts of 30 s: mixes are shown", mixes, {"M = 1024": True, "kept": False})

    def test_each_slot_has_the_kind_of_what_is_shown(self):
        """Before its first text a station is not judged. At slot 537 the text B was on air 128 slots ago."""
        texts = [None] * 10 + ["A"] * 200 + ["B"] * 200 + ["C"] * 400
        changes = ['0 text "X"', '10 text "A"', "260 text none", '270 text "B   "', '600 text "CB"', '650 text "A"',
                   '700 text "C"']
        wanted = {"right": 200 + 140 + 110, "replaced": 50 + 127, "blank": 10, "old": 63 + 50, "mix": 50}
        self.check("slots of each kind", dict(self.listener.kinds(texts, changes)), wanted)

    def test_the_page_has_a_row_of_each_display_for_each_loss(self):
        section = text_of("docs/RECEIVER.md").split("## What your users lose\n")[1].split("\n## ")[0]
        rows = {tuple(it.split(" | ")[:2]) for it in re.findall(r"^\| (.*)$", section, re.M)}
        names = [*self.listener.OPTIONS, "libv4l2rds"]
        self.check("rows that the page lacks", {(loss, it) for loss in self.listener.LOSSES for it in names} - rows, set())
