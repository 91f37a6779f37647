"""The page adds the lost slots of a log with times, as `slots` does, before it judges and shows the log."""
import random
import subprocess

from tests.page_support import (HI, NOTHING, SEED, YO, ChromiumCase, FirefoxCase, call, click, of, program, settle,
                                settled_verdict, text_of, verdict_of)
from tests.slot import SLOT
from tests.support import PROGRAM
from tests.test_page_faults import json_notes

TEXTS = ([HI], [YO], ["C201 2140 4142 4344", "C201 2141 0D20 2020"], ["C201 2150 5A5A 0D20"])


def station(dice, dwell):
    """Returns the slots of an encoder that keeps each text for M slots or somewhat more, or at times less."""
    slots, number = [], dice.randrange(4)
    while len(slots) < 12 * dwell:
        segments = TEXTS[number % 4]
        stays = dwell + dice.choice([1, 1, 2, -3 if dice.random() < 0.2 else 1])
        slots += [segments[slot % len(segments)] for slot in range(stays)]
        number += 1
    return slots


def recorded(dice, slots, share):
    """Returns the lines of the slots that were received, with their times in hundredths of a second."""
    return [f"{group} {100 + number * SLOT:.2f}" for number, group in enumerate(slots) if dice.random() >= share]


def kind_of(notes):
    """Returns the class of the card for these notes of `audit`, if the times have no break."""
    kinds = {it["kind"] for it in notes}
    if "no" in kinds:
        return "empty" if "lack" in kinds else "no"
    return "empty" if kinds & {"few", "lack", "nothing", "no_group"} else ""


def right(dice, spacing):
    """Returns the slots of an encoder that keeps each text for M + K slots or somewhat more."""
    slots, number = [], dice.randrange(4)
    while len(slots) < 10 * spacing:
        segments = TEXTS[number % 4]
        slots += [segments[slot % len(segments)] for slot in range(spacing + dice.randrange(3))]
        number += 1
    return slots


def right_encoders(coarse, stepped):
    """Yields so many recordings of right encoders with times in whole seconds, and so many with a clock that was set: what they
    are, M, K, the whole log, and what was recorded of it."""
    dice = random.Random(SEED)
    for number in range(coarse + stepped):
        is_coarse = number < coarse
        m, k = dice.choice([8, 16, 32, 64, 128]), 0 if is_coarse else dice.choice([0, 1, 3, 5, 8])
        slots, share, start = right(dice, m + k), dice.uniform(0.02, 0.2), dice.uniform(100, 1000)
        at, step = dice.randrange(len(slots)), dice.choice([-3600, -60, -7, -2, 2, 9, 300, 4000, 90_000])
        clock = lambda slot: start + slot * SLOT + (90_000 + step * (slot >= at) if not is_coarse else 0)
        written = lambda slot: f"{int(clock(slot))}" if is_coarse else f"{clock(slot):.3f}"
        log = "".join(f"{group} {written(slot)}\n" for slot, group in enumerate(slots) if dice.random() >= share)
        yield ("whole seconds" if is_coarse else "a clock that was set"), m, k, "".join(f"{it}\n" for it in slots), log


class Slots:
    def test_each_card_is_that_of_slots_and_audit(self):
        b, dice, seen = self.b, random.Random(SEED), set()
        for number in range(60):
            dwell = dice.choice([8, 16, 32])
            slots = station(dice, dwell)
            log = "\n".join(recorded(dice, slots, dice.choice([0.02, 0.05, 0.1]))) + "\n"
            filled = subprocess.run([PROGRAM, "slots", "--m", str(dwell)], input=log.encode(), stdout=subprocess.PIPE, check=True)
            wanted = kind_of(json_notes(f"audit --pi C201 --m {dwell}", filled.stdout.decode()))
            said = verdict_of(b, log, dwell)
            got = of(b, "#verdict", "className").replace("verdict", "").strip()
            self.check(f"seed {SEED}, log {number}", got, wanted, said)
            seen.add(wanted)
        self.check_all("cards of several kinds", len(seen) > 1, True)

    def test_what_was_added_is_told_and_can_be_left_out(self):
        b = self.b
        lines = [f"{HI} {number * SLOT:.2f}" for number in range(40) if number not in range(10, 17)]
        verdict_of(b, "\n".join(lines) + "\n", 8)
        self.check("the line", text_of(b, "#log-filled"), "7 lost slots added by the times")
        self.check("the command", text_of(b, "#audit-command").startswith("rdsrt slots --m 8 | rdsrt audit --all"), True)
        self.check("the slots", b.run("$log.logTab.log.count"), 40)
        call(b, "probe.lose", 20)
        click(b, "#log-fill")
        settled_verdict(b)
        self.check("without", (text_of(b, "#log-filled"), "rdsrt slots" in text_of(b, "#audit-command"), call(b, "probe.lost")),
                   ("Add the lost slots by the times", False, [13]))
        click(b, "#log-fill")
        settled_verdict(b)
        self.check("again, and the same group is lost", (text_of(b, "#log-filled"), call(b, "probe.lost")),
                   ("7 lost slots added by the times", [20]))

    def test_lines_are_those_of_the_file(self):
        """The faults are in the slots of the filled log. The page names the line of the file beside the words of the program."""
        b = self.b
        slots = [HI] * 9 + [YO] * 3 + [HI] * 9
        lines = ["# a comment", HI, *(f"{group} {number * SLOT:.2f}" for number, group in enumerate(slots) if number not in (2, 3, 4))]
        said = verdict_of(b, "\n".join(lines) + "\n", 8)
        line = lines.index(f"{HI} {12 * SLOT:.2f}") + 1
        self.check("the line of the no", f"Slot 12, line {line} of the file, {12 * SLOT:.2f}: a text reused" in said.replace("“", ""), True, said)
        listed = b.run("[...document.querySelectorAll('#log-kinds li')].map(it => it.textContent)")
        self.check("and of the list", listed, [f"EarlyFlag: 1 of 3 texts, in slot 12 (line {line}, {12 * SLOT:.2f}). 1 may be harmless, since no receiver "
                                      "shows a mix of texts: those with this flag agree, or differ in one segment."])
        self.check("what was left out", text_of(b, "#log-filled"), "3 lost slots added by the times; 1 group without a time left out")

    def test_logs_that_are_left_as_they_are(self):
        """Without times, or without a slot that is missing."""
        b = self.b
        timed = [f"{HI} {number * SLOT:.2f}" for number in range(9)]
        for name, lines in (("no times", [HI] * 9), ("all slots", timed), ("a slot without a group", [*timed, NOTHING])):
            verdict_of(b, "\n".join(lines) + "\n", 8)
            self.check(name, (of(b, "#log-fills", "hidden"), "rdsrt slots" in text_of(b, "#audit-command")), (True, False))

    def test_lines_before_a_malformed_one_are_filled_and_judged(self):
        """Those of a recording that was cut, at each place of its last line."""
        b = self.b
        lines = [f"{HI} {number * SLOT:.2f}" for number in range(100) if number not in range(10, 17)]
        log = "\n".join(lines)
        for cut in range(len(lines[-1]) - 18, len(lines[-1])):
            said = verdict_of(b, log[:-cut], 8)
            self.check(f"cut by {cut}", (of(b, "#verdict", "className"), text_of(b, "#log-filled")),
                       ("verdict", "7 lost slots added by the times; line 93 and all after it left out"), said)
            self.check(f"cut by {cut}: the words", ("✓ Passes up to line 92 with" in said, "fault line 93: " in said), (True, True), said)
        said = verdict_of(b, f"{HI}\n# a note\n{YO}\nbad\n{HI}\n", 8)
        self.check("without times", text_of(b, "#verdict h2"), "✓ Passes up to line 3 with M = 8 (0.70 s)", said)
        self.check("its command", text_of(b, "#audit-command"), "head -n 3 | rdsrt audit --all --pi C201 --m 8 --k 0")

    def test_groups_without_a_time_are_left_out_as_slots_does(self):
        b = self.b
        lines = [f"{HI} {number * SLOT:.2f}" for number in range(2000)]
        lines[1000] = HI
        said = verdict_of(b, "\n".join(lines) + "\n", 8)
        self.check("the line", text_of(b, "#log-filled"), "1 lost slot added by the times; 1 group without a time left out")
        self.check("the program's sentence", "1 group without a time was left out. A time looks like" in said, True, said)

    def test_another_dwell_adds_other_slots_at_a_break(self):
        """Another K and W too: M + K of them. The lost slots stay those of the same groups."""
        b = self.b
        log = f"{HI} 10.0\n{HI} 10.1\n{YO} 2.0\n"
        for numbers, count in (({"m": 8}, 8), ({"m": 16}, 16), ({"m": 8, "k": 5}, 13), ({"m": 8, "k": 5, "w": 6}, 18)):
            said = verdict_of(b, log, **numbers)
            self.check(f"{numbers}", text_of(b, "#log-filled"),
                       f"{count} lost slots added by the times, at 1 break of the times at least M + K each")
            self.check(f"{numbers}: the card", (of(b, "#verdict", "className"), "the times have 1 break, before line 3" in said),
                       ("verdict empty", True), said)
        verdict_of(b, log, 8)
        call(b, "probe.lose", 1, 10)
        for field, value, lost in (("k", 5, [1, 15]), ("w", 6, [1, 20]), ("m", 20, [1, 32])):
            call(b, "probe.choose", f"log-{field}", value)
            settle(b)
            self.check(f"{field} = {value}", call(b, "probe.lost"), lost)
            self.check(f"{field} = {value}: the command", text_of(b, "#audit-command").partition(" | ")[0], f"rdsrt slots --m {lost[1] - 2}")

    def test_no_right_encoder_is_red(self):
        """With times in whole seconds, or with a clock that was set, and with lost groups. The whole log passes. tests/slot.py
        has the time of a slot."""
        b, seen = self.b, set()
        for number, (kind, m, k, whole, log) in enumerate(right_encoders(12, 24)):
            passes = program(["audit", "--pi", "C201", "--m", str(m), "--k", str(k)], whole.encode())[0] == 0
            said = verdict_of(b, log, m, k=k)
            name = of(b, "#verdict", "className").replace("verdict", "").strip()
            self.check(f"seed {SEED}, {kind} {number}", (passes, name in ("", "empty")), (True, True), f"{said}\n{log}")
            seen.add((kind, name))
        self.check_all("green and grey", len(seen) > 2 or seen, True)

    def test_a_no_over_coarse_times_is_grey(self):
        """With the program's sentence."""
        b = self.b
        lines = [f"{group} {100 + int(number * SLOT)}" for number, group in enumerate([HI] * 100 + [YO] * 6 + [HI] * 100)]
        said = verdict_of(b, "\n".join(lines) + "\n", 8)
        self.check("the card", (of(b, "#verdict", "className"), text_of(b, "#verdict h2")), ("verdict empty", "Cannot say"), said)
        self.check("the sentence", "the times vary by more than the grain: " in said, True, said)
        self.check("the box", text_of(b, "#log-filled"), "No lost slot added: the times are too coarse")


class SlotsInChromium(Slots, ChromiumCase):
    pass


class SlotsInFirefox(Slots, FirefoxCase):
    pass
