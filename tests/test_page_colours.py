"""What the page draws in red: parts that nobody sent, at each time, beside a plain history of what was on air; and the
hues of texts."""
import json
import random
import re

from tests import plain_worlds, random_scripts
from tests.page_support import (HI, NOTHING, SCHEMES, YO, ChromiumCase, FirefoxCase, call, click, example, move, of,
                                open_script, program, settle, text_of, verdict_of)

SEED, SCRIPTS, SLOTS = 20261127, 40, 90
# arguments of a script with the form in which the program prints them: escapes of characters in the table, and pieces that
# mixed make another text of the list
TEXTS = (("ABCDEFG", "ABCDEFG"), ("STUVWXY", "STUVWXY"), (r"\x41BCDWXY", "ABCDWXY"), ("STUVEFG", "STUVEFG"),
         (r"caf\x82 noir", "café noir"), ('say "hi"', r"say \x22hi\x22"), (r"\x22", r"\x22"), ("", ""))
NAMES = ((r"\x41BC", "ABC     "), ("JAZZ FM", "JAZZ FM "), ("JAZZ", "JAZZ    "))


def random_script(rng):
    """Returns a script with two receivers that lose bursts, and the printed form of what each row sets."""
    rows, sets, lost = [], [], [0, 0]
    for _ in range(SLOTS):
        kind = rng.choices(("text", "name", "-"), weights=(4, 1, 5))[0]
        argument, shown = rng.choice({"text": TEXTS, "name": NAMES, "-": (("", None),)}[kind])
        lost = [max(0, left - 1) if left else rng.choice((0, 0, 0, rng.randrange(1, 12))) for left in lost]
        receptions = "".join("L" if left else "G" for left in lost)
        rows.append(random_scripts.Row(kind, argument, "1", receptions))
        sets.append((kind, shown))
    return plain_worlds.script(rows).decode(), sets


def on_air(script, sets, dwell):
    """Returns the text and the name on air in each slot, by the replies to the commands."""
    output = program(["sim", "--pi", "C201", "--pty", "10", "--m", str(dwell)], script.encode())[1]
    accepted = {int(slot) for slot in re.findall(r"^(\d+) (?:text|name) ok$", output, re.M)}
    now, airs = {}, []
    for slot, (kind, shown) in enumerate(sets):
        now = {**now, kind: shown} if slot in accepted else now
        airs.append(now)
    return airs


class Colours:
    def test_red_and_old_bars_are_what_was_not_on_air(self):
        """Random scripts with escapes and with texts that return. A red bar was never on air, an old one was, but not in the
        last M slots, and each other one was in these."""
        b, red, old, calm = self.b, 0, 0, 0
        for number in range(SCRIPTS):
            rng = random.Random(f"{SEED} {number}")
            dwell, (script, sets) = rng.randrange(2, 6), random_script(rng)
            open_script(b, script, m=dwell, k=0)
            airs, wrong = on_air(script, sets, dwell), []
            for name, start, end, value, is_mix, is_old in [run for lane in call(b, "probe.bars") for run in lane]:
                kind = "name" if "name" in name else "text"
                if not isinstance(value, str):
                    continue
                was = [[any(air.get(kind) == value for air in airs[first:slot + 1]) for first in (0, max(0, slot + 1 - dwell))]
                       for slot in range(start, end)]
                red, old, calm = red + is_mix, old + is_old, calm + (not is_mix and not is_old)
                if any((is_mix, is_old) != (not ever, ever and not lately) for ever, lately in was):
                    wrong.append((name, start, end, value, is_mix, is_old))
            self.check(f"script {number}, M {dwell}: wrong bars", wrong, [], script.encode())
        self.check_all("red bars, old ones and others", (red > 20, old > 20, calm > 500), (True, True, True))

    def test_an_escape_of_a_character_is_that_character(self):
        b = self.b
        open_script(b, "-,,1,G\n" * 2 + "text,\\x41BC,1,G\n" + "-,,1,G\n" * 10, m=2, k=0)
        self.check("no mix", (of(b, "#script-radio", "className"), text_of(b, "#script-count")),
                   ("radio", "No receiver shows a mix here. Lose more slots: a whole text and the next flip of the flag."))

    def test_a_text_that_is_on_air_later_is_a_mix_before(self):
        b = self.b
        script = example("mix.csv").decode()
        later = f"{script}text,A1: closed today,1,GGG\n" + "-,,1,GGG\n" * 40
        for name, rows in (("as it is", script), ("with the text later", later)):
            open_script(b, rows, m=8, k=0)
            self.check(f"{name}: the mix is counted", text_of(b, "#script-count"),
                       "Ordinary radios show a mix: a text. With rdsrt none does.")
            move(b, "script", 60)
            self.check(f"{name}: it is red", (of(b, "#script-alone", "className"), text_of(b, "#script-alone .led")),
                       ("radio alone mixed", "mix"))

    def test_no_text_of_a_log_is_old(self):
        """The program does not say it of a log: after a pause the same text is on air again."""
        b = self.b
        other = "C201 0408 1234 5678\n"
        log = f"{HI}\n" + other * 10 + f"{HI}\n{other}" * 15
        verdict_of(b, log, 8)
        texts = [(it["from"], it["value"]) for it in call(b, "probe.runs", "log", "view", "text")]
        self.check("the dwell drops the text and shows it again", texts, [(0, "HI"), (8, None), (11, "HI")])
        move(b, "log", 20)
        inks = call(b, "probe.inksOf", "log", "ordinary radio", "stale", "shade-text-0")
        self.check("one calm bar", (inks["stale"], inks["shade-text-0"] > 1000), (0, True), log)

    def test_a_replaced_tag_is_not_red(self):
        """The station replaced the tag before the radio had the text whole. The words name it, and no mix is counted."""
        b = self.b
        got = {0, 1, 2, 3, 4, 9, 11, 24, 26}
        commands = {4: "text,ABCDEFGH", 10: "tags,0 1 1 0 1 0 0 0", 14: "tags,1 0 4 4 3 0 0 0"}
        rows = "".join(f"{commands.get(slot, '-,')},1,{'G' if slot in got else 'L'}\n" for slot in range(30))
        open_script(b, rows, m=4, k=0)
        move(b, "script", 27)
        words = of(b, "#script-time canvas", "ariaValueText").split("An ordinary radio: ")[1]
        self.check("it is old", (of(b, "#script-alone", "className"), text_of(b, "#script-alone .led"), words),
                   ("radio alone", "tag: replaced", "“ABCDEFGH”, title: AB, replaced."))
        self.check("no mix is counted", text_of(b, "#script-count").startswith("No receiver shows a mix here."), True)

    def test_a_witness_is_red_even_if_its_text_comes_later(self):
        b = self.b
        log = example("flags.log").decode() + "C201 0408 1234 4142\n" * 40
        log += "C201 2150 504F 5020\nC201 2151 2046 4D0D\n" * 10
        self.check("a witness is found", "a receiver that loses slots 2 to 3" in verdict_of(b, log, 8), True)
        click(b, "#witness button")
        self.check("its text is red", (text_of(b, "#log-radio .lcd .text"), of(b, "#log-radio", "className")),
                   ("POP  FM", "radio mixed"))

    def in_schemes(self):
        """Gives the name of each scheme while the page has it."""
        yield "light"

    def reds(self, tab):
        """Returns the lanes of a tab that have a red pixel, and the elements in sight that are red."""
        lanes = call(self.b, "probe.lanes", tab)
        red_lanes = [name for name in dict.fromkeys(lanes) if sum(call(self.b, "probe.inksOf", tab, name, "bad", "wrong").values())]
        reds = [call(self.b, "probe.colour", it) for it in ("bad", "wrong")]
        is_red = f"(it) => {json.dumps(reds)}.some(red => [it.color, it.backgroundColor, it.borderLeftColor].includes(red))"
        seen = ("[...document.querySelectorAll('body *')].filter(it => it.checkVisibility() && !(it instanceof SVGElement)"
                f" && ({is_red})(getComputedStyle(it))).map(it => `${{it.tagName}}#${{it.id}}`)")
        return red_lanes, self.b.run(seen)

    def test_each_text_has_its_hue_everywhere(self):
        """On air, in each lane, and in the displays: the texts of a station have three hues in turn. Kinds have others."""
        b = self.b
        for scheme in self.in_schemes():
            open_script(b, example("mix.csv").decode(), m=8, k=0)
            settle(b)
            lanes = {lane: call(b, "probe.inksOf", "script", lane, *(f"shade-text-{it}" for it in range(3)))
                     for lane in ("on air", "ordinary radio", "with rdsrt")}
            self.check(f"{scheme}: three hues on air", [count > 500 for count in lanes["on air"].values()], [True] * 3)
            self.check(f"{scheme}: and below", [max(it.values()) > 500 for it in lanes.values()], [True] * 3)
            shades = ("text-0", "text-1", "text-2", "name-0", "tags-0")
            colours = {call(b, "probe.colour", f"shade-{shade}") for shade in shades}
            self.check(f"{scheme}: five colours", len(colours), 5)
            move(b, "script", 60)
            hues = lambda display: b.run(f"[...document.querySelectorAll('#script-{display} .text span')].map(it => it.className)")
            self.check(f"{scheme}: the displays", (hues("air"), hues("alone")),
                       (["hue-2"], ["hue-0", "hue-2", "hue-2", "hue-2"]))

    def test_red_is_for_mixes_and_noes_alone(self):
        """Lost slots, restarts, refused commands and faults have other colours."""
        b = self.b
        for scheme in self.in_schemes():
            refused = "-,,1,GL\n" * 9 + "text,HI,1,GL\ntext,HO,1,RL\n" + "-,,1,GG\n" * 20
            for name, script in (("lost slots", refused), ("a fault", refused + "bad\n")):
                open_script(b, script, m=8, k=0)
                settle(b)
                self.check(f"{scheme}: a script with {name}", self.reds("script"), ([], []))
            open_script(b, example("mix.csv").decode(), m=8, k=0)
            settle(b)
            self.check(f"{scheme}: a script with a mix", (self.reds("script")[0], of(b, "#script-alone", "className")),
                       (["  ordinary radio"], "radio alone mixed"))
            passes = f"{HI}\n" * 20 + f"{NOTHING}\n" * 3 + f"{YO}\n" * 20
            verdict_of(b, passes, 8)
            call(b, "probe.lose", 4, 5, 6, 7)
            settle(b)
            self.check(f"{scheme}: a log with lost slots that passes", self.reds("log"), ([], []))
            call(b, "probe.choose", "log-m", "0")
            settle(b)
            self.check(f"{scheme}: a number out of bounds", self.reds("log"), ([], []))
            verdict_of(b, f"{HI}\nbad\n", 8)
            self.check(f"{scheme}: a malformed line", self.reds("log"), ([], []))
            verdict_of(b, example("flags.log").decode(), 8)
            lanes, elements = self.reds("log")
            self.check(f"{scheme}: a no", (lanes, {"DIV#verdict", "CODE#"} <= set(elements)), (["faults"], True))


class Chromium(Colours, ChromiumCase):
    def in_schemes(self):
        for scheme in SCHEMES:
            self.b.scheme(scheme)
            settle(self.b)
            yield scheme
        self.b.scheme("light")


class Firefox(Colours, FirefoxCase):
    pass
