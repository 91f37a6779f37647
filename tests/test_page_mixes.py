"""Receivers of the page: mixes with the flag bit alone, and why a receiver shows no text."""
import re

from tests.page_support import (HI, NOTHING, ChromiumCase, FirefoxCase, call, click, example, example_of, move, of,
                                open_script, program, reload, shown, text_of, to_tab)


def runs_of(b, *view):
    """Returns the slots from which a display of a tab shows another text, with the text."""
    tab, which, *receiver = view
    runs = [[it["from"], it["value"]] for it in call(b, "probe.runs", tab, which, "text", *receiver)]
    return [run for before, run in zip([[0, None, "none"], *runs], runs) if before[-1] != run[-1]]


class Mixes:
    def test_a_mix_of_tags_is_red(self):
        """A receiver loses a text and gets its tags. The words name the tags."""
        b = self.b
        rows = ["-,,1,"] * 48
        rows[8:10] = ['text,"Édith Piaf, Milord",1,', "tags,1 1 4 0 9 1 12 5,1,"]
        rows[24:26] = ['text,"Kraftwerk, Model",1,', "tags,0 1 4 0 8 1 11 4,1,"]
        script = "".join(f"{row}G\n" for row in rows)
        sent = dict(re.findall("^(\\d+) sent (.*)$", program(["sim", "--pi", "C201", "--m", "8"], script.encode())[1],
                               re.M))
        lost = [slot for slot in range(24, 48) if sent.get(str(slot), "").startswith("C201 2")]
        open_script(b, "".join(f"{row}{'L' if slot in lost else 'G'}\n" for slot, row in enumerate(rows)), m=8, k=0)
        log = "".join(f"{sent.get(str(slot), NOTHING)}\n" for slot in range(48))
        call(b, "probe.open", "log", log, {"pi": "C201", "m": 8, "k": 0, "lost": lost})
        for tab, led, text, words in (("script", "tag: mix", ", old", "mix"),
                                      ("log", "tag: mix", "", "mix")):
            to_tab(b, tab)
            move(b, tab, 47)
            self.check(f"{tab}: a mix of tags is red",
                       (of(b, f"#{tab}-alone", "className"), text_of(b, f"#{tab}-alone .led")),
                       ("radio alone mixed", led))
            told = of(b, f"#{tab}-time canvas", "ariaValueText").split("An ordinary radio: ")[1]
            self.check(f"{tab}: and is in the words", told,
                       f"“Édith Piaf, Milord”{text}, artist: Édith Pia, {words}, title:  Milo, {words}.")
            self.check(f"{tab}: with the dwell there is none", of(b, f"#{tab}-radio", "className"), "radio")
            move(b, tab, 22)
            self.check(f"{tab}: tags that were sent are not red", of(b, f"#{tab}-alone", "className"), "radio alone")

    def test_the_flag_bit_alone_is_the_program_with_the_longest_dwell(self):
        b = self.b
        for number, name in enumerate(("flags.log", "accents.log")):
            call(b, "probe.choose", "log-example", number)
            click(b, "#log-unlose")
            words = ["decode", "--pi", of(b, "#log-pi", "value"), "--m", "65535"]
            told = re.findall(r'^(\d+) text (?:"(.*)"|none)$', program(words, example(name))[1], re.M)
            wanted = [[int(slot), text or None] for slot, text in told]
            self.check(f"the flag bit alone over {name}", (runs_of(b, "log", "alone"), len(wanted) > 0),
                       (wanted, True))
        open_script(b, "".join(f"text,HI,1,{letter}\n" for letter in "GGRGLR"), m=1, k=0)
        self.check("it restarts with its receiver", runs_of(b, "script", "alone", 0),
                   [[1, "HI"], [2, None], [3, "HI"], [5, None]])
        for slot, word in ((2, "the receiver restarted"), (5, "no part for M slots")):
            move(b, "script", slot)
            self.check(f"why no text is shown in slot {slot}", shown(b, "script-radio"), f"— {word} —")
        to_tab(b, "log")
        many = f"{HI}\n" + f"{NOTHING}\n" * 65_534
        for text, wanted in ((many * 2, [[0, 131_070]]), (many + f"{NOTHING}\n", [[0, 65_535], [65_535, 65_536]])):
            call(b, "probe.open", "log", text, {"pi": "C201", "m": 8})
            runs = call(b, "probe.runs", "log", "alone", "text")
            got = [[it["from"], it["to"]] for it in runs]
            self.check(f"what it keeps of {text.count(chr(10))} slots", got, wanted)

    def test_the_examples_say_why_no_text_is_shown(self):
        """They open on a mix of an ordinary radio beside a receiver with rdsrt."""
        b = self.b
        reload(b)
        example_of(b, "log", "A long tunnel")
        lines = program(["sim", "--pi", "C201", "--m", "8"], example("mix.csv"))[1]
        slot = re.search("^(\\d+) r1 text", lines, re.M)[1]
        told = f"The receiver with rdsrt shows no text. It shows the next one when it is complete: in slot {slot}."
        for tab in ("log", "script"):
            to_tab(b, tab)
            kinds = [of(b, f"#{tab}-{it}", "classList.contains('mixed')") for it in ("radio", "alone")]
            self.check(f"the first of {tab}", (kinds, text_of(b, f"#{tab}-why")), ([False, True], told))
            move(b, tab, slot)
            self.check(f"and where {tab} shows it", (shown(b, f"{tab}-radio"), text_of(b, f"#{tab}-why")),
                       ("B7: closed today", ""))

    def test_each_cause_of_no_text_has_its_word(self):
        """The next text is incomplete, nothing came for the dwell, or the receiver restarted."""
        b = self.b
        rows = ["-,,1,G"] * 48
        rows[8], rows[24] = "text,The first of two texts,1,G", "text,Another one of so many words,1,G"
        rows[28] = "restart,,1,G"
        both = "".join(f"{row}\n" for row in rows)
        # the dwell ends in slot 28
        rows = [f"-,,1,{'L' if 21 <= slot < 29 else 'G'}" for slot in range(48)]
        rows[8] = "text,HELLO WORLD,1,G"
        lost = "".join(f"{row}\n" for row in rows)
        for script, wanted in ((both, {24: "waits for all parts", 46: "waits for all parts"}), (lost, {28: "no part for M slots"})):
            open_script(b, script, m=8, k=0)
            for slot, word in wanted.items():
                move(b, "script", slot)
                self.check(f"why no text is shown in slot {slot}", shown(b, "script-radio"), f"— {word} —")

    def test_after_a_restart_only_the_empty_text_prevents_a_mix(self):
        """The flag begins at 0 again."""
        b = self.b
        rows = b.run("RDSRT_EXAMPLES.script.at(-1).text").splitlines()
        with_it, without = rows[:26] + rows[52:], rows[:52]
        for name, script, mixes in (("without the empty text", without, ["Road B7: closed", "Road B7: opesed"]),
                                    ("with the empty text", with_it, [])):
            open_script(b, "".join(f"{row}\n" for row in script), m=8, k=0)
            all_shown = [text for _, text in runs_of(b, "script", "alone", 0) if text is not None]
            told = ("Ordinary radios show mixes: 2 texts. With rdsrt none does."
                    if mixes
                    else "No receiver shows a mix here. Lose more slots: a whole text and the next flip of the flag.")
            self.check(f"restart {name}: mixes", [it for it in all_shown if f"text,{it}" not in "\n".join(script)],
                       mixes)
            self.check(f"restart {name}: texts", len(all_shown) - len(mixes), 2 if mixes else 3)
            self.check(f"restart {name}: count", text_of(b, "#script-count"), told)


class Chromium(Mixes, ChromiumCase):
    pass


class Firefox(Mixes, FirefoxCase):
    pass
