"""All faults of a log: the lane and the list, by the list of the program."""
import re

from tests.page_support import (HI, YO, ChromiumCase, FirefoxCase, call, click, cursor, first_examples, focus, of, settle,
                                text_of, to_tab, verdict_of)
from tests.test_page_faults import json_notes

TAGS = "C201 B148 2002 0000"
OTHER = "C201 2140 594F 0D20"
# 2 tags come 1 slot after their text, and 3 reuses the flag of 0
FEW = f"{HI}\n{YO}\n{TAGS}\n{HI}\n"


def listed(b):
    """Returns the sentences of the list of faults, if it is shown."""
    return b.run("[...document.querySelectorAll('#log-faults:not([hidden]) li')].map(it => it.textContent)")


def opened(b, log, **options):
    """Opens a log with M = 8 or these options."""
    to_tab(b, "log")
    call(b, "probe.open", "log", log, {"pi": "C201", "m": 8, "k": 0, **options})
    settle(b)


HARMLESS = "1 may be harmless, since no receiver shows a mix of texts: those with this flag agree, or differ in one segment."


def timed(*groups):
    """Returns a log of groups, each with a time of a day."""
    return "".join(f"{group} @2024/06/01 {time}\n" for group, time in groups)


def place(note, which):
    """Returns a place of a note as the list has it."""
    parts = [f"line {note[which + '_line']:,}", note.get(which + "_time")]
    return f"slot {note[which + '_slot']:,} ({', '.join(filter(None, parts))})"


def row(note):
    """Returns the line of the list for a note of `audit --all`."""
    among = f"{note['count']:,} of {note['judged']:,} {note['of']}{'s' if note['judged'] != 1 else ''}"
    where = f"first in {place(note, 'first')}, last in" if note["count"] > 1 else "in"
    told = f"{note['fault']}: {'tags before the first text' if note['of'] == 'before' else among}, {where} {place(note, 'last')}."
    return told + (f" {note['harmless']:,} may be harmless, since {note['because']}." if note["harmless"] else "")


class Listing:
    def test_a_list_has_each_kind_by_the_numbers_of_the_program(self):
        """It hides after a yes, and after an M that the form refuses."""
        b = self.b
        late = "".join(f"{group}\n" for group in [HI] * 8 + [YO] * 8 + [HI])
        cases = [("one of each", FEW), ("first and last", f"{HI}\n{OTHER}\n{HI}\n"),
                 ("a name", "C201 A140 504F 5020\nC201 A140 0148 4949\n"),
                 ("tags before the first text", f"{TAGS}\n{HI}\n{TAGS}\n"), ("a yes", late)]
        for name, log in cases:
            opened(b, log, running=True)
            notes = json_notes("audit --all --pi C201 --m 8 --running", log)
            self.check(name, listed(b), [row(it) for it in notes if it["kind"] == "faults"], log)
        self.check("a yes", of(b, "#log-faults", "hidden"), True)
        call(b, "probe.choose", "log-m", 10)
        settle(b)
        self.check("M = 10", listed(b), [f"EarlyFlag: 1 of 3 texts, in slot 16 (line 17). {HARMLESS}"])
        call(b, "probe.choose", "log-m", 0)
        settle(b)
        self.check("no M", of(b, "#log-faults", "hidden"), True)

    def test_the_times_of_a_list_and_of_a_no_are_those_of_the_lines(self):
        """In each form that FORMATS has."""
        b = self.b
        for time in ("2024-06-01T07:58:57.54Z", "2024-06-01T07:58:57+0200", "@2024/06/01 07:58:57.54", "1234567.89"):
            log = "".join(f"{group}\n" for group in [HI] * 2000 + [YO]) + f"{HI} {time}\n"
            opened(b, log, fill=False)
            own = time.removeprefix("@")
            self.check(f"{time} in the list", listed(b), [f"EarlyFlag: 1 of 3 texts, in slot 2,001 (line 2,002, {own}). {HARMLESS}"])
            rule = next(it["rule"] for it in json_notes("audit --pi C201 --m 8", log) if it["kind"] == "no")
            said = text_of(b, "#verdict")
            self.check(f"{time} in the words of the program", f"Slot 2,001, line 2,002 of the file, {own}: {rule}" in said, True, said)

    def test_a_log_is_opened_at_its_fault_and_buttons_lead_on(self):
        """With M slots before and behind it. Each place of the list is a button, and keys lead on too."""
        b = self.b
        groups = ([HI] * 300 + [YO] * 300) * 4
        for at in (700, 1250, 1900):
            groups[at:at + 3] = [OTHER] * 3
        opened(b, "".join(f"{it}\n" for it in groups), m=32, k=3)
        faults = b.run("[...$log.logTab.answer.audit.list.slots]")
        self.check("several faults", len(faults) > 2, True, str(faults))
        first, across = call(b, "probe.sight", "log")
        self.check("its first fault", (cursor(b, "log"), round(first), round(across)), (faults[0], faults[0] - 35, 71))
        self.check("in words", f"fault 1 of {len(faults)}" in text_of(b, "#log-time output"), True, text_of(b, "#log-time output"))
        slots = sorted(set(faults))
        click(b, "#log-time [data-do=nextFault]")
        self.check("the next one", (cursor(b, "log"), round(call(b, "probe.sight", "log")[1])), (slots[1], 71))
        focus(b, "log")
        b.key("f")
        self.check("and the next by a key", cursor(b, "log"), slots[2])
        b.key("d")
        self.check("and back", cursor(b, "log"), slots[1])
        click(b, "#log-time [data-do=previousFault]")
        self.check("and back by a button", cursor(b, "log"), slots[0])
        b.run("[...document.querySelectorAll('#log-kinds button')].at(-1).click()")
        settle(b)
        last = b.run("[...document.querySelectorAll('#log-kinds button')].at(-1).textContent").split()[1].replace(",", "")
        self.check("a place of the list", cursor(b, "log"), int(last))
        opened(b, f"{HI}\n" * 300)
        self.check("a yes has no such buttons", [of(b, f"#log-time [data-do={it}]", "hidden") for it in ("nextFault", "previousFault")], [True, True])
        self.check("and all in sight", call(b, "probe.sight", "log"), [0, 300])

    def test_a_slot_of_a_line_with_a_time_has_no_time_by_its_number(self):
        """An hour is missing before the fault, for which the page adds M slots. Without times a slot is so many slots after
        the first."""
        b = self.b
        hours = [(HI, f"{hour}:00:00.{part:02d}") for hour in ("07", "08") for part in (0, 9, 18)]
        for name, log, wanted in (
                ("a clock", timed(*hours, (OTHER, "08:00:00.27")), ["slot 6 of 7 · Changed, fault 1 of 1", ""]),
                ("seconds", "".join(f"{HI} {at}\n" for at in ("0.00", "0.09", "3600.1")) + f"{OTHER} 3600.2\n",
                 ["slot 11 of 12 · Changed, fault 1 of 1", ""]),
                ("none", f"{HI}\n" * 6 + f"{OTHER}\n",
                 ["slot 6 of 7 · 0.53 s · Changed, fault 1 of 1", "This slot is 0.53 s after the first."])):
            opened(b, log)
            told = "".join(re.findall(r"This slot is [\d.]+ s after the first\.", text_of(b, "#verdict")))
            self.check(name, [text_of(b, "#log-time output"), told], wanted, log)
        first_examples(b)

    def test_many_faults_have_few_elements(self):
        """Each text of two slots reuses the flag of the text before the previous one, except the first two."""
        b = self.b
        log = "".join(f"C201 21{4 + text % 2}0 {0x4141 + text % 20:04X} 4141\nC201 21{4 + text % 2}1 0D20 2020\n"
                      for text in range(10_000))
        said = verdict_of(b, log, 8)
        self.check("the answer", "EarlyFlag" in said, True, said)
        self.check("the count", [it.partition(", first")[0] for it in listed(b)], ["EarlyFlag: 9,998 of 10,000 texts"])
        click(b, "#log-time [data-do=all]")
        inks = call(b, "probe.inksOf", "log", "faults", "bad", "lane")
        self.check("the lane of faults has no room between them", inks["bad"] > inks["lane"] / 4, True, str(inks))
        first_examples(b)


class Chromium(Listing, ChromiumCase):
    pass


class Firefox(Listing, FirefoxCase):
    pass
