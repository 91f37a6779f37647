"""The tab that looks at a log: its verdict, its words and its witnesses."""
import random
import re

from tests.page_support import (EVERY_100, GROUPS, HI, NOTHING, SEED, YO, ChromiumCase, FirefoxCase, call, click,
                                cursor, example, first_examples, focus, idle, move, of, program, run_program, settle,
                                settled_verdict, shown, text_of, to_tab, verdict_of)
from tests.slot import SLOT

GROUP_WORDS = [
    ("C201 2140 4849 0D20", "2A RadioText · flag A · segment 0 · C201 2140 4849 0D20"),
    ("C201 2153 6E63 8220", "2A RadioText · flag B · segment 3 · C201 2153 6E63 8220"),
    ("C201 A151 4D49 5820", "10A programme type name (PTYN) · flag B · segment 1 · C201 A151 4D49 5820"),
    ("C201 3156 0000 4BD7",
     "3A announcement of a data service · AID 4BD7 (RadioText Plus) in group 11A · C201 3156 0000 4BD7"),
    ("C201 0548 1234 5649", "0A station name (PS), not read · C201 0548 1234 5649"),
    ("C201 E140 1234 5649", "14A, not read · C201 E140 1234 5649"),
    ("F201 2140 4849 0D20", "2A · F201 2140 4849 0D20 · another programme"),
    ("C201 ---- 4849 0D20", "C201 ---- 4849 0D20 · not whole, so it counts as lost"),
    (NOTHING, "nothing received"),
]
EXPLAINED = [
    ("EarlyFlag", [GROUPS[2], GROUPS[3], "C201 2150 4E45 5753", "C201 2151 2046 4D0D", "C201 2140 504F 5020"],
     "Slot 4, line 5 of the file: a text reused the A/B flag less than M + K = 8 slots after the last group of the text "
     "before the previous one, in slot 1. This slot is 0.35 s after the first.",
     "Keep each text on air for at least M + K slots"),
    ("EarlyFlag", ["C201 A140 504F 5020", "C201 A150 4A41 5A5A", "C201 A140 504F 5020"],
     "Slot 2, line 3 of the file: a name (PTYN) reused the A/B flag", "flip the flag only for a new text"),
    ("Changed", [HI, "C201 2140 594F 0D20"],
     "Slot 1, line 2 of the file: a text changed without a flip of the A/B flag: if it changes in two segments, receivers show a mix. "
     "This slot",
     "Flip the flag with every change"),
    ("NotOneText", ["C201 2140 4849 0D21"],
     "Slot 0, line 1 of the file: the segments fit no text: byte 0x21 at place 3, after the carriage return. It may be harmless, "
     "since receivers show nothing behind the carriage return. This slot", "end the text with one carriage return"),
    ("NotOneText", ["C201 A140 0148 4949"],
     "Slot 0, line 1 of the file: the segments fit no name (PTYN): byte 0x01 at place 0. This slot", "A name has eight printable characters"),
    ("EarlyTag", ["# note", "C201 B158 8012 0985"],
     "Slot 0, line 2 of the file: RT+ tags came before any text. This slot", "If this 11A is not RT+, empty its lines"),
    ("EarlyTag", [HI, YO, "C201 B158 8012 0985"],
     "Slot 2, line 3 of the file: RT+ tags came less than M + K = 8 slots after their text started, in slot 1. This slot",
     "Send the first tags M + K slots after"),
    ("TagOutside", [HI, *[NOTHING] * 6, HI, "C201 B158 8012 0985"],
     "Slot 8, line 9 of the file: an RT+ tag ends past the end of its text. This slot", "Count the start from 0"),
]


def lost(b):
    """Returns the slots that the reader lost."""
    return call(b, "probe.lost")


def with_times(dice):
    """Returns a log of groups with times, as RDS Spy writes them or in seconds, with breaks, and lines without a
    time."""
    now, lines, spy = dice.randrange(10 ** 6) / 100, [], dice.random() < 0.6
    breaks, odd = [0.0876, 0.09, 0.18, 1, 3.5, -50, 0, 0.11, 90_000], ["", " @2024/13/01 00:00:00.00", " -1", " x"]
    for _ in range(dice.randrange(2, 40)):
        now = max(0, now + dice.choice(breaks if dice.random() < 0.3 else [0.0876]))
        day, rest = divmod(now, 86_400)
        clock = f"{int(rest // 3600):02d}:{int(rest // 60 % 60):02d}:{rest % 60:05.2f}"
        time_of_line = f" @2024/{6 + int(day) // 28:02d}/{1 + int(day) % 28:02d} {clock}" if spy else f" seen {now:.3f}"
        time_of_line = time_of_line if dice.random() < 0.95 else dice.choice(odd)
        lines.append(dice.choice(GROUPS[:8]) + time_of_line + dice.choice(["", "", "  "]))
        if dice.random() < 0.1:
            lines.append(dice.choice(["", "# note", "<x>"]))
    return dice.choice(["\n", "\r\n"]).join(lines) + dice.choice(["\n", ""])


class LogTab:
    def test_the_first_log_shows_its_mix_and_its_verdict(self):
        b = self.b
        to_tab(b, "log")
        call(b, "probe.choose", "log-example", 0)
        settled_verdict(b)
        self.check("its verdict", text_of(b, "#verdict h2 code"), "EarlyFlag")
        self.check("nothing is lost, and nothing is red", (lost(b), cursor(b, "log"), of(b, "#log-radio", "className")),
                   ([], 4, "radio"))
        click(b, "#verdict .witness button")
        idle(b)
        self.check("the button loses the slots of the witness", (lost(b), shown(b, "log-radio"), of(b, "#log-radio", "className")),
                   ([2, 3], "POP  FM", "radio mixed"))
        focus(b, "log")
        b.key("ArrowLeft")
        self.check("a key moves a slot back", (cursor(b, "log"), shown(b, "log-radio")), (3, "JAZZ FM"))
        b.key("l")
        idle(b)
        self.check("a key gives a lost slot back", lost(b), [2])
        told = of(b, "#log-time canvas", "ariaValueText").split(". ")
        self.check("the slider tells slot and group", told[:2], ["slot 3 of 6 · 0.26 s", "text group"])
        click(b, "#log-unlose")
        self.check("all received again", text_of(b, "#log-lines").splitlines()[-1], '5 text "POP MIX"')
        settled_verdict(b)
        click(b, "#verdict .witness button")
        idle(b)
        move(b, "log", 0)
        click(b, "#log-lose")
        self.check("a button loses a slot", lost(b), [2, 3, 0])

    def test_the_answer_is_drawn(self):
        """A bracket has the slots from the earlier one to the fault, how many it needs, and the first slot that is right."""
        b = self.b
        log = "".join(f"{it}\n" for it in (HI, YO, "C201 B158 8012 0985"))
        call(b, "probe.choose", "log-example", 0)
        parts = "[...document.querySelectorAll('#verdict .bracket :is(b, i)')].map(it => it.innerText)"
        self.check("the first example", b.run(parts), ["3 slots", "it needs 8", "slot 1", "slot 4", "right from slot 9"])
        self.check("in words", of(b, ".bracket", "ariaLabel"),
                   "From slot 1 to slot 4: 3 slots. It needs 8, so the first right slot is 9.")
        width = lambda query: b.run(f"document.querySelector('{query}').getBoundingClientRect().width")
        self.check("it is to scale", abs(width(".bracket .had") / width(".bracket") - 3 / 8) < 0.02, True)
        verdict_of(b, log, 8)
        self.check("tags", b.run(parts), ["1 slot", "it needs 8", "slot 1", "slot 2", "right from slot 9"])
        verdict_of(b, f"{HI}\nC201 2140 594F 0D20\n", 8)
        self.check("a rule without a distance", b.run(parts), [])
        first_examples(b)

    def test_the_words_of_a_bracket_have_room(self):
        """However much of it is there, and in a narrow window."""
        b = self.b
        boxes = ("[...document.querySelectorAll('#verdict .bracket :is(b, i)')].map(it => { const range = document.createRange();"
                 " range.selectNodeContents(it); return range.getBoundingClientRect(); }).map(it => [it.left, it.top, it.right, it.bottom])")
        for width in (1280, 390):
            b.size(width, 900)
            for have in (2, 64, 100, 127):
                verdict_of(b, "".join(f"{it}\n" for it in [HI] * 429 + [YO] * (have - 1) + [HI]), 128)
                found = b.run(boxes)
                hits = [(one, other) for i, one in enumerate(found) for other in found[:i]
                        if one[0] < other[2] and other[0] < one[2] and one[1] < other[3] - 1 and other[1] < one[3] - 1]
                self.check(f"{have} of 128 slots in {width} px", (len(found), hits), (5, []))
        b.size(1280, 900)
        first_examples(b)

    def test_displays_show_all_of_a_text(self):
        """Of 64 letters, with a name and tags, in each window."""
        b = self.b
        text = "Now on air: the long concert of the year, live from Berlin at 8!"
        segments = "".join(f"C201 21{0x40 + i:02X} {text[4 * i:4 * i + 4].encode().hex()[:4].upper()} {text[4 * i:4 * i + 4].encode().hex()[4:].upper()}\n"
                           for i in range(16))
        log = segments + "C201 A140 504F 5020\nC201 A141 4D49 5820\n" + "C201 3156 0000 4BD7\nC201 B158 8012 0985\n"
        for width in (1920, 1280, 390, 320):
            b.size(width, 900)
            call(b, "probe.open", "log", log, {"pi": "C201", "m": 64, "k": 0})
            move(b, "log", 19)
            for radio in ("log-radio", "log-alone"):
                inside = (f"(() => {{ const box = document.querySelector('#{radio} .lcd').getBoundingClientRect();"
                          f" return [...document.querySelectorAll('#{radio} .lcd span')].filter(it => {{ const own = it.getBoundingClientRect();"
                          " return own.right > box.right + 1 || own.bottom > box.bottom + 1; }).length; })()")
                self.check(f"{radio} in {width} px", (shown(b, radio), b.run(inside)), (text, 0))
                cut = b.run(f"[...document.querySelectorAll('#{radio} .lcd, #{radio} .lcd > div')].filter(it => it.scrollWidth > it.clientWidth + 1).length")
                self.check(f"{radio} in {width} px: nothing is cut", cut, 0)
        b.size(1280, 900)

    def test_a_mix_of_a_log_has_the_hues_of_its_texts(self):
        """As on the road."""
        b = self.b
        call(b, "probe.choose", "log-example", 0)
        settled_verdict(b)
        click(b, "#witness button")
        settle(b)
        hues = lambda radio: b.run(f"[...document.querySelectorAll('#{radio} .text span')].map(it => [it.textContent, it.className])")
        self.check("the mix", (hues("log-radio"), hues("log-alone")), ([["POP ", "hue-2"], [" FM", "hue-0"]],) * 2)
        move(b, "log", 1)
        self.check("a text of it", hues("log-radio"), [["JAZZ FM", "hue-0"]])

    def test_go_to_reads_a_time_of_the_log_as_the_clock(self):
        """An outage has its edge. A time that no slot has is refused, and a slot too."""
        b = self.b
        def clock(slot):
            seconds = 600 + slot * SLOT
            return f"@2024/06/01 00:{int(seconds // 60):02d}:{seconds % 60:05.2f}"
        lost = range(int(625 / SLOT), int(645 / SLOT))
        log = "".join(f"{HI} {clock(slot)}\n" for slot in range(15_000) if slot not in lost)
        call(b, "probe.open", "log", log, {"pi": "C201", "m": 128, "k": 0})
        def go(text):
            call(b, "probe.choose", "log-go", text)
            settle(b)
            return cursor(b, "log"), text_of(b, "#log-refused"), of(b, "#log-go", "ariaInvalid")
        edge = lost[0] - 1
        outage = f"No group came then. The one before it has the time {clock(edge)[1:]}."
        for text in ("20:35", "00:20:35", "0:20:35", "2024/06/01 00:20:35", "2024-06-01T00:20:35"):
            self.check(text, go(text), (edge, outage, None))
        self.check("hours and minutes", go("00:12")[0], int(120 / SLOT))
        self.check("a slot", go("7"), (7, "", None))
        none = f"No slot has this time. The log goes from {clock(0)[1:]} to {clock(14_999)[1:]}."
        for text in ("23:59:59", "9:99:99", "abc"):
            self.check(text, go(text), (7, none, "true"))
        self.check("a slot that is not there", go("15000")[1:], ("Give a slot below 15,000, or a time such as 1:30. The log has 21 min 54 s.", "true"))
        call(b, "probe.open", "log", f"{HI}\n" * 15_000, {"pi": "C201", "m": 128, "k": 0})
        self.check("without times", go("1:30"), (int(90 / SLOT), "It is 1 min 30 s after the first slot.", None))
        call(b, "probe.open", "log", "".join(f"{HI} {100 + slot * SLOT:.2f}\n" for slot in range(1000)), {"pi": "C201", "m": 128, "k": 0})
        self.check("seconds", go("110.5")[::2], (int(10.5 / SLOT), None))
        first_examples(b)

    def test_the_blocks_of_a_group_have_the_colours_of_what_they_mean(self):
        b = self.b
        verdict_of(b, f"{HI}\n", 8)
        parts = b.run("[...document.querySelectorAll('#log-group span')].map(it => [it.className, it.textContent])")
        self.check("words and blocks", parts, [["type", "2A RadioText"], ["flag", "flag A"], ["segment", "segment 0"],
                                               ["pi", "C201"], ["type", "2"], ["flag", "4"], ["segment", "0"],
                                               ["letters", "4849"], ["letters", "0D20"]])
        colours = b.run("[...new Set([...document.querySelectorAll('#log-group span')].map(it => getComputedStyle(it).color))].length")
        self.check("five colours", colours, 5)
        first_examples(b)

    def test_reading_can_be_stopped(self):
        b = self.b
        b.run("probe.keepBack(answer => answer.programmes)")
        b.run(f"probe.openFile(new File([{HI!r}], 'own.log')); undefined")
        b.until("document.querySelector('#log-stop').checkVisibility()")
        b.run("document.querySelector('#log-stop').click()")
        b.until("document.querySelector('#log').ariaBusy === null")
        self.check("stopped", text_of(b, "#verdict"), "No verdictReading was stopped.")
        b.run("probe.letGo()")
        first_examples(b)

    def test_a_window_shows_what_was_heard_twice(self):
        """Display, audit and link are those of the program with --confirm, and with W - 1 more slots of lateness."""
        b = self.b
        dice = random.Random(SEED)
        for number, log in self.cases("".join(f"{dice.choice(GROUPS[:8])}\n" for _ in range(40)) for _ in range(12)):
            m, k, w = dice.choice([4, 8, 64]), dice.choice([0, 3]), dice.choice([2, 9, 255])
            call(b, "probe.open", "log", log, {"pi": "C201", "m": m, "k": k, "w": w})
            words = ["decode", "--pi", "C201", "--m", str(m), "--confirm", str(w), "--why"]
            shown_lines = program(words, log.encode())[1]
            self.check(f"log {number}: display", text_of(b, "#log-lines"), shown_lines, log)
            answer = program(["audit", "--all", "--pi", "C201", "--m", str(m), "--k", str(k + w - 1)], log.encode())[1]
            self.check(f"log {number}: audit", text_of(b, "#audit-lines"), answer, log)
            click(b, "#log-share")
            b.until("location.hash.includes('log=')")
            self.check(f"log {number}: link", f"&w={w}&" in b.run("location.hash"), True)
        call(b, "probe.open", "log", example("corrected.log").decode(), {"pi": "C201", "m": 8, "k": 0, "w": 1})
        self.check("a window of 1", text_of(b, "#verdict"),
                   "No verdictWindow W must be a whole number from 2 to 255.")

    def test_lost_slots_by_time_are_noted_as_by_the_program(self):
        """Then the verdict is neither green nor red."""
        b = self.b
        dice, noted = random.Random(SEED), 0
        for number, (log, m) in self.cases((with_times(dice), dice.choice([8, 128])) for _ in range(60)):
            call(b, "probe.open", "log", log, {"pi": "C201", "m": m, "k": 0, "fill": False})
            notes = run_program(["audit", "--pi", "C201", "--m", str(m), "--k", "0"], log.encode())[2]
            at = re.search(r"^slot \d+ \(line (\d+)", "\n".join(notes), re.M)
            before = "".join(log.splitlines(keepends=True)[:int(at[1])] if at else log)
            lacks = any("Put rdsrt slots" in it for it in run_program(["decode", "--pi", "C201"], before.encode())[2])
            said = text_of(b, "#verdict")
            self.check(f"seed {SEED}, times {number}: noted", "takes the lines as slots without a gap" in said, lacks, log)
            if lacks:
                noted += 1
                self.check(f"seed {SEED}, times {number}: neither green nor red", of(b, "#verdict", "className"),
                           "verdict empty", log)
        self.check_all("lost slots were noted", noted > 3, True)
        hour = f"{HI} @2026/11/26 10:00:00.00\nC201 2150 4A4F 0D20 @2026/11/26 11:00:00.00\n"
        call(b, "probe.open", "log", hour, {"pi": "C201", "m": 128, "k": 0})
        said = ("Lost slots: the log spans 41106 slots by its times and has 2 lines. "
                "The audit takes the lines as slots without a gap, so this answer may be wrong.")
        self.check("an hour without a group", said in text_of(b, "#verdict") or text_of(b, "#verdict"), True)
        move(b, "log", 1)
        self.check("the time of a line", text_of(b, "#log-group").endswith(" @2026/11/26 11:00:00.00"), True)

    def test_lines_are_read_as_the_program_reads_them(self):
        b = self.b
        dice = random.Random(SEED)
        odd = ["", "\r", " ", "#", "<x>", "%", "\ufeff", "hello", HI + " @x", HI + "\r", HI + "x", HI + "\r ", HI[:-1],
               "C201  2140 4849 0D20",
               "c201 a14F 4849 0d20", "C201 ---- 4849 0D20", NOTHING, "---- --- 4849 0D20", "C201-2140 4849 0D20",
               " " + HI, "C201 21G0 4849 0D20"]
        for number in range(150):
            some = [dice.choice(odd) if dice.random() < 0.12 else dice.choice(GROUPS)
                    for _ in range(dice.randrange(30))]
            log = "\n".join(some) + dice.choice(["", "\n"])
            call(b, "probe.open", "log", log, {"pi": "C201", "m": 8, "k": 0})
            good = log.split("\n")
            bad = re.search(r"^fault line (\d+)", program(["decode", "--pi", "C201", "--m", "1"], log.encode())[1],
                            re.M)
            before = "\n".join(good[:int(bad[1]) - 1]) + "\n" if bad else log
            slots = program(["decode", "--pi", "C201", "--m", "1"], before.encode())[0]
            count = sum(1 for line in before.split("\n") if line.strip("\r") and line[0] not in "<#%")
            self.check(f"seed {SEED}, slots of odd log {number}", (b.run("$log.logTab.log.count"), slots), (count, 0),
                       log)

    def test_the_chosen_group_is_in_words(self):
        """The words are its type, flag, segment and blocks."""
        b = self.b
        call(b, "probe.open", "log", "".join(f"{line}\n" for line, _ in GROUP_WORDS), {"pi": "C201", "m": 8, "k": 0})
        for slot, (line, words) in enumerate(GROUP_WORDS):
            move(b, "log", slot)
            self.check(f"the group {line}", text_of(b, "#log-group"), words)
        first_examples(b)

    def test_a_no_has_the_note_of_the_program_and_the_cure(self):
        """It has no advice for a terminal."""
        b = self.b
        for fault, log, what, should in EXPLAINED:
            said = verdict_of(b, "".join(f"{line}\n" for line in log), 8)
            missing = [it for it in (what, should) if it not in said]
            self.check(f"{fault}: {what}", (text_of(b, "#verdict h2 code"), missing, "rdsrt" in said),
                       (fault, [], False))

    def test_a_witness_is_that_of_the_program(self):
        """Also far behind the no."""
        b = self.b
        dice, found = random.Random(SEED), 0
        groups = GROUPS[:8] + ["C201 2150 4E45 5753", "C201 2151 2046 4D0D", "C201 A150 4A41 5A5A",
                               "C201 A151 2046 4D20"]
        logs = ((dice.choice([2, 4, 8]), "".join(f"{dice.choice(groups)}\n" for _ in range(dice.randrange(4, 60))))
                for _ in range(40))
        for number, (m, log) in self.cases(logs):
            options, said = ["--pi", "C201", "--m", str(m)], verdict_of(b, log, m)
            if program(["audit", *options], log.encode())[0] == 0:
                self.check(f"seed {SEED}, log {number} passes", "✓ Passes with M = " in said, True, log)
                continue
            told = program(["witness", *options], log.encode())[1].splitlines()
            its = b.run("$log.logTab.witness")
            slots = its["lost"] and "-".join(map(str, sorted(set(its["lost"]))))
            self.check(f"seed {SEED}, witness of log {number}, M {m}",
                       [f"lose {slots}: {line}" for line in its["shown"]]
                       or ["no witness found with one burst lost"], told, log)
            found += bool(its["shown"])
        self.check_all("witnesses were found", found > 5, True)
        verdict_of(b, example("flags.log").decode(), 8)
        b.run("$verdict.showWitness({ lost: null, shown: [], failure: 'no memory for this input' }, {})")
        self.check("a search that fails", text_of(b, "#witness"),
                   "No witness: no memory for this input. A no says that a rule was broken.")
        # one text of one segment, whose flag turns each time, makes no mix
        harmless = "".join(f"C201 21{flag}0 4849 0D20\n" for flag in (4, 5, 4)) + f"{NOTHING}\n" * 60
        said = verdict_of(b, harmless + example("flags.log").decode(), 8)
        self.check("a witness far behind the no",
                   'loses slots 65 to 66 shows what a receiver that loses nothing does not: 67 text "POP  FM"' in said, True)

    def test_a_no_is_in_sight_and_says_what_was_not_tried(self):
        """The cursor of a log that was opened stands at the fault. With K the search for a witness says that it tries no
        late group. An example begins with the K of no option."""
        b = self.b
        log = example("flags.log").decode()
        call(b, "probe.open", "log", log + f"{NOTHING}\n" * 40, {"pi": "C201", "m": 8, "k": 0})
        settled_verdict(b)
        self.check("the cursor", (cursor(b, "log"), text_of(b, "#verdict [data-act=goTo]")), (4, "Go to slot 4"))
        call(b, "probe.open", "log", log, {"pi": "C201", "m": 2, "k": 3})
        settled_verdict(b)
        idle(b)
        self.check("the heading", text_of(b, "#verdict h2"), "✗ EarlyFlag with M = 2 (0.18 s) and K = 3")
        self.check("no witness", "The search tries no late group." in text_of(b, "#witness"), True, text_of(b, "#witness"))
        call(b, "probe.choose", "log-example", 0)
        self.check("an example after it", of(b, "#log-k", "value"), "0")

    def test_five_lanes_are_in_sight(self):
        """Of a log with a name and tags that gets a no with a witness, in a window of 1,280 x 800."""
        b = self.b
        b.size(1280, 800)
        call(b, "probe.choose", "log-example", 1)
        settled_verdict(b)
        settle(b)
        b.run("scrollTo(0, 0)")
        top = b.run("document.querySelector('#log-time canvas').getBoundingClientRect().top")
        ends = [top + it for it in b.run("$log.logTab.timeline.lanes.map(({ top, height }) => top + height)")]
        self.check("in sight", sum(end <= 800 for end in ends) >= 5, True, f"{ends}")
        b.size(1280, 900)

    def test_all_stations_of_a_log_are_offered(self):
        b = self.b
        log = "".join(f"{0xC200 + number:X} 2140 4849 0D20\n" for number in range(16))
        call(b, "probe.open", "log", log, {"pi": "C20F", "m": 8})
        self.check("stations", (of(b, "#log-pi", "options.length"), of(b, "#log-pi", "value")), (16, "C20F"))

    def test_a_file_without_a_slot_has_no_timeline(self):
        b = self.b
        for log in ("", "# a note\n", "\x00\x01\x02"):
            call(b, "probe.drop", "own.log", log)
            settle(b)
            seen = [of(b, query, "checkVisibility()") for query in ("#log-time", "#log .radios")]
            self.check(f"{log!r}", seen, [False, False])
        call(b, "probe.drop", "own.log", HI)
        settle(b)
        self.check("one slot", of(b, "#log-time", "checkVisibility()"), True)

    def test_each_task_takes_at_most_four_clicks(self):
        """Is my encoder safe, and when did the text change?"""
        b = self.b
        def clicks(*steps):
            for step in steps:
                step()
                settle(b)
            return len(steps)

        file = lambda: call(b, "probe.pick", "log-file", "own.log", EVERY_100)
        used = clicks(file)
        told = text_of(b, "#verdict")
        wanted = ["✗ EarlyFlag with M = 128 (11.2 s)", "Keep each text on air for at least M + K slots"]
        self.check("is my encoder safe, and what to change", (used <= 4, [it for it in wanted if it not in told]),
                   (True, []))
        used = clicks(lambda: click(b, "#tab-log"), file, lambda: click(b, "#log-time [data-do=previous]"))
        self.check("when did the text change", (used <= 4, text_of(b, "#log-time output")),
                   (True, "slot 101 of 300 · 8.85 s"))
        first_examples(b)


class Chromium(LogTab, ChromiumCase):
    pass


class Firefox(LogTab, FirefoxCase):
    pass
