"""Faults and warnings of the page, beside those of the program."""
import json
import random
import re
import subprocess

from tests.page_support import (EVERY_100, HI, NOTHING, SEED, YO, ChromiumCase, FirefoxCase, call, click, example,
                                first_examples, idle, move, of, open_script, run_program, settle, settled_verdict, shown,
                                text_of, to_tab, verdict_of)
from tests.slot import SLOT
from tests.support import PROGRAM

# the same text of another station
OTHER = HI.replace("C201", "F000")
BAD_ROW = re.compile(r"fault row (\d+) \(line (\d+)\)")
SOME_ROWS = ["-,,1,G"] * 6 + ['"-","",1,G', '""', "", "", '-,"a\n,b",1,G', '-,"a""b",1,G', '-,"a"b,1,G', '"a\n\nb"',
                              "restart,,1,G"]


def results(b, tab):
    """Returns all that a tab shows of a result: texts, marks of a mix, lanes and lines. The road has its own displays."""
    found = lambda query: b.run(f"[...document.querySelectorAll('#{tab} {query}:not(#road *)')].map(it => it.textContent)")
    lanes = len(call(b, "probe.lanes", tab))
    return found(".lcd .text:not(.none)"), len(found(".mixed")), lanes, text_of(b, f"#{tab}-lines")


def json_notes(words, log):
    """Returns the notes of the program over a log as objects."""
    done = subprocess.run([PROGRAM, *words.split(), "--json-notes"], input=log.encode(), capture_output=True, check=False)
    return [json.loads(it) for it in done.stderr.decode().splitlines()]


class Faults:
    def test_no_old_result_stays_beside_a_fault(self):
        """A sentence names the input that the page does not play."""
        b = self.b
        nothing = [], 0, 0, ""
        number = "{} must be a whole number from {} to {}."
        rows = [("log", "m", "", number.format("Dwell M", 1, "65,535")),
                ("log", "m", "1e2", number.format("Dwell M", 1, "65,535")),
                ("log", "k", "1025", number.format("Late K", 0, "1,024")),
                ("script", "m", "1e2", number.format("Dwell M", 1, "65,535")),
                ("script", "k", "", number.format("Late K", 0, "1,024"))]
        for tab, field, value, told in rows:
            to_tab(b, tab)
            call(b, "probe.choose", f"{tab}-example", 0)
            was, before = of(b, f"#{tab}-{field}", "value"), results(b, tab)
            call(b, "probe.choose", f"{tab}-{field}", value)
            settle(b)
            said = text_of(b, "#verdict p" if tab == "log" else "#script-fault")
            self.check(f"{tab}-{field} {value!r}", (said, results(b, tab), before != nothing), (told, nothing, True))
            call(b, "probe.choose", f"{tab}-{field}", was)
            settle(b)
            self.check(f"{tab}-{field} {was!r} again", results(b, tab), before)
        call(b, "probe.choose", "log-m", "")
        call(b, "probe.open", "log", EVERY_100)
        self.check("a log beside an empty M", (results(b, "log"), text_of(b, "#verdict h2")), (nothing, "No verdict"))
        for text, told in (("-,,1,GGGGGGGGG\n", "The script has 9 receivers. The page plays at most 8."),
                           ("-,,1,\n" * 200_001, "The script has 200,001 rows. The page plays at most 200,000.")):
            call(b, "probe.choose", "script-example", 0)
            call(b, "probe.open", "script", text)
            self.check(told, (text_of(b, "#script-fault"), results(b, "script"), text_of(b, "#script-count")),
                       (told, nothing, ""))
        first_examples(b)

    def test_a_malformed_line_or_row_is_named_and_shown(self):
        b = self.b
        said = verdict_of(b, f"# note\n{HI}\nC201 <b>40 4849\n", 8)
        named = f'fault line 3: "C201 <b>40 4849": block 2 has 5 characters, expected 4; a log line looks like {HI}.'
        self.check("a bad line is named", (said.startswith("✓ Passes up to line 2 with"), f"Left out: this line and all after it: {named}" in said),
                   (True, True), said)
        self.check("and its text is no HTML", b.run("[...document.querySelectorAll('#verdict b')].map(it => it.textContent)"), ["Left out:"])
        said = verdict_of(b, f"# note\nbad\n{HI}\n", 8)
        self.check("before each slot", said, f'Line 2 is malformedfault line 2: "bad": it has no space; a log line looks like {HI}. No slot comes before it.')
        rows = [
            ("-,,1,G\n\n-,,1\n", "row 2 (line 3): expected 4 fields (COMMAND,ARGUMENT,FREE,RECEPTIONS), found 3"),
            ("-,,1,G\n-,,1,GG\n", "row 2 (line 2): RECEPTIONS: the number of receivers is 2, but the first row has 1"),
            ("text,\u2603,1,G\n",
             "row 1 (line 1): ARGUMENT: rdsrt's character table has no '\u2603', at character 1"),
        ]
        for text, why in rows:
            open_script(b, text, m=8, k=0)
            self.check(f"a bad row is named: {why}", text_of(b, "#script-fault"),
                       f"fault {why}. The rows from this one on are not played.")
        open_script(b, "text,HI,1,G\n" * 5 + "text,\u2603,1,G\n" + "-,,1,G\n" * 6, m=1, k=0)
        move(b, "script", 3)
        self.check("a text is shown before a bad row", (shown(b, "script-radio"), shown(b, "script-alone")),
                   ("HI", "HI"))
        ends = b.run("$script.scriptTab.timeline.lanes.map(({ codes, runs }) => codes?.length ?? runs?.end ?? 0)")
        self.check("no lane goes on behind it", [it for it in ends if it > 5], [])
        for slot in (5, 11):
            move(b, "script", slot)
            all_shown = [shown(b, f"script-{it}") for it in ("air", "radio", "alone")]
            self.check(f"slot {slot} behind it is not played", all_shown, ["— not played —"] * 3)

    def test_the_row_of_a_fault_is_that_of_the_program(self):
        """Also after rows of two quotation marks, empty lines, and each line end."""
        b = self.b
        dice, seen = random.Random(SEED), set()
        scripts = ['-,,1,G\n""\n-,,1,G\n', '""\r-,,1,G\r', '-,,1,G\r-,,1,G\r\r-,,2,G\r', "-,,1,G\r-,x,1,G"]
        for _ in range(60):
            rows = [dice.choice(SOME_ROWS) for _ in range(dice.randrange(1, 12))]
            end = dice.choice(["\n", "\r\n", "\r", None])
            scripts.append("".join(row.replace("\n", end or "\n") + (end or dice.choice(["\n", "\r\n", "\r"]))
                                   for row in rows))
        for number, script in self.cases(scripts):
            # the program counts line feeds, so it gets the script with only line feeds
            plain = re.sub("\r\n?", "\n", script).rstrip("\n") + "\n"
            told = BAD_ROW.search("".join(run_program(["sim", "--pi", "C201"], plain.encode())[2]))
            open_script(b, script, m=128, k=0)
            got = BAD_ROW.search(text_of(b, "#script-fault"))
            self.check(f"seed {SEED}, the row of script {number}", got and got[1], told and told[1], script)
            if told:
                seen.add(plain.split("\n")[int(told[2]) - 1])
        self.check_all("several kinds of bad rows", len(seen) > 4 or seen, True)

    def test_an_empty_yes_has_a_warning(self):
        b = self.b
        noted, no_kind = "Nothing to auditThe program answers yes, with a note: ", "no 2A, 10A or 11A group of C201"
        rows = [
            ("", "empty", f"{noted}the input is empty: the yes says nothing."),
            ("# a note\n", "empty", f"{noted}no group of C201 in 0 slots: the yes says nothing."),
            (f"{NOTHING}\n" * 3, "empty", f"{noted}no group of C201 in 3 slots: the yes says nothing."),
            ("C201 0000 0000 0000\n", "empty", f"{noted}{no_kind}: the yes says nothing."),
            ("C201 2940 4849 0D20\n" * 2, "empty",
             f"{noted}{no_kind}: the yes says nothing; 2 groups 2B were not judged."),
            (f"{HI}\n", "",
             "✓ Passes with M = 8 (0.70 s)The recorded slot keeps the rules. Take a receiver with this M whose groups arrive "
             "unchanged, in order and at most K slots late. It shows no mix of two texts, whichever groups it loses."
             "The program: judged in 1 slot: 1 text, 0 names, 0 pairs of tags."),
            (f"{HI}\n{NOTHING}\n", "",
             "✓ Passes with M = 8 (0.70 s)The recorded slot keeps the rules. Take a receiver with this M whose groups arrive "
             "unchanged, in order and at most K slots late. It shows no mix of the recorded texts, whichever groups it loses."
             "The program: judged in 2 slots, 1 without a group: 1 text, 0 names, 0 pairs of tags."
             "In a slot without a group none was sent, or it was not recorded. The yes covers the others."),
            (f"{HI}\n" * 1188 + f"{NOTHING}\n" * 1812, "",
             "judged in 3000 slots, 1812 without a group: 1 text, 0 names, 0 pairs of tags."),
        ]
        for log, kind, wanted in rows:
            said = verdict_of(b, log, 8)
            colour = b.run("getComputedStyle(document.querySelector('#verdict')).borderLeftColor")
            ink = call(b, "probe.colour", "other" if kind else "good")
            self.check(f"a yes over {log[:20]!r}", (wanted in said and "undefined" not in said or said, colour),
                       (True, ink))

    def test_a_yes_over_a_log_that_does_not_show_enough_is_grey(self):
        """The program notes that slots are absent by the times, or that few slots have a group."""
        b = self.b
        cannot = "Cannot sayThe program answers yes with M = 8 (0.70 s), but the log does not show enough. It says: judged in "
        few = "Lost slots: 1 of 2 slots have a group of C201, less than nine tenths: nothing is known of what was sent in the others."
        rows = [
            ("absent", f"{HI} 0\n{HI} 3\n", "Lost slots: the log spans 35 slots by its times and has 2 lines. "),
            ("few", f"{HI} 0\n{NOTHING}\n", few),
            ("few of this station", f"{HI} 0\n{OTHER} {SLOT:.2f}\n", few),
        ]
        for name, log, wanted in rows:
            said = verdict_of(b, log, 8, fill=False)
            colour = b.run("getComputedStyle(document.querySelector('#verdict')).borderLeftColor")
            self.check(name, [cannot in said, wanted in said, colour], [True, True, call(b, "probe.colour", "other")], said)
        nine = "".join(f"{HI} {number * SLOT:.2f}\n" for number in range(9))
        said = verdict_of(b, f"{nine}{NOTHING}\n", 8, fill=False)
        self.check("nine slots in ten", "✓ Passes with M = 8" in said, True, said)

    def test_the_card_is_grey_if_the_program_notes_it(self):
        """Of random logs, with times and without: the page has no rule of its own."""
        b, dice, greys = self.b, random.Random(SEED), 0
        for number in range(40):
            is_timed, now, lines = dice.random() < 0.7, 0, []
            for _ in range(dice.randrange(2, 40)):
                now += dice.choice([1, 1, 1, 1, 1, 1, 2, 20])
                line = dice.choice([HI, HI, HI, HI, OTHER, NOTHING] if dice.random() < 0.5 else [HI])
                lines.append(f"{line} {now * SLOT:.2f}\n" if is_timed and line != NOTHING else f"{line}\n")
            log = "".join(lines)
            kinds = {it["kind"] for it in json_notes("audit --pi C201 --m 8", log)}
            verdict_of(b, log, 8, fill=False)
            grey = of(b, "#verdict", "className") == "verdict empty"
            self.check(f"seed {SEED}, log {number}: grey", grey, bool(kinds & {"few", "lack", "nothing", "no_group"}), log)
            greys += grey
        self.check_all("some are grey, and some are not", 5 < greys < 38, True)

    def test_a_group_of_another_station_is_a_slot_without_a_group(self):
        """The verdict is the one of the log with lost slots in their places."""
        b = self.b
        dice, headings = random.Random(SEED), set()
        for number in range(20):
            share, is_timed = dice.choice([1, 0.95, 0.5, 0.05]), dice.random() < 0.5
            lines = [f"{HI if dice.random() < share else OTHER}{f' {slot * SLOT:.2f}' if is_timed else ''}\n"
                     for slot in range(dice.choice([40, 400]))]
            log = f"{HI}{' 0' if is_timed else ''}\n" + "".join(lines[1:])
            got, wanted = (verdict_of(b, it, 32, fill=False) for it in (log, log.replace(OTHER, NOTHING)))
            self.check(f"seed {SEED}, log {number}", got, wanted, log)
            headings.add(wanted.split(" with ")[0])
        self.check_all("several verdicts", len(headings) > 1, True)

    def test_a_no_whose_cause_may_be_the_recording_is_grey(self):
        """Slots are missing before the fault by the times. A gap after it changes nothing."""
        b = self.b
        tags = "C201 B158 8002 0000"
        gap = f"{HI} 0.00\n{YO} 9.00\n" + "".join(f"{YO} {9.1 + number * SLOT:.2f}\n" for number in range(3))
        rows = [("a gap by its times", gap + f"{tags} 9.40\n", "Cannot say", "verdict empty"),
                ("a gap after the no", f"{HI} 0.00\n{tags} 0.10\n{HI} 99.00\n", "✗ EarlyTag with M = 8 (0.70 s)",
                 "verdict no")]
        for name, log, heading, kind in rows:
            said = verdict_of(b, log, 8, fill=False)
            got = text_of(b, "#verdict h2"), of(b, "#verdict", "className"), "EarlyTag" in said
            self.check(name, got, (heading, kind, True), said)
            settle(b)
            has = ["What the encoder should do" in said, "Looking for" in said or "itness" in said]
            self.check(f"{name}: what a no has", has, [kind == "verdict no"] * 2, said)

    def test_lost_slots_before_a_no_are_those_of_the_lines_up_to_it(self):
        b = self.b
        tags = "C201 B158 8002 0000"
        said = verdict_of(b, f"# noted\n{HI} 0.00\n{tags} 9.40\n{HI} 9.50\n{HI} 99.50\n", 8, fill=False)
        # the second group comes 107 slots after the first; a comment is no line of a slot
        self.check("up to the no", "Lost slots: the first 3 lines span 108 slots by the times in them. " in said, True, said)
        said = verdict_of(b, f"{HI} 0.00\n{HI} 9.40\n", 8, fill=False)
        self.check("after a yes", "Lost slots: the log spans 108 slots by its times and has 2 lines. " in said, True, said)

    def test_a_malformed_last_line_hides_no_mix(self):
        """A recording that was cut: the search and the displays are over the slots before its last line."""
        b = self.b
        said = verdict_of(b, example("flags.log").decode() + "C201 21\n", 8)
        self.check("a witness is found", "a receiver that loses slots 2 to 3" in said, True, said)
        click(b, "#witness button")
        settle(b)
        self.check("the mix is red", results(b, "log")[1] > 0, True)

    def test_a_search_that_was_left_is_not_the_answer(self):
        """M changes while the page looks for a witness. The search before it ends late."""
        b = self.b
        verdict_of(b, f"{HI}\n", 8)
        b.run("""{ const it = $log.logTab.judge; const ask = it.ask.bind(it);
            const late = ({ signal }) => new Promise((done, fail) => {
              signal.addEventListener("abort", () => { window.leave = () => fail(new Error("left")); });
            });
            it.ask = (call, given, how) => {
              if (call !== "witness") return ask(call, given, how);
              it.ask = ask;
              return late(how);
            }; }""")
        to_tab(b, "log")
        # the page is not idle before that search ends
        b.run(f"probe.open('log', {json.dumps(example('flags.log').decode())}, {{ pi: 'C201', m: 9, k: 0 }}); undefined")
        b.until("document.querySelector('#verdict').textContent.includes('Looking for')")
        b.run("probe.choose('log-m', '8')")
        b.until("document.querySelector('#verdict').textContent.includes('a receiver that loses slots 2 to 3')")
        said = text_of(b, "#verdict")
        b.run("leave()")
        idle(b)
        self.check("after the end of the search for M = 9", text_of(b, "#verdict"), said)

    def test_a_worker_that_ends_is_said(self):
        """The page does not wait for ever."""
        b = self.b
        verdict_of(b, f"{HI}\n" * 20, 8)
        # as a browser without memory does it: the worker cannot begin again
        b.run("{ const it = $log.logTab.judge; it.worker.onerror({ message: 'out of memory' }); it.compiled = null; }")
        call(b, "probe.open", "log", f"{HI}\n" * 30, {"pi": "C201", "m": 8})
        self.check("a log", (text_of(b, "#verdict h2"), len(text_of(b, "#verdict p")) > 5), ("No verdict", True))

    def test_a_refused_set_has_a_warning(self):
        b = self.b
        open_script(b, "text,HI,1,G\n" * 3, m=8, k=0)
        self.check("the first refused set", text_of(b, "#script-note"),
                   "slot 0: text refused, the station is silent after a restart for 8 slots more: "
                   "set it in slot 8 at the earliest, if the encoder does not restart.")
        open_script(b, "-,,1,G\n" * 8 + "text,HI,1,G\nname,POP,1,G\n-,,1,G\nname,JAZZ,1,G\n", m=8, k=0)
        self.check("one that is held", text_of(b, "#script-note"),
                   "slot 11: name refused, the one before is still held for 14 slots more: "
                   "set it in slot 25 at the earliest, if the encoder does not restart.")
        open_script(b, "-,,1,G\n" * 8 + "text,HI,1,G\n", m=8, k=0)
        self.check("no refused set", (text_of(b, "#script-note"), of(b, "#script-note", "checkVisibility()")),
                   ("", False))


class Chromium(Faults, ChromiumCase):
    pass


class Firefox(Faults, FirefoxCase):
    pass
