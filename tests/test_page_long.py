"""Long and nasty inputs: no task of the page may hold up what people do, and no more than 1 GB may be in use."""
import json
import os
import re
import tempfile
import time

from tests.page_support import (HI, NOTHING, URL, ChromiumCase, FirefoxCase, answer_time, call, idle, longest_task, move, of,
                                printed, program, settle, shown, text_of, to_tab, verdict_of, visit)
from tests.slot import SLOT
from tests.support import PROMPT

# milliseconds of the machine with the yardstick: there no task is above 200
LONGEST_TASK = 600
MOST_MEMORY = 1 << 30
ROWS, RECEIVERS = 200_000, 8
# milliseconds of the same machine: there the log of a day is answered within 5,000
LONGEST_ANSWER = 15_000
# a day of slots
DAY = 982_000
TYPED = "Song of the night"
# each 997th of a million changes is compared
EACH = 997
# the letters of an output that the page shows
MOST_SHOWN = 400_000


def script_of(count):
    """Returns a script of so many slots for eight receivers."""
    row = lambda slot: f"text,Song number {slot}" if slot % 600 == 300 else "-,"
    return "".join(f"{row(slot)},{1 if slot % 3 else 0},GLGGGGGG\n" for slot in range(count))


def turning(stay=1):
    """Returns the log of a day, with each text of two segments for so many rounds."""
    for number in range(DAY // 2):
        text = f"{number // stay:06d}X\r".encode().hex().upper()
        for segment, half in enumerate((text[:8], text[8:])):
            yield f"C201 21{4 + number // stay % 2}{segment} {half[:4]} {half[4:]}\n"


def recorded():
    """Returns the lines of a day with a text for a minute, as a receiver that lost one group in thirty writes them."""
    for slot, line in enumerate(turning(342)):
        if slot % 30:
            yield f"{line[:-1]} {slot * SLOT:.2f}\n"


def file_of(b, path):
    """Makes a file of the disk one of the page, `day`."""
    b.run("document.body.append(Object.assign(document.createElement('input'), { type: 'file', id: 'own' }))")
    root = b.ask("DOM.getDocument")["root"]["nodeId"]
    field = b.ask("DOM.querySelector", nodeId=root, selector="#own")["nodeId"]
    b.ask("DOM.setFileInputFiles", files=[path], nodeId=field)
    b.run("window.day = document.querySelector('#own').files[0]; document.querySelector('#own').remove()")


def memory_of_renderers(driver):
    """Returns the most bytes that a renderer of this driver's browser has in memory."""
    parents, sizes = {}, {}
    for name in filter(str.isdigit, os.listdir("/proc")):
        try:
            with open(f"/proc/{name}/status", encoding="utf-8") as status, open(f"/proc/{name}/cmdline", "rb") as words:
                told = dict(line.split(":", 1) for line in status.read().splitlines() if ":" in line)
                parents[int(name)] = int(told["PPid"])
                if b"--type=renderer" in words.read():
                    sizes[int(name)] = int(told["VmRSS"].split()[0]) * 1024
        except (OSError, KeyError):
            # it ended meanwhile
            continue
    root = driver.service.process.pid

    def is_below(pid):
        while pid not in (root, 0):
            pid = parents.get(pid, 0)
        return pid == root

    return max(size for pid, size in sizes.items() if is_below(pid))


def least_memory(b):
    """Returns that memory once it is below the most, or after a minute: a busy machine collects garbage late."""
    end, memory = time.monotonic() + PROMPT, memory_of_renderers(b.driver)
    while memory > MOST_MEMORY and time.monotonic() < end:
        b.ask("HeapProfiler.collectGarbage")
        time.sleep(1)
        memory = memory_of_renderers(b.driver)
    return memory


# a worker that refuses to make a string of so many bytes, as a browser does above 512 MB
MOST_DECODED = 100_000
SHORT_STRINGS = """
window.Blob = class extends Blob {
  constructor(parts, options) { super(options?.type === "text/javascript" ? [`
    const { decode } = TextDecoder.prototype;
    TextDecoder.prototype.decode = function (bytes, ...more) {
      if (bytes?.byteLength > %d) throw new RangeError("too long");
      return decode.call(this, bytes, ...more);
    };`, ...parts] : parts, options); }
};""" % MOST_DECODED


class Long:
    def test_no_string_holds_a_whole_log(self):
        b = self.b
        undo = b.before_load(SHORT_STRINGS)
        visit(b, URL)
        undo()
        said = verdict_of(b, "".join(f"{HI} {slot * SLOT:.2f}\n" for slot in range(10_000)), 8)
        self.check("a long log", "✓ Passes" in said, True, said)

    def test_of_several_edits_only_the_last_ones_result_is_shown(self):
        b = self.b
        to_tab(b, "script")
        call(b, "probe.open", "script", script_of(20_000), {"m": 8, "k": 0})
        b.run("{ const it = $script.scriptTab.timeline, plain = it.show; window.shows = 0;"
              " it.show = function (...given) { window.shows++; plain.apply(it, given); }; }")
        script = script_of(20_001)
        b.run(f"[9, 10, 11].forEach(m => probe.choose('script-m', m)); probe.choose('script-m', 8);"
              f" probe.choose('script-text', {json.dumps(script)})")
        settle(b)
        wanted = program(["sim", "--pi", "C201", "--pty", "10", "--m", "8", "--k", "0", "--why"], script.encode())[1]
        self.check("one result is shown, the last one's",
                   (b.run("window.shows"), printed(b)[:MOST_SHOWN] == wanted[:MOST_SHOWN]), (1, True))

    def test_a_script_that_plays_for_long_can_be_stopped_and_is_not_waited_for(self):
        """After a second a button ends the run, and a newer number does so at once. The answer of the run is kept back, for
        a fast machine plays any script within a second."""
        b = self.b
        to_tab(b, "script")
        b.run("probe.keepBack(answer => answer.replies)")
        button = "document.querySelector('#script-stop')"
        shows, stop = f"{button}.checkVisibility({{ visibilityProperty: true }})", f"{button}.click()"
        for m in (100, 101):
            b.run(f"probe.choose('script-m', {m})")
            b.until(shows)
            if m == 100:
                b.run(stop)
                self.check("stops it at once", (text_of(b, "#script-fault"), b.run(shows)), ("Playing was stopped.", False))
        b.run("probe.letGo(); probe.choose('script-m', 9)")
        b.until("document.querySelector('#script-command').textContent.includes('--m 9 ')")
        idle(b)
        self.check("a newer M", (text_of(b, "#script-command"), text_of(b, "#script-fault"), b.run(shows)),
                   ("rdsrt sim --pi C201 --pty 10 --m 9 --k 0 --why", "", False))


class Chromium(Long, ChromiumCase):
    # it measures times
    most = 1

    def test_a_long_script_is_edited_without_a_pause(self):
        """The page plays it in a worker."""
        b = self.b
        to_tab(b, "script")
        b.run(f"window.long = {json.dumps(script_of(ROWS))}; undefined")
        edit = f"probe.choose('script-text', long.replace('Song number 900', {TYPED!r}))"
        steps = {"opened": "probe.open('script', long, { m: 128, k: 0 })", "a letter is typed": edit,
                 "another M": "probe.choose('script-m', 100)"}
        for name, step in steps.items():
            longest = longest_task(b, step, LONGEST_TASK)
            self.check(f"{name}: no task of more than {LONGEST_TASK} ms", longest <= LONGEST_TASK or longest, True)
            if name != "a letter is typed":
                continue
            self.check("the row has the text", of(b, "#script-text", "value").split("\n")[900].split(",")[1], TYPED)
            script = of(b, "#script-text", "value").encode()
            wanted = program(["sim", "--pi", "C201", "--pty", "10", "--m", "128", "--k", "0", "--why"], script)[1]
            self.check("it is played", printed(b)[:MOST_SHOWN] == wanted[:MOST_SHOWN], True)
            move(b, "script", 1000)
            self.check("and shown", shown(b, "script-air"), TYPED)
            waits = "document.querySelector('#script-wait').checkVisibility()"
            # a fast machine plays the script before anybody sees that
            b.run("probe.keepBack(answer => answer.replies); probe.choose('script-m', 127)")
            dim = "[...document.querySelectorAll('#script .stage, #script-count, #script-time')]" \
                ".map(it => getComputedStyle(it).opacity)"
            # a line says that it is played
            b.until(waits)
            self.check("the old result is pale", b.run(dim), ["0.35"] * 3)
            b.run("probe.letGo(); probe.choose('script-m', 128)")
            idle(b)
            self.check("until the new one is there", (b.run(waits), b.run(dim)), (False, ["1"] * 3))

    def test_a_log_whose_flag_turns_all_the_time_holds_nothing_up(self):
        b = self.b
        with tempfile.NamedTemporaryFile("w", suffix=".log") as file:
            file.writelines(turning())
            file.flush()
            file_of(b, file.name)
            self.nothing_holds_up(b)
        groups = list(turning())
        for slot in call(b, "probe.lost"):
            groups[slot] = f"{NOTHING}\n"
        output = program(["decode", "--pi", "C201", "--m", "64"], "".join(groups).encode())[1]
        told = [[int(slot), text or None] for slot, text in re.findall('^(\\d+) text (?:"(.*)"|none)$', output, re.M)]
        some = (f"(({{ text }}) => [text.length, Array.from(text.starts.keys()).filter(i => i % {EACH} === 0)"
                ".map(i => [text.from(i), text.value(i)])])($log.logTab.view.parts)")
        self.check("some of what is shown", b.run(some), [len(told), told[::EACH]])
        self.check("its answer", text_of(b, "#verdict h2 code"), "EarlyFlag")

    def test_the_log_of_a_day_with_times_is_answered_soon(self):
        """The page adds its lost slots first."""
        b = self.b
        with tempfile.NamedTemporaryFile("w", suffix=".log") as file:
            file.writelines(recorded())
            file.flush()
            file_of(b, file.name)
            longest = longest_task(b, "probe.openFile(day)", LONGEST_TASK)
            took = answer_time(b, "probe.openFile(day)", LONGEST_ANSWER)
        self.check(f"no task of more than {LONGEST_TASK} ms", longest <= LONGEST_TASK or longest, True)
        self.check(f"within {LONGEST_ANSWER} ms", took <= LONGEST_ANSWER or took, True)
        self.check("the answer", (text_of(b, "#log-filled"), text_of(b, "#verdict h2")),
                   (f"{DAY // 30:,} lost slots added by the times", "✓ Passes with M = 128 (11.2 s)"))

    def nothing_holds_up(self, b):
        """Measures each step over the open log."""
        steps = {"opened": "probe.openFile(day)", "another M": "probe.choose('log-m', 100)",
                 "a lost slot": "probe.lose(500_001 + 2 * probe.lost().length)",
                 "another M then": "probe.choose('log-m', 64)",
                 "at the end": f"probe.move('log', {DAY - 1})",
                 "all in sight": "document.querySelector('#log-time [data-do=all]').click()",
                 "the next text": "document.querySelector('#log-time [data-do=next]').click()"}
        for name, step in steps.items():
            longest = longest_task(b, step, LONGEST_TASK)
            memory = least_memory(b)
            self.check(f"{name}: no task of more than {LONGEST_TASK} ms", longest <= LONGEST_TASK or longest, True)
            self.check(f"{name}: memory", memory <= MOST_MEMORY or memory, True)


class Firefox(Long, FirefoxCase):
    pass
