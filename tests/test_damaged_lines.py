"""Each program that reads lines of groups, and the package, over a log whose every third line is damaged.

A damaged line is a lost slot: what came in its slot is unknown, and the slot is over. So a program that goes on shows what
`decode` shows of the log with `----` in the places of these lines. Another one ends at the first of them, as decode does.
test_v4l2 and test_fm damage blocks and samples.
"""
import json
import os
import random
import re
import subprocess
import sys

from tests import c_library, radio
from tests.needed import needs
from tests.package import PackageCase
from tests.support import ARCHIVE, output, path, ran, text_of

SEED, SECONDS = 20261129, 120
ROWS, DWELLS = 3000, (8, 16, 64)
LOST, FIRST = b"---- ---- ---- ----", b"C201 0408 1234 4142"
MONITOR, JSON = path("programs/monitor"), path("programs/json")
# two segments of a text, cut lines of another one with the other flag, and the other segments of a third one
CUT = [b"C201 2140 4131 3A20", b"C201 2141 6F70 656E", *[b"C201 2150 4242"] * 40, b"C201 2142 6564 2074", b"C201 2143 6F64 6179",
       b"C201 2144 2121 2121", b"C201 2145 0D20 2020"]


def damaged(dice, line):
    """Returns a line of a log with a byte lost, added or changed in its blocks, or without its end."""
    at = dice.randrange(19)
    begin, end = line[:at], line[at:]
    # a # at the begin would make it a comment, and no byte at all an empty line
    changed = begin + dice.choice([b"x", b"#", b"\x00"]) + end[1:] if at else b"x" + end[1:]
    return dice.choice([begin or line[:1], begin + end[1:], begin + dice.choice([b" ", b"G", b"\xff", b"-"]) + end, changed])


def station(dwell):
    """Returns the slots of a log of our encoder, of which a receiver gets most. Its texts are short."""
    dice = random.Random(f"{SEED} {dwell}")
    commands = {"text": lambda: f"SONG {dice.randrange(99)}", "name": lambda: dice.choice(["POP", "NEWS"]),
                "tags": lambda: f"0 1 1 0 {dice.randrange(4)} 4 5 {dice.randrange(2)}", "-": lambda: ""}
    kinds = dice.choices(list(commands), weights=(8, 2, 8, 82), k=ROWS)
    rows = "".join(f"{kind},{commands[kind]()},1,\n" for kind in kinds).encode()
    log = ran(["encode", "--pi", "C201", "--m", str(dwell)], rows)[1]
    return [LOST if dice.random() < 0.1 else it for it in log.splitlines() if not it.startswith(b"#")]


def log_of(lines):
    return b"".join(it + b"\n" for it in lines)


def every_third(lines):
    """Returns the log with every third line damaged, and the log with a lost slot in the place of each of them."""
    dice = random.Random(SEED)
    bad = [damaged(dice, it) if slot % 3 == 2 else it for slot, it in enumerate(lines)]
    return bad, [LOST if slot % 3 == 2 else it for slot, it in enumerate(lines)]


def timed(lines):
    """Returns the lines with the times at which their slots end, in microseconds and in front, and a last time."""
    times = [slot * c_library.NINETEEN_SLOTS // 19 for slot in range(1, len(lines) + 300)]
    return log_of(b"%d %s" % it for it in zip(times, lines)) + b"%d\n" % times[-1]


def objects_of(printed, *words):
    """Returns the objects that programs/json makes of what decode printed."""
    done = subprocess.run([JSON, *words], input=printed, stdout=subprocess.PIPE, timeout=SECONDS)
    return list(map(json.loads, done.stdout.splitlines()))


class DamagedLines(PackageCase):
    @classmethod
    def setUpClass(cls):
        super().setUpClass()
        cls.logs = {dwell: every_third(station(dwell)) for dwell in DWELLS}

    def decoded(self, dwell, *words):
        """Returns what decode prints of the log with lost slots."""
        return ran(["decode", "--pi", "C201", "--m", str(dwell), *words], log_of(self.logs[dwell][1]))[1]

    def test_the_program_ends_at_the_first_damaged_line(self):
        for dwell, (bad, _) in self.logs.items():
            for command in ("decode", "audit", "slots"):
                status, printed = ran([command, *(["--pi", "C201"] if command != "slots" else [])], log_of(bad))
                # slots prints a log, in which a fault is a comment
                self.check(f"{command}, M {dwell}", (status, printed.splitlines()[-1].lstrip(b"# ")), (1, b"fault line 3"))
            shown = self.decoded(dwell)
            self.check(f"the logs show texts, M {dwell}", (shown.count(b" text \"") > 20, b"tag1" in shown), (True, True))

    def monitored(self, lines, table):
        """Returns the objects of the monitor over these lines, and its metrics."""
        stations, metrics = (os.path.join(self.folder, it) for it in ("stations", "rdsrt.prom"))
        with open(stations, "w", encoding="utf-8") as file:
            file.write(table)
        done = subprocess.run([MONITOR, "--metrics", metrics, stations], input=lines, capture_output=True, timeout=SECONDS,
                              env=self.names)
        self.check("status and errors of the monitor", (done.returncode, done.stderr), (0, b""))
        with open(metrics, encoding="utf-8") as file:
            counts = dict(it.rsplit(" ", 1) for it in file.read().splitlines() if it[0] != "#")
        return [json.loads(it) for it in done.stdout.splitlines()], counts

    def test_the_monitor_counts_a_lost_slot(self):
        """For its audit too."""
        lines = log_of(b"M%d %s" % (dwell, bad[slot]) for slot in range(ROWS) for dwell, (bad, _) in self.logs.items())
        objects, counts = self.monitored(lines, "".join(f"M{it} C201 {it} audit\n" for it in DWELLS))
        for dwell, (_, plain) in self.logs.items():
            own = [{name: it for name, it in one.items() if name != "station"} for one in objects
                   if one["station"] == f"M{dwell}"]
            self.check(f"display, M {dwell}", [it for it in own if "fault" not in it],
                       objects_of(self.decoded(dwell), "--pi", "C201"))
            listed = ran(["audit", "--all", "--running", "--pi", "C201", "--m", str(dwell)], log_of(plain))[1].decode()
            wanted = sorted(it for it in listed.splitlines() if it.startswith("no "))
            self.check(f"faults, M {dwell}", sorted(f"no {it['slot']} {it['fault']}" for it in own if "fault" in it), wanted)
            labels = f'{{station="M{dwell}",pi="C201"}}'
            got = [int(counts[f"rdsrt_{it}_total{labels}"]) for it in ("slots", "malformed", "lost")]
            lost = sum(it == LOST or not it.startswith(b"C201") for it in plain)
            self.check(f"counts, M {dwell}", got, [ROWS, ROWS // 3, lost])

    def test_no_text_of_the_monitor_is_a_mix(self):
        lines = log_of(b"JAZZ " + it for it in CUT)
        for cut in (lines, lines.replace(b"JAZZ C201 2150 4242\n", b"JAZZ\n")):
            objects, counts = self.monitored(cut, "JAZZ C201 8\n")
            got = [it["radiotext"] for it in objects], counts['rdsrt_malformed_total{station="JAZZ",pi="C201"}']
            self.check(f"40 lines {cut.splitlines()[2]}", got, ([], "40"), cut)

    def test_the_lines_of_the_package_readme_count_a_lost_slot(self):
        blocks = re.findall(r"```python\n(.*?)```", text_of("python/README.md"), re.S)
        code, = (it for it in blocks if "MalformedLine" in it)
        for dwell, (bad, _) in self.logs.items():
            lines = code.replace("Receiver(0xF201)", f"Receiver(0xC201, {dwell})")
            status, printed = output([sys.executable, "-c", lines], log_of(bad), env=self.names)
            wanted = "".join(f"{it['slot']} {it['radiotext']}\n" for it in objects_of(self.decoded(dwell)))
            self.check(f"M {dwell}", (status, printed.decode()), (0, wanted))

    def test_json_has_the_fault_of_decode(self):
        for dwell, (bad, _) in self.logs.items():
            printed = ran(["decode", "--pi", "C201", "--m", str(dwell)], log_of(bad))[1]
            done = subprocess.run([JSON], input=printed, stdout=subprocess.PIPE, timeout=SECONDS)
            self.check(f"M {dwell}", (done.returncode, json.loads(done.stdout.splitlines()[-1])), (1, {"fault": "line 3"}))

    def test_programs_of_c(self):
        """decode and audit end at the first damaged line, as the program does. receive has times of a clock: it goes on, and
        counts a lost slot. tuner ends with status 1."""
        for name in ("decode", "audit", "receive", "tuner"):
            words = ["cc", "-I", path("include"), path(f"examples/c/{name}.c"), ARCHIVE, "-o", os.path.join(self.folder, name)]
            self.check(f"{name} is built", output(words), (0, b""))
        for dwell, (bad, plain) in self.logs.items():
            words = "C201", str(dwell)
            for name in ("decode", "audit"):
                self.check(f"{name}, M {dwell}", output([os.path.join(self.folder, name), *words], log_of(bad)),
                           ran([name, "--pi", "C201", "--m", str(dwell)], log_of(bad)))
            # slots count from the first time, here that of a group
            wanted = ran(["decode", "--pi", "C201", "--m", str(dwell)], log_of([FIRST, *plain, *[LOST] * 300]))
            got = output([os.path.join(self.folder, "receive"), *words, "0", "0"], timed([FIRST, *bad]))
            self.check(f"receive, M {dwell}", got, wanted)
            status, shown = output([os.path.join(self.folder, "tuner"), "C201"], log_of(b"%d %s 0 0 0 0" % (10 ** 5 * slot, it)
                                   for slot, it in enumerate(bad) if it != LOST))
            self.check(f"tuner, M {dwell}", (status, shown), (1, b""))

    @needs("python3-numpy")
    def test_the_transmitter_ends_at_the_first_damaged_line(self):
        bad, _ = self.logs[DWELLS[0]]
        words = [radio.TRANSMIT, "--pi", "C201"]
        whole = subprocess.run(words, input=log_of(bad[:2]), stdout=subprocess.PIPE, timeout=SECONDS).stdout
        done = subprocess.run(words, input=log_of(bad), capture_output=True, timeout=SECONDS)
        self.check("status and note", (done.returncode, done.stderr), (1, b"fault line 3\n"))
        is_same = done.stdout[:radio.SAMPLES_A_SLOT] == whole[:radio.SAMPLES_A_SLOT]
        self.check("the samples of the line before", (is_same, len(whole) > radio.SAMPLES_A_SLOT), (True, True))
