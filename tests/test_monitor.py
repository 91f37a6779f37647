"""programs/monitor: several stations beside decode and programs/json, metrics, the unit file, GNU parallel."""
import contextlib
import json
import os
import re
import select
import signal
import subprocess
import sys
import threading
import time

from tests.needed import needs
from tests.package import PackageCase
from tests.support import PROGRAM, path, temporary_folder, text_of

MONITOR, JSON = path("programs/monitor"), path("programs/json")
SECONDS = 120
# in which an object or a file is there, on a busy machine
PROMPT = 20
HI = "C201 2140 4849 0D20"
# a name (PTYN) of two segments
NAME = ("C201 A140 504F 5020", "C201 A141 2020 2020")
# name, dwell and seed of the stations with a log by chance
STATIONS = (("JAZZ", 8, 1), ("Ænglå", 16, 2), ('A"\\B', 32, 3), ("LATE", 300, 4))
SLOTS = 3000
BY_CHANCE = """
import random, sys
import by_chance
rng = random.Random(int(sys.argv[1]))
groups = by_chance.groups(rng, int(sys.argv[2]), int(sys.argv[3]))
sys.stdout.buffer.write(by_chance.log_of(by_chance.heard(rng, groups)))
"""


def ran(folder, names, stations, lines, *words):
    """Returns the status, the objects and the errors of the monitor."""
    path = os.path.join(folder, "stations")
    with open(path, "w", encoding="utf-8") as file:
        file.write(stations)
    done = subprocess.run([MONITOR, *words, path], input=lines.encode(), stdout=subprocess.PIPE, stderr=subprocess.PIPE,
                          timeout=SECONDS, env=names)
    return done.returncode, [json.loads(it) for it in done.stdout.splitlines()], done.stderr.decode()


def log_by_chance(names, dwell, seed):
    """Returns the lines of a log by chance."""
    paths = os.pathsep.join((names["PYTHONPATH"], path("python/tests")))
    words = [sys.executable, "-c", BY_CHANCE, str(seed), str(dwell), str(SLOTS)]
    done = subprocess.run(words, stdout=subprocess.PIPE, timeout=SECONDS, env={**names, "PYTHONPATH": paths},
                          check=True)
    return done.stdout.decode().splitlines()


def decoded(log, dwell):
    """Returns the objects that decode and programs/json make of a log."""
    call = '"$0" decode --pi C201 --m "$1" | "$2" --pi C201'
    done = subprocess.run(["sh", "-c", call, PROGRAM, str(dwell), JSON], input="\n".join(log).encode(),
                          stdout=subprocess.PIPE, timeout=SECONDS)
    return [json.loads(it) for it in done.stdout.splitlines()]


def series(metrics):
    """Returns the values of a file of metrics by name and station, with the types; no other line may be in it."""
    values, types = {}, {}
    with open(metrics, encoding="utf-8") as file:
        for line in file:
            labels = r'station="((?:[^"\\]|\\.)*)",pi="[0-9A-F]{4}"(?:,fault="(\w+)")?'
            found = re.fullmatch(rf"(\w+)(?:\{{{labels}\}})? (-?[\d.]+)\n", line)
            head = re.fullmatch(r"# (?:HELP (\w+) .+|TYPE (\w+) (counter|gauge))\n", line)
            if found:
                key = found[1], re.sub(r"\\(.)", r"\1", found[2] or "")
                values[(*key, found[3]) if found[3] else key] = float(found[4])
            elif head and head[2]:
                types[head[2]] = head[3]
            elif not head:
                types["unknown line"] = line
    return values, types


class Monitor(PackageCase):
    def setUp(self):
        self.folder = temporary_folder(self)

    def test_the_objects_of_a_station_are_those_of_its_log_alone(self):
        """The metrics count them."""
        logs = {name: log_by_chance(self.names, dwell, seed) for name, dwell, seed in STATIONS}
        # the lines of all stations in turns, and in the end one that is malformed
        lines = "".join(f"{name} {log[slot]}\n" for slot in range(SLOTS) for name, log in logs.items()) + "JAZZ x\n"
        table = "# stations\n\n" + "".join(f"{name} C201 {dwell}   # {seed}\n" for name, dwell, seed in STATIONS)
        metrics = os.path.join(self.folder, "rdsrt.prom")
        status, objects, errors = ran(self.folder, self.names, table, lines, "--metrics", metrics)
        self.check("several stations", (status, errors), (0, ""))
        values, types = series(metrics)
        for name, dwell, _ in STATIONS:
            wanted = decoded(logs[name], dwell)
            own = [it for it in objects if it["station"] == name]
            got = [{key: value for key, value in it.items() if key != "station"} for it in own]
            self.check(name, got, wanted)
            self.check(f"{name} has changes", len(got) > 10, True)
            lost = sum("----" in it or not it.startswith("C201") for it in logs[name])
            malformed = int(name == "JAZZ")
            counts = {"slots": SLOTS + malformed, "lost": lost + malformed, "changes": len(wanted), "malformed": malformed}
            self.check(f"counts of {name}", {it: values[f"rdsrt_{it}_total", name] for it in counts}, counts)
            is_shown = wanted[-1]["radiotext"] is not None
            self.check(f"text of {name}", values["rdsrt_text_shown", name], is_shown)
            self.check(f"age of {name}", 0 <= values["rdsrt_text_age_seconds", name] < SECONDS, True)
        self.check("no audit", [it for it in values if it[0] == "rdsrt_faults_total"], [])
        self.check("when it was written", time.time() - values["rdsrt_written_seconds", ""] < SECONDS, True)
        self.check("types", types, {"rdsrt_written_seconds": "gauge", "rdsrt_text_shown": "gauge",
                                    "rdsrt_unknown_total": "counter",
                                    **{f"rdsrt_{it}_total": "counter" for it in (*counts, "faults")},
                                    "rdsrt_text_age_seconds": "gauge"})
        self.check("the new file is renamed", sorted(os.listdir(self.folder)), ["rdsrt.prom", "stations"])

    def test_each_listed_fault_is_an_object(self):
        """The metrics count them."""
        metrics = os.path.join(self.folder, "rdsrt.prom")
        lines = "".join(f"{name} {line}\n" for line in (HI, "C201 2140 4841 0D20", HI) for name in ("A", "B", "C"))
        lines = lines.replace("B C201 2140 4841", "B C201 2150 4841") + "D x\nD x\n"
        status, objects, errors = ran(self.folder, self.names, "A C201 audit\nB C201 1 audit\nC C201 8\n", lines,
                                      "--metrics", metrics)
        faults = [(it["station"], it["slot"], it["fault"]) for it in objects if "fault" in it]
        wanted = [("A", 1, "Changed"), ("A", 2, "Changed"), ("A", 2, "EarlyFlag")]
        self.check("audit", (status, faults, errors), (0, wanted, "monitor: no station D\n"))
        values, _ = series(metrics)
        got = {it[1:]: count for it, count in values.items() if it[0] == "rdsrt_faults_total"}
        faults = ["Changed", "NotOneText", "EarlyFlag", "EarlyTag", "TagOutside"]
        wanted = {(name, fault): 0 for name in "AB" for fault in faults}
        self.check("audit in the metrics", got, {**wanted, ("A", "Changed"): 2, ("A", "EarlyFlag"): 1})

    def test_padding_and_another_group_of_tags(self):
        """As `audit --padded` judges it, and as `decode --rtplus 12A` shows it."""
        padded = ("C201 2140 4849 0D20", "C201 2141 2020 2020")
        tagged = ("C201 3018 0000 4BD7", HI, "C201 C148 2002 0000")
        lines = "".join(f"{name} {line}\n" for name in "AB" for line in padded)
        lines += "".join(f"{name} {line}\n" for name in "CDE" for line in tagged) + "E C201 C148 2004 0000\n"
        table = "A C201 audit\nB C201 128 padded audit\nC C201 rtplus 12A\nD C201\nE C201 8 rtplus 12A audit\n"
        status, objects, _ = ran(self.folder, self.names, table, lines)
        self.check("faults", (status, [(it["station"], it["fault"]) for it in objects if "fault" in it]),
                   (0, [("A", "NotOneText"), ("E", "TagOutside")]))
        tags = {it["station"]: it["radiotext_plus"]["tags"] for it in objects if (it.get("radiotext_plus") or {}).get("tags")}
        self.check("tags", tags, dict.fromkeys("CE", [{"content-type": "item.title", "data": "HI"}]))

    def test_an_object_comes_while_the_pipe_stays_open(self):
        """The metrics are written anew while nothing comes."""
        table, metrics = os.path.join(self.folder, "stations"), os.path.join(self.folder, "live.prom")
        with open(table, "w", encoding="utf-8") as file:
            file.write("A C201\n")
        words = [MONITOR, "--metrics", metrics, "--every", "0.2", table]
        with subprocess.Popen(words, stdin=subprocess.PIPE, stdout=subprocess.PIPE, bufsize=0,
                              env=self.names) as program:
            program.stdin.write(f"A {HI}\n".encode())
            there = select.select([program.stdout], [], [], PROMPT)[0]
            self.check("live", bool(there) and json.loads(program.stdout.readline())["radiotext"], "HI")
            ages, end = set(), time.monotonic() + PROMPT
            while len(ages) < 3 and time.monotonic() < end:
                time.sleep(0.05)
                values, _ = series(metrics)
                if values["rdsrt_slots_total", "A"] == 1:
                    ages.add(values["rdsrt_text_age_seconds", "A"])
            self.check("the age of a text grows while nothing comes", len(ages), 3)
            program.stdin.write("".join(f"A {it}\n" for it in NAME).encode())
            while values["rdsrt_changes_total", "A"] < 2 and time.monotonic() < end:
                time.sleep(0.05)
                values, _ = series(metrics)
            got = values["rdsrt_changes_total", "A"], values["rdsrt_text_age_seconds", "A"] >= max(ages)
            self.check("a name does not change the age of a text", got, (2, True))
            program.stdin.close()
            self.check("end of a live pipe", program.wait(SECONDS), 0)

    def test_wrong_tables_and_arguments_are_refused(self):
        for table in ("A\n", "A C201 0\n", "A C20G\n", "A C201 8 9\n", "A C201\nA C201\n", "A 1C201\n",
                      "A C201 audit 8\n", "A +C20\n", "A C_20\n", "A 0xC2\n", "A C2\n", "A \u0663\u0662\u0661\u0660\n",
                      "A C201 +8\n", "A C201 1_2\n", "A C201 padded\n", "A C201 audit audit\n", "A C201 rtplus\n",
                      "A C201 rtplus 10A\n", "A C201 rtplus 12a\n", "A C201 sing\n"):
            status, objects, errors = ran(self.folder, self.names, table, f"A {HI}\n")
            line = table.count("\n")
            self.check(f"refused {table!r}", (status, objects, f"line {line} is not" in errors), (2, [], True))
        self.check("refused --every", ran(self.folder, self.names, "A C201\n", "", "--every", "0")[:2], (2, []))
        self.check("no library", ran(self.folder, {**self.names, "RDSRT_LIBRARY": "/nowhere"}, "A C201\n", "")[0], 2)
        done = subprocess.run([MONITOR, "/nowhere"], stdin=subprocess.DEVNULL, capture_output=True, timeout=SECONDS,
                              env=self.names)
        self.check("no file", (done.returncode, done.stderr.startswith(b"monitor: ")), (2, True))

    def test_metrics_that_cannot_be_written_are_told_once_and_tried_again(self):
        """The stations go on meanwhile."""
        metrics, told = os.path.join(self.folder, "later/rdsrt.prom"), "No such file or directory; the next one is tried\n"
        with self.live("A C201\n", "--metrics", metrics, "--every", "0.1") as program:
            self.check("told", program.stderr.readline(), f"monitor: {metrics}: {told}".encode())
            self.check("goes on", self.object_after(program, f"A {HI}\n")["radiotext"], "HI")
            os.mkdir(os.path.dirname(metrics))
            self.check("tried again", self.value(metrics, "rdsrt_text_shown", 1), 1)
            program.stdin.close()
            self.check("no other word", (program.stderr.read(), program.wait(SECONDS)), (b"", 0))
        self.check("no file is left over", os.listdir(os.path.dirname(metrics)), ["rdsrt.prom"])

    def test_term_writes_the_last_metrics(self):
        metrics = os.path.join(self.folder, "rdsrt.prom")
        with self.live("A C201\n", "--metrics", metrics, "--every", "3600") as program:
            self.object_after(program, f"A {HI}\n")
            program.send_signal(signal.SIGTERM)
            self.check("status", program.wait(SECONDS), 0)
        self.check("last metrics", series(metrics)[0]["rdsrt_text_shown", "A"], 1)

    def test_hup_reads_the_stations_again_and_keeps_the_texts(self):
        """A station with another dwell begins anew, and an invalid file changes nothing."""
        metrics = os.path.join(self.folder, "rdsrt.prom")
        with self.live("A C201\nB C201\n", "--metrics", metrics, "--every", "0.1", "--time") as program:
            began = self.object_after(program, f"A {HI}\n")
            self.check("the time", began["rx_time"][:2], "20")
            self.object_after(program, f"B {HI}\n")
            for table in ("A C20G\n", "A C201\nB C201 64\nC C202\n"):
                with open(os.path.join(self.folder, "stations"), "w", encoding="utf-8") as file:
                    file.write(table)
                program.send_signal(signal.SIGHUP)
                if "C20G" in table:
                    self.check("invalid", b"line 1 is not" in program.stderr.readline(), True)
            self.check("a new station", self.value(metrics, "rdsrt_slots_total", 0, "C"), 0)
            values, _ = series(metrics)
            self.check("texts", [values["rdsrt_text_shown", name] for name in "ABC"], [1, 0, 0])
            program.stdin.close()
            self.check("status", program.wait(SECONDS), 0)

    def test_a_line_over_4_KiB_is_malformed(self):
        """A line of 4,096 bytes is taken."""
        metrics, comment = os.path.join(self.folder, "rdsrt.prom"), "A # "
        lines = [comment + "x" * (4096 - len(comment)), f"A {HI}", comment + "x" * (4097 - len(comment)),
                 f"A {HI}{'x' * 200_000}", f"A {HI}"]
        for end in ("\n", ""):
            ran(self.folder, self.names, "A C201\n", "\n".join(lines) + end, "--metrics", metrics)
            values, _ = series(metrics)
            got = [values[f"rdsrt_{it}_total", "A"] for it in ("slots", "malformed", "lost", "changes")]
            self.check(f"slots, malformed, lost, changes, {end!r} at the end", got, [4, 2, 2, 1])

    def test_a_line_without_an_end_takes_no_memory_and_little_time(self):
        piece = b"A" * (1 << 20)
        with self.live("A C201\n") as program:
            self.object_after(program, f"A {HI}\n")
            before = self.peak(program)
            for _ in range(40):
                program.stdin.write(piece)
            self.object_after(program, f"\nA {HI.replace('2140', '2150')}\nA {NAME[0]}\nA {NAME[1]}\n")
            self.check("KiB more", self.peak(program) - before < 4096, True)
            with open(f"/proc/{program.pid}/stat", encoding="ascii") as file:
                ticks = sum(map(int, file.read().rpartition(")")[2].split()[11:13]))
            self.check("seconds of the processor", ticks / os.sysconf("SC_CLK_TCK") < 5, True)
            program.stdin.close()
            self.check("a name of no station", program.stderr.read(), f"monitor: no station {'A' * 40}\n".encode())

    def test_a_reader_that_stalls_stops_neither_metrics_nor_term(self):
        """When it reads on, it gets each object."""
        metrics = os.path.join(self.folder, "rdsrt.prom")
        other = HI.replace("2140 4849", "2150 4841")
        lines = "".join(f"A {other if slot % 2 else HI}\n" for slot in range(20_000)).encode()
        for is_read in (False, True):
            with self.live("A C201 1\n", "--metrics", metrics, "--every", "0.1") as program:
                feed = threading.Thread(target=self.feed, args=(program, lines))
                feed.start()
                slots = self.stalled(metrics)
                self.check("slots before the stall", 0 < slots < 20_000, True)
                written = self.written(metrics)
                self.check("later metrics", self.later(metrics, written) > written, True)
                if is_read:
                    objects = [json.loads(it)["slot"] for it in program.stdout]
                    self.check("all objects", objects, list(range(20_000)))
                else:
                    written = self.written(metrics)
                    program.send_signal(signal.SIGTERM)
                self.check("the status", program.wait(PROMPT), 0)
                feed.join(SECONDS)
        self.check("the last metrics", self.written(metrics) > written, True)

    def test_unknown_names_are_counted(self):
        metrics = os.path.join(self.folder, "rdsrt.prom")
        lines = "".join(f"S{number % 50} {HI}\n" for number in range(100)) + "\n \n"
        status, objects, errors = ran(self.folder, self.names, "A C201\n", lines, "--metrics", metrics)
        told = [f"monitor: no station S{number}" for number in range(10)]
        told[-1] += "; other names are only counted"
        self.check("the first names", (status, objects, errors.splitlines()), (0, [], told))
        self.check("their lines", series(metrics)[0]["rdsrt_unknown_total", ""], 100)

    def feed(self, program, lines):
        """Writes the lines, and closes standard input."""
        with contextlib.suppress(BrokenPipeError, ValueError):
            program.stdin.write(lines)
            program.stdin.close()

    def peak(self, program):
        """Returns the most memory that a process had, in KiB."""
        return int(re.search(r"^VmHWM:\s+(\d+) kB$", text_of(f"/proc/{program.pid}/status"), re.M)[1])

    def written(self, metrics):
        """Returns when the metrics were written."""
        return series(metrics)[0]["rdsrt_written_seconds", ""]

    def later(self, metrics, than):
        """Returns when the metrics were written, once it is later or time is up."""
        end = time.monotonic() + PROMPT
        while (found := self.written(metrics)) <= than and time.monotonic() < end:
            time.sleep(0.05)
        return found

    def stalled(self, metrics):
        """Returns the number of slots, once it stays for a second."""
        counts, end = [0], time.monotonic() + PROMPT
        while (len(counts) < 20 or len({*counts[-20:]}) > 1 or not counts[-1]) and time.monotonic() < end:
            time.sleep(0.05)
            with contextlib.suppress(OSError):
                counts.append(series(metrics)[0]["rdsrt_slots_total", "A"])
        return counts[-1]

    def live(self, table, *words):
        """Returns a monitor of these stations that waits for lines."""
        stations = os.path.join(self.folder, "stations")
        with open(stations, "w", encoding="utf-8") as file:
            file.write(table)
        return subprocess.Popen([MONITOR, *words, stations], stdin=subprocess.PIPE, stdout=subprocess.PIPE,
                                stderr=subprocess.PIPE, bufsize=0, env=self.names)

    def object_after(self, program, line):
        """Returns the object that comes after this line."""
        program.stdin.write(line.encode())
        self.check(f"an object after {line!r}", bool(select.select([program.stdout], [], [], PROMPT)[0]), True)
        return json.loads(program.stdout.readline())

    def value(self, metrics, name, wanted, station="A"):
        """Returns the value of a metric, once it is the one that is wanted or time is up."""
        end, found = time.monotonic() + PROMPT, None
        while found != wanted and time.monotonic() < end:
            time.sleep(0.05)
            with contextlib.suppress(OSError):
                found = series(metrics)[0].get((name, station))
        return found

    @needs("parallel")
    def test_the_guides_lines_share_stations_among_machines(self):
        """This machine takes the place of two, and the feed prints a text of each station."""
        split, share = re.search(r"^ +(split .*)\n +(parallel .*)$", text_of("docs/RECEIVER.md"), re.M).groups()
        self.check("the guide's hosts", "-S one,two" in share and "/opt/rdsrt/bin/rdsrt-monitor" in share, True)
        place = os.path.join(self.folder, "share")
        os.mkdir(place)
        stations = [f"S{number}" for number in range(7)]
        with open(os.path.join(place, "stations"), "w", encoding="utf-8") as file:
            file.writelines(f"{name} C201\n" for name in stations)
        feed = os.path.join(place, "feed")
        with open(feed, "w", encoding="utf-8") as file:
            file.write(f"#!/bin/sh\nwhile read name rest; do echo \"$name {HI}\"; done < \"$1\"\n")
        os.chmod(feed, 0o755)
        call = f"{split}\n{share}".replace("-S one,two", "-S :").replace("/opt/rdsrt/bin/rdsrt-monitor", MONITOR)
        paths = {**self.names, "PATH": place + os.pathsep + self.names["PATH"], "HOME": place}
        done = subprocess.run(["bash", "-c", call], cwd=place, capture_output=True, timeout=SECONDS, env=paths)
        shown = sorted((it["station"], it["radiotext"]) for it in map(json.loads, done.stdout.splitlines()))
        self.check("shared", (done.returncode, shown), (0, [(name, "HI") for name in stations]))
        parts = len([it for it in os.listdir(place) if it.startswith("part.")])
        self.check("two shares", parts, 2)

    @needs("systemd")
    def test_systemd_takes_the_unit(self):
        """Its commands are there."""
        place = os.path.join(self.folder, "rdsrt-monitor.service")
        with open(place, "w", encoding="utf-8") as file:
            file.write(text_of("programs/monitor.service"))
        done = subprocess.run(["systemd-analyze", "verify", place], stdout=subprocess.PIPE, stderr=subprocess.STDOUT,
                              timeout=SECONDS)
        self.check("messages", [it for it in done.stdout.decode().splitlines() if "rdsrt-monitor" in it], [])
        words = ["systemd-analyze", "security", "--offline=true", "--threshold=39", place]
        done = subprocess.run(words, stdout=subprocess.PIPE, stderr=subprocess.STDOUT, timeout=SECONDS)
        self.check("an exposure below 4", done.returncode, 0, done.stdout[-200:])
