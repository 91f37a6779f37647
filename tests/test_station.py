"""programs/station: `rdsrt encode` takes its rows and refuses no text and no name, and a restart shows no mix to old
radios.

The expected rows follow from the rules: nothing for the first M + K slots, then the empty text and the last name with
flag 0, and 2 (M + K) slots at least between texts and between names.
"""
import concurrent.futures
import csv
import io
import itertools
import os
import random
import re
import shutil
import subprocess
import sys
import tempfile
import time

from tests.needed import needs
from tests.slot import SLOT
from tests.support import PROGRAM, SECONDS, Case, bytes_of, output, path, text_of

STATION = path("programs/station")
SEED = 20261125
# 58 characters
WORDS = "This text of a studio has just as many words as will fit: "
LOST = "---- ---- ---- ----"
# runs a station by a clock of the test: it waits for a line in place of each sleep
BY_LINES = """import runpy, sys, time
clock = 0
def sleep(seconds):
    global clock
    clock += seconds
    sys.stdin.readline()
time.sleep, time.monotonic = sleep, lambda: clock
sys.argv = sys.argv[1:]
runpy.run_path(sys.argv[0], run_name="__main__")
"""


def row(*fields):
    """Returns a row of a script, as a spreadsheet writes it."""
    line = io.StringIO()
    csv.writer(line, lineterminator="\n").writerow([*fields, ""])
    return line.getvalue()


def rows_of(text, *words):
    """Returns status, rows and notes of a station whose file has this text."""
    with tempfile.NamedTemporaryFile() as file:
        file.write(text)
        file.flush()
        done = subprocess.run([STATION, *words, file.name], capture_output=True, timeout=SECONDS)
        return done.returncode, done.stdout.decode(), done.stderr.decode().replace(file.name, "FILE")


def encoded(rows, dwell):
    """Runs `rdsrt encode` over these rows."""
    words = [PROGRAM, "encode", "--pi", "C201", "--m", str(dwell)]
    return subprocess.run(words, input=rows.encode(), stdout=subprocess.PIPE, stderr=subprocess.DEVNULL,
                          timeout=SECONDS)


def fed(words, texts, folder=None, slots=40):
    """Returns status and rows of a station by a clock of the test. Its file gets each of these texts after so many rows, or
    with a folder its file of names there."""
    with tempfile.TemporaryDirectory() as own:
        now, rows = os.path.join(own, "now.txt"), []
        name, state = (os.path.join(folder or own, it) for it in ("name.txt", "state"))
        words = words + ["--name", name, "--state", state] if folder else words
        call = [sys.executable, "-c", BY_LINES, STATION, *words, "--one-in", "1", "--slots", str(slots), now]
        with subprocess.Popen(call, stdin=subprocess.PIPE, stdout=subprocess.PIPE, text=True, bufsize=1) as station:
            station.stdin.write("\n")
            for row in station.stdout:
                rows.append(row)
                if len(rows) in texts:
                    written = name if folder else now
                    with open(written + ".new", "w", encoding="utf-8") as file:
                        file.write(texts[len(rows)])
                    os.replace(written + ".new", written)
                if len(rows) < slots:
                    station.stdin.write("\n")
        return station.returncode, rows


# of each start of the station the texts that its file gets, each after so many rows
LIVES = [{1: "NIGHT TRAIN"}, {1: "JAZZ AT EIGHT", 15: "NEWS AT TEN"}, {1: "WEATHER REPORT"}]


# the same for names, and the number of slots: the name on air at the first restart had no 8 slots, with M + K = 4
NAMED = [({1: "JAZZ FM", 8: "NEWS HR"}, 18), ({1: "SPORT 1", 16: "NIGHT"}, 40), ({1: "WEATHER"}, 24)]
SHORT_FROM = 13


def named(remembers):
    """Returns for each of NAMED the slots of a station and the names that it sets. It keeps its state if it
    `remembers`."""
    lives = []
    with tempfile.TemporaryDirectory() as folder:
        for names, slots in NAMED:
            rows = fed(["--m", "4"], names, folder, slots)[1]
            lives.append((log_of(rows), [it.split(",")[1] for it in rows if it.startswith("name")]))
            if not remembers:
                os.remove(os.path.join(folder, "state"))
    return lives


def log_of(rows):
    """Returns the slots that `encode` sends for the rows of a station."""
    return [line for line in encoded("".join(rows), 4).stdout.decode().splitlines() if line[0] != "#"]


def joined(option):
    """Returns the slots of a station with this option, which is started once for each of LIVES, and the first and the
    last text flag of each life."""
    with concurrent.futures.ThreadPoolExecutor() as pool:
        lives = list(pool.map(lambda texts: fed(["--m", "4", option], texts)[1], LIVES))
    logs = [log_of(rows) for rows in lives]
    flags = [[int(line[7], 16) & 1 for line in log if line[5] == "2"] for log in logs]
    return [line for log in logs for line in log], [(each[0], each[-1]) for each in flags]


def by_flag(slots, part):
    """Returns the texts, or the names, that a radio with the flag bit alone shows of these slots."""
    given = "".join(f"{line}\n" for line in slots).encode()
    words = [PROGRAM, "decode", "--pi", "C201", "--m", "65535"]
    shown = subprocess.run(words, input=given, stdout=subprocess.PIPE, stderr=subprocess.DEVNULL,
                           timeout=SECONDS).stdout.decode()
    return [line.split(" ", 2)[2].strip('"') for line in shown.splitlines() if f' {part} "' in line]


def mixes(slots):
    """Returns the texts that a radio with the flag bit alone shows although no station set them, and how many texts it
    shows."""
    texts = by_flag(slots, "text")
    return [it for it in texts if it and it not in [text for life in LIVES for text in life.values()]], len(texts)


def without_segments(slots, address, since=0):
    """Returns the slots without the name segments of this address from a slot on."""
    return [LOST if slot >= since and line[5] == "A" and int(line[7:9], 16) & 1 == address else line
            for slot, line in enumerate(slots)]


def receptions(logs):
    """Gives for each radio that hears each name once in 8 slots, if it lasts for 8 slots, what it lost and its slots:
    in each life all first, all second or no segments, and perhaps all of the name that lasted for 5 slots."""
    for lost in itertools.product((False, True), *[(None, 0, 1)] * len(logs)):
        kept = [without_segments(log, address) for log, address in zip(logs, lost[1:])]
        if lost[0]:
            kept[0] = without_segments(without_segments(kept[0], 0, SHORT_FROM), 1, SHORT_FROM)
        yield lost, [line for log in kept for line in log]


class Rows(Case):
    def test_the_rows_of_a_text_and_of_a_closest_text(self):
        trial = ["--no-empty-first", "--at-once", "--slots", "5", "--m", "2", "--k", "1", "--one-in", "2"]
        empty = ["-,,1,\n", "-,,0,\n", "-,,1,\n", "-,,0,\n", "-,,1,\n"]
        for text, field in (("HI", "HI"), ('Édith Piaf, "Milord"\nmore\n', 'Édith Piaf, "Milord"'),
                            ("x" * 64, "x" * 64),
                            (r"a\x0Ab\xFF", r"a\x0Ab\xFF"), ("24 €\r\n", "24 €")):
            wanted = "".join(empty[:3]) + row("text", field, 0) + empty[4]
            self.check(f"{text[:20]!r}", rows_of(text.encode(), *trial), (0, wanted, ""))
        # the text that the field stands for, if it is another than the field
        for text, sent, field in (("x" * 65, "x" * 64, None), ("Guns N’ Roses", "Guns N' Roses", None),
                                  ("文", "?", None), (r"a\x0D", "a?", None), ("ab\\", r"ab\x5C", None),
                                  ("“ß” – x", '"ß" - x', r'"\x8D" - x'), (WORDS + "New York", WORDS + "New", None),
                                  (WORDS + "N’York", WORDS + "N'York", None)):
            wanted = "".join(empty[:3]) + row("text", field or sent, 0) + empty[4]
            told = f'station: FILE: sends "{sent}" in place of "{text}"\n'
            self.check(f"{text[:20]!r}", rows_of(text.encode(), *trial), (0, wanted, told))
        wanted = "".join(empty[:3]) + row("text", r"Stra\x8De", 0) + empty[4]
        self.check("a character that encode does not take", rows_of("Straße".encode(), *trial), (0, wanted, ""))
        self.check("no UTF-8", rows_of(b"\xff", *trial), (0, "".join(empty), "station: FILE: no UTF-8\n"))
        wanted = "".join(empty[:3]) + row("text", "24 € é", 0) + empty[4]
        self.check("Windows", rows_of(b"24 \x80 \xe9\r\n", *trial, "--encoding", "cp1252"), (0, wanted, ""))
        self.check("no ASCII", rows_of(b"\xff", *trial, "--encoding", "ascii"),
                   (0, "".join(empty), "station: FILE: no ascii\n"))
        self.check("no text", rows_of(b"\n", *trial), (0, "".join(empty), ""))
        wanted = ["-,,1,\n", row("text", "", 1), "-,,1,\n", row("text", "HI", 1), "-,,1,\n"]
        told = rows_of(b"HI", "--at-once", "--slots", "5", "--m", "1", "--one-in", "1")
        self.check("the empty text first", told, (0, "".join(wanted), ""))
        for words in ([], ["--m", "0", "file"], ["--k", "1025", "file"], ["--one-in", "0", "file"],
                      ["--name", "name", "file"], ["--state", "state", "file"], ["--encoding", "x", "file"]):
            self.check(f"refused {words}", subprocess.run([STATION, *words], capture_output=True).returncode, 2)

    def test_artist_and_title(self):
        """The numbers of the tags: item toggle and item running, then the type, the start and the length less one of each."""
        for text, sent, tags in (
                ("ABBA - Dancing Queen\n", "ABBA - Dancing Queen", "1 1 1 7 12 4 0 3"),
                ("Guns N’ Roses\n Paradise City \n", "Guns N' Roses - Paradise City", "1 1 4 0 12 1 16 12"),
                ("A - B\nC - D\n", "A - B - C - D", "1 1 4 0 4 1 8 4"), ("News at ten\n", "News at ten", None),
                ("ABBA - \n", "ABBA -", None), ("\\x8D - b\n", "\\x8D - b", "1 1 4 0 0 1 4 0"),
                (f"ABBA - {WORDS}York\n", f"ABBA - {WORDS.rstrip()}", "1 1 4 0 3 0 0 0"),
                ("ABBA\n" + "x" * 40 + "\n", "ABBA - " + "x" * 40, "1 1 1 7 39 4 0 3")):
            status, rows, _ = rows_of(text.encode(), "--artist-title", "--no-empty-first", "--at-once", "--slots", "4",
                                      "--m", "2", "--one-in", "1")
            wanted = [row("-", "", 1)] * 2 + [row("text", sent, 1), row("tags", tags, 1) if tags else row("-", "", 1)]
            self.check(f"{text!r}", (status, rows.splitlines(True)), (0, wanted))

    def test_the_tags_of_a_station_are_sent_m_slots_after_their_text(self):
        """`encode` takes each row, and `decode` shows the tags. The toggle turns with each song."""
        songs = {2: "ABBA - Waterloo", 30: "Queen - Innuendo", 60: "The news"}
        status, rows = fed(["--m", "8", "--artist-title"], songs, slots=120)
        log = encoded("".join(rows), 8).stdout
        replies = [it for it in log.decode().splitlines() if it.startswith("#")]
        self.check("replies", (status, [it for it in replies if not it.endswith(" ok")], sum(" tags " in it for it in replies)),
                   (0, [], 2))
        words = [PROGRAM, "decode", "--pi", "C201", "--m", "8"]
        shown = subprocess.run(words, input=log, stdout=subprocess.PIPE, stderr=subprocess.DEVNULL).stdout.decode().splitlines()
        self.check("what is shown", [it.split(" ", 1)[1] for it in shown if " none" not in it], [
            'text ""', 'text "ABBA - Waterloo"', "item 1 1", 'tag1 ITEM.TITLE "Waterloo"', 'tag2 ITEM.ARTIST "ABBA"',
            'text "Queen - Innuendo"', "item 0 1", 'tag1 ITEM.TITLE "Innuendo"', 'tag2 ITEM.ARTIST "Queen"', 'text "The news"'])

    def test_the_rows_of_names_and_the_state(self):
        """After a start the last name with flag 0 comes first, and the next one 2 (M + K) slots later."""
        for state, name, names, after, told in (
                (None, "JAZZ", {2: "JAZZ    "}, "JAZZ    \n", ""),
                ("JAZZ    \n", "NEWS HR", {2: "JAZZ    ", 4: "NEWS HR "}, "JAZZ    \n", ""),
                ("JAZZ    \n", "JAZZ", {2: "JAZZ    "}, "JAZZ    \n", ""),
                ("JAZZ    \n", "", {}, "JAZZ    \n", ""),
                (None, r"\x80$x", {2: r"\x80$x     "}, "\\x80$x     \n", ""),
                (None, "SATURDAYS", {2: "SATURDAY"}, "SATURDAY\n",
                 'station: name: sends "SATURDAY" in place of "SATURDAYS"\n'),
                (None, r"a\x0A", {2: "a?      "}, "a?      \n",
                 r'station: name: sends "a?" in place of "a\x0A"' + "\n")):
            with tempfile.TemporaryDirectory() as folder:
                for file, text in (("name", name), ("state", state), ("now", "")):
                    if text is not None:
                        with open(os.path.join(folder, file), "w", encoding="utf-8") as written:
                            written.write(text)
                words = ["--m", "1", "--one-in", "1", "--at-once", "--slots", "7", "--name", "name", "--state", "state"]
                done = subprocess.run([STATION, *words, "now"], capture_output=True, cwd=folder, timeout=SECONDS)
                wanted = ["-,,1,", "text,,1,", *(row("name", names[slot], 1).rstrip("\n") if slot in names else "-,,1,"
                                                 for slot in range(2, 7))]
                rows, notes = done.stdout.decode().splitlines(), done.stderr.decode()
                self.check(f"rows of {name!r} after {state!r}", (rows, notes), (wanted, told))
                kept = os.path.join(folder, "state")
                self.check(f"state of {name!r}", bytes_of(kept).decode() if os.path.exists(kept) else None, after)
        with tempfile.NamedTemporaryFile(mode="w", suffix=".state") as state:
            state.write("SATURDAYS\n")
            state.flush()
            call = [STATION, "--slots", "1", "--name", "name", "--state", state.name, "now"]
            self.check("a state that is no name", subprocess.run(call, capture_output=True).returncode, 1)

    def test_encode_takes_each_row_and_a_text_that_it_takes_stays(self):
        rng = random.Random(SEED)
        characters = [chr(it) for it in range(0x20, 0x180)] + [f"\\x{it:02X}" for it in range(256)] + ["€", "文"]
        texts = [rng.choice(characters) + "x" for _ in range(40)]
        with tempfile.NamedTemporaryFile() as file:
            for text in [*texts, "ÁÀÉÈÍÌÓÒÚÙÂÄÊËÎÏÔÖÛÜ$£€", "áàéèíìóòúùÑÇâäêëîïôöûüñç"]:
                file.seek(0)
                file.truncate()
                file.write(text.encode())
                file.flush()
                words = [STATION, "--no-empty-first", "--at-once", "--slots", "2", "--m", "1", file.name]
                rows = subprocess.run(words, capture_output=True, timeout=SECONDS).stdout.decode()
                plain = row("-", "", 1) + row("text", text, 0)
                self.check(f"seed {SEED}, {text!r} by encode", encoded(rows, 1).returncode, 0, rows)
                self.check(f"seed {SEED}, {text!r} beside encode", rows == plain, encoded(plain, 1).returncode == 0,
                           rows)


class Live(Case):
    def test_no_text_of_a_live_station_is_refused_and_the_newest_counts(self):
        status, rows = fed(["--m", "4"], {2: "ONE", 14: "TWO", 16: "THREE"})
        self.check("status", status, 0)
        told = [line for line in encoded("".join(rows), 4).stdout.decode().splitlines() if line[0] == "#"]
        self.check("texts on air", (told, [it for it in rows if "text" in it]),
                   (["# 4 text ok", "# 12 text ok", "# 20 text ok"], ["text,,1,\n", "text,ONE,1,\n", "text,THREE,1,\n"]))

    def test_a_row_comes_in_the_time_of_each_slot(self):
        begins = time.monotonic()
        done = subprocess.run([STATION, "--m", "4", "--slots", "12", os.devnull], capture_output=True, timeout=SECONDS)
        took = time.monotonic() - begins
        self.check("12 rows take 11 slots at least", (done.stdout.count(b"\n"), took >= 11 * SLOT), (12, True))


class Unit(Case):
    def test_its_pipe_sends_a_song(self):
        """For some slots, with files of the test in place of those of the system."""
        call = re.search(r"^ExecStart=/bin/bash -c '(.*)'$", text_of("programs/station.service"), re.M)[1]
        with tempfile.NamedTemporaryFile("w") as song:
            song.write("ABBA - Waterloo\n")
            song.flush()
            for old, new in (("/opt/rdsrt/bin/rdsrt-station", f"{STATION} --at-once --slots 700"),
                             ("/opt/rdsrt/bin/rdsrt ", f"{PROGRAM} "), ("/etc/rdsrt/now.txt", song.name),
                             ("/etc/rdsrt/modulator", "cat")):
                self.check(f"{old} is in the unit", call.count(old), 1)
                call = call.replace(old, new)
            done = subprocess.run(["bash", "-c", call], capture_output=True, timeout=SECONDS)
        self.check("replies", (done.returncode, [it for it in done.stdout.decode().splitlines() if it.startswith("#")]),
                   (0, ["# 128 text ok", "# 384 text ok", "# 385 tags ok"]))

    @needs("systemd")
    def test_systemd_takes_it(self):
        with tempfile.TemporaryDirectory() as folder:
            place = os.path.join(folder, "rdsrt-station.service")
            shutil.copy(path("programs/station.service"), place)
            status, printed = output(["systemd-analyze", "verify", place])
            self.check("messages", [it for it in printed.decode().splitlines() if "rdsrt-station" in it], [])
            status, printed = output(["systemd-analyze", "security", "--offline=true", "--threshold=39", place])
            self.check("an exposure below 4", status, 0, printed[-200:])


class Restarts(Case):
    def test_a_radio_with_the_flag_bit_alone_shows_a_mix_only_without_the_empty_text(self):
        """A radio with the flag bit alone shows no mix of a station that is restarted, and some without the empty
        text."""
        slots, flags = joined("--empty-first")
        self.check("the flags meet at a restart", flags, [(0, 1), (0, 0), (0, 1)])
        wrong, count = mixes(slots)
        self.check("restarts", (wrong, count), ([], 7))
        # each two slots have a segment, so a radio that loses five of seven slots hears one in each 2 (M + K) = 8
        for phase in range(7):
            wrong, _ = mixes([line if (at + phase) % 7 < 2 else LOST for at, line in enumerate(slots)])
            self.check(f"restarts, losses {phase}", wrong, [])
        slots, flags = joined("--no-empty-first")
        self.check("without the empty text the flags meet", flags, [(0, 0), (0, 1), (0, 0)])
        self.check("and texts are mixed", len(mixes(slots)[0]) > 0, True)

    def test_no_two_names_are_mixed_if_the_station_remembers_the_last_one_with_flag_0(self):
        lives = named(remembers=True)
        self.check("names", [names for _, names in lives],
                   [["JAZZ FM ", "NEWS HR "], ["JAZZ FM ", "SPORT 1 ", "NIGHT   "], ["NIGHT   ", "WEATHER "]])
        set_by_it = {name for _, names in lives for name in names}
        for lost, slots in receptions([log for log, _ in lives]):
            self.check(f"segments lost {lost}", [it for it in by_flag(slots, "name") if it not in set_by_it], [])
        mixed = [lost for lost, slots in receptions([log for log, _ in named(remembers=False)])
                 if not set(by_flag(slots, "name")) <= set_by_it]
        self.check("without its state names are mixed", len(mixed) > 0, True)

    def test_another_name_first_after_a_restart_is_mixed(self):
        """In each 2 (M + K) = 16 slots of a name a segment is heard, and in each two slots of a text."""
        rows = ["-,"] * 80
        rows[8], rows[9], rows[40], rows[49] = "text,", "name,JAZZ FM ", "restart,", "text,"
        for first, mixed in (("NEWS HR ", True), ("JAZZ FM ", False)):
            rows[50], rows[66] = f"name,{first}", "name,NEWS HR "
            done = encoded("".join(f"{row},1,\n" for row in rows), 8)
            slots = [line for line in done.stdout.decode().splitlines() if line[0] != "#"]
            heard = without_segments(slots[:40], 1) + slots[40:]
            shown = by_flag(heard, "name")
            self.check(f"{first} first", any(it not in ("JAZZ FM ", "NEWS HR ") for it in shown), mixed)
