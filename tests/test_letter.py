"""programs/letter: the letter is the one of docs/TEST.md, any form of a recording gives the same, and no right station is
accused.

The items that are expected are those of the table in docs/TEST.md. The stations that keep the rules do so by how they are
made: a text for more than M + K slots, a flip with each, tags M + K slots after its first group.
"""
import argparse
import gzip
import json
import os
import random
import re
import subprocess

from tests.support import Case, found_program, path, script, temporary_folder, text_of
from tests.slot import SLOT
from tests.test_audit import station
from tests.test_guide import SONGS, hour_of_short_texts, with_times
from tests.test_lines import FORMS, zipped

LETTER, SECONDS = path("programs/letter"), 120
LOST, ZERO_AC, APART, SEED = "---- ---- ---- ----", "C201 0408 E0CD 4142", 128, 20261201
# the forms of the issue that only change how a file is packed
FILES = {"UTF-16": lambda text: text.encode("utf-16"), "gzip": lambda text: gzip.compress(text.encode()), "zip": zipped}
# the forms with times; the others have the lines of lost slots
TIMED = [name for name, _, _, times in FORMS if times]


def ran(given, *words):
    """Returns the status, the output and the notes of the program."""
    given = given.encode() if isinstance(given, str) else given
    done = subprocess.run([LETTER, *words], input=given, capture_output=True, timeout=SECONDS,
                          env={**os.environ, "RDSRT_PROGRAM": found_program()})
    return done.returncode, done.stdout.decode(), done.stderr.decode()


def judged(given, *words):
    """Returns the object of the program."""
    status, printed, notes = ran(given, "--json", *words)
    return {**json.loads(printed or "{}"), "status": status, "notes": notes}


def timed(log):
    return "".join(with_times(log))


def clocks(slots):
    """Returns the time of each slot of an hour that begins at 07:58:12.08."""
    return [re.search(r" (\d\d:\d\d:\d\d\.\d\d)\n", it)[1] for it in with_times([LOST] * slots)]


def on_the_page():
    """Returns the paragraphs of the letter in docs/TEST.md, each in one line, with its items."""
    letter = "\n".join(re.findall(r"^>(.*)$", text_of("docs/TEST.md"), re.M))
    parts = [re.sub(r"\s+", " ", it).strip() for it in re.split(r"\n\n|\n(?= \d\. )|\n \n", letter)]
    return [it for it in parts if it]


def right(rng, slots):
    """Returns the log of a station that keeps the rules: texts of one length and period, perhaps tags, perhaps names."""
    every, period, kind = rng.choice((2, 3, 4)), rng.randrange(160, 400), rng.choice((None, 0xB, 0xC))
    fills, number, log, first, due = rng.random() < 0.3, -1, [], None, 0
    for slot in range(slots):
        if slot >= due:
            number, due, first, place = number + 1, due + period, None, 0
            text = f"Artist {number % 10} - Title {rng.randrange(100)}{'!' * rng.randrange(9)}".encode()
            text = text.ljust(64) if fills else text + b"\r"
            parts = [(text + b"   ")[at:at + 4].hex().upper() for at in range(0, len(text), 4)]
        if slot % every == 0:
            first = slot if first is None else first
            log.append(f"C201 {0x2140 | number % 2 << 4 | place:04X} {parts[place][:4]} {parts[place][4:]}")
            place = (place + 1) % len(parts)
        elif slot % 12 == 5 and kind and first is not None and slot - first >= APART:
            # the artist: eight characters from place 0 on
            log.append(f"C201 {kind << 12 | 0x148:04X} 800E 0000")
        elif slot % 12 == 7 and kind:
            log.append(f"C201 {0x3140 | kind << 1:04X} 0000 4BD7")
        else:
            log.append("C201 A140 504F 5020" if slot % 12 == 1 else ZERO_AC)
    return log


def tunnel(rng, lines):
    """Leaves out 5 in 100 lines, and up to 150 in a row."""
    begin = rng.randrange(100, len(lines) - 300)
    return [it for slot, it in enumerate(lines) if rng.random() >= 0.05 and not begin <= slot < begin + rng.randrange(60, 150)]


def left_out(rng, lines):
    return [it for it in lines if rng.random() >= 0.05]


# what a recorder keeps of all lines: all; all, with lines of lost slots; the lines of received groups alone; of a road too
KEPT = [lambda rng, lines: lines, lambda rng, lines: [(it if rng.random() >= 0.05 else None, clock) for it, clock in lines],
        left_out, left_out, tunnel]


class Page(Case):
    def test_its_sentences_are_those_of_the_page(self):
        letter, (begin, please, *rest) = script("programs/letter"), on_the_page()
        self.check("the items", rest[:8], [f"{number}. {text}" for number, text in letter.ITEMS.items()])
        self.check("the end", rest[8:], [*letter.END])
        self.check("before the items", please, letter.PLEASE)
        self.check("the beginning", begin.split(" Of its ")[0], letter.BEGIN.format(
            duration="an hour", facts="").rstrip())

    def test_the_letter_of_the_page_is_that_of_its_station(self):
        status, printed, _ = ran(hour_of_short_texts())
        page = on_the_page()
        self.check("the letter", (status, [it for it in re.split(r"\n+", printed) if it]),
                   (1, [*page[:2], page[3], page[4], *page[10:]]))

    def test_another_m_has_other_times(self):
        status, printed, _ = ran(hour_of_short_texts(), "--m", "250", "--k", "6")
        self.check("22.4 s", (status, printed.count("22.4 s"), "11.2 s" in printed), (1, 5, False))

    def test_the_line_of_the_page(self):
        call = re.search(r"^    (programs/letter recorded\.txt > letter\.md)$", text_of("docs/TEST.md"), re.M)[1]
        folder = temporary_folder(self)
        os.symlink(path("programs"), os.path.join(folder, "programs"))
        with open(os.path.join(folder, "recorded.txt"), "wb") as file:
            file.write(hour_of_short_texts())
        subprocess.run(["sh", "-c", call], cwd=folder, stderr=subprocess.DEVNULL, timeout=SECONDS,
                       env={**os.environ, "RDSRT_PROGRAM": found_program()})
        with open(os.path.join(folder, "letter.md"), encoding="utf-8") as file:
            self.check("the letter", file.readline().split(".")[0], on_the_page()[0].split(".")[0])


class AnyForm(Case):
    def test_sixteen_forms_of_an_hour_give_the_same_letter(self):
        """Some slots are lost. A form without times has a line for each."""
        rng = random.Random(SEED)
        log, _ = station(period=8, tags=0, slots=9_000)
        groups = [None if 10 < slot < len(log) - 10 and rng.random() < 0.05 else tuple(it.split())
                  for slot, it in enumerate(log)]
        times, letters = clocks(len(log)), {}
        inputs = {name: make(groups, times) for name, make, _, _ in FORMS}
        inputs.update({name: pack(inputs["RDS Spy"]) for name, pack in FILES.items()})
        for name, given in inputs.items():
            _, printed, notes = ran(given)
            letters[name] = re.sub(r"from \S+ \S+ to (?:slot )?\S+\)", "from A to B)", printed.replace("from slot", "from"))
            letters[name] = re.sub(r"from .*? to .*?\)", "from A to B)", letters[name])
            self.check(f"{name}: a letter", "Please change the encoder as follows." in printed, True, notes)
        self.check("forms", len(letters) >= 16, True)
        first = letters.pop("RDS Spy")
        for name, letter in letters.items():
            self.check(f"{name} beside RDS Spy", letter, first)


class RightStations(Case):
    def test_none_is_accused(self):
        """200 stations, in all forms, with lost lines: see KEPT."""
        letter, accused, answers = script("programs/letter"), [], []
        letter.PROGRAM, letter.say = found_program(), lambda what: None
        rng = random.Random(SEED)
        for number, log in self.cases(right(rng, 1500) for _ in range(200)):
            lines = [(tuple(it.split()), clock) for it, clock in zip(log, clocks(len(log)))]
            kept = KEPT[number % len(KEPT)](rng, lines)
            name, make, _, _ = FORMS[number % len(FORMS)]
            folder = temporary_folder(self)
            with open(os.path.join(folder, "recorded"), "w", encoding="utf-8") as file:
                file.write(make(*zip(*kept)))
            judging = letter.Log(folder, argparse.Namespace(pi=None, m=APART, k=0))
            judging.read(os.path.join(folder, "recorded"))
            result = letter.result_of(judging)
            answers.append(result["answer"])
            if number % len(KEPT) < 2 or number % len(KEPT) < 4 and name in TIMED:
                self.check(f"seed {SEED}, station {number}, {name}", (result["answer"], result["items"]), ("yes", []),
                           "\n".join(log))
            elif result["answer"] == "no" or result["items"]:
                accused.append((number, name, result))
        self.check_all("accused", accused, [])
        self.check_all("some prove nothing", "nothing" in answers, True)


# ---- what an encoder does, and the items of the table in docs/TEST.md

def changed(log, change):
    return [change(slot, it) for slot, it in enumerate(log)]


def habit(**how):
    return station(**{"slots": 12_000, "song": lambda number: SONGS[number % len(SONGS)], **how})[0]


def without_return(log, byte):
    """Returns the log with this byte in place of the carriage return and of the spaces behind it."""
    return [re.sub("0D((?: ?20)*)$", lambda it: byte + it[1].replace("20", byte), it) if it[5] == "2" else it for it in log]


def announced(log, kind, application="4BD7"):
    """Returns the log with its tags in this group type, and with their announcement."""
    log = [it.replace("C201 B148", f"C201 {kind:X}148") for it in log]
    return changed(log, lambda slot, it: f"C201 {0x3140 | kind << 1:04X} 0000 {application}" if slot % 8 == 0 else it)


def names(log, flips):
    """Returns the log with names of two segments that change every 400 slots."""
    def name(slot, it):
        flag, letters = (slot // 400 % 2 if flips else 0), ("504F", "4A41")[slot // 400 % 2]
        return f"C201 {0xA140 | flag << 4 | slot // 8 % 2:04X} {letters} {letters}" if slot % 8 == 2 else it
    return changed(log, name)


HABITS = [
    ("right", habit(tags=11.5), "yes", []), ("never flips", habit(flips=lambda n: False), "no", [1]),
    ("short texts", habit(period=8), "no", [2]), ("tags at once", habit(tags=0), "no", [3]),
    ("never flips, short texts and tags at once", habit(period=8, flips=lambda n: False, tags=0), "no", [1, 3]),
    ("RT+ in 12A, at once", announced(habit(tags=0), 0xC), "no", [3]),
    ("RT+ in 12A, right", announced(habit(tags=11.5), 0xC), "yes", []),
    ("another application in 11A", announced(habit(tags=0), 0xB, "CD46"), "yes", []),
    ("empty tags with each text", [it.replace("8006 08E9", "0000 0000") for it in habit(tags=0)], "yes", []),
    ("a tag outside", [it.replace("8006 08E9", "8006 0BF9") for it in habit(tags=11.5)], "no", [6]),
    ("spaces behind the return", habit(tail=True), "yes", []),
    ("zeros in place of the return", without_return(habit(), "00"), "no", [5]),
    ("a control character", habit(song=lambda n: b"ABBA\x02 - Song number %04d" % n), "no", [7]),
    ("no return", without_return(habit(), "20"), "yes", [5]),
    ("names without a flip", names(habit(), False), "no", [8]), ("names with a flip", names(habit(), True), "yes", []),
]
# the tags of each other text are shorter
HOUR = timed(changed(announced(habit(tags=0), 0xB), lambda slot, it: it.replace(
    "8006 08E9", ("8006 08E9", "8004 0887")[int(slot * SLOT / 30) % 2])))
DOUBTS = [
    ("nothing", timed([ZERO_AC] * 200)), ("few", timed(changed(habit(), lambda slot, it: it if slot % 3 else LOST))),
    ("break", HOUR + HOUR), ("coarse", re.sub(r"\.\d\d\n", "\n", HOUR)), ("no_times", "\n".join(habit(tags=0))),
    # the text of slot 1027 is heard from slot 1161 on, and its tags from slot 1157 on
    ("gap", timed(changed(habit(slots=4000), lambda slot, it: LOST if 1020 <= slot < 1157 else "C201 B148 2002 0000"
                          if slot in (1157, 1165) else it))),
    ("wrong_group", timed(changed(habit(slots=41_000), lambda slot, it: it if slot != 9001 else it[:10] + "4142 4344"))),
]


class Answers(Case):
    def test_each_habit_of_an_encoder_has_its_items(self):
        for name, log, answer, items in HABITS:
            got = judged(timed(log))
            self.check(name, (got.get("answer"), [it["item"] for it in got.get("items", [])]), (answer, items), got["notes"])
            self.check(f"{name}: the status", got["status"], {"yes": 0, "no": 1}[answer])

    def test_each_reason_why_a_recording_proves_nothing(self):
        told = script("programs/letter").DOUBTS
        for kind, given in DOUBTS:
            got = judged(given)
            kinds = [it["kind"] for it in got["because"]]
            self.check(kind, (got["status"], got["answer"], kind in kinds), (3, "nothing", True), got["notes"])
            self.check(f"{kind}: no items", got["items"], [])
        got = judged(HOUR, "--pi", "D201")
        self.check("no_group", (got["answer"], "no_group" in [it["kind"] for it in got["because"]]), ("nothing", True), got)
        tried = {kind for kind, _ in DOUBTS} | {"no_group"}
        self.check("reasons that the program has", {*told} - tried, {"lack", "whole_seconds"})
        status, printed, _ = ran("\n".join(habit(tags=0)))
        self.check("what to record", (status, told["no_times"][1] in printed, "Please" in printed), (3, True, False))

    def test_lost_slots_with_lines_prove_a_fault_without_times(self):
        log = changed(habit(tags=0), lambda slot, it: LOST if slot % 50 == 9 else it)
        got = judged("\n".join(log))
        self.check("a no", (got["answer"], [it["item"] for it in got["items"]]), ("no", [3]))

    def test_the_object(self):
        got = judged(HOUR)
        self.check("keys", {*got} - {"status", "notes"}, {"answer", "pi", "form", "slots", "faults", "judged", "items",
                                                        "counts", "example", "because"})
        self.check("facts", (got["pi"], got["form"], got["slots"], [*got["faults"]]),
                   ("C201", "blocks with spaces between them", 12_000, ["EarlyTag"]))
        example = (r"For example, a receiver that loses the groups? in the slots? .* shows the (?:title|artist|RT\+ tag) "
                   r'".*"\.')
        self.check("an example of a tag", re.fullmatch(example, got["example"]) is not None, True, got)

    def test_an_example_of_each_receiver_for_a_change_without_a_flip(self):
        got = judged(timed(habit(flips=lambda n: False, song=lambda n: [b"Night Train live", b"Morning with Joe"][n % 2])))
        self.check("a mix", re.match(r'For example, each receiver shows "(.*?)" in the slots \d+ to \d+\.',
                                    got["example"])[1] not in ("Night Train live", "Morning with Joe"), True)

    def test_what_is_refused(self):
        for given, words in (("", []), ("hello\n", []), ("C201 2140 4849 0D20\n", ["--pi", "C20"]), ("", ["--m", "0"])):
            status, printed, _ = ran(given, *words)
            self.check(f"{given!r} {words}", (status, printed), (2, ""))
        one = "C201 2140 4849 0D20\nD201 2140 4849 0D20\n"
        self.check("two stations", ran(one)[0], 2)
        self.check("one of them", ran(one, "--pi", "c201")[0], 0)
