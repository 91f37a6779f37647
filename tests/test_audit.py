"""The commands `audit` and `audit --all` beside two slow plain checks, and over stations with one mistake each.
plain_audit.py goes by the rules, plain_plans.py tries all plans."""
import collections
import random
import re
import subprocess

from tests import plain_audit, plain_plans
from tests.calls import AUDIT
from tests.support import PROGRAM, SECONDS, ProgramCase, ran

SEED, SEED_OF_PLANS, SEED_OF_RECORDINGS = 20261122, 20261124, 20261127
SEED_OF_LISTS, SEED_OF_LOGS, SEED_WITHOUT_FLIPS = 20261128, 20261129, 20261130
SLOT = 104 / 1187.5
KINDS = {"Changed", "NotOneText", "EarlyFlag", "EarlyTag", "TagOutside"}


def random_script(rng):
    """Returns some dozens of rows: commands of each kind, and slots that are not free."""
    texts = ["HI", "YO", "NEWS", "ABBA - WATERLOO", "Café €", "x" * 64]
    commands = [("text", lambda: rng.choice(texts)), ("name", lambda: rng.choice(["JAZZ FM", "NEWS"])),
                ("restart", str),
                ("tags", lambda: f"1 1 4 0 {rng.randrange(4)} 1 {rng.randrange(3)} {rng.randrange(2)}")]
    rows = []
    for _ in range(rng.randrange(20, 90)):
        command, argument = rng.choices(commands, weights=(10, 3, 1, 10))[0] if rng.random() < 0.3 else ("-", str)
        rows.append(f"{command},{argument()},{int(rng.random() < 0.9)},\n")
    return "".join(rows).encode()


def changed(rng, slots):
    """Returns the slots with one group's byte, flag or slot changed."""
    changed = list(slots)
    sent = [slot for slot, group in enumerate(slots) if group is not None]
    if not sent:
        return changed
    tagged = [slot for slot in sent if plain_audit.tag_ends_of(slots[slot]) is not None]
    slot = rng.choice(tagged if tagged and rng.random() < 0.3 else sent)
    blocks = [int(block, 16) for block in slots[slot]]
    kind = rng.choice(("byte", "flag", "slot"))
    if kind == "byte":
        place, shift = rng.choice((2, 3)), rng.choice((0, 8))
        blocks[place] = blocks[place] & ~(0xFF << shift) | rng.choice((0x0D, 0x20, 0x41, rng.randrange(256))) << shift
    elif kind == "flag":
        blocks[1] ^= 0x10
    changed[slot] = [f"{block:04X}" for block in blocks]
    if kind == "slot":
        other = rng.randrange(len(slots))
        changed[slot], changed[other] = changed[other], changed[slot]
    return changed


def logs_of_our_encoder():
    """Gives dwell, lateness, the replies of an encoder over a script by chance, and its log with seven changed ones."""
    rng = random.Random(SEED)
    for _ in range(300):
        dwell, late = rng.choice((1, 2, 4, 8, 16)), rng.choice((0, 0, 1, 3))
        _, log = ran(["encode", "--pi", "C201", "--m", str(dwell), "--k", str(late)], random_script(rng))
        lines = log.decode().splitlines()
        notes = [(int(slot), answer) for slot, _, answer in (it[2:].partition(" ") for it in lines if it[0] == "#")]
        slots = [None if line[0] == "-" else line.split() for line in lines if line[0] != "#"]
        yield dwell, late, notes, [slots] + [changed(rng, slots) for _ in range(7)]


def lines_of(slots):
    """Returns the log of these slots."""
    return "".join(" ".join(group or ["----"] * 4) + "\n" for group in slots).encode()


class BesideThePlainAudit(ProgramCase):
    def test_logs_of_our_encoder_and_each_with_one_change(self):
        answers, dense = collections.Counter(), 0
        for number, (dwell, late, notes, logs) in self.cases(logs_of_our_encoder()):
            options, slots = ["--m", str(dwell), "--k", str(late)], logs[0]
            wanted = [plain_audit.audit(log, dwell + late) for log in logs]
            answers.update(line.split()[-1] if line.startswith("no") else "yes" for line in wanted)
            if plain_audit.is_dense(notes, slots, dwell + late):
                dense += 1
                self.check(f"seed {SEED}, dense log {number} by the plain audit", wanted[0], f"yes {len(slots)}\n",
                           lines_of(slots))
            for at, (log, answer) in enumerate(zip(logs, wanted)):
                status = 0 if answer.startswith("yes") else 1
                self.check(f"seed {SEED}, log {at} of script {number}, {options}",
                           ran([*AUDIT, *options], lines_of(log)), (status, answer.encode()), lines_of(log))
        self.check_all("dense logs", dense > 100, True)
        self.check_all("answers", (set(answers), min(answers.values(), default=0) > 4), ({"yes"} | KINDS, True))


class Recordings(ProgramCase):
    """Logs of our encoder that begin in any slot, audited with --running."""

    def logs(self):
        """Yields options, spacing, and the slots of an encoder from each of some slots on."""
        rng = random.Random(SEED_OF_RECORDINGS)
        for _ in range(150):
            dwell, late = rng.choice((1, 2, 4, 8, 16)), rng.choice((0, 0, 1, 3))
            options = ["--m", str(dwell), "--k", str(late)]
            _, log = ran(["encode", "--pi", "C201", *options], random_script(rng))
            slots = [None if line[0] == "-" else line.split() for line in log.decode().splitlines() if line[0] != "#"]
            for first in rng.sample(range(len(slots)), 6):
                yield options, dwell + late, slots, first

    def test_a_recording_of_a_station_that_passes_passes(self):
        recordings, early = 0, 0
        for number, (options, spacing, slots, first) in self.cases(self.logs()):
            rest = slots[first:]
            wanted, name = plain_audit.audit(rest, spacing, is_running=True), f"seed {SEED_OF_RECORDINGS}, log {number}"
            self.check(f"{name}, {options} --running", ran([*AUDIT, *options, "--running"], lines_of(rest))[1],
                       wanted.encode(), lines_of(rest))
            if plain_audit.audit(slots, spacing).startswith("yes"):
                self.check(f"{name}, {options}, passes from slot {first} on", wanted, f"yes {len(rest)}\n",
                           lines_of(slots))
                recordings += 1
                early += plain_audit.audit(rest, spacing).endswith("EarlyTag\n")
        self.check_all("recordings, and those that fail without --running", (recordings > 300, early > 20),
                       (True, True))

    def test_the_answer_is_that_of_lost_slots_in_front_and_more_change_nothing(self):
        """If no tags come before the first text segment."""
        compared = 0
        for number, (options, spacing, slots, first) in self.cases(self.logs()):
            rest = slots[first:]
            begin = next((it for it in rest if it and it[1][0] in "2B"), None)
            if begin is None or begin[1][0] == "B":
                continue
            compared += 1
            recorded = ran([*AUDIT, *options, "--running"], lines_of(rest))[1].split()
            for lost in (spacing, spacing + 1, 3 * spacing + 7):
                given = lines_of([None] * lost + rest)
                answer, slot, *fault = ran([*AUDIT, *options], given)[1].split()
                self.check(f"seed {SEED_OF_RECORDINGS}, log {number}, {options}, {lost} lost slots in front",
                           [answer, b"%d" % (int(slot) - lost), *fault], recorded, lines_of(rest))
        self.check_all("recordings that begin with a text segment", compared > 200, True)


class BesidePlainPlans(ProgramCase):
    def test_a_no_comes_in_the_first_slot_up_to_which_no_plan_exists(self):
        rng, answers = random.Random(SEED_OF_PLANS), collections.Counter()
        logs = (plain_plans.random_log(rng) for _ in range(plain_plans.LOGS))
        for number, (dwell, log) in self.cases(logs):
            answer, ruled = plain_plans.answer_by_the_rules(log, dwell)
            name, given = f"seed {SEED_OF_PLANS}, short log {number}, dwell {dwell}", plain_plans.lines_of(log)
            self.check(f"{name}: plans and rules", plain_plans.first_of_a_log(log, dwell), ruled, given)
            words, status = ["audit", "--pi", "C201", "--m", str(dwell)], 0 if answer.startswith("yes") else 1
            self.check_run(f"{name}: the audit", words, given, (status, answer.encode()))
            answers[answer.split()[-1]] += 1
        self.check_all("answers to short logs", (len(answers), min(answers.values(), default=0) > 9), (6, True))


def listed(options, given):
    """Returns the status, the lines and the standard error of `audit --all`."""
    done = subprocess.run([PROGRAM, *AUDIT, "--all", *options], input=given, capture_output=True, timeout=SECONDS)
    return done.returncode, done.stdout.decode().splitlines(), done.stderr.decode()


def counted(lines):
    """Returns how often each fault stands in these lines."""
    return collections.Counter(line.split()[2] for line in lines if line.startswith("no "))


def careless_log(rng):
    """Returns the slots of a station that keeps no rule: few addresses, bytes, flags and tags."""
    flag, slots = 0, []
    for _ in range(rng.choice((3, 8, 20, 60))):
        roll = rng.random()
        flag ^= roll < 0.15
        if roll > 0.85:
            slots.append(["C201", "B148", rng.choice(("2002", "2004", "2010", "203E")), rng.choice(("0000", "0822"))])
        elif roll > 0.75:
            slots.append(["C201", f"{0xA140 | flag << 4 | rng.randrange(2):04X}", "4A41", rng.choice(("5A5A", "5A03"))])
        elif roll > 0.25:
            words = rng.choice(("4142 4344", "4546 0D20", "0D20 2020", "4700 494A", "4142 0D41")).split()
            slots.append(["C201", f"{0x2140 | flag << 4 | rng.choice((0, 0, 1, 2)):04X}", *words])
        else:
            slots.append(None)
    return slots


def log_without_flips(rng):
    """Returns the slots of a station that changes its texts and never turns the flag: segments, tags and lost slots."""
    slots, ends = [], ["0D20", "2020"]
    for _ in range(rng.choice((20, 60, 200))):
        roll = rng.random()
        if roll > 0.85:
            slots.append(["C201", "B148", "2002", "0000"])
        elif roll > 0.35:
            address = rng.randrange(2)
            slots.append(["C201", f"{0x2140 | address:04X}", rng.choice(("4142", "4142", "5859")), ends[1 - address]])
        else:
            slots.append(None)
    return slots


def logs():
    """Gives spacing, options and slots: of our encoder, with a change or three, of careless stations, and of stations
    that never turn the flag."""
    rng = random.Random(SEED_OF_LISTS)
    for _ in range(130):
        dwell, late = rng.choice((1, 2, 4, 8, 16)), rng.choice((0, 0, 1, 3))
        options = ["--m", str(dwell), "--k", str(late)]
        _, log = ran(["encode", "--pi", "C201", *options], random_script(rng))
        slots = [None if line[0] == "-" else line.split() for line in log.decode().splitlines() if line[0] != "#"]
        yield dwell + late, options, slots
        for _ in range(7):
            spoilt = changed(rng, slots)
            for _ in range(rng.randrange(3)):
                spoilt = changed(rng, spoilt)
            yield dwell + late, options, spoilt[rng.randrange(4):]
    rng = random.Random(SEED_OF_LOGS)
    for _ in range(1000):
        dwell = rng.choice((1, 2, 3, 5, 8, 12))
        yield dwell, ["--m", str(dwell)], careless_log(rng)
    rng = random.Random(SEED_WITHOUT_FLIPS)
    for _ in range(200):
        dwell = rng.choice((2, 3, 5, 8, 12))
        yield dwell, ["--m", str(dwell)], log_without_flips(rng)


class AllFaults(ProgramCase):
    def test_logs_of_good_and_bad_encoders(self):
        """The first line is that of `audit`, and standard error counts the lines."""
        kinds, entries, whole = collections.Counter(), 0, 0
        for number, (spacing, options, slots) in self.cases(logs()):
            running = ["--running"] if number % 2 else []
            wanted, values = plain_audit.all_faults(slots, spacing, bool(running))
            given, name = lines_of(slots), f"log {number}, {options} {running}"
            status, lines, errors = listed([*options, *running], given)
            self.check(name, (status, lines), (int(wanted[0].startswith("no")), wanted), given)
            self.check(f"{name}: first line", ran([*AUDIT, *options, *running], given),
                       (status, f"{wanted[0]}\n".encode()), given)
            told = collections.Counter()
            notes = re.findall(r"^rdsrt: (\d+) of (\d+) (text|name)s?: (\w+)", errors, re.M)
            for count, total, service, fault in notes:
                told[fault] += int(count)
                self.check(f"{name}: {service}s", int(total), values[service], given)
            told.update(re.findall(r"^rdsrt: tags before the first text: (\w+) in", errors, re.M))
            self.check(f"{name}: counts", told, counted(wanted), given)
            kinds.update(told)
            entries += sum(told.values())
            whole += not told
        self.check_all("kinds", (set(kinds), min(kinds.values()) > 100, entries > 3000, whole > 100),
                       (KINDS, True, True, True))


def station(period=30, flips=lambda n: True, tags=None, tail=False, period_of=None, slots=41000,
            song=lambda n: b"ABBA - Song number %04d" % n):
    """Returns an hour of a station with a new text every so many seconds, and the number of its texts. `flips` says of a
    text whether the flag turns to it; `tags` after how many seconds its tags come; `tail` fills it with spaces; `song` is
    the text."""
    log, number, flag, text, first, due = [], -1, 0, [], 0, 0.0
    place = 0
    for slot in range(slots):
        if slot * SLOT >= due:
            number += 1
            body = (song(number) + b"\r").ljust(64 if tail else 0)
            body += b" " * (-len(body) % 4)
            text = [body[at:at + 4].hex().upper() for at in range(0, len(body), 4)]
            place, first, flag = 0, slot, flag ^ bool(flips(number))
            due += period_of(number) if period_of else period
        step = slot % 8
        if step in (1, 3, 5):
            log.append(f"C201 {0x2140 | flag << 4 | place:04X} {text[place][:4]} {text[place][4:]}")
            place = (place + 1) % len(text)
        elif step == 7 and tags is not None and (slot - first) * SLOT >= tags:
            log.append("C201 B148 8006 08E9")
        else:
            log.append("C201 0140 E0E0 4142")
    return log, number + 1


class Stations(ProgramCase):
    """Each count stands beside the number of texts: one or two less, since the first texts follow no other."""
    STATIONS = [
        ("texts of 8 s, tags at once", {"period": 8, "tags": 0}, 449, {"EarlyFlag": 447, "EarlyTag": 448}),
        ("texts of 8 s", {"period": 8}, 449, {"EarlyFlag": 447}),
        ("never flips, 8 s, tags at once", {"period": 8, "flips": lambda n: False, "tags": 0}, 449,
         {"Changed": 448, "EarlyFlag": 447, "EarlyTag": 448}),
        ("spaces up to 64 characters, 30 s", {"tail": True}, 120, {"NotOneText": 120}),
        ("spaces up to 64 characters, 8 s, tags at once", {"tail": True, "period": 8, "tags": 0}, 449,
         {"NotOneText": 449, "EarlyFlag": 447, "EarlyTag": 448}),
        ("tags at once, 30 s", {"tags": 0}, 120, {"EarlyTag": 119}),
        # a text without a flip starts at its first segment with other bytes
        ("forgets each fifth flip, tags after 11.5 s", {"flips": lambda n: n % 5, "tags": 11.5}, 120,
         {"Changed": 23, "EarlyTag": 23}),
        ("forgets each fifth flip, tags after 13.5 s", {"flips": lambda n: n % 5, "tags": 13.5}, 120, {"Changed": 23}),
        ("each fifth text 5 s, tags after 11.5 s", {"period_of": lambda n: 5 if n % 5 == 4 else 30, "tags": 11.5}, 144,
         {"EarlyFlag": 28}),
        ("30 s, tags after 11.5 s", {"tags": 11.5}, 120, {}),
    ]

    def test_an_hour_of_each_station(self):
        for name, how, texts, wanted in self.STATIONS:
            log, number = station(**how)
            status, lines, errors = listed(["--running"], "\n".join(log).encode())
            answer = int(bool(wanted))
            self.check(name, (number, status, dict(counted(lines))), (texts, answer, wanted))
            judged = re.search(r"judged in 41000 slots: (\d+) texts", errors)
            self.check(f"{name}: texts", int(judged[1]), texts)
