"""TEST, STATION and RECEIVER of docs/ beside the program: their tables are those that the scripts print, and their advice
works."""
import datetime
import itertools
import os
import random
import re
import subprocess

from tests import package
from tests.needed import needs
from tests.support import PROGRAM, ROOT, SECONDS, Case, temporary_folder, text_of
from tests.test_audit import SLOT, listed, station

LOST = "---- ---- ---- ----"
HI, YO, HA = "C201 2140 4849 0D20", "C201 2150 594F 0D20", "C201 2140 4841 0D20"
# the tag of the two characters from 0 on, and of three
TWO, THREE = "C201 B148 2002 0000", "C201 B148 2004 0000"
# each fault of docs/FORMATS.md at a dwell of 4: its cause as a log, the answer, and the log after the cure
FAULTS = [
    ("the flag comes back", [HI, YO, HA], "no 2 EarlyFlag", [*[HI] * 4, *[YO] * 4, HA]),
    ("the flag turns at each repetition", [HI, HI.replace("2140", "2150"), HI], "no 2 EarlyFlag", [HI, HI, HI]),
    ("other bytes at an address", [HI, HA], "no 1 Changed", [HI, HA.replace("2140", "2150")]),
    ("a name with other bytes", ["C201 A140 4A41 5A5A", "C201 A140 4E45 5753"], "no 1 Changed",
     ["C201 A140 4A41 5A5A", "C201 A150 4E45 5753"]),
    ("behind the return", ["C201 2140 4849 0D58"], "no 0 NotOneText", [HI]),
    ("a segment past the return", [HI, "C201 2141 4142 4344"], "no 1 NotOneText", [HI, HI]),
    ("a control character", ["C201 2140 4802 0D20"], "no 0 NotOneText", [HI]),
    ("tags at once", [HI, TWO], "no 1 EarlyTag", [HI, *[LOST] * 3, TWO]),
    ("tags without a text", [TWO], "no 0 EarlyTag", [LOST]),
    ("a tag that is too long", [HI, *[LOST] * 3, THREE], "no 4 TagOutside", [HI, *[LOST] * 3, TWO]),
]

# the texts of a station, in their order
SONGS = [b"ABBA - Dancing Queen", b"Queen - Bohemian Rhapsody", b"Beatles - Hey Jude", b"Bob Dylan - Hurricane",
         b"Madonna - Like a Prayer", b"The Clash - London Calling", b"Nena - 99 Luftballons"]
# names of logs, and the answers of the audit
LOGS = {"a": f"{HI}\n", "b c": f"{HI}\n" * 2, "bad": f"{HI}\nx\n", "changed": f"{HI}\n{HA}\n"}
ANSWERS = {"a": ["yes 1"], "b c": ["yes 2"], "bad": ["fault line 2"], "changed": ["no 1 Changed"]}


def statuses(folder, name):
    """Returns the exit status of each log, which parallel writes to this file."""
    with open(os.path.join(folder, name), encoding="utf-8", newline="\n") as file:
        rows = [line.split("\t") for line in file.read().splitlines()]
    at = rows[0].index("Exitval")
    return {re.search(r"logs/(.*)\.log", row[-1])[1].replace("\\", ""): int(row[at]) for row in rows[1:]}


def done(call, given=b"", at=ROOT):
    """Runs a line of the guide in a folder, with the built program as ./rdsrt."""
    environment = {**os.environ, "RDSRT": PROGRAM, "LC_ALL": "C.UTF-8"}
    words = ["bash", "-c", call.replace("./rdsrt", '"$RDSRT"')]
    return subprocess.run(words, cwd=at, input=given, capture_output=True, timeout=SECONDS, env=environment)


def ran(call, given=b""):
    """Returns the output of a line of the guide."""
    return done(call, given).stdout.decode()


def with_times(log):
    """Gives the lines of a log with the times of their slots."""
    begin = datetime.datetime(2024, 6, 1, 7, 58, 12, 80_000)
    for slot, line in enumerate(log):
        time = begin + datetime.timedelta(seconds=slot * SLOT)
        yield f"{line} @{time:%Y/%m/%d %H:%M:%S}.{time.microsecond // 10_000:02}\n"


def hour_of_short_texts():
    """Returns the log of the station in the guide: a new text every 8 s, and the tags with it."""
    log, _ = station(period=8, tags=0, song=lambda number: SONGS[number % len(SONGS)])
    return "".join(with_times(log)).encode()


def careless(roll, slots):
    """Gives the lines of a station that keeps no rule: any segments of three addresses, and a flag that turns now and
    then. Half of the slots are lost."""
    flag = 0
    for _ in range(slots):
        flag = 1 - flag if roll.random() < 0.05 else flag
        words = roll.choice(["4142 4344", "4546 0D20", "0D20 2020", "4748 494A"])
        yield f"C201 {0x2140 + 16 * flag + roll.randrange(3):04X} {words}" if roll.random() < 0.5 else LOST


def shown_in(lines, dwell):
    """Returns the text that `decode` with this dwell shows in each slot, or none."""
    printed = ran(f"./rdsrt decode --pi C201 --m {dwell}", "\n".join(lines).encode())
    changes = dict(re.findall(r"^(\d+) text (.*)$", printed, re.M))
    texts, text = [], "none"
    for slot in range(len(lines)):
        text = changes.get(str(slot), text)
        texts.append(text)
    return texts


class Guide(Case):
    def setUp(self):
        self.text = "".join(text_of(f"docs/{it}.md") for it in ("TEST", "STATION", "RECEIVER"))

    def test_its_tables_are_those_that_the_scripts_print(self):
        rows = {line.strip() for line in self.text.splitlines() if line.strip().startswith("|")}
        for script in ("bench/guide ./rdsrt", "bench/corrected"):
            printed = {line for line in ran(script).splitlines() if line}
            self.check(f"{script} prints a table", len(printed) > 5, True)
            self.check(f"the tables of {script}", printed - rows, set())

    def test_less_than_m_plus_k_slots_for_a_text_is_a_fault(self):
        for kept, answer in ((128, "yes 640\n"), (127, "yes 635\n"), (126, "no 252 EarlyFlag\n")):
            log = "".join(f"{it}\n" * kept for it in (HI, YO, HI, YO, HI))
            self.check(f"texts of {kept} slots at M = 128", ran("./rdsrt audit --pi C201", log.encode()), answer)
        self.check("both prices", ("M + K slots for each text" in self.text, "2 (M + K)" in self.text), (True, True))

    def test_a_log_without_a_group_of_the_pi_gets_a_yes(self):
        self.check("no group of the programme", ran("./rdsrt audit --pi C202", f"{HI}\n".encode()), "yes 1\n")
        says = "A log without a group of the PI, or without a group 2A, 10A or 11A, gets a yes too"
        self.check("it says so", says in " ".join(self.text.split()), True)

    def test_a_dwell_only_takes_texts_away(self):
        """Of any station, a receiver with a dwell shows a text only while a radio of today shows it."""
        many = 0
        for number, lines in self.cases([*careless(random.Random(seed), 300)] for seed in range(60)):
            ours, todays = shown_in(lines, 8), shown_in(lines, 65535)
            many += sum(it != "none" for it in ours)
            self.check("texts that a radio of today does not show", [it for it in zip(ours, todays)
                       if it[0] not in ("none", it[1])], [], "\n".join(lines))
        self.check_all("texts are shown", many > 1000, True)

    def test_each_fault_has_a_cause_and_a_cure(self):
        """The audit names each fault of FORMATS over a log with its cause, and answers yes after the cure."""
        section = text_of("docs/FORMATS.md").split("### Faults of the audit\n")[1].split("\nNames (PTYN)")[0]
        named = set(re.findall(r"^- `(\w+)`: ", section, re.M))
        self.check("each fault is there", {answer.split()[2] for _, _, answer, _ in FAULTS}, named)
        for name, log, answer, changed in FAULTS:
            logs = ["".join(f"{it}\n" for it in lines).encode() for lines in (log, changed)]
            got = [ran("./rdsrt audit --pi C201 --m 4", it) for it in logs]
            self.check(name, got, [f"{answer}\n", f"yes {len(changed)}\n"])

    def test_the_counts_of_a_station_with_short_texts(self):
        notes = listed(["--running"], hour_of_short_texts())[2].splitlines()
        page = self.text.replace(",\n        last in", ", last in")
        self.check("notes of audit --all", [line for line in notes if f"    {line}\n" not in page], [])
        self.check("number of notes", len(notes), 3)

    def test_the_letter_has_the_counts_and_the_text_of_a_station(self):
        given, letter = hour_of_short_texts(), " ".join(re.findall(r"^> (.*)$", self.text, re.M))
        place = r"\(line \d+, \S+ (\S+)\.\d+\)"
        counts = re.findall(rf"(\d+) of (\d+) texts: (\w+), first in slot \d+ {place}, last in slot \d+ {place}",
                            listed(["--running"], given)[2])
        self.check("faults", [it[2] for it in counts], ["EarlyFlag", "EarlyTag"])
        for count, texts, fault, first, last in counts:
            self.check(f"{fault}: texts", f"Of its {texts} texts," in letter, True)
            says = rf"{count} break item \d \(`{fault}`, from {first} to {last}\)"
            self.check(fault, re.search(says, letter) is None, False)
        found = ran("./rdsrt witness --pi C201", given)
        first, last, text = re.match(r'lose (\d+)-(\d+): \d+ text "(.*)"\n', found).groups()
        self.check("a text", f'loses the groups in the slots {first} to {last} shows "{text}"' in letter, True)

    def test_each_fault_has_the_time_of_its_line(self):
        """In a log with comments, empty lines and two programmes, whose lines end in a line feed or in CR LF."""
        audit, pick = re.search(r"^    (\./rdsrt audit --all [^\n]* > faults\.txt)$.*?^    (awk .*? station\.log)$", self.text,
                                re.M | re.S).groups()
        log = ["# two programmes", f"{HI} @12.00", "", f"{HI.replace('C201', 'D201')} @12.09", f"{YO} @12.18", "<mark>",
               f"{HA} @12.26", "% the text changes", f"{HI}", f"{TWO} @12.44"]
        for end in ("\n", "\r\n"):
            folder = temporary_folder(self)
            with open(os.path.join(folder, "station.log"), "w", encoding="ascii", newline="") as file:
                file.write("".join(it + end for it in log))
            self.check(f"lines that end in {end!r}", done(f"{audit}; {pick}", at=folder).stdout.decode(),
                       "line 7 EarlyFlag @12.26\nline 9 Changed EarlyFlag \nline 10 EarlyTag @12.44\n")

    def test_the_pipe_of_a_station(self):
        """The log of the guide's pipe, for some slots, without the modulator behind it."""
        call = re.search(r"^    (programs/station .*) \| modulator$", self.text, re.M)[1]
        log = ran(call.replace("now.txt", "--at-once --slots 400 <(echo HI)")).splitlines()
        slots = [line for line in log if line[0] != "#"]
        replies = [line for line in log if line[0] == "#"]
        self.check("rows of a station", (len(slots), replies), (400, ["# 128 text ok", "# 384 text ok"]))
        self.check("its first group", [at for at, line in enumerate(slots) if line[0] != "-"][0], 128)

    def test_the_pipe_to_another_encoder(self):
        """The texts that the pipe of docs/AIR.md lets through, without the sender behind it, are far enough apart."""
        call = re.search(r"^    (programs/station .*decode --pi C201) \| programs/send HOST:PORT$", text_of("docs/AIR.md"),
                         re.M)[1]
        lines = ran(call.replace("now.txt", "--at-once --slots 1300 <(yes HI | head -1)")).splitlines()
        self.check("texts", [it.split(" ", 1)[1] for it in lines[:2]], ['text ""', 'text "HI"'])
        slots = [int(it.split(" ")[0]) for it in lines]
        self.check("their spacing", [b - a for a, b in itertools.pairwise(slots) if b - a < 256 - 62], [])

    def folder_of_logs(self):
        folder = temporary_folder(self)
        os.mkdir(os.path.join(folder, "logs"))
        for name, log in LOGS.items():
            with open(os.path.join(folder, f"logs/{name}.log"), "w", encoding="ascii") as file:
                file.write(log)
        return folder

    @needs("parallel")
    def test_the_lines_of_parallel(self):
        audit, decode = re.search(r"^ +(parallel .* audit .*)\n +(parallel .* decode .*)$", self.text, re.M).groups()
        folder = self.folder_of_logs()
        run = done(audit, at=folder)
        self.check("the answers", run.stdout.decode().splitlines(),
                   [f"logs/{name}.log\t{line}" for name in sorted(LOGS) for line in ANSWERS[name]])
        self.check("a warning has the name of its log", b"logs/bad.log\trdsrt: fault line 2: " in run.stderr, True)
        self.check("two logs do not pass", (run.returncode, statuses(folder, "audits.tsv")),
                   (2, {"a": 0, "b c": 0, "bad": 1, "changed": 1}))
        done(decode, at=folder)
        self.check("the statuses of decode", statuses(folder, "decodes.tsv"),
                   {"a": 0, "b c": 0, "bad": 1, "changed": 0})
        with open(os.path.join(folder, "logs/b c.txt"), encoding="utf-8") as file:
            self.check("the output of decode for one log", file.read(), '0 text "HI"\n')
        for name in ("bad", "changed"):
            os.remove(os.path.join(folder, f"logs/{name}.log"))
        self.check("the others pass", done(audit, at=folder).returncode, 0)

    def test_each_program_has_help(self):
        for name in package.NAMES:
            done = subprocess.run([os.path.join(ROOT, "programs", name), "--help"], capture_output=True, timeout=SECONDS)
            self.check(f"{name} --help", (done.returncode, name.encode() in done.stdout, done.stderr), (0, True, b""))
