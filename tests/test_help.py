"""Help and refusals: the texts in tests/shown, and calls that end without reading."""
import os
import re
import shutil
import subprocess
import tempfile

from tests.calls import ALL_OPTIONS, COMMANDS, DECODE, OF_A_STATION
from tests.support import PROGRAM, PROMPT, SECONDS, Case, ProgramCase, bytes_of, path, ran, temporary_folder, text_of
from tests.worked_rows import HI

# a file of tests/shown, the arguments that print it, and the status
SHOWN = [
    ("help", ["--help"], 0),
    ("help_of_decode", ["decode", "--help"], 0),
    ("help_of_encode", ["encode", "--help"], 0),
    ("help_of_sim", ["sim", "--help"], 0),
    ("help_of_audit", ["audit", "--help"], 0),
    ("help_of_witness", ["witness", "--help"], 0),
    ("help_of_slots", ["slots", "--help"], 0),
    ("help", ["help"], 0),
    ("help_of_decode", ["help", "decode"], 0),
    ("help_of_encode", ["help", "encode"], 0),
    ("help_of_sim", ["help", "sim"], 0),
    ("help_of_audit", ["help", "audit"], 0),
    ("help_of_witness", ["help", "witness"], 0),
    ("help_of_slots", ["help", "slots"], 0),
    ("help", ["-h"], 0),
    ("short_help_of_decode", ["decode", "-h"], 0),
    ("short_help_of_encode", ["encode", "-h"], 0),
    ("short_help_of_sim", ["sim", "-h"], 0),
    ("short_help_of_audit", ["audit", "-h"], 0),
    ("short_help_of_witness", ["witness", "-h"], 0),
    ("short_help_of_slots", ["slots", "-h"], 0),
    ("help_of_no_command", ["help", "nonsense"], 2),
    ("version", ["--version"], 0),
    ("version", ["-V"], 0),
    ("no_subcommand", [], 2),
    ("wrong_subcommand", ["sing", "--pi", "C201"], 2),
    ("no_programme", ["decode"], 2),
    ("no_value", ["decode", "--pi"], 2),
    ("second_file", ["decode", "--pi", "C201", "one.log", "two.log"], 2),
    ("no_dwell", ["decode", "--pi", "C201", "--m", "0"], 2),
    ("small_window", ["decode", "--pi", "C201", "--confirm", "1"], 2),
    ("large_programme_type", ["encode", "--pi", "C201", "--pty", "32"], 2),
]
# arguments that decide alone, and the status
DECIDED = [
    ([], 2), (["sing"], 2), (["decode"], 2), ([*DECODE, "--m", "0"], 2), ([*DECODE, ""], 1), (["", *DECODE], 2),
    ([""], 2), ([" decode", "--pi", "C201"], 2), ([*DECODE, "--m", " 8"], 2), ([*ALL_OPTIONS, "no.csv"], 1),
    ([*ALL_OPTIONS, "--", "no.csv", "no.csv"], 2), ([*ALL_OPTIONS, "--tp"], 2), (["--"] * 40, 2),
    ([*DECODE, "-m", "0"], 2), ([*DECODE, "-k", "1"], 2), ([*DECODE, "--quiet", "--quiet"], 2),
    ([*DECODE, *["C201"] * 1000], 2), (["help", "nonsense"], 2), (["help", "--pi"], 2),
    (["--help"], 0), (["-h"], 0), (["help"], 0), (["--version"], 0), (["-V"], 0), ([*DECODE, "--help"], 0),
    *((words, 0) for name in COMMANDS for words in ([name, "--help"], [name, "-h"], ["help", name])),
    (["slots", "--pi", "C20"], 2), (["slots", "--m", "0"], 2), (["slots", "--grain", "88"], 2),
    (["slots", "--grain", "-1"], 2), (["slots", "--grain", "8", "--grain", "8"], 2), ([*DECODE, "--grain", "8"], 2),
    *(([*DECODE, "--confirm", given], 2) for given in ("0", "1", "256", "-2", "", "x")), ([*DECODE, "--confirm"], 2),
    ([*DECODE, "--confirm", "2", "--confirm", "2"], 2),
    *(([name, "--pi", "C201", "--confirm", "65"], 2) for name in COMMANDS if name not in ("decode", "sim")),
    (["sim", "--pi", "C201", "--k", "1023", "--confirm", "3"], 2),
    *(([name, "--pi", "C201", f"--rtplus={given}"], 2) for name in OF_A_STATION for given in ("10A", "11B", "12", "")),
    ([*DECODE, "--rtplus", "11A", "--rtplus", "11A"], 2), (["slots", "--rtplus", "12A"], 2),
    ([*DECODE, "--running"], 2), (["audit", "--pi", "C201", "--running", "--running"], 2),
    *(([name, "--pi", given], 2) for name in OF_A_STATION for given in ("", "C20", " C201", "C2011", "C20G")),
]


class Help(ProgramCase):
    def test_help_and_refusals_are_the_texts_in_shown(self):
        for name, words, status in SHOWN:
            self.check(f"{words} beside tests/shown/{name}.txt", ran(words, HI),
                       (status, bytes_of(f"tests/shown/{name}.txt")))


    def test_a_refused_number_says_which_numbers_the_option_takes(self):
        help_ = "\n\nFor more information, try '--help'.\n"
        slots = "write a whole number of slots from"
        for option, values, why in (
                ("--m <N>", ("0", "1.5", "1,5", "65536", "", "x", "99999999999999999999"), f"{slots} 1 to 65535"),
                ("--k <N>", ("1025", "0x8", "½"), f"{slots} 0 to 1024"),
                ("--confirm <W>", ("1", "256", "8s"), f"{slots} 2 to 255"),
                ("--pty <N>", ("32", "POP"), "write a whole number from 0 to 31"),
                ("--grain <N>", ("88", "0.5"), "write a whole number of milliseconds from 0 to 87")):
            name = option.split(" ")[0]
            words = ["slots"] if name == "--grain" else ["sim", "--pi", "C201"]
            for value in values:
                done = subprocess.run([PROGRAM, *words, f"{name}={value}"], input=HI, capture_output=True, timeout=SECONDS)
                wanted = f"error: invalid value '{value}' for '{option}': {why}{help_}".encode()
                self.check(f"{name} {value!r}", (done.returncode, done.stdout, done.stderr), (2, wanted, wanted))

    def test_a_refused_argument_is_cut_and_has_escapes(self):
        """It shows its first 60 bytes. No character of it moves the cursor or turns the text, and standard error has the same."""
        moving, shown = "\x1b[31m1\n2\x7f\x9b\u202e½", r"\x1B[31m1\x0A2\x7F\xC2\x9B\xE2\x80\xAE½"
        number, station = "write a whole number of slots from 1 to 65535", ["--pi", "C201"]
        rows = [(["decode", *station, f"--m={moving}"], f"invalid value '{shown}' for '--m <N>': {number}\n"),
                (["decode", *station, f"--m={'7' * 100_000}"], f"invalid value '{'7' * 60}' for '--m <N>': {number}\n"),
                (["decode", *station, f"--m={'½' * 31}"], f"invalid value '{'½' * 30}' for '--m <N>': {number}\n"),
                ([moving], f"unrecognized subcommand '{shown}'\n"),
                (["x" * 10_000], f"unrecognized subcommand '{'x' * 60}'\n"),
                (["decode", *station, f"--{moving}"], f"unexpected argument '--{shown}' found\n"),
                (["decode", *station, "one.log", moving], f"unexpected argument '{shown}' found\n"),
                (["decode", *station, f"--quiet={moving}"],
                 f"unexpected value '{shown}' for '--quiet' found; no more were expected\n")]
        for words, begin in rows:
            done = subprocess.run([PROGRAM, *words], input=HI, capture_output=True, timeout=SECONDS)
            said = done.stdout.decode()
            self.check(f"{words}"[:99], (said[:len(begin) + 7], said.endswith("\n\nFor more information, try '--help'.\n")),
                       (f"error: {begin}", True))
            self.check(f"{words} on standard error"[:99], (done.returncode, done.stderr.decode()), (2, said))

    def test_a_number_below_0_is_no_word_for_a_file(self):
        for words in (["-m", "-1"], ["-k", "-1"], ["--m", "-1"], ["--lose", "-1"]):
            status, text = ran(["witness" if words[0] == "--lose" else "audit", "--pi", "C201", *words], HI)
            begin = b"error: unexpected argument '-1' found: no option takes a number below 0, write for example -m 128\n\nUsage: "
            self.check(f"{words}", (status, text[:len(begin)], b"tip:" in text, text.endswith(b"try '--help'.\n")),
                       (2, begin, False, True), text)
        _, text = ran(["audit", "--pi", "C201", "-x"], HI)
        self.check("another option", (text.startswith(b"error: unexpected argument '-x' found\n"), b"number" in text), (True, False))


    def test_an_option_of_another_command_has_the_commands_that_take_it(self):
        """By the help of each command. No tip of clap is left: one would pass the option as the name of a file."""
        taken = {name: set(re.findall(r"^ +(-\w|--[\w-]+)|, (--[\w-]+)", text_of(f"tests/shown/short_help_of_{name}.txt"), re.M))
                 for name in COMMANDS}
        taken = {name: {one or two for one, two in found} for name, found in taken.items()}
        more = {("--confirm", "audit"): "; for an audit give --k K + W - 1", ("--k", "decode"): "; a receiver needs M alone",
                ("-k", "decode"): "; a receiver needs M alone"}
        options, refused = set.union(*taken.values()), 0
        for option in sorted(options):
            having = {name for name in COMMANDS if option in taken[name]}
            for name in sorted(set(COMMANDS) - having):
                _, text = ran([name, "--pi", "C201", option, "8"], HI)
                said, _, usage = text.decode().partition("\n\n")
                begin, _, end = said.partition(" found: ")
                names, _, last = end.partition(" ha")
                told = set(COMMANDS) - {"slots"} if names == "each command but slots" else set(re.split(", | and ", names))
                self.check(f"{name} {option}", (begin, told, last, usage.startswith("Usage: rdsrt ")),
                           (f"error: unexpected argument '{option}'", having,
                            f"{'ve' if len(having) in (2, 3) else 's'} {option}{more.get((option, name), '')}", True), text)
                refused += 1
        self.check_all("refused options", refused > 30, True)

    def test_an_option_at_a_wrong_place_or_in_upper_case_has_a_cure(self):
        before, case = ": write a command before its options, for example rdsrt decode --pi C201", ": options are in lower case, write"
        for words, option, end in (
                (["--pi", "C201"], "--pi", before), (["-k", "3", "decode"], "-k", before), ([*DECODE, "-M", "8"], "-M", f"{case} -m"),
                (["decode", "--PI", "C201"], "--PI", f"{case} --pi"), (["encode", "--TP", "--pi", "C201"], "--TP", f"{case} --tp"),
                ([*DECODE, "--k=3"], "--k", ": encode, sim and audit have --k; a receiver needs M alone"),
                ([*DECODE, "-x"], "-x", ""), ([*DECODE, "--unknown"], "--unknown", "")):
            status, text = ran(words, HI)
            self.check(f"{words}", (status, text.decode().partition("\n\nUsage: ")[0]),
                       (2, f"error: unexpected argument '{option}' found{end}"))


class DecidedByArguments(ProgramCase):
    """The program ends although the writer of its input waits, and it leaves the input as it is."""

    def test_it_does_not_wait_for_a_pipe(self):
        for words, wanted in DECIDED:
            reads, writes = os.pipe()
            try:
                done = subprocess.run([PROGRAM, *words], stdin=reads, stdout=subprocess.PIPE, stderr=subprocess.DEVNULL,
                                      timeout=PROMPT)
                status = done.returncode
            except subprocess.TimeoutExpired:
                status = None
            self.check(f"{words[:20]}", status, wanted)
            os.close(reads)
            os.close(writes)

    def test_it_reads_nothing_of_a_file(self):
        for words, wanted in DECIDED:
            with tempfile.TemporaryFile() as file:
                file.write(HI)
                file.seek(0)
                done = subprocess.run([PROGRAM, *words], stdin=file, stdout=subprocess.PIPE, stderr=subprocess.DEVNULL,
                                      timeout=SECONDS)
                self.check(f"{words[:20]}", (done.returncode, file.seek(0, os.SEEK_CUR)), (wanted, 0))


class Scripts(Case):
    """What the scripts do where there is no kit: they answer for help at once, and else say what is missing."""

    def asked(self, script, *words):
        """Returns the status, the output and the errors of a script, where there is no `rt`."""
        done = subprocess.run([path(script), *words], capture_output=True, timeout=PROMPT, text=True,
                              env={"PATH": self.programs, "LC_ALL": "C.UTF-8"})
        return done.returncode, done.stdout, done.stderr

    def setUp(self):
        self.programs = temporary_folder(self)
        for name in ("bash", "cat", "dirname", "env", "git", "mkdir", "python3", "sed"):
            os.symlink(shutil.which(name), os.path.join(self.programs, name))

    def test_rdsrt_has_the_help_and_the_version_of_the_program(self):
        asked = [it for it in SHOWN if not it[1] or it[2] == 0]
        self.check("texts", len(asked), 24)
        for name, words, status in asked:
            text = text_of(f"tests/shown/{name}.txt")
            self.check(f"./rdsrt {words}", self.asked("rdsrt", *words), (status, text, text if status else ""))

    def test_other_scripts_print_how_they_are_called(self):
        scripts = {"test": "usage: ./test", "install": "./install PREFIX", "page/build": "usage: page/build [OUT]",
                   "tools/release": "usage: tools/release [-h] [--snapshot] OUT"}
        for script, call in scripts.items():
            for word in ("-h", "--help"):
                status, printed, errors = self.asked(script, word)
                self.check(f"{script} {word}", (status, call in printed, "set -eu" in printed, errors), (0, True, False, ""))

    def test_each_script_says_in_a_line_that_the_kit_is_missing(self):
        line, out = 'the command rt (the kit of Rattle) is not in PATH: see README, "Get it"\n', os.path.join(self.programs, "out")
        scripts = ["rdsrt decode --pi C201", "test", f"install {out}", f"install {out} --target armv7", "tools/build",
                   "tools/build rds_ffi", "tools/edits", "tools/proof verdicts", f"page/build {out}", "bench/all",
                   "bench/profile decode", "examples/microcontrollers/narrow.py armv7"]
        for call in scripts:
            self.check(call, self.asked(*call.split()), (1, "", line))
        status, _, errors = self.asked("tools/release", "--snapshot", out)
        self.check("tools/release", (status, f"tools/release: {line}" in errors, "Traceback" in errors), (1, True, False))
