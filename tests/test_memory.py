"""Requests for memory that are refused, each in turn: refuse_memory.c is loaded with the program."""
import subprocess

from tests import preload
from tests.calls import AUDIT, DECODE, ENCODE, FLAGS, LOSE, SHOWS_HI, SIM, SLOTS, TIMED, WITNESS
from tests.support import PROGRAM, SECONDS, Case, ProgramCase, needs_proved, path, ran, temporary_folder, why_not_tested
from tests.worked_rows import ENCODED_SCRIPT, HI, TAGS_ON_AIR, radios_and_what_is_on_air

RADIOS = radios_and_what_is_on_air()[3]
LONG_ROW = b"-,,1,\ntext,HI,1,\n-,,1," + b"x" * 10_000
# name, arguments, input; whether a fault can be a note, and whether output can come before it
CALLS = [
    ("decode", DECODE, HI, False, False),
    ("tags_on_air", [*SIM, "--m", "4"], TAGS_ON_AIR, False, False),
    ("tags_on_air with the longest ring", [*SIM, "--m", "4", "--k", "1024"], TAGS_ON_AIR, False, False),
    ("radios", [*SIM, "--m", "2", "--flag-alone"], RADIOS, False, True),
    ("a long row of sim", [*SIM, "--m", "1"], LONG_ROW, False, True),
    ("encoded_log", [*ENCODE, "--m", "1"], ENCODED_SCRIPT, True, False),
    ("a long row of encode", [*ENCODE, "--m", "1"], LONG_ROW, True, True),
    ("a bad programme of encode", ["encode", "--pi", "C20"], b"", False, False),
    ("no subcommand", [], b"", False, False),
    ("audit", AUDIT, HI, False, False),
    ("witness", WITNESS, FLAGS, False, False),
    ("given lost slots", LOSE, FLAGS, False, False),
    ("slots", SLOTS, TIMED, False, False),
    ("help", ["--help"], b"", False, False),
]
# a crate, and a test in it that takes memory
TESTS_OF_CRATES = [("rds_core_tests", "worlds::refused_memory"),
                   ("rds_engine_tests", "scripts::refused_memory_in_a_simulation"),
                   ("rds_engine_tests", "scripts::refused_memory_in_a_log")]


def library_for(test):
    """Builds the library in a folder that goes with the test."""
    return preload.made("refuse_memory.c", temporary_folder(test))


@needs_proved
class Program(ProgramCase):
    def test_each_refused_request_ends_in_a_memory_fault(self):
        """At most one refusal changes nothing: a list that cannot move to a smaller block stays in its block."""
        library = library_for(self)
        for name, words, given, noted, late in CALLS:
            ample, unharmed, met = ran(words, given), 0, []
            for number in range(1, 1000):
                (status, output), refused = preload.refusing(library, words, given, number)
                if not refused:
                    break
                if (status, output) == ample:
                    unharmed += 1
                    continue
                before, fault, after = output.partition(b"# fault memory" if b"#" in output else b"fault memory")
                met.append((before, fault))
                ends_well = status == 1 and ample[1].startswith(before) and after == b"\n"
                self.check(f"{name}: request {number} refused", ends_well or (status, output), True)
            self.check(f"{name}: some request was refused, and then none", (len(met) > 10, refused), (True, False))
            self.check(f"{name}: nothing refused", (status, output), ample)
            self.check(f"{name}: refusals that change nothing", unharmed <= 1, True)
            # encode marks its fault line as a note after clap has taken the arguments, and not before
            marks = [fault[:1] == b"#" for _, fault in met]
            self.check(f"{name}: marked faults", (marks == sorted(marks), any(marks)), (True, noted))
            self.check(f"{name}: output before the fault", any(before for before, _ in met), late)

    def test_a_person_reads_a_note_or_the_run_needed_no_memory(self):
        environment = preload.preloaded(library_for(self), REFUSED_TO="2")
        seen = set()
        for number in range(1, 40):
            done = subprocess.run([PROGRAM, *DECODE], input=HI, capture_output=True, timeout=SECONDS,
                                  env={**environment, "REFUSE": str(number)})
            seen.add((done.returncode, done.stdout, done.stderr.replace(b"!", b"")))
        short = b"rdsrt: fault memory: out of memory\n"
        self.check("notes on memory", seen, {(1, b"fault memory\n", short), (0, SHOWS_HI, b"")})


class TestsOfCrates(Case):
    """Worlds and engines take memory only from the global allocator, so a test cannot refuse it by itself, and no
    program plays a list of slots. `rt ci` leaves the tests of each crate as a program, which runs the test that its
    argument names."""

    def test_the_tests_pass_whichever_request_is_refused(self):
        library, passed = library_for(self), (0, b"\ntest result: ok\n")
        for crate, test in TESTS_OF_CRATES:
            made = f"crates/{crate}/out/{crate}_tests"
            why = why_not_tested(made, crate)
            if why:
                self.skipTest(f"{why}: ./test makes it")
            for number in range(1, 1000):
                got, refused = preload.refusing(library, [test], b"", number, path(made))
                self.check(f"{test}: request {number} refused", got, passed)
                if not refused:
                    break
            # the two requests of the worlds are that of `World::new` and that of `play`
            self.check(f"{test}: two requests or more were refused, and then none", (number > 2, refused),
                       (True, False))
