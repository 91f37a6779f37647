"""Input and output as the system has them: pipes, live pipes, closed and full output, input that cannot be read."""
import os
import select
import shlex
import subprocess
import tempfile

from tests.calls import AUDIT, DECODE, ENCODE, SHOWS_HI, SIM, SLOTS, TIMED
from tests.support import PROGRAM, ROOT, SECONDS, ProgramCase, ran_by_shell
from tests.worked_rows import ENCODED_SCRIPT, HI, TAGS_ON_AIR

QUOTED = shlex.quote(PROGRAM)
# arguments, input, and the line of a read that failed
COMMANDS = [
    (DECODE, HI, b"fault read\n"),
    (SIM, TAGS_ON_AIR, b"fault read\n"),
    (ENCODE, ENCODED_SCRIPT, b"# fault read\n"),
    (AUDIT, HI, b"fault read\n"),
    (SLOTS, TIMED, b"# fault read\n"),
]
# a command with more output than a pipe holds
MANY = {"decode": (HI + b"C201 2150 594F 0D20\n") * 10_000, "sim": b"text,HI,1,G\n" * 20_000,
        "encode": b"text,HI,1,\n" * 20_000}
# arguments, and for each line of input the output that comes before the next line is written
TURNS = [
    (DECODE, [(HI, SHOWS_HI), (b"C201 2150 594F 0D20\n", b'1 text "YO"\n')]),
    ([*SIM, "--m", "1"], [
        (b"text,HI,1,GG\n", b"0 text silent 1\n"),
        (b"text,HI,1,GG\n", b'1 text ok\n1 sent C201 2140 4849 0D20\n1 r0 text "HI"\n1 r1 text "HI"\n'),
        (b"-,,1,GG\n", b"2 r0 text none\n2 r1 text none\n"),
    ]),
    ([*ENCODE, "--m", "1"], [
        (b"text,HI,1,\n", b"# 0 text silent 1\n---- ---- ---- ----\n"),
        (b"text,HI,1,\n", b"# 1 text ok\nC201 2140 4849 0D20\n"),
    ]),
    ([*AUDIT, "--all"], [
        (HI, b""),
        (b"C201 2140 594F 0D20\n", b"no 1 Changed\n"),
        (b"C201 B148 2002 0000\n", b"no 2 EarlyTag\n"),
    ]),
    # 0.35 s are 4.0 slots, so the second group comes in the fourth
    (SLOTS, [
        (b"C201 2140 4849 0D20 1.0 x\n", b"C201 2140 4849 0D20 1.0\n"),
        (b"C201 2150 594F 0D20 1.35\n", b"---- ---- ---- ----\n" * 3 + b"C201 2150 594F 0D20 1.35\n"),
    ]),
]


def status_to_full_output(words, given):
    """Returns the status of the program if its output is full."""
    with open("/dev/full", "wb") as full:
        done = subprocess.run([PROGRAM, *words], input=given, stdout=full, stderr=subprocess.DEVNULL, timeout=SECONDS)
    return done.returncode


class Failures(ProgramCase):
    """Reading or writing fails from the start."""

    def test_full_output_gives_status_1(self):
        for words, given, _ in COMMANDS:
            self.check(words[0], status_to_full_output(words, given), 1)

    def test_a_folder_as_input_is_a_fault(self):
        for words, _, fault in COMMANDS:
            folder = os.open(ROOT, os.O_RDONLY)
            done = subprocess.run([PROGRAM, *words], stdin=folder, stdout=subprocess.PIPE, stderr=subprocess.DEVNULL,
                                  timeout=SECONDS)
            os.close(folder)
            self.check(words[0], (done.returncode, done.stdout), (1, fault))

    def test_closed_output_gives_status_1_if_there_is_output(self):
        for words, given, _ in COMMANDS:
            # the audit answers an empty log too
            empty = 1 if words[0] == "audit" else 0
            for log, status in ((given, 1), (b"", empty)):
                call = f'exec "{PROGRAM}" {" ".join(words)} >&-'
                self.check(f"{words[0]} of {len(log)} bytes", ran_by_shell(call, log)[0], status)

    def test_full_output_does_not_change_what_the_arguments_decide(self):
        pi = ["--pi", "C20"]
        for words, status in ((["decode", *pi], 2), (["encode", *pi], 2), ([], 2), (["--help"], 0), (["help"], 0)):
            self.check(f"{words}", status_to_full_output(words, HI), status)


class Pipes(ProgramCase):
    def test_encode_into_decode(self):
        join = f"{QUOTED} encode --pi C201 --m 1 | {QUOTED} decode --pi C201 --m 1; echo ${{PIPESTATUS[@]}}"
        self.check("good rows", ran_by_shell(join, ENCODED_SCRIPT)[1], b'1 text "HI"\n0 0\n')
        self.check("a bad row", ran_by_shell(join, ENCODED_SCRIPT + b"x\n")[1], b'1 text "HI"\n1 0\n')

    def test_a_pipe_without_a_reader_gives_status_1_and_no_note(self):
        for name, given in MANY.items():
            reads, writes = os.pipe()
            os.close(reads)
            done = subprocess.run([PROGRAM, name, "--pi", "C201", "--quiet"], input=given, stdout=writes,
                                  stderr=subprocess.PIPE, timeout=SECONDS)
            os.close(writes)
            self.check(name, (done.returncode, done.stderr), (1, b""))

    def test_a_reader_that_goes_gives_status_1_and_no_note(self):
        for name, given in MANY.items():
            with tempfile.NamedTemporaryFile() as file:
                file.write(given)
                file.flush()
                call = f"{QUOTED} {name} --pi C201 --quiet < {shlex.quote(file.name)} | head -c 1"
                call += "; echo ' '${PIPESTATUS[0]}"
                done = subprocess.run(["bash", "-c", call], capture_output=True, timeout=SECONDS)
            first = b"#" if name == "encode" else b"0"
            self.check(f"{name} | head -c 1", (done.stdout, done.stderr), (first + b" 1\n", b""))


class LivePipe(ProgramCase):
    def test_the_output_of_a_line_comes_before_the_next_is_read(self):
        for words, turns in TURNS:
            with subprocess.Popen([PROGRAM, *words], stdin=subprocess.PIPE, stdout=subprocess.PIPE,
                                  stderr=subprocess.DEVNULL, bufsize=0) as program:
                for number, (given, wanted) in enumerate(turns, 1):
                    program.stdin.write(given)
                    shown = b""
                    while len(shown) < len(wanted) and select.select([program.stdout], [], [], SECONDS)[0]:
                        # one write brings all of a row's lines, so a piece may hold more than is wanted, and never
                        # nothing
                        piece = os.read(program.stdout.fileno(), 1 << 16)
                        if not piece:
                            break
                        shown += piece
                    self.check(f"turn {number} of {words[0]}", shown, wanted)
                program.stdin.close()
                status = int(words[0] == "audit")
                self.check(f"end of {words[0]}", (program.stdout.read(), program.wait(SECONDS)), (b"", status))
