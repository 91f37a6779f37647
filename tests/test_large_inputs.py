"""Lines of any length, and bytes of any value."""
import fcntl
import os
import random
import re
import struct
import subprocess
import tempfile
import termios
import time

from tests.calls import DECODE, ENCODE, SHOWS_HI, SIM
from tests.support import PROGRAM, SECONDS, Case, ProgramCase, ran
from tests.worked_rows import HI

SEED = 20261122
LONG = b"x" * 100_000_000


def read_by(words, given):
    """Returns the status and the output of the program, and how many bytes of the input it read."""
    with tempfile.TemporaryFile() as file:
        file.write(given)
        file.seek(0)
        done = subprocess.run([PROGRAM, *words], stdin=file, stdout=subprocess.PIPE, stderr=subprocess.DEVNULL,
                              timeout=SECONDS)
        return done.returncode, done.stdout, file.seek(0, os.SEEK_CUR)


def noise():
    """Returns a megabyte of random bytes."""
    return random.Random(SEED).randbytes(1 << 20)


class Logs(ProgramCase):
    def test_a_line_of_100_mb(self):
        self.check("skipped line", ran(DECODE, b"#" + LONG + b"\n" + HI), (0, SHOWS_HI))
        self.check("slot line", ran(DECODE, HI[:-1] + b" " + LONG + b"\n"), (0, SHOWS_HI))
        self.check("bad line", ran(DECODE, HI + LONG), (1, SHOWS_HI + b"fault line 2\n"))

    def test_a_megabyte_of_random_bytes(self):
        lines = noise().split(b"\n")
        bad = next(n for n, it in enumerate(lines, 1) if it not in (b"", b"\r") and it[:1] not in (b"<", b"#", b"%"))
        self.check(f"seed {SEED}", ran(DECODE, noise()), (1, b"fault line %d\n" % bad), noise())


class Scripts(ProgramCase):
    # arguments, the start of the line of a fault, and the output of a slot without a group
    COMMANDS = (("sim", SIM, b"", b""), ("encode", ENCODE, b"# ", b"---- ---- ---- ----\n"))

    def test_a_megabyte_of_random_bytes(self):
        for name, words, mark, _ in self.COMMANDS:
            status, output = ran(words, noise())
            fault = re.fullmatch(rb"%sfault row [0-9]+\n" % mark, output)
            self.check(f"{name}, seed {SEED}", (status, bool(fault)), (1, True), noise())

    def test_a_row_of_30_mb(self):
        for name, words, mark, written in self.COMMANDS:
            row = b"-,,1,\n-,,1," + LONG[:30_000_000]
            self.check(name, ran(words, row), (1, written + mark + b"fault row 2\n"))

    def test_commas_without_an_end_are_not_kept(self):
        """`csv` keeps the place of each comma until its record ends, so the program reads no more of them."""
        for name, words, mark, written in self.COMMANDS:
            for rows in (b"", b"-,,1,\n"):
                status, output, count = read_by(words, rows + b"," * 30_000_000)
                self.check(f"{name} after {rows}", (status, output),
                           (1, written * rows.count(b"\n") + mark + b"fault memory\n"))
                self.check(f"{name} after {rows}: {count} bytes read", count < 100_000, True)
            for count, fault in ((20_000, b"row"), (65_536, b"row"), (82_000, b"memory")):
                for rows in (b"", b"-,,1,\n"):
                    number = rows.count(b"\n")
                    told = b"fault memory\n" if fault == b"memory" else b"fault row %d\n" % (number + 1)
                    for end in (b"", b"\n", b"\r"):
                        self.check(f"{name}: {count} commas after {rows} before {end}", ran(words, rows + b"," * count + end),
                                   (1, written * number + mark + told))

    def test_a_text_of_10_000_000_lines(self):
        for name, words, mark, _ in self.COMMANDS:
            text = b'text,"' + b"\n" * 10_000_000 + b'",1,\n'
            self.check(name, ran(words, text), (1, mark + b"fault row 1\n"))

    def test_a_row_after_10_000_000_empty_lines(self):
        for name, words, _, written in self.COMMANDS:
            self.check(name, ran(words, b"\n" * 10_000_000 + b"-,,0,\n"), (0, written))

    def test_100_000_random_rows_and_a_bad_one(self):
        kinds = (b"-,,1,\n", b"restart,,0,\n", b"text,HI,1,\n", b"name,JAZZ FM,0,\n")
        rows = b"".join(random.Random(SEED).choices(kinds, k=100_000))
        for name, words, mark, _ in self.COMMANDS:
            status, output = ran(words, rows + b"-,,1\n" + rows)
            last = output.splitlines()[-1]
            self.check(f"{name}, seed {SEED}", (status, last), (1, mark + b"fault row 100001"))


class LongRuns(Case):
    def peak(self, words, rows):
        """Returns the most memory of the program, in KiB, once it waits for rows after these."""
        with subprocess.Popen([PROGRAM, *words], stdin=subprocess.PIPE, stdout=subprocess.DEVNULL) as program:
            program.stdin.write(rows)
            program.stdin.flush()
            end = time.monotonic() + SECONDS
            while struct.unpack("i", fcntl.ioctl(program.stdin, termios.FIONREAD, bytes(4)))[0] and time.monotonic() < end:
                time.sleep(0.05)
            with open(f"/proc/{program.pid}/status", encoding="ascii") as file:
                found = re.search(r"^VmHWM:\s+(\d+) kB$", file.read(), re.M)
            program.stdin.close()
            self.check(f"{words[0]}: the status", program.wait(SECONDS), 0)
        return int(found[1])

    def test_ten_times_the_rows_take_no_more_memory(self):
        roll, kinds = random.Random(SEED), (b"-,,1,", b"-,,0,", b"restart,,0,", b"text,HI,1,", b"name,JAZZ FM,0,")
        for words, receptions in ((ENCODE, [b""]), ([*SIM, "--confirm", "64"], [b"GG", b"GL", b"LG", b"LR"])):
            drawn = zip(roll.choices(kinds, (40, 40, 1, 5, 5), k=30_000), roll.choices(receptions, k=30_000))
            rows = b"".join(kind + heard + b"\n" for kind, heard in drawn)
            few, many = (self.peak(words, rows * times) for times in (1, 10))
            # the system brings in some pages early or late
            self.check(f"{words[0]}: KiB more", many - few < 256, True)
