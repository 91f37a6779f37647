"""programs/v4l2: the blocks that a radio of Linux gives become lines with times, and `rdsrt slots` counts their slots.

The radios here are computed: their drivers drop blocks, give wrong ones and corrected ones, and the program reads late at
times.
"""
import errno
import importlib.machinery
import importlib.util
import itertools
import os
import random
import struct
import subprocess
import threading
import time

from tests.slot import SLOT
from tests.support import PROGRAM, PROMPT, SECONDS, Case, path, temporary_folder

V4L2 = path("programs/v4l2")
CORRECTED, ERROR, INVALID = 0x40, 0x80, 7
RADIOS, GROUPS = 60, 400
STEP = 0.005                                                 # seconds between two reads
STALLS, SLEEP = (0.02, 0.04, 0.07, 0.09, 0.2, 1.5), (5,)     # seconds


def loaded():
    """Returns the program as a module."""
    loader = importlib.machinery.SourceFileLoader("v4l2", V4L2)
    module = importlib.util.module_from_spec(importlib.util.spec_from_loader("v4l2", loader))
    loader.exec_module(module)
    return module


def words_of(number, rng):
    """Returns the blocks of the group in a slot, which no other slot has. Some are of version B."""
    version_b = rng.randrange(2)
    return [0xC201, 0xF000 | version_b << 11 | rng.randrange(32), 0xC201 if version_b else rng.randrange(65536), number]


def marks_of(words):
    """Returns the kinds of the blocks of a group, with the offset that was received, as drivers set it."""
    return [it | it << 3 for it in (0, 1, 4 if words[1] & 0x800 else 2, 3)]


class Driver:
    """A radio in place of the program's: its blocks come by a computed clock, and a reader takes them late at times."""

    def __init__(self, seed, chance, stalls, pauses=STALLS):
        rng = random.Random(seed)
        self.sent = [words_of(number, rng) for number in range(GROUPS)]
        self.whole, self.corrected, came = set(), set(), []
        missing = 0
        for number, words in enumerate(self.sent):
            fine = touched = True
            for place, (word, mark) in enumerate(zip(words, marks_of(words))):
                time_of = (number + (place + 1) / 4) * SLOT + rng.uniform(0, 0.004)
                fault = rng.random()
                # a run of blocks that the driver drops, often as many as a group has
                missing = missing - 1 if missing else rng.choice([1, 3, 4, 4, 4, 8, 40]) if fault < chance / 4 else 0
                if missing:
                    fine = False
                    continue
                if fault < chance / 2:
                    fine, mark = False, rng.choice([mark | ERROR, INVALID])
                    word = rng.randrange(65536)
                elif fault < chance:
                    touched, mark = False, mark | CORRECTED
                came.append((time_of, word, mark))
            if fine:
                self.corrected.add(number)
                if touched:
                    self.whole.add(number)
        self.came, self.stalls, self.pauses, self.rng = came, stalls, pauses, rng

    def is_tuned_away(self):
        return False

    def reads(self):
        """Does what `Radio.reads` does."""
        clock, empty, waiting = 0.0, 0.0, list(reversed(self.came))
        while waiting:
            blocks = []
            while waiting and waiting[-1][0] <= clock:
                blocks.append(waiting.pop()[1:])
            yield blocks, empty, clock
            empty = clock
            clock += STEP
            if self.rng.random() < self.stalls:
                clock += self.rng.choice(self.pauses)


def ending(reads, fault):
    """Yields some reads, and then raises the fault, if there is one."""
    yield from itertools.islice(reads, 1000)
    if fault:
        raise fault


def slots_of(lines):
    """Returns the lines that `rdsrt slots` makes of these lines."""
    done = subprocess.run([PROGRAM, "slots", "--grain", "43", "--pi", "C201"], input="".join(f"{it}\n" for it in lines),
                          stdout=subprocess.PIPE, stderr=subprocess.DEVNULL, timeout=SECONDS, text=True)
    return done.stdout.splitlines()


def numbers_of(lines):
    """Returns for each group the place of its line and the slot in which it was sent."""
    return [(place, int(line[15:19], 16)) for place, line in enumerate(lines) if line[:4] == "C201"]


class V4l2(Case):
    def test_each_line_is_a_group_that_came_whole(self):
        module, counts = loaded(), [0, 0]
        for _, seed in self.cases(range(RADIOS)):
            for takes_corrected in (False, True):
                driver = Driver(seed, 0.15, 0.002)
                lines = [it for it in module.lines(driver, takes_corrected) if it[0] != "-"]
                numbers = [number for _, number in numbers_of(lines)]
                sent = [" ".join(f"{it:04X}" for it in driver.sent[number]) for number in numbers]
                self.check(f"seed {seed}: groups as sent", [it[:19] for it in lines], sent)
                came = driver.corrected if takes_corrected else driver.whole
                self.check(f"seed {seed}: of blocks that came", set(numbers) - came, set())
                counts[0] += len(came)
                counts[1] += len(numbers)
        self.check_all(f"most of them: {counts}", counts[1] > 0.8 * counts[0], True)

    def test_no_slot_is_counted_too_few(self):
        extra = total = 0
        for _, seed in self.cases(range(RADIOS)):
            for stalls, pauses in ((0, STALLS), (0.003, STALLS), (0.001, SLEEP)):
                driver = Driver(seed, 0.1, stalls, pauses)
                numbers = numbers_of(slots_of(loaded().lines(driver, False)))
                steps = [(place - before, sent - earlier)
                         for (before, earlier), (place, sent) in itertools.pairwise(numbers)]
                self.check(f"seed {seed}: too few", [it for it in steps if it[0] < it[1]], [])
                if not stalls:
                    self.check(f"seed {seed}: too many", [it for it in steps if it[0] > it[1]], [])
                extra += sum(counted - passed for counted, passed in steps)
                total += numbers[-1][0]
        self.check_all("few too many", extra < 0.01 * total, True)

    def test_a_pipe(self):
        """The program by itself, with a pipe in place of a radio: a text is shown and goes after the dwell."""
        pipe = os.path.join(temporary_folder(self), "radio")
        os.mkfifo(pipe)
        call = f"{V4L2} {pipe} | {PROGRAM} slots --grain 43 --pi C201 --quiet | {PROGRAM} decode --pi C201 --m 30"
        with subprocess.Popen(["bash", "-c", call], stdout=subprocess.PIPE, text=True) as program:
            with open(pipe, "wb", buffering=0) as radio:
                words = [0xC201, 0x2140, 0x4849, 0x0D20]
                until = time.monotonic() + PROMPT
                shown = threading.Thread(target=lambda: self.check("shown", program.stdout.readline()[-5:], '"HI"\n'))
                shown.start()
                while shown.is_alive() and time.monotonic() < until:
                    for word, mark in zip(words, marks_of(words)):
                        radio.write(struct.pack("<HB", word, mark))
                        time.sleep(SLOT / 4)
                shown.join(PROMPT)
                self.check("gone after the dwell", program.stdout.readline()[-10:], "text none\n")
            self.check("at the end of the pipe", program.wait(PROMPT), 0)

    def test_a_radio_that_goes_away(self):
        """Another program tunes it, or somebody pulls it out."""
        for away, fault, said in ((True, None, "the radio was tuned to another frequency"),
                                  (False, OSError(errno.ENODEV, "No such device"), "No such device")):
            module, driver = loaded(), Driver(1, 0.1, 0)
            module.now, reads = lambda: 0.0, driver.reads
            driver.is_tuned_away = lambda away=away: away
            driver.reads = lambda reads=reads, fault=fault: ending(reads(), fault)
            with self.assertRaises(OSError) as raised:
                list(module.lines(driver, False))
            self.check(said, raised.exception.strerror, said)

    def test_what_is_no_radio(self):
        for words, status, said in [(["/dev/null"], 1, "v4l2: /dev/null: Inappropriate ioctl for device"),
                                    (["/dev/radio-none"], 1, "v4l2: /dev/radio-none: No such file or directory"), ([], 2, "file"),
                                    (["--frequency", "x", "/dev/null"], 2, "--frequency")]:
            done = subprocess.run([V4L2, *words], capture_output=True, text=True, timeout=SECONDS)
            self.check(f"{words}", (done.returncode, said in done.stderr), (status, True))
