"""programs/transmit and programs/receive: what `rdsrt encode` sends is received over noise and fades, and decoded again.

The log that is received has the line of each slot from the first group on, which is that slot's group or a lost one,
and no text is shown that was never set. The same log without the lines of the lost slots shows such texts: so these
tests can fail.
"""
import itertools
import math
import os
import re
import select
import shlex
import subprocess
import time

from tests import radio
from tests.needed import PYTHON, needs
from tests.support import Case, path, temporary_folder, text_of
from tests.test_commands import ran

BUFFER = 16_384                                              # samples
DROPPED = {50, *range(80, 87)}
# runs a receiver by a clock of the test: each buffer of these numbers comes at its time
BY_BUFFERS = f"""import fcntl, os, runpy, sys, time
kept, size, clock, left, read = iter(eval(sys.argv[1])), {2 * BUFFER}, 0, 0, os.read
def read_at_its_time(descriptor, count):
    global clock, left
    number = None if left else next(kept, None)
    if number is not None:
        clock, left = number * {BUFFER} / 171_000, size
    data = read(descriptor, min(count, left)) if left else b""
    left -= len(data)
    return data
os.read, time.clock_gettime = read_at_its_time, lambda _: clock
fcntl.ioctl = lambda *_: left.to_bytes(4, sys.byteorder)
sys.argv = sys.argv[2:]
runpy.run_path(sys.argv[0], run_name="__main__")
"""


def left_whole(decibels):
    """Returns the share of the groups that white noise leaves whole. Each bit is the difference of two symbols, so the
    104 bits of a group are right if its 105 symbols are."""
    return (1 - math.erfc(math.sqrt(10 ** (decibels / 10))) / 2) ** 105


def transmitted(log):
    """Returns the samples of a log."""
    return subprocess.run([radio.TRANSMIT, "--pi", "C201"], input=log, stdout=subprocess.PIPE, check=True,
                          timeout=radio.SECONDS).stdout


@needs("python3-numpy")
class Fm(Case):
    def test_no_fade(self):
        self.loop(radio.Case("no fade", 600, 32, 10, 1, [], False))

    def test_fades(self):
        self.loop(radio.Case("fades", 1700, 32, 9, 2, radio.fades(2, 1700, 20, 130), False))

    def test_another_station_in_the_fades(self):
        self.loop(radio.Case("another station in the fades", 1200, 32, 12, 3, radio.fades(3, 1200, 30, 100), True))

    def loop(self, case):
        """Plays a station over the air, and compares the log that is received with the log that was sent."""
        got = radio.heard(case, temporary_folder(self))
        away = sum(last - first + 1 for first, last in case.fades)
        groups = [line for line in got.lines if line != radio.LOST]
        # the first slots and the last may be missing; the slots between are in their places
        self.check(f"seed {case.seed}: each slot has its line", radio.wrong_places(got.lines, got.sent), 0)
        self.check(f"seed {case.seed}: no line too many, or too few", case.slots - 4 <= len(got.lines) <= case.slots,
                   True)
        self.check(f"seed {case.seed}: most that could be heard", len(groups) > 0.8 * (case.slots - away), True)
        texts = radio.shown(got.lines, *radio.once(case))
        self.check(f"seed {case.seed}: texts are shown", len(texts) > 5, True)
        self.check(f"seed {case.seed}: none that was never set", radio.never_set(texts, got.texts), [])
        if case.fades:
            mixed = radio.never_set(radio.shown(groups, *radio.once(case)), got.texts)
            self.check(f"seed {case.seed}: some without the lost lines", bool(mixed), True)

    def test_noise(self):
        """Nearly as many groups are received as white noise leaves whole, each in its slot."""
        for decibels in (5, 4):
            got = radio.heard(radio.Case("noise", 1700, 128, decibels, 5, [], False), temporary_folder(self))
            count = sum(line != radio.LOST for line in got.lines)
            self.check(f"{decibels} dB: {count} groups", count > 0.9 * 1700 * left_whole(decibels), True)
            self.check(f"{decibels} dB: groups in a wrong slot", radio.wrong_places(got.lines, got.sent), 0)

    def test_corrected_bits(self):
        """At 5 dB correction gives nearly every group, and no wrong text is shown by a receiver that shows what came twice."""
        plain = radio.Case("5 dB", 1700, 128, 5, 4, [], False)
        corrected = plain._replace(correct=2)
        counts = []
        for case in (plain, corrected):
            got = radio.heard(case, temporary_folder(self))
            counts.append(sum(line != radio.LOST for line in got.lines))
        texts = radio.shown(got.lines, *radio.twice(corrected))
        self.check("more groups with corrected bits", counts[1] > 1.3 * counts[0], True)
        self.check("texts are shown", len(texts) > 2, True)
        self.check("none that was never set", radio.never_set(texts, got.texts), [])

    def test_the_programme_that_two_groups_agree_on_is_taken(self):
        """Without --pi, from its second group on. Standard error has the programmes that are heard."""
        log = [f"C201 F000 {number * 40503 & 0xFFFF:04X} {number:04X}" for number in range(60)]
        log[20] = log[30] = "F201 F000 0000 0000"
        samples, begins = transmitted("\n".join(log).encode()), {}
        mine, other = "receive: found C201, and {} its groups\n", "receive: found F201, and {} its groups\n"
        for asked, taken, said in ((None, "C201", mine.format("takes") + other.format("leaves out")),
                                   ("C201", "C201", mine.format("takes") + other.format("leaves out")),
                                   ("F201", "F201", mine.format("leaves out") + other.format("takes"))):
            done = subprocess.run([radio.RECEIVE, *(["--pi", asked] if asked else [])], input=samples,
                                  capture_output=True, timeout=radio.SECONDS)
            got, wanted = done.stdout.decode().splitlines(), [it if it[:4] == taken else radio.LOST for it in log]
            # the last two slots may be missing
            begins[asked] = next((at for at in range(30) if len(got) > 20 and got == wanted[at:][:len(got)]), None)
            self.check(f"--pi {asked}: up to the end", 58 <= (begins[asked] or 0) + len(got) <= 60, True)
            self.check(f"--pi {asked}: what it found", done.stderr.decode(), said)
        self.check("where they begin", (begins[None] - begins["C201"], begins["C201"] < 4, begins["F201"]), (1, True, 20))
        for seconds, said in ((9, b""), (11, b"receive: found no PI in 10 s: is there a station with RDS?\n")):
            done = subprocess.run([radio.RECEIVE], input=bytes(2 * 171_000 * seconds), capture_output=True,
                                  timeout=radio.SECONDS)
            self.check(f"{seconds} s of silence", (done.stdout, done.stderr, done.returncode), (b"", said, 0))

    def test_lines_come_while_the_samples_come(self):
        """They come in a fade too."""
        log, _ = radio.encoded("C201", 1, 60, 8)
        samples = transmitted(log)[:2 * 60 * radio.SAMPLES_A_SLOT]
        pauses = samples, bytes(2 * 40 * radio.SAMPLES_A_SLOT)
        with subprocess.Popen([radio.RECEIVE, "--pi", "C201"], stdin=subprocess.PIPE, stdout=subprocess.PIPE,
                              stderr=subprocess.DEVNULL, bufsize=0) as program:
            lines, given = b"", 0
            for part in pauses:
                program.stdin.write(part)
                given += len(part) // (2 * radio.SAMPLES_A_SLOT)
                until = time.monotonic() + radio.SECONDS / 5
                while lines.count(b"\n") < given - 5 and time.monotonic() < until:
                    if select.select([program.stdout], [], [], 0.1)[0]:
                        lines += os.read(program.stdout.fileno(), 1 << 16)
                self.check(f"live lines of {given} slots", given - 5 <= lines.count(b"\n") <= given, True)
            program.stdin.close()
            program.stdout.read()
            self.check("end of a live pipe", program.wait(radio.SECONDS), 0)

    def test_wrong_arguments_and_full_output_are_refused(self):
        rows = [([radio.TRANSMIT], b"", 2), ([radio.TRANSMIT, "--pi", "C20"], b"", 2),
                ([radio.RECEIVE, "--pi", "x"], b"", 2), ([radio.RECEIVE, "--pi", "C201", "--correct", "6"], b"", 2),
                ([radio.TRANSMIT, "--pi", "C201"], b"C201 2140 4849\n", 1),
                ([radio.TRANSMIT, "--pi", "C201", "--name", "NINE CHAR"], b"", 2),
                ([radio.RECEIVE, "--pi", "C201"], b"", 0), ([radio.TRANSMIT, "--help"], b"", 0),
                ([radio.RECEIVE, "--help"], b"", 0)]
        for words, given, status in rows:
            done = subprocess.run(words, input=given, capture_output=True, timeout=radio.SECONDS)
            self.check(f"{words[0][-8:]} {words[1:]}", done.returncode, status)
        log, _ = radio.encoded("C201", 1, 60, 8)
        with open("/dev/full", "wb") as full:
            done = subprocess.run([radio.TRANSMIT, "--pi", "C201"], input=log, stdout=full, stderr=subprocess.PIPE,
                                  timeout=radio.SECONDS)
            self.check("transmit to full output", done.returncode, 1)
            transmit, receive = (f"{shlex.quote(it)} --pi C201" for it in (radio.TRANSMIT, radio.RECEIVE))
            call = f"{transmit} | {receive}; exit ${{PIPESTATUS[1]}}"
            done = subprocess.run(["bash", "-c", call], input=log, stdout=full, stderr=subprocess.PIPE,
                                  timeout=radio.SECONDS)
            self.check("receive to full output", done.returncode, 1)


@needs("python3-numpy")
class EndToEnd(Case):
    """A script, encode, transmit, the air, a dongle whose clock is 40 ppm slow, receive and decode."""

    def test_no_text_is_shown_that_nobody_set(self):
        """Fades of 60 dB take 706 of the 1,200 slots, so 494 can be heard."""
        fades = radio.fades(3, 1200, 20, 130)
        self.check("slots in fades", sum(last - first + 1 for first, last in fades), 706)
        for decibels, least in ((30, 479), (18, 446)):
            case = radio.Case("", 1200, 32, decibels, 3, fades, False)
            got = radio.heard_by_dongle(case, 40)
            groups = [line for line in got.lines if line != radio.LOST]
            self.check(f"{decibels} dB: {len(groups)} groups", len(groups) >= least, True)
            self.check(f"{decibels} dB: groups in a wrong slot", radio.wrong_places(got.lines, got.sent), 0)
            texts = radio.shown(got.lines, *radio.once(case))
            self.check(f"{decibels} dB: texts are shown", len(texts) > 5, True)
            self.check(f"{decibels} dB: none that was never set", radio.never_set(texts, got.texts), [])
            mixed = radio.never_set(radio.shown(groups, *radio.once(case)), got.texts)
            self.check(f"{decibels} dB: some without the lost lines", bool(mixed), True)


@needs("python3-numpy")
class Live(Case):
    def test_samples_that_a_tuner_dropped_are_counted(self):
        """rtl_fm drops whole buffers of 96 ms. With --live no slot is missing then; without it some are."""
        log = "".join(f"C201 F000 {number * 40503 & 0xFFFF:04X} {number:04X}\n" for number in range(140)).encode()
        made = transmitted(log)
        buffers = [made[at:at + 2 * BUFFER] for at in range(0, len(made), 2 * BUFFER)]
        steps = {}
        for words in (("--live",), ()):
            kept = [it for it in range(len(buffers)) if it not in DROPPED]
            call = [PYTHON, "-c", BY_BUFFERS, repr(kept), radio.RECEIVE, *words, "--pi", "C201"]
            lines = subprocess.run(call, input=b"".join(buffers[it] for it in kept), stdout=subprocess.PIPE,
                                   stderr=subprocess.DEVNULL, timeout=radio.SECONDS).stdout.decode().splitlines()
            groups = [(place, int(line[15:], 16)) for place, line in enumerate(lines) if line != radio.LOST]
            steps[words] = [(place - before, sent - earlier)
                            for (before, earlier), (place, sent) in itertools.pairwise(groups)]
        self.check("too few", [it for it in steps["--live",] if it[0] < it[1]], [])
        self.check("groups on both sides", sum(sent for _, sent in steps["--live",]) > 60, True)
        self.check("too few without the clock", any(counted < sent for counted, sent in steps[()]), True)


@needs("python3-numpy")
class Pages(Case):
    """The lines of docs/AIR.md."""

    def test_the_trial_without_hardware(self):
        text = text_of("docs/AIR.md").split("## Without hardware\n")[1].split("\n## ")[0]
        call, shown = re.search(r"^    (\./rdsrt .*?)\n\nIt prints:\n\n```text\n(.*?)```", text, re.M | re.S).groups()
        self.check("the trial", ran(call), shown)

    @needs("sox")
    def test_the_lines_for_a_sound_card(self):
        """With a computed station in place of the card, whose samples come at once: without --live. sox makes them."""
        section = text_of("docs/AIR.md").split("## At the encoder's output\n")[1].split("\n## ")[0]
        card, file = re.findall(r"^    (arecord .*\n.*|sox .*)$", section, re.M)
        case = radio.Case("a sound card", 300, 32, 0, 4, [], False)
        log, texts = radio.encoded("C201", case.seed, case.slots, case.dwell)
        folder, raw = temporary_folder(self), "-t raw -e signed -b 16 -c 1"
        os.symlink(path("programs"), os.path.join(folder, "programs"))
        with open(os.path.join(folder, "samples"), "wb") as samples:
            samples.write(transmitted(log))
        ran(f"sox -q {raw} -r 171k samples mpx.wav rate 192k", folder)
        sounds, _, rest = card.partition("|")
        self.check("the card", sounds.split()[-2:], ["-r", "192000"])
        sent = [line for line in log.decode().splitlines() if line[0] != "#"]
        for line in (f"sox mpx.wav {raw} - | {rest.replace(' --live', '')}", file):
            ran(line, folder)
            with open(os.path.join(folder, "station.log"), encoding="ascii") as got:
                lines = got.read().splitlines()
            self.check(f"{line}: groups in a wrong slot", radio.wrong_places(lines, sent), 0)
            shown = radio.shown(lines, *radio.once(case))
            self.check(f"{line}: texts", (len(shown) > 2, radio.never_set(shown, texts)), (True, []))

    def test_the_pi_that_is_heard_is_passed_on(self):
        """With a computed station in place of the dongle, whose samples come at once: without --live."""
        call = re.search(r"^    (rtl_fm .* --live \|\n.*)$", text_of("docs/AIR.md"), re.M)[1]
        dongle, _, rest = call.partition("|")
        station = f"rdsrt encode --pi C201 --pty 10 --m 8 < examples/chanson.csv | {radio.TRANSMIT} --pi C201"
        self.check("the dongle", dongle.startswith("rtl_fm "), True)
        lines = ran(f"{station} | {rest.replace(' --live', '')}").splitlines()
        self.check("its texts", [it.split(" ", 1)[1] for it in lines if " text " in it or it.startswith("receive")],
                   ["found C201, and takes its groups", 'text "Édith Piaf, Milord"'])
        silence = ran(f"head -c {2 * 171_000} /dev/zero | {rest.replace(' --live', '')}")
        self.check("without a station nothing is decoded", silence, "")
