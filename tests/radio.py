"""The signal chain of programs/transmit and programs/receive, for test_fm and bench/radio: encode, transmit, noise and fades, receive.

Noise and fades come from fixed seeds: tests/air adds them to the multiplex, and tests/dongle at radio frequency.
"""
import collections
import os
import random
import re
import shlex
import subprocess

from tests.support import PROGRAM, path

TRANSMIT, RECEIVE = path("programs/transmit"), path("programs/receive")
AIR, DONGLE = path("tests/air"), path("tests/dongle")
LOST = "---- ---- ---- ----"
SECONDS = 600
SAMPLES_A_SLOT = 104 * 144
WORDS = "ABBA WATERLOO NEWS JAZZ WEATHER SONG NIGHT TRAIN SUN MOON RIVER HOUSE".split()

# programme, slots, dwell, decibels, seed, fades as slots, whether another station is heard in them, and the longest burst
# of wrong bits that is corrected in a block
Case = collections.namedtuple("Case", "name slots dwell decibels seed fades other correct", defaults=[0])
Heard = collections.namedtuple("Heard", "texts sent lines")


def fades(seed, slots, shortest, longest, between=60):
    """Returns ranges of slots in which the station is away, each after a time in which it is heard. The first 50 slots
    are free."""
    rng, at, ranges = random.Random(seed), 50, []
    while at + longest < slots - 20:
        length = rng.randint(shortest, longest)
        ranges.append((at, at + length - 1))
        at += length + rng.randint(10, between)
    return ranges


def script(seed, slots, dwell):
    """Returns the rows of a station that changes its text as often as it may, with four of five slots free, and its
    texts."""
    rng, rows, texts = random.Random(seed), [], set()
    for slot in range(slots):
        command = "-,"
        if slot >= dwell and slot % (2 * dwell) == dwell % (2 * dwell):
            text = " ".join(rng.sample(WORDS, rng.randint(2, 5)))
            texts.add(text)
            command = f"text,{text}"
        rows.append(f"{command},{int(rng.random() < 0.8)},\n")
    return "".join(rows).encode(), texts


def encoded(programme, seed, slots, dwell):
    """Returns the log of a station, and its texts."""
    rows, texts = script(seed, slots, dwell)
    words = [PROGRAM, "encode", "--pi", programme, "--m", str(dwell)]
    return subprocess.run(words, input=rows, stdout=subprocess.PIPE, timeout=SECONDS, check=True).stdout, texts


def fades_of(case):
    """Returns the fades as arguments name them."""
    return ",".join(f"{first}-{last}" for first, last in case.fades) or "none"


def received(case, channel):
    """Returns the groups that a station sent, and the lines that were received through a channel."""
    log, texts = encoded("C201", case.seed, case.slots, case.dwell)
    steps = [TRANSMIT, "--pi", "C201"], channel, [RECEIVE, "--pi", "C201", "--correct", str(case.correct)]
    call = "set -o pipefail; " + " | ".join(map(shlex.join, steps))
    done = subprocess.run(["bash", "-c", call], input=log, stdout=subprocess.PIPE, stderr=subprocess.DEVNULL,
                          timeout=SECONDS, check=True)
    sent = [line for line in log.decode().splitlines() if line[0] != "#"]
    return Heard(texts, sent, done.stdout.decode().splitlines())


def heard_by_dongle(case, ppm):
    """Plays a case at radio frequency, where the decibels are the carrier over the noise in 200 kHz. The clock of the
    dongle is slow by so many millionths."""
    return received(case, [DONGLE, str(case.seed), str(case.decibels), str(ppm), fades_of(case)])


def heard(case, folder):
    """Plays a case over the multiplex."""
    air = [AIR, str(case.seed), str(case.decibels), fades_of(case)]
    if case.other:
        theirs, _ = encoded("F201", case.seed + 1, case.slots, case.dwell)
        call = [TRANSMIT, "--pi", "F201"]
        made = subprocess.run(call, input=theirs, stdout=subprocess.PIPE, timeout=SECONDS, check=True).stdout
        samples = os.path.join(folder, "other")
        with open(samples, "wb") as file:
            # slots of another station begin at other times
            file.write(made[2 * SAMPLES_A_SLOT // 3:])
        air.append(samples)
    return received(case, air)


def shown(lines, *words):
    """Returns the texts that `decode` with these arguments shows of these lines."""
    given = "".join(f"{line}\n" for line in lines).encode()
    output = subprocess.run([PROGRAM, "decode", "--pi", "C201", *words], input=given, stdout=subprocess.PIPE,
                            stderr=subprocess.DEVNULL, timeout=SECONDS, check=True).stdout
    return re.findall(r'^\d+ text "(.*)"$', output.decode(), re.M)


def is_of(line, sent):
    """Returns whether the line may be that of the slot in which this group was sent: the group, a lost slot, or one of
    the station's names."""
    return line in (LOST, sent) or (sent == LOST and re.fullmatch("C201 000[0-3] E0CD [0-9A-F]{4}", line) is not None)


def wrong_places(lines, sent):
    """Returns how many lines are not that of their slot. The first slots may be missing, at 2 dB dozens of them."""
    return min(sum(not is_of(*it) for it in zip(lines, sent[at:])) for at in range(200))


def once(case):
    """Returns the arguments of `decode` for the station's dwell."""
    return "--m", str(case.dwell)


def twice(case):
    """Returns those of a receiver that shows only what it heard twice, and needs the same spacing of the station."""
    return "--m", str(case.dwell // 2), "--confirm", str(case.dwell // 2 + 1)


def never_set(shown_texts, texts):
    """Returns the texts that were shown although no station set them."""
    return [text for text in shown_texts if text not in texts]
