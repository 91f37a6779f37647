"""Logs of any length, from a fixed seed: texts with their tags, names and announcements, other groups between, one slot
in ten lost, and behind the blocks the time stamps that RDS Spy writes.
"""
import os
import random
import sys

sys.path.insert(1, os.path.dirname(os.path.dirname(os.path.abspath(__file__))))
from tests.slot import SLOT

SEED = 20261122
WORDS = ["ABBA", "WATERLOO", "NEWS", "TRAFFIC", "FIRST SONG", "OTHER SONG", "WEATHER", "JAZZ"]


def segments(text):
    body = text.encode("ascii")
    body = body if len(body) == 64 else body + b"\r"
    body += b" " * (-len(body) % 4)
    return [body[at:at + 4] for at in range(0, len(body), 4)]


def line(number, low, c, d):
    return f"C201 {number << 12 | 10 << 5 | low:04X} {c:04X} {d:04X}"


def segment_line(number, flag, address, piece):
    return line(number, flag << 4 | address, int.from_bytes(piece[:2], "big"), int.from_bytes(piece[2:], "big"))


def stamp(slot):
    """The time of a slot, as RDS Spy writes it."""
    hours, seconds = divmod(slot * SLOT, 3600)
    return f"@2024/01/01 {int(12 + hours) % 24:02d}:{int(seconds // 60):02d}:{int(seconds % 60):02d}.{int(seconds * 100 % 100):02d}"


def log(rng, slots):
    """The lines of a station that sends a new text every 400 slots."""
    flag, turn, name = 1, 0, b"JAZZ FM "
    text = []
    for slot in range(slots):
        if slot % 400 == 0:
            flag ^= 1
            text = segments(" - ".join(rng.sample(WORDS, rng.randint(1, 4)))[:64])
        if rng.random() < 0.1:
            yield "---- ---- ---- ----"
            continue
        kind = slot % 10
        if kind in (0, 2, 4):
            yield segment_line(2, flag, turn % len(text), text[turn % len(text)])
            turn += 1
        elif kind in (1, 6):
            at = kind // 6
            yield segment_line(10, 0, at, name[4 * at:4 * at + 4])
        elif kind == 3:
            yield line(3, 22, 0, 0x4BD7)
        elif kind == 7 and slot % 400 > 128:
            yield line(11, 8, 0x2002, 0)
        else:
            yield line(0, rng.randrange(32), rng.randrange(65536), rng.randrange(65536))


def random_segments(slots):
    """The lines of a station that sends a random segment of a text in each slot, all with one flag."""
    rng = random.Random(SEED)
    for _ in range(slots):
        yield segment_line(2, 0, rng.randrange(16), bytes(rng.choices(b"ABCDEFGHIJKLMNOPQRSTUVWXYZ", k=4)))


def write(path, slots):
    with open(path, "w", encoding="ascii") as made:
        for slot, text in enumerate(log(random.Random(SEED), slots)):
            made.write(f"{text} {stamp(slot)}\n")
