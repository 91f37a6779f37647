"""Scripts of any length, from a fixed seed, as a stream: random commands, losses and restarts.

The commands of a script are the same for every number of receivers, so that `encode` sends what `sim` sends.
"""
import itertools
import random

SEED = 20261122
RECEIVERS = 8
ROWS_A_PIECE = 10_000
WORDS = ["ABBA", "WATERLOO", "NEWS", "TRAFFIC", "Édith Piaf", "Milord", "WEATHER", "JAZZ", "À suivre", "Café 24 €"]
NAMES = ["JAZZ FM", "NEWS", "POP MIX", "CHANSON"]
# a row of these is drawn for each slot: 971 say nothing, 29 have a command
QUIET, TEXTS, TAGS, NAMED = 971, 12, 12, 4


def text(rng):
    """A text of at most 64 characters, quoted for the comma that may stand in it."""
    words = rng.sample(WORDS, rng.randint(1, 5))
    return '"' + rng.choice((" - ", ", ")).join(words)[:64] + '"'


def tags(rng):
    """Two tags, of which now and then one goes past its text."""
    start, extra = rng.randrange(12), rng.randrange(8)
    return f"{rng.randrange(2)} {rng.randrange(2)} 4 0 3 {rng.randrange(1, 64)} {start} {extra}"


def commands(rng):
    """Command, argument and `free` of each slot, without end."""
    for draw in iter(lambda: rng.randrange(1000), None):
        free = "0" if rng.random() < 0.1 else "1"
        if draw < QUIET:
            yield f"-,,{free},"
        elif draw < QUIET + TEXTS:
            yield f"text,{text(rng)},{free},"
        elif draw < QUIET + TEXTS + TAGS:
            yield f"tags,{tags(rng)},{free},"
        elif draw < QUIET + TEXTS + TAGS + NAMED:
            yield f"name,{rng.choice(NAMES)},{free},"
        else:
            yield f"restart,,{free},"


def receptions(rng, receivers, late=0):
    """What each receiver gets, again and again the same 65,537 slots: single losses, tunnels and restarts.

    The first receiver gets groups in their own slot, the last so many slots late, and the others in between.
    """
    behind = [late * receiver // max(receivers - 1, 1) for receiver in range(receivers)]
    lost_until = [0] * receivers
    pool = []
    for slot in range(65_537):
        got = ""
        for receiver in range(receivers):
            draw = rng.random()
            if draw < 0.001:
                lost_until[receiver] = slot + rng.randrange(400)
            lost = slot < lost_until[receiver] or draw > 0.95 or slot < behind[receiver]
            got += "R" if 0.001 < draw < 0.002 else "L" if lost else f"G{behind[receiver] or ''}"
        pool.append(got + "\n")
    return itertools.cycle(pool)


def pieces(slots, receivers, late=0):
    """The script's bytes, some thousand rows at a time."""
    rows = map("".join, zip(commands(random.Random(SEED)), receptions(random.Random(SEED + 1), receivers, late)))
    for first in range(0, slots, ROWS_A_PIECE):
        yield "".join(itertools.islice(rows, min(ROWS_A_PIECE, slots - first))).encode()
