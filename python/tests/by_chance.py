"""Makes logs by chance, and reads the program's output as a display for each slot."""
import os
import random
import re
import subprocess

from rdsrt import Encoder, Item, Refused, View, format_group
from rdsrt.characters import coded, shown

PROGRAM = os.environ.get("RDSRT_PROGRAM")
SECONDS = 120
LINE = re.compile(r'(\d+) (\w+) (?:none|([01]) ([01])|(?:([A-Z0-9.]+) )?"(.*)")')
TEXT_BYTES = [0x0A, 0x0B, 0x1F, *range(0x20, 0x100)]


def ran_with_notes(*words, log=b""):
    """Returns the lines that the program prints over this log, and its standard error."""
    done = subprocess.run([PROGRAM, *words], input=log, capture_output=True, timeout=SECONDS)
    return done.stdout.decode().splitlines(), done.stderr.decode()


def ran(*words, log=b""):
    """Returns the lines that the program prints over this log."""
    return ran_with_notes(*words, log=log)[0]


def text(rng, most):
    """Returns a text of up to so many of all characters that may be sent."""
    count = rng.randrange(most + 1)
    if rng.random() < 0.5:
        return shown(bytes(rng.choice(TEXT_BYTES) for _ in range(count)))
    return "ABBA - WATERLOO, Beyoncé, Die Ärzte, Rødgrød"[:count]


def groups(rng, dwell, slots, free=0.8):
    """Returns the groups of an encoder that gets texts, names and tags by chance."""
    encoder, sent = Encoder(0xC201, pty=10, dwell=dwell), []
    for _ in range(slots):
        kind = rng.random()
        try:
            if kind < 0.05:
                encoder.set_text(text(rng, 64))
            elif kind < 0.08:
                encoder.set_name(rng.choice(["POP", "NEWS", 'A"B', "Ænglåß"]))
            elif kind < 0.15:
                first, second = ((rng.randrange(1, 64), rng.randrange(9), rng.randrange(1, 9)) for _ in range(2))
                tags = (first, second)[:rng.randrange(3)]
                encoder.set_tags(*tags, toggle=rng.random() < 0.5, running=rng.random() < 0.7)
        except Refused:
            pass
        sent.append(encoder.tick(rng.random() < free))
    return sent


def heard(rng, sent, share=0.7):
    """Returns the groups that a receiver gets, some of them of another programme."""
    return [it if rng.random() < share else it and (0xD201, *it[1:]) if rng.random() < 0.1 else None for it in sent]


def log_of(sent):
    return "".join(f"{format_group(it)}\n" for it in sent).encode()


def hostile(rng, log):
    """Returns a piece of the log with a few of its bytes changed to others that matter."""
    start = rng.randrange(len(log))
    piece = bytearray(log[start:start + rng.randrange(4000)])
    for _ in range(rng.randrange(4) if piece else 0):
        piece[rng.randrange(len(piece))] = rng.choice(b"\r\n\x00 -#<%0aFg\xff")
    return bytes(piece)


def shown_by(lines):
    """Returns the program's display after each slot with a change: the slot, text, name, item, and tags."""
    parts, found = dict.fromkeys(("text", "name", "item", "tag1", "tag2")), []
    for line in lines:
        slot, part, toggle, running, kind, printed = LINE.fullmatch(line).groups()
        it = None if printed is None else shown(coded(printed))
        parts[part] = Item(toggle == "1", running == "1") if toggle else (kind, it) if kind else it
        state = (parts["text"], parts["name"], parts["item"], [it for it in (parts["tag1"], parts["tag2"]) if it])
        if found and found[-1][0] == int(slot):
            found.pop()
        found.append((int(slot), *state))
    # a tag that goes from one place to the other changes no view
    return [it for at, it in enumerate(found) if at == 0 or found[at - 1][1:] != it[1:]]


def shown_in(slot, view: View, names):
    """Returns the same of a view. `names` gives the program's name of a content type."""
    return slot, view.text, view.name, view.item, [(names(it.content_type), it.text) for it in view.tags]
