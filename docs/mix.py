#!/usr/bin/env python3
"""Draws docs/mix.svg: receiver 1 of examples/mix.csv, with rdsrt and as an ordinary radio.

The bars are the output of the program: `encode` gives the log, and `decode` gives the texts of a receiver that loses
the slots marked L. With --m 65535 the receiver never drops a text, so it is an ordinary radio with the flag bit alone.
Each text has a colour, and a mix has the colours of its parts.

usage: docs/mix.py [PROGRAM] > docs/mix.svg     runs that program in place of crates/rdsrt/out/rdsrt
"""
import csv
import os
import subprocess
import sys
from typing import NamedTuple
from xml.sax.saxutils import escape

ROOT = os.path.dirname(os.path.dirname(os.path.abspath(__file__)))
PROGRAM = os.path.abspath(sys.argv[1]) if sys.argv[1:] else os.path.join(ROOT, "crates/rdsrt/out/rdsrt")
RECEIVER, DWELL, ENDLESS, LOST = 1, 8, 65535, "---- ---- ---- ----"
# the picture in px: a row is a line with its name, and a bar of two lines of text
WIDTH, EDGE, TOP, ROW, BAR, LINE, PAD = 480, 8, 34, 82, 46, 19, 4
# the room of a letter, and of a segment
LETTER, SHORT = 9, 36
HEIGHT, SEGMENT = TOP + 3 * ROW + 24, 4
STYLE = """
    text { font: 16px system-ui, 'DejaVu Sans', sans-serif; fill: #1f2328 } .name, .never { font-weight: 600 }
    .card { fill: #ffffff; stroke: #d1d9e0 } .lane { fill: #eaedf1 } .tunnel { fill: #c8cfd7 } .dim { fill: #59636e }
    .t0 { fill: #8a4b08 } .t1 { fill: #6639ba } .t2 { fill: #0a5fb0 } text.on { fill: #ffffff }
    .never { fill: #cf222e } .edge { fill: none; stroke: #cf222e; stroke-width: 3 }
    @media (prefers-color-scheme: dark) {
      text { fill: #f0f6fc } .dim { fill: #a9b3be } .card { fill: #0d1117; stroke: #3d444d } .lane { fill: #21262d }
      .tunnel { fill: #3d444d } .never { fill: #ff7b72 } .edge { stroke: #ff7b72 } }
"""


class Bar(NamedTuple):
    """What is shown from one slot to another."""
    start: int
    to: int
    text: str


def ran(words, lines):
    """Returns the lines that the program prints over these lines."""
    given = "\n".join(lines) + "\n"
    done = subprocess.run([PROGRAM, *words], input=given, stdout=subprocess.PIPE, text=True, check=True)
    return done.stdout.splitlines()


def bars(changes, end):
    """Returns the bars between changes. A change to None ends one."""
    ends = [slot for slot, _ in changes[1:]] + [end]
    return [Bar(slot, to, text) for (slot, text), to in zip(changes, ends) if text is not None]


def shown(heard, dwell):
    """Returns the bars of the texts that a receiver shows."""
    lines = [line.split(" ", 2) for line in ran(["decode", "--pi", "C201", "--m", str(dwell)], heard)]
    return bars([(int(slot), None if rest == "none" else rest[1:-1]) for slot, _, rest in lines], len(heard))


def parts(text, texts):
    """Returns the pieces of a text, each with the number of its text. A text that was sent is one piece."""
    if text in texts:
        return [(text, texts.index(text))]
    found = []
    for at in range(0, len(text), SEGMENT):
        piece = text[at:at + SEGMENT]
        number = next(it for it, whole in enumerate(texts) if whole[at:at + SEGMENT] == piece)
        if found and found[-1][1] == number:
            found[-1] = (found[-1][0] + piece, number)
        else:
            found.append((piece, number))
    return found


def tag(kind, at, y, wide, high):
    """Returns a rectangle."""
    return f'  <rect class="{kind}" x="{at:.1f}" y="{y}" width="{wide:.1f}" height="{high}"/>'


def words(kind, at, y, text):
    """Returns a line of text."""
    return f'  <text class="{kind}" x="{at:.1f}" y="{y}">{escape(text)}</text>'


def wrapped(text, room):
    """Returns a text in one line if it fits, or in two that are cut at the space next to its middle."""
    spaces = [at for at, it in enumerate(text) if it == " "]
    if len(text) * LETTER <= room or not spaces:
        return [text]
    cut = min(spaces, key=lambda at: abs(2 * at - len(text)))
    return [text[:cut], text[cut + 1:]]


def drawn(bar, texts, place, y):
    """Gives the parts of a bar beside each other. All but the last have the room of a segment."""
    start, to = place(bar.start), place(bar.to) - 1.5
    pieces = parts(bar.text, texts)
    for number, (piece, text) in enumerate(pieces):
        at = start + number * SHORT
        room = to - at if piece == pieces[-1][0] else SHORT
        lines = wrapped(piece.strip(), room)
        yield tag(f"t{text}", at, y, room, BAR)
        yield from (words("on", at + PAD, y + BAR / 2 + 6 + LINE * (row - (len(lines) - 1) / 2), it)
                    for row, it in enumerate(lines))
    if len(pieces) > 1:
        yield tag("edge", start, y, to - start, BAR)
        yield words("never", start, y - 7, "never sent")


def played():
    """Returns the bars on air, those of the tunnels, and the slots that the receiver hears."""
    with open(os.path.join(ROOT, "examples/mix.csv"), encoding="utf-8") as file:
        rows = list(csv.reader(file))
    log = ran(["encode", "--pi", "C201", "--m", str(DWELL)], [f'{row[0]},"{row[1]}",{row[2]},' for row in rows])
    sent = [line for line in log if line[0] != "#"]
    on_air = bars([(slot, row[1]) for slot, row in enumerate(rows) if f"# {slot} text ok" in log], len(rows))
    turns = [(slot, "tunnel" if row[3][RECEIVER] == "L" else None) for slot, row in enumerate(rows)]
    tunnels = bars([it for it, before in zip(turns, [(0, None), *turns]) if it[1] != before[1]], len(rows))
    return on_air, tunnels, [group if row[3][RECEIVER] == "G" else LOST for group, row in zip(sent, rows)]


def main():
    on_air, tunnels, heard = played()
    begin, texts = on_air[0].start, [it.text for it in on_air]

    def place(slot):
        return EDGE + (slot - begin) * (WIDTH - 2 * EDGE) / (len(heard) - begin)
    out = [f'<svg xmlns="http://www.w3.org/2000/svg" width="{WIDTH}" height="{HEIGHT}" viewBox="0 0 {WIDTH} {HEIGHT}" '
           'role="img" aria-label="Texts over time">', f"  <style>{STYLE}  </style>",
           f'  <rect class="card" x="0.5" y="0.5" width="{WIDTH - 1}" height="{HEIGHT - 1}" rx="8"/>']
    for it in tunnels:
        out += [tag("tunnel", place(it.start), 8, place(it.to) - place(it.start), HEIGHT - 34),
                words("dim", place(it.start) + PAD, 26, it.text)]
    lanes = [("on air", on_air), ("with rdsrt", shown(heard, DWELL)), ("ordinary radio", shown(heard, ENDLESS))]
    for number, (name, its) in enumerate(lanes):
        y = TOP + number * ROW + 28
        out += [words("name", EDGE + PAD, y - 7, name), tag("lane", EDGE, y, WIDTH - 2 * EDGE, BAR)]
        if its[0].start > begin:
            out.append(words("dim", EDGE + PAD, y + BAR / 2 + 6, "no text"))
        for it in its:
            out += drawn(it, texts, place, y)
    print("\n".join([*out, words("dim", EDGE + PAD, HEIGHT - 8, f"M = {DWELL} slots"), "</svg>"]))


main()
