#!/usr/bin/env python3
"""Writes index.html: one file with the style, the module, the examples and the ES modules of the page, joined in the order of
their imports. These are plain scripts: a browser loads no module for a page that was opened from a disk. The policy of the
page names each of them by its sum.

usage: build.py MODULE EXAMPLES OUT
"""
import base64
import csv
import glob
import gzip
import hashlib
import io
import json
import os
import re
import sys

PAGE_FOLDER = os.path.dirname(os.path.dirname(os.path.abspath(__file__)))
# The module with which the page begins, and the one of its workers. Their imports lead to all others.
PAGE, WORKER = "ui/app.js", "model/worker.js"
IMPORT = re.compile(r'^import (?:(?:\* as (\w+)|(\{[^}]+\})) from )?"(.+)";\n', re.M)
# an exported definition, or a list of names
EXPORT = re.compile(r"^export (?:(?=(?:async )?(?:const|class|function) ([\w$]+))|\{ (.*) \};\n)", re.M)

ENCODE = ["encode", "--pi", "C201", "--pty", "10", "--m", "8"]
LOGS = [
    ("An encoder turns its flag back too soon", "flags.log", {"pi": "C201", "m": 8}),
    ("A song with its artist and title", "accents.log", {"pi": "F201", "m": 128}),
    ("Our own encoder", "chanson.csv", {"from": ENCODE, "pi": "C201", "m": 8}),
    ("A wrong group, heard twice", "corrected.log", {"pi": "C201", "m": 8, "w": 8}),
    ("Two letters", "hi.log", {"pi": "C201", "m": 128}),
]
SCRIPTS = [
    ("The mix: a long tunnel", "mix.csv", {"m": 8, "k": 0, "pty": "10"}),
    ("A short tunnel", "tunnel.csv", {"m": 8, "k": 0, "pty": "24"}),
    ("Groups that come late", "late.csv", {"m": 4, "k": 2, "pty": "10"}),
    ("A wrong group, heard twice", "wrong.csv", {"m": 8, "k": 0, "w": 8, "pty": "10"}),
    ("A song with its tags", "chanson.csv", {"m": 8, "k": 0, "pty": "10", "receptions": "G"}),
]
# After the first restart a text comes first, after the second the empty one: the commands by their slots.
RESTARTS = {8: "text,Road A1: closed", 26: "restart,", 34: "text,Road B7: open", 52: "restart,", 60: "text,",
            76: "text,Road C3: closed"}
RESTARTS_SLOTS = 90


def restarts():
    """The script of these commands with one receiver, which loses nothing."""
    text = "".join(f"{RESTARTS.get(slot, '-,')},1,G\n" for slot in range(RESTARTS_SLOTS))
    return {"name": "Two restarts of the encoder", "text": text, "m": 8, "k": 0, "pty": "10"}


def shown(folder, rows):
    """The examples as the page takes them: name, text, and how they are opened. A script for `encode` may get receptions."""
    for name, file, how in rows:
        with open(os.path.join(folder, file), encoding="utf-8") as text:
            yield {"name": name, "text": text.read().replace(",\n", f",{how.get('receptions', '')}\n"), **how}


def tunnel(folder, receiver=1):
    """The log of mix.csv with the slots lost that this receiver loses: one example."""
    with open(os.path.join(folder, "mix.csv"), encoding="utf-8", newline="") as file:
        rows = list(csv.reader(file))
    text = io.StringIO()
    csv.writer(text, lineterminator="\n").writerows([*row[:3], ""] for row in rows)
    lost = [slot for slot, row in enumerate(rows) if row[3][receiver] == "L"]
    return {"name": "A long tunnel", "text": text.getvalue(), "from": ENCODE, "pi": "C201", "m": 8, "lost": lost}


def closest_letters():
    """What programs/station sends for letters of Europe that rdsrt's character table lacks, if the table has it: the nearest ones
    of the Python package."""
    sys.path.append(os.path.join(os.path.dirname(PAGE_FOLDER), "python/src"))
    from rdsrt.characters import PRINTED, closest
    table = "".join(PRINTED.values())
    nearest = {it: closest(it) for it in map(chr, (*range(0xA0, 0x250), *range(0x2010, 0x2045)))}
    sent = {it: other for it, other in nearest.items() if it not in table and other not in ("", "?")}
    return {it: other for it, other in sent.items() if all(letter in table for letter in other)}


def constant(name, value):
    """A script with one constant. No end of an element is in it."""
    return f'"use strict";\nconst {name} = {json.dumps(value, ensure_ascii=False, indent=1)};\n'.replace("</", "<\\/")


def read(name):
    with open(os.path.join(PAGE_FOLDER, name), encoding="utf-8") as file:
        return file.read()


def name_of(path):
    """The name of a module in the script that joins all."""
    return "$" + re.sub("-(.)", lambda it: it[1].upper(), os.path.basename(path)[:-len(".js")])


def join(path, done):
    """Adds a module behind those that it imports: a function that is called at once and returns what it exports."""
    if path in done:
        return
    done[path] = None
    text, uses = read(path), []
    for star, names, other in IMPORT.findall(text):
        other = os.path.normpath(os.path.join(os.path.dirname(path), other))
        join(other, done)
        if done[other] is None:
            sys.exit(f"build.py: {path} and {other} import each other")
        if star or names:
            uses.append(f"const {star or names} = {name_of(other)};\n")
    exported = ", ".join(one or more for one, more in EXPORT.findall(text))
    body = EXPORT.sub("", IMPORT.sub("", text))
    # a dictionary keeps its order: behind the modules that it imports
    del done[path]
    done[path] = f"const {name_of(path)} = (() => {{\n{''.join(uses)}{body}return {{ {exported} }};\n}})();\n"


def joined(path):
    """The module at this path and all that it imports, as one script."""
    done = {}
    join(path, done)
    if len({*map(name_of, done)}) < len(done):
        sys.exit(f"build.py: two modules have one name: {', '.join(done)}")
    return done, "".join(done.values())


def page_script():
    """The text of the worker's script, and the script of the page."""
    (for_worker, worker), (for_page, page) = joined(WORKER), joined(PAGE)
    there = {os.path.relpath(it, PAGE_FOLDER) for it in glob.glob(os.path.join(PAGE_FOLDER, "*/*.js"))}
    there -= {it for it in there if it.startswith("out/")}
    if there - {*for_worker, *for_page}:
        sys.exit(f"build.py: nothing imports {', '.join(sorted(there - {*for_worker, *for_page}))}")
    return constant("RDSRT_WORKER", worker) + page


def one_file(scripts):
    """The page with its style and these scripts in it, each by the name under which index.html asks for it."""
    html, sums = read("index.html"), {"script": [], "style": []}
    parts = [("style", '<link rel="stylesheet" href="style.css">', read("style.css"))]
    parts += [("script", f'<script src="{name}"></script>', text) for name, text in scripts.items()]
    for kind, tag, text in parts:
        if html.count(tag) != 1 or f"</{kind}" in text:
            sys.exit(f"build.py: index.html has not one {tag}, or its text ends the element")
        html = html.replace(tag, f"<{kind}>{text}</{kind}>")
        sums[kind].append(f"'sha256-{base64.b64encode(hashlib.sha256(text.encode()).digest()).decode()}'")
    for kind, found in sums.items():
        html = html.replace(f"{kind}-src 'self'", f"{kind}-src {' '.join(found)}", 1)
    return html


def main():
    module, examples, out = sys.argv[1:]
    with open(module, "rb") as file:
        packed = gzip.compress(file.read(), 9, mtime=0)
    logs, scripts = [*shown(examples, LOGS), tunnel(examples)], [*shown(examples, SCRIPTS), restarts()]
    html = one_file({
        "engine.js": constant("RDSRT_ENGINE", base64.b64encode(packed).decode()),
        "examples.js": constant("RDSRT_EXAMPLES", {"log": logs, "script": scripts}) + constant("RDSRT_CLOSEST", closest_letters()),
        "page.js": page_script(),
    })
    with open(os.path.join(out, "index.html"), "w", encoding="utf-8", newline="\n") as file:
        file.write(html)


if __name__ == "__main__":
    main()
