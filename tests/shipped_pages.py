"""The pages of a package where its files lie: each link leads somewhere, and each command prints the lines under it. And
what a user of the packages types first.

test_shipped plays them over the files of this checkout, and tests/release in a fresh Debian.
"""
import glob
import os
import re

from tests.test_examples import ROW, status_of
from tests.test_commands import shell_blocks
from tests.test_pages import broken_links
from tests.support import text_of

# a name of a file or a folder of a package, in code
NAMED = re.compile(r"`((?:bin|include|lib|share|/usr/share)/[\w./-]*)`")

# calls in a folder of the user, and their output; $examples is the folder of the examples
USES = [
    ("decode", "rdsrt decode --pi C201 < $examples/hi.log", '0 text "HI"\n'),
    ("encode and audit",
     "rdsrt encode --pi C201 --pty 10 --m 8 < $examples/chanson.csv | rdsrt audit --pi C201 --m 8", "yes 18\n"),
    ("slots", "echo 'C201 2140 4849 0D20 1.0' | rdsrt slots | rdsrt decode --pi C201", '0 text "HI"\n'),
    ("station", "echo 'N’ Roses' > now.txt && "
     "rdsrt-station --no-empty-first --at-once --slots 2 --m 1 now.txt | tail -n 1", "text,N' Roses,0,\n"),
    ("JSON", "rdsrt decode --pi F201 < $examples/accents.log | rdsrt-json --pi F201 | "
     "jq -r 'select(.radiotext) | .radiotext' | head -n 1", "Beyoncé - Déjà Vu\n"),
    ("monitor", "echo JAZZ C201 > stations && echo JAZZ C201 2140 4849 0D20 | rdsrt-monitor stations | jq -r .radiotext",
     "HI\n"),
]


def pages(tree):
    """Returns the pages of a package."""
    return sorted(glob.glob(os.path.join(tree, "**/*.md"), recursive=True))


def links(check, tree):
    """Checks that each link of each page leads to a file and a heading."""
    for page in pages(tree):
        check(f"{os.path.relpath(page, tree)}: links that lead nowhere", [*broken_links(page, text_of(page))], [])


def names(check, tree, among):
    """Checks that each file that these pages name in code is there."""
    for page in among:
        lacking = [it for it in NAMED.findall(text_of(page)) if not os.path.exists(os.path.join(tree, it.lstrip("/")))]
        check(f"{os.path.relpath(page, tree)}: files that are not there", lacking, [])


def blocks(page):
    """Gives the commands of each block of shell lines, and the lines that they print on standard output."""
    for block in shell_blocks(page):
        lines = (block.strip("\n") + "\n").splitlines(True)
        commands = "".join(it[2:] for it in lines if it.startswith("$ "))
        if commands:
            printed = "".join(it for it in lines if not it.startswith("$ "))
            yield commands, re.sub(r"^rdsrt: .*\n(?:    .*\n)*", "", printed, flags=re.M)


def commands(check, tree, among, run):
    """Checks that each command of these pages prints the lines under it. `run` plays lines of sh at the top of the tree,
    and returns their output without standard error. Returns how many it played."""
    count = 0
    for page in among:
        name = os.path.relpath(page, tree)
        for call, printed in blocks(page):
            check(f"{name}: {call}", run(call), printed)
            count += 1
        for row in ROW.finditer(text_of(page)):
            _, call, line = row.groups()
            *shown, last = run(f"{call}\necho $?").splitlines()
            check(f"{name}: {call}", (shown.count(line), last), (1, str(status_of(line))))
            count += 1
    return count
