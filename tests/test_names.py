"""The names in the pages that can be looked up: each crate, type, file, edit and test that a page cites exists.

test_pages checks the links.
"""
import fnmatch
import glob
import os
import re

from tests.support import ROOT, Case, text_of
from tests.test_commands import PAGES

import crates

CRATE = r"(?<![\w/.-])rds_[a-z_]+\b"
PARTS = "src|specs|proofs|must-fail|edits"
FOLDER = rf"(?:crates|docs|tests|tools|bench|examples|include|programs|page|{PARTS})/[\w./-]*\w"
# no .log, .csv or .txt: without a folder such a file is a user's
FILE = r"[\w/-]+(?:\.[\w-]+)*\.(?:rt|antt|py|js|c|h|md|edit|html|css|png)\b"
PATH = rf"(?<![\w/.$-])(?:\.\./)*({FOLDER}|{FILE})"
# a type, a definition or a clause in mixed case
MIXED = r"`(?:\w+::)*([A-Z][a-z]\w+)(?:::\w+)?`"
# names of the kit and of other programs
OTHERS = {"Stdin", "Stdout", "Exitval"}
# one name, or several in a row
NAMES = r"((?:`?\w+`?(?:, and |, | and )?)+)"
# files that a command or a user makes
MADE = {"hi.c", "letter.md", "tests/out", "tests/out/gate.log", "page/out", "page/out/index.html",
        "crates/rds_ffi/out/librds_ffi.a",
        "crates/NAME/edits/what_is_wrong.edit"}
# paragraphs that each cite one name that does not exist
STALE = ["The crate rds_nowhere.", "`DecodesNowhere` says so.", "See `specs/Nowhere`.", "See tests/nowhere.py.",
         "The edit restores_no_faults.", "The test neighbours_in_two_slots.", "By rds_core_tests `latenesses` and `neighbours_in_two_slots`."]


class Sources:
    """The files and folders of the repository, its edits, its tests, and all words of its code and definitions."""

    def __init__(self):
        self.paths, self.edits, self.tests, self.words = [], set(), set(), set()
        for at, folders, names in os.walk(ROOT):
            folders[:] = {*folders} - {".git", "out", "__pycache__"}
            self.paths += [os.path.relpath(os.path.join(at, it), ROOT) for it in [*folders, *names]]
        for path in self.paths:
            name, kind = os.path.splitext(os.path.basename(path))
            if kind == ".edit":
                self.edits.add(name)
            elif kind == ".rt":
                self.tests |= set(re.findall(r"#\[test\]\s*fn (\w+)", text_of(path)))
            elif kind == ".py" and name.startswith("test_"):
                self.tests.add(name)
            if kind in (".rt", ".antt", ".h") or path.startswith(("python/src/", "tools/")) and kind == ".py":
                self.words |= set(re.findall(r"\w+", text_of(path)))

    def has_file(self, path):
        """Returns whether a path ends so. A file of a crate may be without its ending. NAME stands for any word."""
        path = re.sub(r"\b[A-Z]{3,}\b", "*", path)
        ends = [f"*/{path}{kind}" for kind in ("", ".rt", ".antt")]
        return any(fnmatch.fnmatch(f"/{it}", end) for end in ends for it in self.paths)


def stale(sources, page):
    """Gives each crate, file, edit and test in the text of a page that does not exist."""
    page = re.sub(r"```.*?```", "", page, flags=re.S)
    text = " ".join(page.split())
    yield from (f"crate {it}" for it in re.findall(CRATE, text) if it not in crates.listed())
    yield from (f"name {it}" for it in re.findall(MIXED, text) if it not in sources.words | OTHERS)
    yield from (f"file {it}" for it in re.findall(PATH, text) if it not in MADE and not sources.has_file(it))
    for kind, names in re.findall(rf"\b(edit|test)s? {NAMES}", text):
        known = sources.edits if kind == "edit" else sources.tests | {*crates.listed()}
        yield from (f"{kind} {it}" for it in re.findall(r"\w+_\w+", names) if it not in known)
    for names in re.findall(r"\brds_\w+_tests ((?:`\w+`(?:, and |, | and )?)+)", text):
        yield from (f"test {it}" for it in re.findall(r"`(\w+)`", names) if it not in sources.tests)


def theorems():
    """Gives each crate in the table of theorems of TRUST, with a function or a clause of it."""
    rows = text_of("docs/TRUST.md").split("| Theorem |")[1].split("\n\n")[0].splitlines()[2:]
    for row in rows:
        for crate, cited in re.findall(r"(rds_\w+)((?:(?!rds_).)*)", row.split("|")[1]):
            yield from ((crate, name) for name in re.findall(r"`(?:\w+::)?(\w+)`", cited))


class Names(Case):
    def test_each_theorem_in_the_table_of_trust_is_a_function_or_a_clause(self):
        cited = [*theorems()]
        self.check("the table has theorems", len(cited) > 15, True)
        for crate, name in cited:
            paths = glob.glob(os.path.join(ROOT, f"crates/{crate}/src/*.rt"))
            source = "".join(text_of(os.path.relpath(it, ROOT)) for it in paths)
            found = re.search(rf"\b(?:pub (?:extern \"C\" )?fn|ensures) {name}\b", source)
            self.check(f"{crate} `{name}`", found is not None, True)

    def test_each_name_in_a_page_exists(self):
        sources = Sources()
        for page in PAGES:
            self.check(f"{page}: names that do not exist", [*stale(sources, text_of(page))], [])
        for text in STALE:
            self.check(f"{text!r} has a stale name", len([*stale(sources, text)]) > 0, True)
