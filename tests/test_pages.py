"""The pages that people meet first: links, pictures, and the one wording of the faults. test_commands has commands."""
import glob
import os
import re
import subprocess

from tests.support import ROOT, SECONDS, Case, found_program, ran, script, text_of
from tests.test_commands import MANUAL, PAGES, manual
import crates
from shipped import anchors

HEADER, CURES, INDEX = "include/rdsrt.h", "page/index.html", "docs/README.md"
FAULTS = {"EarlyFlag", "Changed", "NotOneText", "EarlyTag", "TagOutside"}
REPLIES = ("ok", "silent", "held", "notext", "outoftext")
FAULT_LINES = ("fault line", "fault row", "fault read", "fault too long", "fault memory", "fault pi",
               "fault confirm", "fault lose")
# each time is in one page
TIMES = (crates.FIRST_PROOF, "30 to 60 minutes", "40 seconds to 2 minutes", "3 to 9 minutes")


def broken_links(path, text):
    """Gives the relative links in the text of a page that lead to no file or to no heading."""
    for link in re.findall(r"\]\(([^)\s]+)\)", re.sub(r"```.*?```", "", text, flags=re.S)):
        name, _, anchor = link.partition("#")
        to = os.path.normpath(os.path.join(os.path.dirname(path), name)) if name else path
        is_there = os.path.exists(os.path.join(ROOT, to)) and (not anchor or anchor in anchors(to))
        if not link.startswith(("http:", "https:")) and not is_there:
            yield link


def linked(path):
    """Returns the files and folders that a page links."""
    names = re.findall(r"\]\(([^)\s#]+)", text_of(path))
    return {os.path.normpath(os.path.join(os.path.dirname(path), it)) for it in names}


def plain(text):
    """Returns only the words, without line ends and signs of comments, roff and code."""
    joined = re.sub(r'"\s*\+\s*"', "", text)
    return " ".join(re.findall(r"[A-Za-z0-9/]+|(?<=[A-Z] )\+(?= [A-Z])|(?<=RT)\+", re.sub(r"\n\s*\*? *", " ", joined)))


class Pages(Case):
    def test_each_link_and_each_named_section_exists(self):
        """Each relative link leads to a file, and each anchor to a heading; each section that is named is there."""
        for path in PAGES:
            self.check(f"{path}: links that lead nowhere", [*broken_links(path, text_of(path))], [])
        for link in ("docs/NOWHERE.md", "README.md#nowhere", "#nowhere"):
            self.check(f"a link to {link} leads nowhere", [*broken_links("README.md", f"See [it]({link}).")], [link])
        sources = [os.path.relpath(it, ROOT) for kind in ("md", "h", "c", "js", "py", "rt", "html")
                   for it in glob.glob(os.path.join(ROOT, f"**/*.{kind}"), recursive=True) if "/out/" not in it]
        named = r"\b((?:docs/)?[A-Z]{3,})(?:\.md)?[)`]*, \"([A-Z][^\"\n]*)\""
        for path in sources:
            for page, section in re.findall(named, text_of(path)):
                page = next((it for it in PAGES if os.path.basename(it) == os.path.basename(page) + ".md"), None)
                if page:
                    self.check(f"{path}: section {section} of {page}",
                               section in re.findall(r"^#+ (.*)$", text_of(page), re.M), True)

    def test_no_page_is_lost(self):
        """README leads to the index, and the index to each page."""
        self.check("README leads to the index", INDEX in linked("README.md"), True)
        self.check("pages that the index lacks", {*PAGES} - linked(INDEX) - {INDEX}, set())

    def test_each_fault_of_the_audit_has_one_wording(self):
        """Each fault of the audit has one wording, with cause and cure. The page has the cures alone, beside the
        program's notes."""
        section = text_of("docs/FORMATS.md").split("### Faults of the audit\n")[1].split("\n\nNames (PTYN)")[0]
        wordings = dict(re.findall(r"^- `(\w+)`: (.*?)(?=\n- |\Z)", section.strip(), re.M | re.S))
        self.check("FORMATS has the five faults", set(wordings), FAULTS)
        places = {"audit --help": text_of("tests/shown/help_of_audit.txt"), MANUAL: manual(), HEADER: text_of(HEADER)}
        for name, wording in wordings.items():
            self.check(f"{name} has a cause and a cure", wording.count(".") >= 2, True)
            for place, text in places.items():
                self.check(f"{name} in {place}", plain(wording) in plain(text), True)
            cure = wording.split(".", 1)[1]
            self.check(f"the cure of {name} in {CURES}", plain(cure) in plain(text_of(CURES)), True)

    def test_the_man_page_and_formats_are_complete(self):
        text = manual()
        for word in (*FAULTS, *REPLIES, "G3", "witness", *FAULT_LINES):
            self.check(f"the man page has {word}", word in text, True)
        formats = text_of("docs/FORMATS.md")
        rows = re.findall(r"^\| (0x.*?) \| (.*) \|$", formats.split("## Characters\n")[1], re.M)
        self.check("rows of characters", len(rows), 6)
        self.check("the man page has them", [it for it in rows if "   ".join(it) not in text], [])
        for word in (*REPLIES, "`G3`", *FAULT_LINES):
            self.check(f"FORMATS has {word}", word in formats, True)

    def test_each_time_is_in_one_page(self):
        texts = {path: " ".join(text_of(path).split()) for path in PAGES}
        for time in TIMES:
            self.check(f"'{time}' is in one page", [sum(text.count(time) for text in texts.values())], [1])

    def test_each_version_is_that_of_the_program(self):
        """tools/release asks the same. tests/c/calls.c compares the library with the header."""
        version = ran(["--version"])[1].decode().split()[1]
        release = script("tools/release")
        self.check("version in ABOUT", re.findall(r"^version: (.*)$", text_of("ABOUT"), re.M), [version])
        for path in release.PLACES:
            self.check(f"version in {path}", release.version_in(path), version)

    def test_the_contracts_in_proofs_are_in_the_sources(self):
        """The lines of the contracts that PROOFS shows are in the sources."""
        sources = set()
        for kind in ("src/*.rt", "specs/*.antt"):
            for path in glob.glob(os.path.join(ROOT, "crates/*", kind)):
                sources |= {line.strip() for line in text_of(os.path.relpath(path, ROOT)).splitlines()}
        blocks = [it for it in re.findall(r"```text\n(.*?)```", text_of("docs/proof/PROOFS.md"), re.S) if "pub record" in it]
        self.check("PROOFS has contracts: that of the wire and that of a world", len(blocks), 2)
        shown = [line.strip() for block in blocks for line in block.splitlines() if line.strip()]
        # two dots replace the parameters
        missing = [it for it in shown if it not in sources and not any(
            line.startswith(it.partition(" .. ")[0] + " ") for line in sources if " .. " in it)]
        self.check("the lines are in the sources", missing, [])

    def test_the_picture_is_what_its_script_draws(self):
        done = subprocess.run([os.path.join(ROOT, "docs/mix.py"), found_program()], stdout=subprocess.PIPE, timeout=SECONDS)
        self.check("docs/mix.svg is what docs/mix.py draws", done.stdout.decode(), text_of("docs/mix.svg"))
