#!/usr/bin/env python3
"""Writes the pages that a package ships. Their commands and links fit the files of the package.

usage: tools/shipped.py install|tarball|debian|wheel FOLDER

FOLDER has the files of the package. A link to a page or section that the package lacks becomes its words and "(in the
source)": each release has the source. The man page says where to report bugs, if the file ABOUT does.
"""
import os
import re
import subprocess
import sys
from typing import NamedTuple

ROOT = os.path.dirname(os.path.dirname(os.path.abspath(__file__)))
MANUAL = "docs/man/rdsrt.1"
INSTALLED = ("docs/TEST.md", "docs/STATION.md", "docs/RECEIVER.md", "docs/AIR.md", "docs/FORMATS.md",
             "docs/proof/DEFINITIONS.md")
DOCS = (*INSTALLED, "docs/COMPATIBILITY.md", "docs/TRUST.md", "docs/proof/PROOFS.md", "CHANGELOG.md")
LINK = re.compile(r"!?\[([^\]]*)\]\(([^)\s#]*)(?:#([^)\s]*))?\)")


class Layout(NamedTuple):
    """A kind of package: where its pages are, the other targets of links, and what replaces words of commands.

    A target is a place in the package and the file of the repository that it is made of.
    """
    pages: dict
    targets: dict
    words: list


def docs_in(folder, pages=DOCS):
    return {it: f"{folder}/{os.path.basename(it)}" for it in pages}


def examples_in(folder):
    return {"examples/README.md": f"{folder}/README.md",
            **{f"programs/{it}.service": f"{folder}/rdsrt-{it}.service" for it in UNITS}}


UNITS = ("monitor", "station")
# a word of a command, and not a part of a longer path
WORD = r"(?<![\w./-])"
LAYOUTS = {
    # the pages are those that include/rdsrt.h names, and those for the users of the programs and the library; commands with
    # a file run in the folder of the pages
    "install": Layout({MANUAL: "share/man/man1/rdsrt.1", **docs_in("share/doc/rdsrt", INSTALLED),
                       **examples_in("share/doc/rdsrt/examples")}, {},
                      [(r"\./rdsrt\b", "rdsrt"), (WORD + r"programs/(\w+\.service)", r"examples/rdsrt-\1"),
                       (WORD + r"programs/(\w)", r"rdsrt-\1"), ("Run each command in the top folder",
                                                               "Run each command in the folder share/doc/rdsrt of the install"),
                       ("in the source folder", "in the folder share/doc/rdsrt of the install")]),
    # all commands run in the top folder
    "tarball": Layout(
        {**docs_in("share/doc/rdsrt"), MANUAL: "share/man/man1/rdsrt.1", **examples_in("share/doc/rdsrt/examples"),
         "python/README.md": "share/rdsrt/python/README.md"},
        {"README.md": ("README.md", "tools/tarball.md"), "include/rdsrt.h": ("include/rdsrt.h", "include/rdsrt.h")},
        [(r"\./rdsrt\b", "bin/rdsrt"), (WORD + r"programs/(\w+\.service)", r"share/doc/rdsrt/examples/rdsrt-\1"),
         (WORD + r"programs/(\w)", r"bin/rdsrt-\1"), (WORD + "examples/", "share/doc/rdsrt/examples/"),
         ("in the source folder", "in the top folder")]),
    # all commands run in any folder
    "debian": Layout(
        {**docs_in("usr/share/doc/rdsrt"), "CHANGELOG.md": "usr/share/doc/rdsrt/changelog",
         MANUAL: "usr/share/man/man1/rdsrt.1", **examples_in("usr/share/doc/rdsrt/examples"),
         "programs/monitor.service": "usr/lib/systemd/system/rdsrt-monitor.service",
         "python/README.md": "usr/share/doc/python3-rdsrt/README.md"},
        {"include/rdsrt.h": ("usr/include/rdsrt.h", "include/rdsrt.h")},
        [(r"\./rdsrt\b", "rdsrt"), (r"(?m)^#   (?:useradd|cp programs/monitor) .*\n", ""),
         (r"rdsrt\s+(?:is\s+)?installed\s+in\s+/opt/rdsrt,\s+(?:and\s+)?", ""), ("/opt/rdsrt/bin/", ""),
         (WORD + r"programs/(\w+\.service)", r"/usr/share/doc/rdsrt/examples/rdsrt-\1"), (WORD + r"programs/(\w)", r"rdsrt-\1"),
         (WORD + "examples/c/", "/usr/share/doc/librdsrt-dev/examples/"),
         (WORD + "examples/", "/usr/share/doc/rdsrt/examples/"),
         (r"(?m)^(?:The examples with a file run in the source folder|Run each command in the top folder)\. ?\n?", "")]),
    "wheel": Layout({"python/README.md": "README.md"}, {}, []),
}


def text_of(page):
    """Returns the text of a file of the repository."""
    with open(os.path.join(ROOT, page), encoding="utf-8") as file:
        return file.read()


def anchors(page):
    """Returns the anchors of a page's headings, as GitHub makes them."""
    headings = re.findall(r"^#+ (.*)$", re.sub(r"```.*?```", "", text_of(page), flags=re.S), re.M)
    return {re.sub(r"[^\w\- ]", "", it.lower()).replace(" ", "-") for it in headings}


def bugs():
    """Returns the section of the man page on reports, if there is a place for them."""
    words = [os.path.join(ROOT, "tools/about"), "reports"]
    place = subprocess.run(words, stdout=subprocess.PIPE, text=True, check=True).stdout.strip()
    return f".SH BUGS\nReport bugs at {place}.\n" if place else ""


def shipped(page, layout):
    """Returns the text of a page as the package has it."""
    places = {**{it: (place, it) for it, place in layout.pages.items()}, **layout.targets}

    def link(found):
        words, name, anchor = found.groups()
        if not name or name.startswith(("http:", "https:")):
            return found[0]
        to, source = places.get(os.path.normpath(os.path.join(os.path.dirname(page), name)), (None, None))
        if to is None or anchor and anchor not in anchors(source):
            return f"{words} (in the source)"
        at = os.path.relpath(to, os.path.dirname(layout.pages[page]))
        return f"[{words}]({at}{'#' + anchor if anchor else ''})"
    text = text_of(page) + (bugs() if page == MANUAL else "")
    for old, new in layout.words:
        text = re.sub(old, new, text)
    return LINK.sub(link, text)


def main():
    if len(sys.argv) != 3 or sys.argv[1] not in LAYOUTS:
        sys.exit(f"usage: tools/shipped.py {'|'.join(LAYOUTS)} FOLDER")
    layout, folder = LAYOUTS[sys.argv[1]], sys.argv[2]
    for page, place in layout.pages.items():
        to = os.path.join(folder, place)
        os.makedirs(os.path.dirname(to), exist_ok=True)
        with open(to, "w", encoding="utf-8") as file:
            file.write(shipped(page, layout))


if __name__ == "__main__":
    main()
