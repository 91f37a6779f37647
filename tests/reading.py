#!/usr/bin/env python3
"""Follows names: which definitions a statement reaches. docs/proof/PROOFS.md has the lists, and test_trust compares them.

usage: python3 tests/reading.py   prints the definitions of the headline by their files, how many they are, how many the
                                  headline of audits adds, the same for the longer laws, and the files of the headline
                                  of a world
"""
import functools
import os
import re

ROOT = os.path.dirname(os.path.dirname(os.path.abspath(__file__)))
USE = re.compile(r"^use Rattle\.(rds_\w+)\.specs\.([\w.]+?)(?:\.\{([^}]*)\}| as (\w+))$", re.M)
# the kit's definitions of the records of a script
CSV = re.compile(r"^use Rattle\.csv\.specs\.[\w.]+\.\{([^}]*)\}$", re.M)
HEAD = re.compile(r"^(?:(?:abbrev|unfoldable|record|data) )*(?:pub )?(?:(?:abbrev|unfoldable|record|data) )?(\S+)")
# the headlines of scripts and of audits, and what the calls promise: the statements name it, and what it says is not needed
# to read them
HEADLINE = (("rds_wire/specs/Headline", "Headline"),)
AUDITS = (("rds_wire/specs/NothingNew", "NothingNew"),)
PROMISED = {
    ("rds_script/specs/Play", "ScriptWrites"): "`encode` writes this log for this script",
    ("rds_log/specs/LogWrites", "LogWrites"): "`decode` writes this output for this log",
    ("rds_charset/specs/ReadAs", "IsReadAs"): "a text in a script",
    ("rds_charset/specs/Printed", "printed"): "the printed form of a text",
    ("rds_script/specs/Rows", "AreNumbers"): "numbers in a script",
    ("rds_view_lines/specs/Output", "class_name"): "the name of a class of tags, if it has one",
    ("rds_log/specs/Audit", "WholePasses"): "`audit` says yes",
}
# the longer laws, and what they take as promised
LONGER = (("rds_wire/specs/Wire", "WhatIsEncodedIsSafeOnTheWire"),)
LONGER_AUDITS = (("rds_wire/specs/Wire", "WhatPassesIsSafeOnTheWire"),)
LONGER_PROMISED = {
    ("rds_log/specs/LogWrites", "SlotsWrite"): "`decode` prints the changes of the views",
    ("rds_script/specs/Outcomes", "EventsWrite"): "`encode` writes the groups of the station",
    ("rds_log/specs/Audit", "WholePasses"): "`audit` says yes",
    ("rds_charset/specs/Printed", "printed"): "the printed form of a text",
    ("rds_charset/specs/ReadAs", "IsReadAs"): "a text in a script",
    ("rds_script/specs/Receptions", "AreReceptions"): "the receptions of a row: a script of `encode` has none",
    ("rds_world/specs/Replies", "CanBeTaken"): "the premises of receptions",
}
# the headline of a world: the definitions in the clause `safe` of `World::step`
WORLD = (("rds_world/specs/SafeSlots", "OnlyWhatWasOnAirIsShown"), ("rds_world/specs/WorldAt", "WhereWorldStands"))


class Module:
    """A file of definitions: the lines of each definition, and where its other names come from."""

    def __init__(self, at):
        with open(os.path.join(ROOT, f"crates/{at}.antt"), encoding="utf-8") as file:
            text = re.sub(r"--.*", "", file.read())
        self.names, self.modules, self.texts, self.parts = {}, {}, {}, {}
        self.csv = {it.strip() for names in CSV.findall(text) for it in names.split(",")}
        for named, module, names, alias in USE.findall(text):
            to = f"{named}/specs/{module.replace('.', '/')}"
            if alias:
                self.modules[alias] = to
            self.names.update({it.strip(): to for it in names.split(",") if it.strip()})
        name = None
        for line in USE.sub("", text).splitlines():
            if line and not line[0].isspace():
                name = HEAD.match(line)[1]
            if name and line.strip():
                self.texts[name] = self.texts.get(name, "") + line + "\n"
        for name, lines in self.texts.items():
            if re.match(r"(?:pub )?data ", lines):
                # a constructor is a part of its type
                self.parts.update({it: name for it in re.findall(r"^  (\S+) :", lines, re.M)})

    def reached_by(self, name):
        """Gives the file and the name of each definition in the text of this one. The file is None for this one."""
        for word in re.findall(r"[^\s(){}\[\],;]+", self.texts.get(name, "")):
            alias, _, inner = word.partition(".")
            if word in self.texts and word != name:
                yield None, word
            elif word in self.names:
                yield self.names[word], word
            elif alias in self.modules:
                yield self.modules[alias], inner
            elif alias in self.names:
                yield self.names[alias], alias


@functools.cache
def module(at):
    return Module(at)


def closure(roots, promised=()):
    """Returns the definitions that these reach, as pairs of a file and a name. What is promised reaches nothing."""
    found, left = set(), [*roots]
    while left:
        at, name = left.pop()
        if "/declared/" not in at:
            name = module(at).parts.get(name, name)
        if (at, name) in found:
            continue
        found.add((at, name))
        if "/declared/" not in at and (at, name) not in promised:
            left += [(to or at, it) for to, it in module(at).reached_by(name)]
    return found


def source_of(declared):
    """Returns the source of a type that the crate declares, from the path of its definition."""
    crate, _, rest = declared.partition("/specs/declared/")
    return f"{crate}/src/{rest.split('/')[0]}.rt"


def files(found):
    """Returns the files of definitions: for a type that a crate declares, the source."""
    return {source_of(at) if "/declared/" in at else f"{at}.antt" for at, _ in found}


def by_file(found, promised):
    """Returns the definitions as rows of a table, by their files, and how many definitions and lines they are. Types of
    the sources do not count, nor do the lines of what is promised."""
    rows, names = {}, {it for it in found if "/declared/" not in it[0]}
    for at, name in sorted(names):
        rows.setdefault(at, []).append(f"`{name}`")
    lines = sum(len(module(at).texts.get(name, "").splitlines()) for at, name in names - set(promised))
    return [f"|{at.replace('/specs/', ' `specs/')}`|{', '.join(it)}|" for at, it in rows.items()], len(names), lines


def of_csv(found):
    """Returns the names of the kit's `csv` in these definitions."""
    texts = ((module(at), name) for at, name in found if "/declared/" not in at and (at, name) not in PROMISED)
    return {it for of, name in texts for it in re.findall(r"\w+", of.texts.get(name, "")) if it in of.csv}


def counted(roots, more, promised):
    """Returns the rows of what these roots reach, how many definitions and lines that is, and how many of both the other
    roots add."""
    rows, *sizes = by_file(closure(roots, promised), promised)
    both = by_file(closure(roots + more, promised), promised)[1:]
    return rows, tuple(sizes), tuple(it - own for it, own in zip(both, sizes))


if __name__ == "__main__":
    for law, *what in (("headline", HEADLINE, AUDITS, PROMISED), ("longer law", LONGER, LONGER_AUDITS, LONGER_PROMISED)):
        rows, (definitions, lines), (more, more_lines) = counted(*what)
        print(*rows, f"the {law}: {definitions} definitions, {lines} lines; of audits {more} and {more_lines} more", sep="\n")
    print(*sorted(files(closure(WORLD))), sep="\n")
