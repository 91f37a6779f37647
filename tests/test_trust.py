"""docs/proof/PROOFS.md: its reading lists have each definition and each file that the headlines reach, and no other one.
What other pages prove has a law."""
import glob
import re

from tests import reading
from tests.support import Case, path, text_of

PROOFS, STEP = "docs/proof/PROOFS.md", "rds_world/src/world.rt"
# pages that say "we prove". Behind that, in the same paragraph, they name the law or call: in HTML comments, and the
# header in its own comment
PROVING = ("README.md", "docs/STATION.md", "docs/RECEIVER.md", "docs/AIR.md", "include/rdsrt.h")
LAW = re.compile(r"\blaw: (rds_\w+) (\w+(?:::\w+)?)(?:, clauses? (\w+(?:, \w+)*))?")


def section():
    return text_of(PROOFS).split("## Reading list\n")[1].split("\n\nThe notation")[0]


def listed():
    """Returns the files of the reading list of a world."""
    found, crate, kind = set(), None, None
    for word in re.findall(r"rds_\w+|`[^`]+`", section().split("\n1. ")[1]):
        if word.startswith("rds_"):
            crate = word
            continue
        folder, _, rest = word.strip("`").rpartition("/")
        kind = folder or kind
        if folder or rest[0].isupper():
            found.add(f"{crate}/{kind}/{rest}{'' if rest.endswith('.rt') else '.antt'}")
    return found


def proved_in(text):
    """Returns each "we prove" of a page, with the words from there to the next one, or to the end of the paragraph."""
    parts = re.findall(r"\bwe prove\b(?:(?!\bwe prove\b|\n(?: \*)?\n| \*/).)*", text, re.I | re.S)
    return [" ".join(it.split()) for it in parts]


def contracts(crate, name):
    """Returns the contract of each public function of this name in a crate, and the head of such a definition."""
    at = path(f"crates/{crate}")
    files = glob.glob(f"{at}/src/**/*.rt", recursive=True) + glob.glob(f"{at}/specs/**/*.antt", recursive=True)
    function = rf'^( *)pub (?:extern "C" )?fn {name}\b.*?^\1\{{'
    definition = rf"^(?:(?:pub|abbrev|unfoldable|record|data) )+{name}\b"
    return [it[0] for it in re.finditer(f"{function}|{definition}", "\n".join(map(text_of, files)), re.M | re.S)]


def lacking(crate, name, clauses):
    """Returns the name if a crate has no such law, and the clauses that the law lacks."""
    found = contracts(crate, name.rpartition("::")[2])
    return [it for it in re.findall(r"\w+", clauses) if f"ensures {it} " not in "".join(found)] if found else [name]


class Trust(Case):
    def test_what_a_page_proves_has_a_law(self):
        for page in PROVING:
            self.check(f"{page} proves something", proved_in(text_of(page)) != [], True)
            for words in proved_in(text_of(page)):
                laws = LAW.findall(words)
                self.check(f"{page}: '{words}' names a law", laws != [], True)
                self.check(f"{page}: '{words}': what is not there", [it for law in laws for it in lacking(*law)], [])
        self.check("not the law of another paragraph", proved_in("We prove it.\n\nlaw: rds_wire x"), ["We prove it."])
        for law in (("rds_safety", "no_such_law", ""), ("rds_safety", "safe_by_plans", "no_such_clause")):
            self.check(f"{law} is not there", lacking(*law), [it for it in law if it.startswith("no_")])

    def test_the_first_sentences_name_their_premise(self):
        """The sentences that say "proved" or "never" where a stranger reads first."""
        fronts = {
            "page/index.html": r"<header>.*?<p>(.*?)</p>",
            "python/pyproject.toml": r'^description = "(.*)"',
            "python/src/rdsrt/__init__.py": r'\A"""(.*?)\n\n',
        }
        for page, pattern in fronts.items():
            words = re.search(pattern, text_of(page), re.M | re.S)[1]
            strong = [it for it in re.split(r"(?<=[.!?])\s+", " ".join(words.split())) if re.search(r"proved|never", it)]
            self.check(f"{page}: one strong sentence", len(strong), 1)
            self.check(f"{page}: '{strong}' has its premise", all("if the station keeps" in it for it in strong), True)

    def test_the_headline_names_the_options_that_it_needs(self):
        """Without the same --rtplus it is false: test_rtplus plays that."""
        page = text_of("docs/TRUST.md")
        headline = page.split("## The headline in words\n")[1].split("\n\n- ")[0]
        options = "`decode` has the same `--pi`, `--m` and `--rtplus`, and neither `--confirm` nor `--keep`"
        self.check("options of decode", options in " ".join(headline.split()), True)
        audit, = re.findall(r"^\| \*\*Audit\*\*.*$", page, re.M)
        self.check("what a yes does not say", "`--rtplus`" in audit.split("|")[3], True)

    def test_the_line_to_break_is_in_the_source(self):
        """The page names the function by its line, and the clause that is refused."""
        text = text_of(PROOFS).split("## Break it yourself\n")[1].split("\n## ")[0]
        path, = re.findall(r"(crates/\S+\.rt) is the line\n", text)
        line, = re.findall(r"is the line\n\n```text\n(.*)\n```", text)
        number, column, clause = re.search(r":(\d+):(\d+): it is not proved .*\(`returns-clause-(\w+)`\)", text).groups()
        source = text_of(path).splitlines()
        self.check("lines like it", source.count(line), 1)
        self.check("the function", source[int(number) - 1][int(column) - 1:].startswith("pub(crate) fn set("), True)
        body = source.index(line)
        self.check("the clause", [it for it in source[int(number):body] if f"ensures {clause} " in it] != [], True)
        self.check("it is in that function", [it for it in source[int(number):body] if " fn " in it], [])

    def test_the_page_has_the_headlines_of_scripts_and_of_audits(self):
        """The files are there without their imports, in their order."""
        top = text_of(PROOFS).split("## Break it yourself\n")[0]
        shown = re.findall(r"^```text\n(.*?)^```$", top, re.M | re.S)
        files = (text_of(f"crates/rds_wire/specs/{it}.antt") for it in ("Headline", "NothingNew"))
        self.check("the files", shown, [re.sub(r"^use .*\n", "", it, flags=re.M) for it in files])

    def test_the_first_list_has_the_definitions_of_the_headline(self):
        rows, (definitions, lines), (more, _) = reading.counted(reading.HEADLINE, reading.AUDITS, reading.PROMISED)
        text = section()
        flat = " ".join(text.split())
        self.check("the table", re.findall(r"^\|rds_.*$", text, re.M), rows)
        self.check("its size", re.findall(r"these (\d+) definitions, which have (\d+) lines", flat),
                   [(f"{definitions}", f"{lines}")])
        self.check("what the headline of audits adds", re.findall(r"adds (\d+) definitions", flat), [f"{more}"])
        named, = re.findall(r"of its `csv`, (.*?)\. ", flat)
        self.check("names of the kit's csv", set(re.findall(r"`(\w+)`", named.split("script, ")[1])),
                   reading.of_csv(reading.closure(reading.HEADLINE, reading.PROMISED)))

    def test_the_page_says_who_promises_the_names_of_the_headline(self):
        top = text_of(PROOFS).split("### The headline of audits\n")[0]
        promised = reading.closure(reading.HEADLINE, reading.PROMISED) & set(reading.PROMISED)
        self.check("rows", set(re.findall(r"^\|`(\w+)`\|", top, re.M)), {name for _, name in promised})

    def test_the_second_list_is_what_the_headline_of_a_world_reaches(self):
        reached, shown = reading.files(reading.closure(reading.WORLD)) | {STEP}, listed()
        self.check("not in the list", sorted(reached - shown), [])
        self.check("in the list, and not reached", sorted(shown - reached), [])
        lines = sum(len(text_of(f"crates/{it}").splitlines()) for it in shown if "/specs/" in it)
        self.check("its size", re.findall(r"have\s+([\d,]+)\s+lines\.", section().split("For `sim`")[1]),
                   [f"{round(lines, -2):,}"])
