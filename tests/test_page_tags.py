"""RT+ tags in another group type than 11A: the page says that they were not judged, and judges them if it is chosen."""
from tests.page_support import (FOLDER, HI, ChromiumCase, FirefoxCase, call, click, idle, of, settle, settled_verdict, text_of,
                                verdict_of, visit)
from tests.test_page_links import served

# a text, and its tags at once in 12A, which a 3A names
LOG = f"C201 3018 0000 4BD7\n{HI}\nC201 C148 2002 0000\n{HI}\n"
ELSEWHERE = "Tags: RT+ is in group 12A by the 3A groups, not in 11A: 1 group 12A was not judged."


class Tags:
    def test_tags_in_12a(self):
        b = self.b
        said = verdict_of(b, LOG, 8)
        self.check("a yes says that the tags were not judged", ("✓ Passes" in said, ELSEWHERE in said), (True, True), said)
        call(b, "probe.move", "log", 2)
        self.check("they are not read", (text_of(b, "#log-group .type"), text_of(b, "#log-radio .tags")),
                   ("12A, not read", ""))
        call(b, "probe.choose", "log-tags", "12")
        settle(b)
        said = settled_verdict(b)
        self.check("they are judged", ("EarlyTag" in said, "Tags:" in said), (True, False), said)
        self.check("by the command", text_of(b, "#audit-command"), "rdsrt audit --all --pi C201 --m 8 --k 0 --rtplus 12A")
        call(b, "probe.move", "log", 2)
        self.check("and shown", (text_of(b, "#log-group .type"), text_of(b, "#log-radio .tags")),
                   ("12A data service (RadioText Plus, if announced)", "titleHI"))

    def test_a_link_has_their_group(self):
        b = self.b
        with served(FOLDER) as url:
            visit(b, url)
            verdict_of(b, LOG, 8, tags=12)
            click(b, "#log-share")
            b.until("document.getElementById('log-saved').textContent !== ''")
            link = of(b, "#log-link", "value")
            self.check("the link", "&tags=12" in link, True, link)
            for given, wanted in ((link, "EarlyTag"), (link.replace("tags=12", "tags=10"), "The link is damaged")):
                visit(b, given)
                idle(b)
                self.check(given, wanted in settled_verdict(b), True)

    def test_another_application_in_11a(self):
        said = verdict_of(self.b, f"C201 3016 0000 CD46\n{HI}\nC201 B148 2002 0000\n", 8)
        self.check("the card names it", "group 11A carries the application CD46" in said.replace("Group", "group"), True, said)


class TagsInChromium(Tags, ChromiumCase):
    pass


class TagsInFirefox(Tags, FirefoxCase):
    pass
