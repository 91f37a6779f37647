"""Links to a script or a log, which the page makes and opens."""
import contextlib
import random
import re
import threading
from http.server import SimpleHTTPRequestHandler, ThreadingHTTPServer

from tests.page_support import (EVERY_100, FOLDER, SEED, URL, ChromiumCase, FirefoxCase, call, click, cursor, example,
                                hidden, move, of, open_script, packed, printed, reload, settle, text_of, to_tab, visit)



def sight(b):
    """Returns the slot of the script, and its receiver by the displays."""
    receiver = int(re.search(r"Receiver (\d+)", of(b, "#script-radio", "ariaLabel"))[1])
    return [cursor(b, "script"), receiver]


def log_state(b):
    """Returns the lines of the log's display, its lost slots, the slot, and the options."""
    return [text_of(b, "#log-lines"), sorted(call(b, "probe.lost")), cursor(b, "log"),
            *(of(b, f"#log-{it}", "value") for it in ("pi", "m", "k"))]


@contextlib.contextmanager
def served(folder):
    """Serves the page's folder. Gives the page's address."""
    class Handler(SimpleHTTPRequestHandler):
        def __init__(self, *given):
            super().__init__(*given, directory=folder)

        def log_message(self, *_):
            pass

    server = ThreadingHTTPServer(("127.0.0.1", 0), Handler)
    threading.Thread(target=server.serve_forever, daemon=True).start()
    try:
        yield f"http://127.0.0.1:{server.server_port}/index.html"
    finally:
        server.shutdown()
        server.server_close()


def script_link(b):
    """Returns the page's message on the script's link, whether the link is shown, whether the address has it, and the
    chosen example."""
    shows = of(b, "#script-link", "checkVisibility()"), b.run("location.hash.includes('script=')")
    return [text_of(b, "#script-saved"), *shows, of(b, "#script-example", "value")]


class Links:
    def test_a_link_opens_its_script(self):
        b = self.b
        open_script(b, example("late.csv").decode(), m=4, k=2, pty="10")
        click(b, "#script-share")
        b.until("location.hash.includes('script=')")
        link, before = b.run("location.href"), printed(b)
        visit(b, link)
        self.check("a link opens its script", (printed(b), hidden(b), len(link) < 2000),
                   (before, ["log"], True))
        for name, broken, told in (("holds none", f"{URL}#script=nonsense&end", "The link has no script."),
                                   ("was cut", link[:-9], "The link was cut: copy the whole link.")):
            visit(b, broken)
            card = text_of(b, "#script-fault"), of(b, "#script-fault", "className")
            self.check(f"a link that {name}", (text_of(b, "#script-saved"), card, printed(b)),
                       (told, (told, "problem no"), ""))
        too_large = "The link holds a script of more than 4 MB. The page does not open it."
        for size, told in ((4_000_000, ""), (4_000_001, too_large), (100_000_000, too_large)):
            visit(b, f"{URL}#script={packed(b'-,,1,' + bytes(size - 5))}&m=8&end")
            self.check(f"a link that holds {size} bytes", text_of(b, "#script-saved"), told)
        visit(b, f"{URL}#script")
        self.check("a tab by its name", (text_of(b, "#script-saved"), hidden(b)), ("", ["log"]))
        dice = random.Random(SEED)
        open_script(b, "".join(f"text,{dice.random()},1,\n" for _ in range(20_000)))
        click(b, "#script-share")
        b.until("document.querySelector('#script-saved').textContent !== ''")
        self.check("a script that is too long for one", text_of(b, "#script-saved"),
                   "This script is too long for a link.")

    def test_a_link_keeps_slot_and_receiver(self):
        """It stays in the address as long as it is right, and goes with an edit."""
        b = self.b
        with served(FOLDER) as url:
            visit(b, url)
            fetched = [it for it in b.fetched() if it.startswith(url.removesuffix("index.html"))]
            self.check("the page is one file", {re.sub("#.*", "", it) for it in fetched} - {url}, set())
            click(b, "#tab-script")
            call(b, "probe.choose", "script-example", 1)
            b.drag(*[call(b, "probe.place", "script", 1, "receiver 1")] * 2)
            move(b, "script", 23)
            click(b, "#script-share")
            b.until("document.querySelector('#script-saved').textContent !== ''")
            self.check("a link is copied", script_link(b)[0] in ("The link was copied.", "This is the link: copy it."),
                       True)
            link, before, made = of(b, "#script-link", "value"), printed(b), script_link(b)
            self.check("the address is the link", (b.run("location.href"), made[1:]), (link, [True, True, "1"]))
            seen = sight(b)
            self.check("slot and receiver", seen, [23, 1])
            script = of(b, "#script-text", "value")
            call(b, "probe.choose", "script-text", "-,,1,G\n")
            settle(b)
            self.check("an edit drops the link", script_link(b), ["", False, False, ""])
            call(b, "probe.choose", "script-text", script)
            settle(b)
            self.check("and the text as it was has it in the address again", script_link(b), ["", False, True, "1"])
            to_tab(b, "log")
            self.check("another tab has its own address", b.run("location.hash"), "")
            visit(b, link)
            self.check("the link opens all that", [printed(b), sight(b), hidden(b)], [before, seen, ["log"]])
            reload(b)
            self.check("and a reload too", [printed(b), sight(b), hidden(b)], [before, seen, ["log"]])
            for more in ("&slot=9999999&receiver=9", "&slot=x&receiver="):
                visit(b, f"{re.sub('&slot=.*', '', link)}{more}&end")
                self.check(f"a link with {more}", [printed(b), sight(b)[1] < 2], [before, True])

    def test_what_is_no_link_is_refused(self):
        """A road has no more slots than the first one. An example has a number."""
        b = self.b
        rows = b"text,A,1,G\n" + b"-,,1,L\n-,,1,G\n" * 10_000
        visit(b, f"{URL}#road={packed(rows)}&&slot=0&end")
        b.until("document.querySelector('#road-saved').textContent !== ''")
        self.check("a long road", text_of(b, "#road-saved"),
                   "The link holds a road of more than 96 slots. The page does not open it.")
        self.check("the first road stays", b.run("document.querySelectorAll('#road-texts input').length"), 3)
        for name in ("map", "__proto__", "-1", "99"):
            visit(b, f"{URL}#script&example={name}")
            self.check(f"example={name}", (text_of(b, "#script-fault"), hidden(b)), ("", ["log"]))

    def test_a_link_of_a_log_keeps_its_options_and_lost_slots(self):
        """It keeps the slot too, and stays in the address."""
        b = self.b
        told, address = lambda: text_of(b, "#log-saved"), "location.hash.includes('log=')"
        with served(FOLDER) as url:
            visit(b, url)
            to_tab(b, "log")
            call(b, "probe.open", "log", EVERY_100, {"pi": "C201", "m": 100, "k": 3, "lost": [2, 3, 4, 9, 100]})
            settle(b)
            move(b, "log", 103)
            before = log_state(b)
            click(b, "#log-share")
            b.until("document.getElementById('log-saved').textContent !== ''")
            link = of(b, "#log-link", "value")
            self.check("the address is the link", (b.run("location.href"), len(link) < 1000, "lost=2-4.9.100" in link),
                       (link, True, True))
            call(b, "probe.lose", 7)
            settle(b)
            self.check("a lost slot drops the link", (told(), b.run(address), of(b, "#log-link", "hidden")),
                       ("", False, True))
            call(b, "probe.lose", 7)
            settle(b)
            self.check("and without it the address has it again", (told(), b.run(address)), ("", True))
            visit(b, link)
            self.check("the link opens all that", [log_state(b), hidden(b)], [before, ["script"]])
            bare = re.sub("&.*", "", link)
            visit(b, f"{bare}&m=128&lost=0-9999999&end")
            state = log_state(b)
            self.check("a link with many lost slots", (told(), state[3:], len(state[1])),
                       ("", ["C201", "128", "0"], 200_000))
            damaged = "The link is damaged: an option of it is wrong."
            for name, broken, why in (
                    *((f"has {more}", f"{bare}{more}&end", damaged) for more in
                      ("", "&m=0", "&m=65536", "&m=x", "&m=8&k=1025", "&m=8&w=1", "&m=8&running=2", "&m=8&padded=2", "&m=8&lost=1-",
                       "&m=8&lost=4.2-3", "&m=8&lost=3-2",
                       "&m=8&lost=<b>", "&m=8&pi=FFFF", "&m=8&pi=")),
                    ("holds none", f"{url}#log=nonsense&end", "The link has no log."),
                    ("was cut", link[:200], "The link was cut: copy the whole link.")):
                visit(b, broken)
                card = text_of(b, "#verdict"), of(b, "#verdict", "className"), call(b, "probe.textOfLog")
                self.check(f"a link that {name}", (told(), card), (why, (f"{why}No log is open.", "verdict no", "")))
            dice = random.Random(SEED)
            call(b, "probe.open", "log", "".join(f"# {dice.random()}\n" for _ in range(20_000)))
            click(b, "#log-share")
            b.until("document.getElementById('log-saved').textContent !== ''")
            self.check("a log that is too long for one", told(), "This log is too long for a link.")


    def test_the_address_holds_what_is_seen(self):
        """M, K, W, lost slots and the slot stand behind the example. A reload, a colleague and Back show the same."""
        b = self.b
        first = lambda: (of(b, "#road", "checkVisibility()"), b.run("location.hash"))
        self.check("the start", first(), (True, ""))
        click(b, "#log-start-examples a")
        settle(b)
        call(b, "probe.choose", "log-m", 4)
        settle(b)
        call(b, "probe.lose", 2, 3)
        move(b, "log", 4)
        settle(b)
        self.check("an example with options", b.run("location.hash"), "#log&example=0&pi=C201&m=4&k=0&lost=2-3&slot=4")
        before = log_state(b)
        reload(b)
        settle(b)
        self.check("a reload", log_state(b), before)
        self.check("the heading leads home", (click(b, "h1 a"), settle(b), first())[2], (True, ""))
        b.run("history.back()")
        b.until("!document.querySelector('#road').checkVisibility()")
        settle(b)
        self.check("Back to the log", (log_state(b), b.run("location.hash")), (before, "#log&example=0&pi=C201&m=4&k=0&lost=2-3&slot=4"))
        call(b, "probe.drop", "own.log", EVERY_100)
        settle(b)
        self.check("a file", (b.run("location.hash"), call(b, "probe.textOfLog")), ("#log", EVERY_100))
        b.run("history.back()")
        b.until("document.querySelector('#log-example').value === '0'")
        settle(b)
        self.check("Back to the example", log_state(b)[:2], before[:2])
        visit(b, f"{URL}#log&example=0&m=x")
        settle(b)
        self.check("a damaged option", text_of(b, "#log-saved"), "The link is damaged: an option of it is wrong.")
        visit(b, f"{URL}#script&example=2&m=5&k=1&slot=9")
        settle(b)
        self.check("an example of a script", [of(b, f"#script-{it}", "value") for it in ("example", "m", "k")] + [cursor(b, "script")],
                   ["2", "5", "1", 9])

    def test_back_leads_to_what_was_open(self):
        """A step has one entry of the history. It keeps the visitor's own log with its numbers, and his script."""
        b = self.b
        back = lambda: (b.run("history.back()"), settle(b), settle(b))
        b.run("probe.stopRoad()")
        click(b, "#road-script")
        settle(b)
        self.check("the road as a script", hidden(b), ["log"])
        back()
        self.check("back to the road", (of(b, "#road", "checkVisibility()"), b.run("location.hash")), (True, ""))
        call(b, "probe.drop", "own.log", EVERY_100)
        settle(b)
        call(b, "probe.choose", "log-m", 90)
        call(b, "probe.choose", "log-k", 2)
        call(b, "probe.lose", 7)
        settle(b)
        before = log_state(b)
        call(b, "probe.drop", "other.log", EVERY_100 * 2)
        settle(b)
        self.check("another log", len(call(b, "probe.textOfLog")), len(EVERY_100) * 2)
        b.run("location.hash = 'log&example=1'")
        b.until("document.querySelector('#log-example').value === '1'")
        settle(b)
        call(b, "probe.drop", "own.csv", example("late.csv").decode())
        settle(b)
        back()
        self.check("back to the example", (of(b, "#log-example", "value"), hidden(b)), ("1", ["script"]))
        back()
        self.check("back to the other log", (call(b, "probe.textOfLog"), text_of(b, "#log-file-name")), (EVERY_100 * 2, "other.log"))
        back()
        self.check("back to the first one", (log_state(b)[:2], log_state(b)[3:], text_of(b, "#log-file-name")), (before[:2], before[3:], "own.log"))
        for _ in range(3):
            b.run("history.forward()")
            settle(b)
            settle(b)
        self.check("and on to the script", (of(b, "#script-text", "value"), text_of(b, "#script-file-name"), hidden(b)),
                   (example("late.csv").decode(), "own.csv", ["log"]))

    def test_back_after_a_link_shows_it_again(self):
        b = self.b
        visit(b, f"{URL}#log")
        b.run(f"location.hash = 'log={packed(EVERY_100.encode())}&m=8&lost=0-149&end'; undefined")
        b.until("document.querySelector('#log-lines').textContent !== ''")
        settle(b)
        self.check("a link with many lost slots", len(call(b, "probe.lost")), 150)
        click(b, "#tab-script")
        b.run("history.back()")
        b.until("!document.querySelector('#log').hidden")
        settle(b)
        self.check("back", (hidden(b), b.run("location.hash").startswith("#log="), call(b, "probe.textOfLog")),
                   (["script"], True, EVERY_100))


class Chromium(Links, ChromiumCase):
    def test_a_page_on_a_disk_has_no_link_to_share(self):
        """Its links are of no use to others, and the page says so."""
        b = self.b
        visit(b, URL)
        open_script(b, example("late.csv").decode(), m=4, k=2)
        click(b, "#script-share")
        b.until("document.querySelector('#script-saved').textContent !== ''")
        self.check("a link from disk", script_link(b)[:3],
                   ["This page was opened from a disk, so its links are of no use to others.", False, True])


class Firefox(Links, FirefoxCase):
    pass
