"""The tests of the page in real browsers: how they ask the page, and a base class for each browser.

The page is page/out, and no older than its sources, or the folder that RDSRT_PAGE in the environment names. Each test
loads it anew. After a test the console of the browser must be empty, and nothing may have been fetched but files of the
page.
"""
import base64
import glob
import json
import os
import re
import subprocess
import unittest
import zlib

from tests import browser, firefox
from tests.needed import needs
from tests.support import PROGRAM, SECONDS, Case, bytes_of, path, why_not_tested

FOLDER = os.path.abspath(os.environ.get("RDSRT_PAGE") or path("page/out"))
URL = f"file://{FOLDER}/index.html"
EXAMPLES = path("examples")
PROBE = path("tests/page_probe.js")
SEED = 20261123
TABS = ("log", "script")
SCHEMES = ("light", "dark")
READY = "probe.isReady()"
# milliseconds of probe.yardstick() on a quiet machine: that of the bounds for tasks
YARDSTICK = 30
# whether the browser is new enough for the page
IS_NEW = "CSS.supports('color', 'light-dark(red, blue)') && 'popover' in HTMLElement.prototype && 'any' in AbortSignal"
HI = "C201 2140 4849 0D20"
NOTHING = "---- ---- ---- ----"
GROUPS = [HI, "C201 2150 594F 0D20", "C201 2140 4A41 5A5A", "C201 2141 2046 4D0D", "C201 A140 504F 5020",
          "C201 A141 4D49 5820", "C201 3156 0000 4BD7", "C201 B158 8012 0985", "F000 2140 4849 0D20", NOTHING]
YO = "C201 2150 594F 0D20"
# three texts of two segments, each for 100 slots
EVERY_100 = "".join(f"C201 21{flag}0 {first}\nC201 21{flag}1 {second}\n" * 50 for flag, first, second in
                    ((4, "4A41 5A5A", "2046 4D0D"), (5, "4E45 5753", "2031 320D"), (4, "504F 5020", "4D49 580D")))


def example(name):
    """Returns the bytes of an example."""
    return bytes_of(f"examples/{name}")


def run_program(words, data):
    """Returns status, output and notes of the program."""
    done = subprocess.run([PROGRAM, *words], input=data, capture_output=True, timeout=SECONDS)
    return [done.returncode, done.stdout.decode(), re.findall("^rdsrt: (.*)$", done.stderr.decode(), re.M)]


def program(words, data):
    """Returns status and output of the program."""
    return run_program(words, data)[:2]


def idle(b):
    """Waits until the page has all its answers."""
    b.run("probe.idle()")


def call(b, what, *given):
    """Calls a function of the page with these values. Returns its value once the page is idle."""
    got = b.run(f"{what}({', '.join(map(json.dumps, given))})")
    idle(b)
    return got


def of(b, query, what):
    """Returns a property of the first element that fits the query."""
    return b.run(f"document.querySelector({json.dumps(query)}).{what}")


def text_of(b, query):
    """Returns the text of the first element that fits the query."""
    return of(b, query, "textContent")


def click(b, query):
    """Clicks the first element that fits the query."""
    b.run(f"document.querySelector({json.dumps(query)}).click()")
    idle(b)


def shown(b, radio):
    """Returns the text on a receiver's display."""
    return text_of(b, f"#{radio} .lcd .text")


def settle(b):
    """Waits until the page has taken what was typed, and has all its answers."""
    b.run("probe.settled()")


def visit(b, url):
    """Opens the page, and waits until it is ready."""
    b.go(url)
    with open(PROBE, encoding="utf-8") as probe:
        b.run(probe.read() + ";window.probe = probe; undefined")
    b.until(READY)


def reload(b):
    """Loads the page anew from its address."""
    visit(b, b.run("location.href"))


def to_tab(b, name):
    """Opens a tab by its button."""
    click(b, f"#tab-{name}")


def move(b, tab, slot):
    """Chooses a slot of a tab's timeline."""
    call(b, "probe.move", tab, slot)


def wheel(tab, across, down, **more):
    """Returns a script that turns the wheel over the middle of a tab's timeline: whether the timeline took it."""
    given = json.dumps({"deltaX": across, "deltaY": down, "cancelable": True, "bubbles": True, **more})
    return (f"(it => {{ const {{ left, top, width, height }} = it.getBoundingClientRect(); const event = new WheelEvent('wheel', {{ ...{given},"
            " clientX: left + width / 2, clientY: top + height / 2 }); it.dispatchEvent(event); return event.defaultPrevented; })"
            f"(document.querySelector('#{tab}-time canvas'))")


def focus(b, tab):
    """Gives a tab's timeline the focus."""
    b.run(f"document.querySelector('#{tab}-time canvas').focus()")


def cursor(b, tab):
    """Returns the slot that a tab's timeline says."""
    return int(of(b, f"#{tab}-time canvas", "ariaValueNow"))


def open_script(b, text, **options):
    """Opens a script with these options in its tab."""
    to_tab(b, "script")
    call(b, "probe.open", "script", text, options)


def verdict_of(b, log, m, **more):
    """Opens a log, and returns its verdict. With `fill=False` the page adds no lost slots by its times."""
    to_tab(b, "log")
    call(b, "probe.open", "log", log, {"pi": "C201", "m": m, "k": 0, **more})
    return settled_verdict(b)


def settled_verdict(b):
    """Returns the verdict once the page has looked for a witness."""
    b.until("!document.querySelector('#verdict').textContent.includes('Looking for')")
    return text_of(b, "#verdict")


def printed(b):
    """Returns the lines of the script's output, once it is played."""
    idle(b)
    return text_of(b, "#script-lines")


def hidden(b):
    """Returns the tabs that are not open."""
    return [name for name in TABS if of(b, f"#{name}", "hidden")]


def example_of(b, tab, name):
    """Opens an example by a part of its name."""
    to_tab(b, tab)
    number = b.run(f"RDSRT_EXAMPLES.{tab}.findIndex(it => it.name.includes({json.dumps(name)}))")
    call(b, "probe.choose", f"{tab}-example", number)


def longest_task(b, does, most):
    """Returns the longest task of the page while a script, and all that it causes, goes on: in milliseconds of the machine
    with the yardstick. A fixed piece of work before and after it says how fast this machine is now."""
    pause = "new Promise(done => setTimeout(done, 300))"
    return least_of_three(b, f"probe.longestTask(async () => {{ await ({does}); await {pause}; await probe.idle(); }})", most)


def answer_time(b, does, most):
    """Returns how long a script, and all that it causes, goes on, in the same milliseconds."""
    return least_of_three(b, f"probe.timeOf(async () => {{ await ({does}); await probe.idle(); }})", most)


def least_of_three(b, measured, most):
    """Returns the least value of a script in three tries, in milliseconds of the machine with the yardstick."""
    values = []
    # the first yardstick is not compiled yet
    b.run("probe.yardstick()")
    while len(values) < 3 and (not values or values[-1] > most):
        value, *yards = b.run(f"(async () => [probe.yardstick(), await {measured}, probe.yardstick()])()"
                              ".then(([before, value, after]) => [value, before, after])")
        values.append(round(value * 2 * YARDSTICK / sum(yards)))
    return min(values)


def first_examples(b):
    """Opens the first example of each tab."""
    tab = "script" if of(b, "#log", "hidden") else "log"
    for name in ("log-example", "script-example"):
        call(b, "probe.choose", name, 0)
        settle(b)
    to_tab(b, tab)


def packed(script):
    """Returns a script as a link holds it."""
    deflate = zlib.compressobj(wbits=-15)
    return base64.urlsafe_b64encode(deflate.compress(script) + deflate.flush()).decode().rstrip("=")


def why_no_page():
    """Returns why there is no page to test, or None: it is missing, or page/out is older than what page/build puts into it."""
    if "RDSRT_PAGE" in os.environ:
        return None if os.path.isfile(os.path.join(FOLDER, "index.html")) else f"no page in {FOLDER}"
    parts = [it for at in ("page/*", "page/*/*", "examples/*.*") for it in glob.glob(path(at)) if os.path.isfile(it)]
    why = why_not_tested("page/out/index.html", "rds_wasm", *parts)
    return f"{why}: page/build makes it" if why else None


# ---- the browsers


class PageCase(Case):
    """A test of the page in one browser: `b` drives it."""

    # a browser waits for half of the time, and takes up to 1 GB
    most = 4
    # whether the console must stay empty, and nothing may be fetched
    is_quiet = True
    driver, name = None, None

    @classmethod
    def setUpClass(cls):
        if why_no_page():
            raise RuntimeError(why_no_page())
        cls.b = cls.driver.Browser()
        cls.addClassCleanup(cls.b.close)
        if not cls.b.run(IS_NEW):
            raise unittest.SkipTest(f"this {cls.name} is too old for the page")

    def setUp(self):
        self.b.size(1280, 900)
        self.b.events.clear()
        visit(self.b, URL)
        self.check("the program runs in this browser", text_of(self.b, "#no-engine"), "")

    def tearDown(self):
        if self.is_quiet:
            self.check("the browser's console is empty", self.b.complaints(), [])
            self.nothing_fetched()

    def nothing_fetched(self):
        """Checks that only files of the page were fetched. Firefox does not note files from a disk."""
        fetched, own = self.b.fetched(), (f"file://{FOLDER}/", "http://127.0.0.1:", "data:", "blob:", "about:")
        self.check("nothing is fetched but the page's files", [it for it in fetched if not it.startswith(own)], [])
        here = {re.sub("[?#].*", "", it).rsplit("/", 1)[-1] for it in fetched if it.startswith(("file:", "http:"))}
        self.check("and these are in its folder", sorted(here - set(os.listdir(FOLDER))), [])


@needs("chromium", "chromium-driver", "python3-selenium")
class ChromiumCase(PageCase):
    driver, name = browser, "Chromium"

    def setUp(self):
        self.b.scheme("light")
        super().setUp()


@needs("firefox-esr", "python3-websocket")
class FirefoxCase(PageCase):
    driver, name = firefox, "Firefox"
