"""The first screen: a car on a road with tunnels. Its displays are those of the program, whatever is dragged."""
import json
import random
import re
import sys

from tests.page_support import (EVERY_100, SEED, URL, ChromiumCase, FirefoxCase, call, click, cursor, hidden, move,
                                of, program, settle, text_of, to_tab, visit, wheel)
from tests.support import path

sys.path.append(path("python/src"))
from rdsrt.characters import PRINTED, closest

SLOTS, DRAGS = 96, 20
WORDS = ["sim", "--pi", "C201", "--pty", "10", "--m", "8", "--k", "0"]
# the text of each display in each slot, and whether it is red
DISPLAYS = (f"Array.from({{ length: {SLOTS} }}, (_, slot) => {{ probe.moveCar(slot); return ['air', 'dwell', 'alone'].map(it => "
            "[document.querySelector(`#road-${it} .text`).textContent, "
            "document.getElementById(`road-${it}`).classList.contains('mixed')]); })")
HANDLES = ("[...document.querySelectorAll('#road-band .end')].map(it => it.getBoundingClientRect())"
           ".map(it => [it.left + it.width / 2, it.top + it.height / 2])")
CAR = "Number(document.querySelector('#road-time canvas').ariaValueNow)"


def through(output, part):
    """Returns the text of a part at the end of each slot, or None, and its last word on what it is."""
    changes = dict(re.findall(rf"^(\d+) {part} text (\".*\"|none.*)$", output, re.M))
    words = dict(re.findall(rf"^(\d+) {part} text (mix|old|on air|replaced)$", output, re.M))
    text, word, all_slots = None, "on air", []
    for slot in map(str, range(SLOTS)):
        text = changes[slot][1:-1] if changes.get(slot, "n")[0] == '"' else None if slot in changes else text
        word = words.get(slot, word)
        all_slots.append((text, word))
    return all_slots


def wanted(script):
    """Returns what the three displays show in each slot: the texts, and which are mixes."""
    dwell = program(WORDS, script.encode())[1]
    alone = program([*WORDS, "--flag-alone"], script.encode())[1]
    lanes = [through(alone, "air"), through(dwell, "r0"), through(alone, "r0")]
    return [[[text, word == "mix"] for text, word in slot] for slot in zip(*lanes)]


def shown(b):
    """Returns what the displays show in each slot. A text in dashes is none."""
    return [[[None if text.startswith("— ") else text, is_mixed] for text, is_mixed in slot] for slot in b.run(DISPLAYS)]


def typed(b, number, text):
    """Types a text into a field of the road."""
    b.run(f"{{ const it = document.querySelectorAll('#road-texts input')[{number}]; it.value = {json.dumps(text)};"
          " it.dispatchEvent(new Event('input')); }")
    settle(b)


class Road:
    def test_the_displays_follow_each_drag_as_the_program_says(self):
        b, dice, mixes = self.b, random.Random(SEED), 0
        b.run("probe.stopRoad()")
        for number in range(DRAGS + 1):
            script, got = call(b, "probe.roadAsScript"), shown(b)
            self.check(f"drag {number}", got, wanted(script), script.encode())
            tunnels = call(b, "probe.tunnels")
            lost = [slot for slot, row in enumerate(script.splitlines()) if row.endswith("L")]
            self.check(f"drag {number}: the tunnels are the lost slots", lost,
                       [slot for first, end in tunnels for slot in range(first, end)], script.encode())
            mixes += any(is_mixed for *_, (_, is_mixed) in got)
            x, y = dice.choice(b.run(HANDLES))
            b.drag((x, y), (min(1240, max(30, x + dice.randrange(-400, 400))), y))
            settle(b)
        self.check_all("roads with a mix and without", 0 < mixes <= DRAGS, True)

    def test_all_of_the_road_stays_in_sight(self):
        """Neither the wheel nor a key zooms its lanes, and no button does. A wheel moves the page."""
        b = self.b
        b.run("probe.stopRoad()")
        b.size(1280, 500)
        b.run("document.querySelector('#road-time canvas').scrollIntoView({ block: 'center' })")
        before = b.run("scrollY")
        turned = b.run(wheel("road", 0, 100))
        b.run("document.querySelector('#road-time canvas').focus()")
        for key in "w+s-0":
            b.key(key)
        self.check("in sight", (call(b, "probe.sight", "road"), turned), ([0, SLOTS], False))
        self.check("its buttons", b.run("[...document.querySelectorAll('#road-time button')].map(it => it.className)"), ["play"])
        self.check("the page was in its middle", before > 0, True)
        b.size(1280, 900)

    def test_each_end_of_tunnels_that_meet_can_be_taken(self):
        """In a narrow window, and of a short tunnel."""
        b = self.b
        b.run("probe.stopRoad()")
        for width in (390, 1280):
            b.size(width, 844)
            settle(b)
            for from_, to in (([26, 47], [48, 60]), ([26, 27], [28, 29])):
                b.run(f"{{ const [one, other] = $road.road.tunnels; [one.from, one.to] = {from_}; [other.from, other.to] = {to};"
                      " $road.road.placeTunnels(); }")
                # those of one slot lie over each other in part
                reach = [0] if from_[1] - from_[0] > 1 else [-10, 0, 10]
                taken = b.run(f"({HANDLES}).map(([x, y], i) => {reach}.some(by => document.elementFromPoint(x + by, y)"
                              " === document.querySelectorAll('#road-band .end')[i]))")
                self.check(f"{width} px, {from_}, {to}", taken, [True] * 4)
                label = "[...document.querySelectorAll('#road-band .tunnel > span')].filter(it => it.checkVisibility() && it.scrollWidth > it.parentElement.clientWidth).length"
                self.check(f"{width} px: words beyond their tunnel", b.run(label), 0)
        b.size(1280, 900)

    def test_a_letter_that_the_table_lacks_has_another_in_its_place(self):
        """As programs/station sends it."""
        b = self.b
        b.run("probe.stopRoad()")
        for letter, sent in b.run("RDSRT_CLOSEST").items():
            self.check(f"what is sent for {letter}", (sent, letter in PRINTED.values()), (closest(letter), False))
        typed(b, 0, "It’s open – now")
        call(b, "probe.moveCar", 20)
        self.check("a display", text_of(b, "#road-air .text"), "It's open - now")
        self.check("the words", [f"rdsrt’s character table has no “{it}”: “{sent}” is sent." in text_of(b, "#road-says")
                                 for it, sent in (("’", "'"), ("–", "-"))], [True, True], text_of(b, "#road-says"))
        typed(b, 0, "Straße")
        self.check("a letter without one", text_of(b, "#road-says"), "Text 1: rdsrt’s character table has no “ß”.")
        typed(b, 0, "no \\xZZ escape")
        self.check("another refusal has the program's words", text_of(b, "#road-says").startswith("Text 1 is refused: fault row "), True)

    def test_the_first_road_shows_the_mix(self):
        """First both displays have the right text. The car drives up to the mix. Who asks for reduced motion sees it at once."""
        b = self.b
        # it stops at the mix
        b.until(f"{CAR} === 54 && !probe.plays('road')")
        texts = lambda: [text_of(b, f"#road-{it} .text") for it in ("air", "dwell", "alone")]
        self.check("displays", texts(), ["B7: closed today", "— waits to be sure —", "B7: opened today"])
        self.check("words", text_of(b, "#road-says"), "“B7: opened today” was never on air. The receiver with rdsrt "
                   "shows no text: no part for M slots. It shows the next one when it is complete: in slot 80.")
        call(b, "probe.moveCar", 20)
        self.check("before the tunnels", texts(), ["A1: open again, slow"] * 3)
        names = [of(b, f"#road-{it}", "ariaLabel") for it in ("air", "dwell", "alone")]
        self.check("names without a word of RDS", names, ["On air", "A receiver with rdsrt", "An ordinary radio"])
        click(b, "#road-script")
        b.until("document.querySelector('#script-text').value !== ''")
        self.check("as a script", hidden(b), ["log"])
        self.check("its rows", of(b, "#script-text", "value"), call(b, "probe.roadAsScript"))

    def test_each_four_letters_of_a_mix_have_the_hue_of_their_text(self):
        """The fields of the texts have these hues, and their bars."""
        b = self.b
        b.run("probe.stopRoad()")
        hues = lambda display: b.run(f"[...document.querySelectorAll('#road-{display} .text span')].map(it => [it.textContent, it.className])")
        call(b, "probe.moveCar", 60)
        self.check("the mix", hues("alone"), [["B7: ", "hue-2"], ["open", "hue-0"], ["ed t", "hue-2"], ["oday", "hue-2"]])
        self.check("on air", hues("air"), [["B7: closed today", "hue-2"]])
        fields = b.run("[...document.querySelectorAll('#road-texts input')].map(it => [it.value, it.className])")
        self.check("the fields", fields, [["A1: open again, slow", "hue-0"], ["Night Train, live tonight", "hue-1"],
                                          ["B7: closed today", "hue-2"]])

    def test_other_texts_can_be_typed(self):
        """A text that is no text is said."""
        b = self.b
        b.run("probe.stopRoad()")
        typed(b, 0, "Free ice cream today")
        typed(b, 2, "Heavy ice on the A9")
        call(b, "probe.moveCar", 60)
        self.check("the mix", text_of(b, "#road-alone .text"), "Heav icee on the A9")
        self.check("the program says so", shown(b), wanted(call(b, "probe.roadAsScript")))
        before = shown(b)
        typed(b, 1, "\u2603")
        self.check("a refused text", text_of(b, "#road-says"), "Text 2: rdsrt’s character table has no “\u2603”.")
        invalid = lambda: b.run("[...document.querySelectorAll('#road-texts input')].map(it => it.ariaInvalid)")
        self.check("its field is marked, and the road before stays", (invalid(), shown(b)), ([None, "true", None], before))
        typed(b, 1, "x" * 64)
        self.check("its field takes 64 characters", (b.run("document.querySelectorAll('#road-texts input')[1].maxLength"), invalid()),
                   (64, [None] * 3))

    def test_keys_move_tunnels_and_car(self):
        b = self.b
        b.run("probe.stopRoad()")
        before = call(b, "probe.tunnels")
        b.run("document.querySelector('#road-band .tunnel').focus()")
        b.key("ArrowRight")
        settle(b)
        self.check("a tunnel goes on by a slot", call(b, "probe.tunnels"), [[it + 1 for it in before[0]], before[1]])
        b.run("document.querySelector('#road-time canvas').focus()")
        b.key("End")
        self.check("the car goes to the end", b.run(CAR), SLOTS - 1)
        b.run("probe.stopClock()")
        click(b, "#road-time .play")
        for slots, at, drives in ((0.5, 0, True), (10, 10, True), (40, 50, True), (60, SLOTS - 1, False), (60, SLOTS - 1, False)):
            b.run(f"probe.pass({slots}, 32)")
            self.check("it plays from the start, and stops at the end", b.run(f"[{CAR}, probe.plays('road')]"), [at, drives])

    def test_a_link_holds_the_road(self):
        """Its texts and its tunnels. A drag drops the link from the address."""
        b = self.b
        b.run("probe.stopRoad()")
        b.run("document.querySelector('#road-band .tunnel').focus()")
        b.key("ArrowRight")
        settle(b)
        click(b, "#road-share")
        tunnels, script = call(b, "probe.tunnels"), call(b, "probe.roadAsScript")
        b.until("location.hash.startsWith('#road=')")
        visit(b, b.run("location.href"))
        self.check("the road again", (call(b, "probe.tunnels"), call(b, "probe.roadAsScript")), (tunnels, script))
        b.run("document.querySelector('#road-band .tunnel').focus()")
        b.key("ArrowRight")
        settle(b)
        self.check("another road", b.run("location.hash"), "")

    def test_a_log_and_a_script_play(self):
        """A button runs the cursor, and stops it."""
        b = self.b
        call(b, "probe.open", "log", EVERY_100, {"pi": "C201", "m": 8})
        settle(b)
        b.run("probe.stopClock()")
        for tab in ("log", "script"):
            to_tab(b, tab)
            last = int(of(b, f"#{tab}-time canvas", "ariaValueMax"))
            after = lambda slots: (b.run(f"probe.pass({slots})"), cursor(b, tab), b.run(f"probe.plays('{tab}')"))[1:]
            move(b, tab, 3)
            click(b, f"#{tab}-time .play")
            self.check(f"{tab}: it plays", [after(0.5), after(20)], [(3, True), (23, True)])
            click(b, f"#{tab}-time .play")
            self.check(f"{tab}: the button stops it", [after(0), after(20)], [(23, False)] * 2)
            move(b, tab, last - 8)
            click(b, f"#{tab}-time .play")
            self.check(f"{tab}: it stops at the end", [after(5.5), after(20), after(20)],
                       [(last - 3, True), (last, False), (last, False)])

    def test_a_link_leads_over_the_road(self):
        b = self.b
        b.run("document.querySelector('#skip').focus()")
        click(b, "#skip")
        self.check("to the field for a log", b.run("document.activeElement.id"), "log-start-file")


class Chromium(Road, ChromiumCase):
    def test_nothing_moves_with_reduced_motion(self):
        b = self.b
        b.scheme("light", **{"prefers-reduced-motion": "reduce"})
        visit(b, URL)
        settle(b)
        self.check("the car stands at the mix", b.run(f"[{CAR}, probe.plays('road')]"), [54, False])


class Firefox(Road, FirefoxCase):
    pass
