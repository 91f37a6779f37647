"""The timelines of the page: their keys, zoom and shapes."""
from tests.page_support import (GROUPS, HI, NOTHING, SCHEMES, YO, ChromiumCase, FirefoxCase, call, click, cursor, focus,
                                first_examples, move, of, settle, text_of, to_tab, verdict_of, wheel)

# of shapes without a text
GRAPHIC_CONTRAST = 3


class Timeline:
    def test_slots_in_time(self):
        """No part of a time comes to 60."""
        b = self.b
        times = {0: "0.00 s", 114: "9.98 s", 685: "1 min 0 s", 1366: "2 min 0 s", 41_101: "1 h 0 min 0 s", 49_384: "1 h 12 min 5 s"}
        self.check("times", {slots: b.run(f"$lines.time({slots})") for slots in times}, times)
        all_times = "Array.from({ length: 200000 }, (_, slots) => $lines.time(slots))"
        self.check("60", b.run(f"{all_times}.filter(told => /\\b60(\\.0+)? /.test(told))"), [])

    def test_keys_zoom_and_move(self):
        b = self.b
        first_examples(b)
        to_tab(b, "script")
        sight = lambda: call(b, "probe.sight", "script")
        count = int(of(b, "#script-time canvas", "ariaValueMax")) + 1
        move(b, "script", 29)
        call(b, "probe.zoom", "script", 20, 40)
        focus(b, "script")
        for key, wanted in (("w", [24.75, 10]), ("s", [20, 20]), ("0", [0, count])):
            b.key(key)
            self.check(f"the key {key}", sight(), wanted)
        call(b, "probe.zoom", "script", 30, 31)
        self.check("eight slots at least", sight()[1], 8)
        b.key("0")
        texts = [it["from"] for it in call(b, "probe.runs", "script", "air", "text") if it["value"] is not None]
        move(b, "script", texts[0])
        b.key("n")
        self.check("N goes to the next text", cursor(b, "script"), texts[1])
        b.key("p")
        self.check("P goes to the one before", cursor(b, "script"), texts[0])
        first_examples(b)

    def test_a_drag_moves_the_slots_in_sight(self):
        """A click chooses a slot."""
        b = self.b
        verdict_of(b, f"{HI}\n" * 1000, 8)
        call(b, "probe.zoom", "log", 100, 200)
        first, last = (call(b, "probe.place", "log", slot, "received") for slot in (180, 130))
        b.drag(first, last)
        self.check("a drag", [round(it) for it in call(b, "probe.sight", "log")], [150, 100])
        place = call(b, "probe.place", "log", 170, "received")
        b.drag(place, place)
        self.check("a click", (cursor(b, "log"), call(b, "probe.sight", "log")[1]), (170, 100))
        first_examples(b)

    def test_the_wheel_zooms_and_moves_and_else_the_page_scrolls(self):
        """At all slots and at the fewest it moves the page. A wheel across moves the slots in sight."""
        b = self.b
        verdict_of(b, f"{HI}\n" * 1000, 8)
        rows = (("out of all slots", 0, 100, False), ("into some", 0, -100, True), ("across", 100, 0, True), ("out again", 0, 100, True))
        for name, across, down, takes in rows:
            before = call(b, "probe.sight", "log")
            self.check(name, b.run(wheel("log", across, down)), takes)
            after = call(b, "probe.sight", "log")
            self.check(f"{name}: the sight", [after[1] < before[1], after[1] > before[1], after[1] == before[1] and after[0] > before[0]],
                       [down < 0, down > 0 and takes, across > 0])
        call(b, "probe.zoom", "log", 100, 108)
        self.check("into the fewest", b.run(wheel("log", 0, -100)), False)
        call(b, "probe.zoom", "log", 900, 1000)
        self.check("across at the end", b.run(wheel("log", 100, 0)), False)
        first_examples(b)

    def test_two_fingers_keep_their_slots(self):
        b = self.b
        verdict_of(b, f"{HI}\n" * 1000, 8)
        call(b, "probe.zoom", "log", 200, 600)
        place = lambda slot: call(b, "probe.place", "log", slot, "received")
        (left, y), (right, _) = place(300), place(500)
        fingers = lambda kind, *places: b.run("".join(
            "document.querySelector('#log-time canvas').dispatchEvent(Object.assign(new PointerEvent("
            f"'pointer{kind}', {{ bubbles: true, pointerType: 'touch', pointerId: {finger}, isPrimary: {str(finger == 0).lower()},"
            f" clientX: {x}, clientY: {y} }}), {{}}));" for finger, x in places))
        b.run("HTMLElement.prototype.setPointerCapture = () => {}")
        fingers("down", (0, left), (1, right))
        fingers("move", (0, left - 200), (1, right + 100))
        first, across = call(b, "probe.sight", "log")
        self.check("fewer slots are in sight", across < 400, True, f"{across}")
        apart = [round(place(slot)[0] - x) for slot, x in ((300, left - 200), (500, right + 100))]
        self.check("the slots are under the fingers", [abs(it) <= 3 for it in apart], [True, True], f"{apart} {first} {across}")
        chosen = cursor(b, "log")
        fingers("up", (0, left - 200), (1, right + 100))
        self.check("they choose no slot", cursor(b, "log"), chosen)
        first_examples(b)

    def test_a_strip_shows_where_the_slots_in_sight_are(self):
        """And all faults. A place of it comes into sight."""
        b = self.b
        log = "".join(f"{it}\n" for it in [HI] * 900 + [YO] * 3 + [HI] * 900)
        verdict_of(b, log, 8)
        inks = lambda: b.run("probe.stripInks('log', 'bad', 'lane')")
        first, across = call(b, "probe.sight", "log")
        self.check("the fault is in sight", first < 903 < first + across, True)
        shown = inks()
        self.check("the strip has the fault", (0 < shown["bad"] < 100, shown["lane"] > 3000), (True, True), f"{shown}")
        x, y = b.run("(it => [it.left, it.top + 8])(document.querySelector('#log-time canvas').getBoundingClientRect())")
        gutter, room = b.run("[$log.logTab.timeline.gutter, $log.logTab.timeline.room]")
        at = x + gutter + room / 4
        b.drag((at, y), (at, y))
        first, now = call(b, "probe.sight", "log")
        self.check("a quarter of it", (abs(first + now / 2 - 1803 / 4) < 12, now, cursor(b, "log")), (True, across, 903), f"{first} {now}")
        b.drag((at, y), (x + gutter + room / 2, y))
        first, now = call(b, "probe.sight", "log")
        self.check("a drag to its middle", abs(first + now / 2 - 1803 / 2) < 12, True, f"{first} {now}")
        first_examples(b)



class Chromium(Timeline, ChromiumCase):
    def test_kinds_of_groups_and_flags_differ_in_shape(self):
        """The legend shows the shapes of the lanes."""
        b = self.b
        log = "".join(f"{line}\n" for line in (HI, YO, GROUPS[4], GROUPS[7], GROUPS[6], NOTHING))
        verdict_of(b, log, 8)
        self.check("the codes of slots", call(b, "probe.codes", "log", "received"), [1, 9, 2, 3, 4, 0])
        kinds = []
        for slot in range(6):
            move(b, "log", slot)
            kinds.append(text_of(b, "#log-radio .led"))
        self.check("and the kinds of their groups in words", kinds,
                   ["text group", "text group", "name group", "tags group", "other group", "nothing received"])
        for scheme in SCHEMES:
            b.scheme(scheme)
            settle(b)
            legend = call(b, "probe.swatches")
            self.check(f"the legend, {scheme}", len(legend), 9)
            shapes = legend[:7]
            self.check(f"shapes differ, {scheme}", (len(set(shapes)), [it for it in shapes if "#" not in it]), (7, []))
            self.check(f"the lane has the shapes of the legend, {scheme}", call(b, "probe.ticks", "log", 6),
                       shapes[:6])
            call(b, "probe.lose", 5)
            settle(b)
            self.check(f"and a lost slot its own, {scheme}", call(b, "probe.ticks", "log", 6),
                       [*shapes[:5], shapes[6]])
            click(b, "#log-unlose")
            self.check(f"ticks, bars and marks stand out, {scheme}", call(b, "probe.faint", GRAPHIC_CONTRAST), [])
        b.scheme("light")


class Firefox(Timeline, FirefoxCase):
    pass
