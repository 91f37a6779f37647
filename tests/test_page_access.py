"""The page by key, to be heard and to be read: controls, contrast, colours, motion, and small windows."""
from tests.page_support import (FOLDER, GROUPS, HI, SCHEMES, TABS, URL, ChromiumCase, FirefoxCase, call, click, example,
                                first_examples, hidden, of, open_script, settle, settled_verdict, text_of, to_tab,
                                verdict_of, visit)
from tests.test_page_links import served

# of texts, and of shapes without a text
CONTRAST, GRAPHIC_CONTRAST = 4.5, 3
# widths of windows: a phone, and 400 % zoom of 1,280 px
NARROW = (390, 320)


def tree(b):
    """Returns role, name and value of each thing that a screen reader hears."""
    nodes = [it for it in b.ask("Accessibility.getFullAXTree")["nodes"] if not it.get("ignored")]
    return [tuple(it.get(key, {}).get("value") for key in ("role", "name", "value")) for it in nodes]


class Access:
    def test_the_tab_key_reaches_all_controls(self):
        """Arrows choose the tabs."""
        b = self.b
        wanted = {
            "log": ["tab-log", "log-example", "log-file", "log-pi", "log-m", "log-k", "log-w", "log-running", "log-padded",
                    "log-share", "log-lose", "log-go", "log-spans", "CANVAS", "SUMMARY"],
            "script": ["tab-script", "script-example", "script-file", "script-m", "script-k", "script-w",
                       "script-share", "CANVAS", "SUMMARY"],
        }
        first_examples(b)
        b.run("document.querySelector('#log-numbers').open = true")
        for name in TABS:
            to_tab(b, name)
            b.run("document.activeElement?.blur(); getSelection().removeAllRanges()")
            reached = set()
            for _ in range(40):
                b.key("Tab")
                reached |= set(b.run("(e => [e.id, e.name, e.tagName])(document.activeElement)"))
            self.check(f"the tab key reaches all of {name}", [it for it in wanted[name] if it not in reached], [])
        to_tab(b, "log")
        b.run("document.querySelector('#tab-log').focus()")
        b.key("ArrowRight")
        self.check("arrows choose the tab", (b.run("document.activeElement.id"), hidden(b)),
                   ("tab-script", ["log"]))

    def test_a_refused_field_looks_refused_and_says_why(self):
        b = self.b
        first_examples(b)
        edge = lambda field: b.run(f"(it => [it.borderTopStyle, it.borderTopColor])(getComputedStyle(document.querySelector('#{field}')))")
        bad = call(b, "probe.colour", "bad")
        for field, value, good, why in (
                ("log-spans", "12,3-7", "3-4", "Give slots from 0 to 5 in their order, as 3-7,12."),
                ("log-spans", "x", "", "Give slots from 0 to 5 in their order, as 3-7,12."), ("log-spans", "77", "", "Give slots from 0 to 5"),
                ("log-go", "abc", "2", "Give a slot below 6, or a time such as 1:30."), ("log-go", "6", "3", "Give a slot below 6")):
            to_tab(b, "log")
            for given, is_refused in ((value, True), (good, False)):
                call(b, "probe.choose", field, given)
                settle(b)
                described = of(b, f"#{field}", "getAttribute('aria-describedby')")
                self.check(f"{field} {given!r}", (edge(field) == ["dashed", bad], text_of(b, f"#{described}").startswith(why)),
                           (is_refused, is_refused), text_of(b, f"#{described}"))
        call(b, "probe.choose", "log-m", "0")
        settle(b)
        self.check("a number", edge("log-m"), ["dashed", bad])
        first_examples(b)
        visit(b, URL)
        b.run("probe.stopRoad()")
        b.run("{ const it = document.querySelectorAll('#road-texts input')[1]; it.value = '\u2603'; it.dispatchEvent(new Event('input')); }")
        settle(b)
        self.check("a text of the road", edge("road-texts input:nth-child(2)"), ["dashed", bad])

    def test_what_screen_readers_hear_changes_at_most_once_a_second(self):
        """While the car drives, and while a log and a script play."""
        b = self.b
        b.run("""window.changes = []; new MutationObserver((all) => {
            const live = (it) => (it.target.closest ? it.target : it.target.parentElement)?.closest('[role=status], [role=alert], [aria-live=polite]');
            for (const it of all) if (live(it)) changes.push(live(it).id);
        }).observe(document.body, { subtree: true, childList: true, characterData: true })""")
        call(b, "probe.open", "log", example("flags.log").decode() * 20, {"pi": "C201", "m": 8, "k": 0, "lost": [2, 3]})
        for tab in ("road", "log", "script"):
            if tab == "road":
                b.run("location.hash = ''")
                b.until("document.querySelector('#road').checkVisibility()")
            else:
                to_tab(b, tab)
            settle(b)
            call(b, "probe.move", tab, 0)
            b.run("new Promise(done => setTimeout(done, 1100))")
            b.run(f"changes.length = 0; document.querySelector('#{tab}-time .play').click()")
            b.run("new Promise(done => setTimeout(done, 3000))")
            heard = b.run("[...changes]")
            b.run(f"if (probe.plays('{tab}')) document.querySelector('#{tab}-time .play').click()")
            self.check(f"{tab} in 3 s", len(heard) <= 4 or heard, True)

    def test_both_tabs_have_the_legend_and_the_keys(self):
        b = self.b
        call(b, "probe.choose", "log-example", 0)
        for tab in TABS:
            to_tab(b, tab)
            seen = [of(b, f"#{tab} {it}", "checkVisibility()") for it in (".legend", ".keys summary")]
            self.check(tab, seen, [True, True])


    def test_controls_are_large_enough_and_tabs_and_displays_have_names(self):
        """24 px in each direction; of a box to tick its words count too. No two buttons of the verdict have one name."""
        b = self.b
        small = """[...document.querySelectorAll('button, select, summary, input, .button')]
            .filter(it => it.checkVisibility() && !it.matches('.button input'))
            .map(it => [it, (it.closest('label.inline') ?? it).getBoundingClientRect()])
            .filter(([, { width, height }]) => width < 23.9 || height < 23.9)
            .map(([it, { width, height }]) => `${it.tagName} ${it.id} ${it.textContent.slice(0, 20)} ${width} x ${height}`)"""
        self.check("the start", b.run(small), [])
        first_examples(b)
        settled_verdict(b)
        for width in (1280, 390):
            b.size(width, 900)
            for tab in TABS:
                to_tab(b, tab)
                settle(b)
                self.check(f"{tab} in {width} px", b.run(small), [])
                titles = f"[...document.querySelectorAll('#{tab} h2')].filter(it => it.checkVisibility())"
                self.check(f"{tab} has a heading", b.run(f"{titles}.some(it => it.textContent !== '')"), True)
        names = b.run("['log-radio', 'log-alone', 'script-air', 'script-radio', 'script-alone']"
                      ".map(id => document.getElementById(id).ariaLabel)")
        self.check("displays have names", (len(set(names)), all(names)), (5, True))
        buttons = b.run("[...document.querySelectorAll('#verdict button')].map(it => it.ariaLabel ?? it.textContent)")
        self.check("buttons of the verdict", (len(buttons) >= 2, [it for it in buttons if it.isdigit()]), (True, []))
        b.size(1280, 900)

    def test_the_numbers_are_explained_by_a_button(self):
        """It needs neither a pointer over it nor a title."""
        b = self.b
        first_examples(b)
        for tab in TABS[:2]:
            to_tab(b, tab)
            click(b, f"#{tab} [popovertarget=meaning]")
            words = "document.querySelector('#meaning').checkVisibility() && document.querySelector('#meaning').innerText"
            self.check(tab, [it for it in ("Dwell M", "Late K", "Window W") if it not in b.run(words)], [])
            click(b, f"#{tab} [popovertarget=meaning]")


class Chromium(Access, ChromiumCase):
    def test_borders_of_controls_stand_out(self):
        """WCAG 2.2, 1.4.11: 3 to 1, on what is behind them."""
        b = self.b
        for scheme in SCHEMES:
            b.scheme(scheme)
            visit(b, URL)
            self.check(f"the start, {scheme}", call(b, "probe.faintBorders", GRAPHIC_CONTRAST), [])
            first_examples(b)
            b.run("document.querySelector('#log-numbers').open = true")
            for tab in TABS:
                to_tab(b, tab)
                settle(b)
                self.check(f"{tab}, {scheme}", call(b, "probe.faintBorders", GRAPHIC_CONTRAST), [])
        b.scheme("light")

    def test_a_phone_says_what_rdsrt_is_and_has_room_for_fingers(self):
        """Its fields are 44 px high. The answer comes before the controls, and a display is as high as its line."""
        b = self.b
        b.size(390, 844)
        b.ask("Emulation.setTouchEmulationEnabled", enabled=True)
        visit(b, URL)
        self.check("the sentence", (of(b, "header p", "checkVisibility()"), "proved not to" in text_of(b, "header p")), (True, True))
        first_examples(b)
        height = lambda query: b.run(f"document.querySelector('{query}').getBoundingClientRect().height")
        self.check("touch", b.run("matchMedia('(pointer: coarse)').matches"), True)
        for tab in TABS:
            to_tab(b, tab)
            settle(b)
            low = b.run(f"[...document.querySelectorAll('#{tab} .bar :is(input:not([type=checkbox], [type=file]), select, button, .button)')]"
                        ".filter(it => it.checkVisibility() && it.getBoundingClientRect().height < 44).map(it => it.id)")
            self.check(f"fields of {tab}", low, [])
        answer, form = (b.run(f"document.querySelector('{it}').getBoundingClientRect().top") for it in ("#script-count", "#script-form"))
        self.check("the answer of a script", answer < form, True)
        self.check("displays", [height(f"#script-{it} .lcd") < 60 for it in ("air", "radio", "alone")], [True] * 3)
        to_tab(b, "log")
        settle(b)
        answer, form = (b.run(f"document.querySelector('{it}').getBoundingClientRect().top") for it in ("#verdict", "#log-form"))
        self.check("the answer of a log", answer < form, True)
        names = b.run("(it => it.lanes.map(({ name }) => name).filter(name => { const ctx = it.canvas.getContext('2d'); ctx.font = '12px system-ui';"
                      " return ctx.measureText(name).width > it.gutter - 10; }))($log.logTab.timeline)")
        self.check("names of lanes", names, [])
        b.ask("Emulation.setTouchEmulationEnabled", enabled=False)
        b.size(1280, 900)

    def test_a_phone_shares_a_link(self):
        """By its own sheet."""
        b = self.b
        b.ask("Emulation.setTouchEmulationEnabled", enabled=True)
        with served(FOLDER) as url:
            visit(b, url)
            b.run("window.shared = []; navigator.share = async (given) => { shared.push(given.url); }; undefined")
            first_examples(b)
            click(b, "#log-share")
            b.until("document.querySelector('#log-saved').textContent !== ''")
            got = b.run("[shared.length, shared[0] === location.href, document.querySelector('#log-saved').textContent]")
            self.check("shared", got, [1, True, "The link was shared."])
        b.ask("Emulation.setTouchEmulationEnabled", enabled=False)

    def test_forced_colours_keep_all_differences(self):
        """The canvas takes the colours of the system."""
        b = self.b
        grounds = "[...document.querySelectorAll('{}')].map(it => getComputedStyle(it).backgroundColor)"
        for scheme in SCHEMES:
            first_examples(b)
            b.scheme(scheme, **{"forced-colors": "active"})
            settle(b)
            to_tab(b, "log")
            settled_verdict(b)
            click(b, "#witness button")
            settle(b)
            ink = b.run("getComputedStyle(document.body).color")
            self.check("the canvas has the system's text colour", call(b, "probe.colour", "text"), ink)
            first, *others = b.run(grounds.format("nav button"))
            self.check("the chosen tab", (first not in others, len(set(others))), (True, 1))
            mixed, calm = b.run(grounds.format("#log-radio .lcd")), b.run(grounds.format("#script-air .lcd"))
            self.check("a display that is red", (of(b, "#log-radio", "className"), mixed != calm),
                       ("radio mixed", True))
            to_tab(b, "script")
            for tab in TABS[:2]:
                to_tab(b, tab)
                settle(b)
                low = [it for it in call(b, "probe.contrasts", CONTRAST)[1] if " on " not in it]
                self.check(f"contrast of {tab} in forced colours, {scheme}", low, [])
                drawn = b.run(f"[...document.querySelectorAll('#{tab} .legend svg')].map(it => it.outerHTML)")
                self.check(f"the swatches of {tab}", (len(drawn), len(set(drawn))), (9, 9))
        edges = []
        for log in (f"{HI}\n", f"{HI}\n{GROUPS[2]}\n", "", "bad\n"):
            verdict_of(b, log, 8)
            edges.append(b.run("getComputedStyle(document.querySelector('#verdict')).borderLeftStyle"))
        self.check("the edges of verdicts", edges, ["solid", "double", "dotted", "dashed"])
        b.scheme("light")
        first_examples(b)

    def test_nothing_moves_with_reduced_motion(self):
        b = self.b
        moves = """[...document.querySelectorAll('*')].filter(it => {
            const { transitionDuration, animationName, scrollBehavior } = getComputedStyle(it);
            return transitionDuration !== '0s' || animationName !== 'none' || scrollBehavior !== 'auto';
        }).length"""
        self.check("displays change softly", b.run(moves) > 0, True)
        b.scheme("light", **{"prefers-reduced-motion": "reduce"})
        self.check("nothing moves with reduced motion", b.run(moves), 0)
        b.scheme("light")

    def test_a_screen_reader_hears_slots_verdict_and_lines(self):
        b = self.b
        b.ask("Accessibility.enable")
        to_tab(b, "log")
        first_examples(b)
        settled_verdict(b)
        click(b, "#witness button")
        settle(b)
        nodes = tree(b)
        self.check("it finds the tabs", [name for role, name, _ in nodes if role == "tab"],
                   ["Look at a log", "Play a script"])
        self.check("and the slot",
                   [value for role, name, value in nodes if role == "slider" and name == "Slot of the log"], [4])
        told = of(b, "#log-time canvas", "ariaValueText")
        self.check("and what is shown there", "A receiver with rdsrt: “POP  FM”, mix" in told, True)
        self.check("and the verdict",
                   [role for role, name, _ in nodes if role == "heading" and "EarlyFlag" in (name or "")], ["heading"])
        b.run("document.querySelector('#log-lines').closest('details').open = true")
        self.check("and the lines", any('4 text "POP  FM"' in (name or "") for _, name, _ in tree(b)), True)
        controls = ("button", "slider", "textbox", "combobox", "spinbutton", "checkbox", "tab", "radio")
        self.check("all controls have names", [role for role, name, _ in nodes if role in controls and not name], [])
        b.ask("Accessibility.disable")

    def test_contrast_and_narrow_windows(self):
        """Of the start too."""
        b = self.b
        for tabs in (TABS[:1], TABS):
            for scheme in SCHEMES:
                b.scheme(scheme)
                for name in tabs:
                    to_tab(b, name)
                    settle(b)
                    seen, low = call(b, "probe.contrasts", CONTRAST)
                    self.check(f"contrast of {name}, {scheme}", (seen > 10, low), (True, []))
            b.scheme("light")
            for width in NARROW:
                b.size(width, 844, is_phone=False)
                for name in tabs:
                    to_tab(b, name)
                    settle(b)
                    self.check(f"{name} fits a window of {width} px", b.run("document.documentElement.scrollWidth"),
                               width)
            b.size(1280, 900)
            first_examples(b)

    def test_timeline_and_displays_take_the_whole_width(self):
        """The timeline is in sight. Prose stays readable."""
        b = self.b
        first_examples(b)
        box = "document.querySelector('{}').getBoundingClientRect()"
        for width in (1920, 1280):
            b.size(width, 900)
            for tab in TABS[:2]:
                to_tab(b, tab)
                settle(b)
                for part in (f"#{tab}-time", f"#{tab} .stage:not(#road *)"):
                    self.check(f"{part} in {width} px", b.run(f"{box.format(part)}.width") >= width - 60, True)
                self.check(f"the end of {tab}'s timeline in {width} px",
                           b.run(f"scrollTo(0, 0), {box.format(f'#{tab}-time')}.bottom <= 900"), True)
                prose = "document.querySelectorAll('.hint, .verdict p, .problem')"
                wide = b.run(f"[...{prose}].filter(it => it.clientWidth > 46 * 16).length")
                self.check(f"lines of prose in {width} px", wide, 0)
        b.size(1280, 900)

    def test_the_verdict_is_first(self):
        """The answer of a script is first too."""
        b = self.b
        call(b, "probe.choose", "log-example", 0)
        for width in (1920, 1280, 800, *NARROW):
            b.size(width, 900)
            to_tab(b, "script")
            settle(b)
            tops = b.run("['#script-count', '#script-air', '#script-time']"
                         ".map(it => document.querySelector(it).getBoundingClientRect().top)")
            self.check(f"the answer of a script in {width} px", tops[0], min(tops))
            to_tab(b, "log")
            settle(b)
            box = lambda query: b.run(f"(({{ left, right, top }}) => [left, right, top])"
                                      f"(document.querySelector('{query}').getBoundingClientRect())")
            (left, _, top), form = box("#verdict"), box("#log-form")
            self.check(f"its edge in {width} px", left, form[0])
            later = [query for query in ("#log-radio", "#log-alone", "#log-time")
                     if box(query)[2] < top or box(query)[2] == top and box(query)[0] <= left]
            self.check(f"what comes before it in {width} px", later, [])
        b.size(1280, 900)

    def test_a_phone_shows_names_of_lanes_and_displays_beside_the_timeline(self):
        b = self.b
        b.size(320, 844)
        open_script(b, "".join(f"{line}GG\n" for line in example("chanson.csv").decode().splitlines()), m=8, k=0)
        call(b, "probe.choose", "log-example", 2)
        for tab, display in (("log", "#log-radio"), ("script", "#script-air")):
            to_tab(b, tab)
            settle(b)
            names = call(b, "probe.lanes", tab)
            others = [it for it in names if "name" in it or "tag" in it]
            self.check(f"{tab} has lanes of a name and of tags", len(others) >= 4, True)
            ends = b.run(f"[document.querySelector('#{tab}-time').getBoundingClientRect().bottom, "
                         f"document.querySelector('{display}').getBoundingClientRect().top]")
            self.check(f"the displays of {tab} begin behind the timeline", 0 <= ends[1] - ends[0] < 110, True)
        b.size(1280, 900)

    def test_a_phone_has_verdict_and_timeline_first(self):
        """The displays come after them. The tab key goes from top to bottom."""
        b = self.b
        b.size(390, 844)
        first_examples(b)
        to_tab(b, "log")
        settled_verdict(b)
        box = "document.querySelector('{}').getBoundingClientRect()"
        end = lambda query, side: b.run(f"scrollTo(0, 0), {box.format(query)}.{side}")
        self.check("the verdict is in sight", (end("#verdict", "top") <= 500) or end("#verdict", "top"), True)
        self.check("the timeline is near", (end("#log-time", "top") <= 1000) or end("#log-time", "top"), True)
        for tab, places in (("log", "#verdict, #log-time, #log-radio"),
                            ("script", "#script-count, #script-time, #script-air")):
            to_tab(b, tab)
            settle(b)
            tops = [end(query, "top") for query in places.split(", ")]
            self.check(f"the order of {tab}", tops, sorted(tops))
            b.run("document.activeElement?.blur(); getSelection().removeAllRanges()")
            seen = []
            for _ in range(30):
                b.key("Tab")
                bottom = "scrollY + document.activeElement.getBoundingClientRect().bottom"
                seen.append(b.run(f"document.activeElement === document.body ? null : {bottom}"))
            reached = [it for it in seen[:seen.index(None) if None in seen else None]]
            self.check(f"the tab key goes down in {tab}",
                       [it for it, after in zip(reached, reached[1:]) if after < it - 60], [])
        b.size(1280, 900)


class Firefox(Access, FirefoxCase):
    pass
