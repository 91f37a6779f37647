"""The page on paper: what is shown, without its controls."""
from tests.page_support import HI, YO, ChromiumCase, call, first_examples, settle, text_of, to_tab

# of a text with its ground
CONTRAST = 4.5
SHOWN = ("[...document.querySelectorAll('h1, button, input, canvas, figure, #verdict')]"
         ".filter(it => it.checkVisibility()).map(it => it.tagName)")


class Chromium(ChromiumCase):
    def test_the_page_is_printed_without_its_controls(self):
        """An open log has its answer, its displays and its timeline, on one page."""
        b = self.b
        b.run("probe.stopRoad()")
        low = lambda: [it for it in call(b, "probe.contrasts", CONTRAST)[1] if " on " not in it]
        # without motion no colour is on its way
        still = [{"name": "prefers-reduced-motion", "value": "reduce"}]
        on = lambda media: b.ask("Emulation.setEmulatedMedia", media=media, features=still)
        on("print")
        self.check("the start on paper", ({*b.run(SHOWN)}, low()), ({"FIGURE", "CANVAS"}, []))
        on("screen")
        call(b, "probe.drop", "own.log", f"{HI}\n" * 40 + f"{YO}\n" * 40)
        settle(b)
        on("print")
        self.check("a log on paper", ({*b.run(SHOWN)}, low()), ({"DIV", "FIGURE", "CANVAS"}, []))
        self.check("what log it is", text_of(b, "#log .what")[:-len("2026-11-30")], "own.log · C201, M = 128, K = 0 · ")
        self.check("one page of A4", b.run("document.documentElement.scrollHeight") < 1100, True)
        to_tab(b, "script")
        self.check("a script on paper", ({*b.run(SHOWN)}, low()), ({"FIGURE", "CANVAS"}, []))
        on("screen")
        first_examples(b)

    def test_paper_is_light_in_a_dark_system(self):
        """The canvas too: its inks, and what it draws at once, for paper has no frames."""
        b = self.b
        dark = [{"name": "prefers-color-scheme", "value": "dark"}, {"name": "prefers-reduced-motion", "value": "reduce"}]
        call(b, "probe.open", "log", f"{HI}\n" * 40 + f"{YO}\n" * 40, {"pi": "C201", "m": 8})
        inks = lambda: b.run("(({ ink, canvas }) => [ink.text, ink.card, ink['shade-text-0'], canvas.toDataURL()])($log.logTab.timeline)")
        b.ask("Emulation.setEmulatedMedia", media="print", features=[{"name": "prefers-color-scheme", "value": "light"}])
        settle(b)
        wanted = inks()
        b.ask("Emulation.setEmulatedMedia", media="screen", features=dark)
        settle(b)
        self.check("a dark screen has others", inks()[:3] != wanted[:3], True)
        # no frame comes
        b.run("window.requestAnimationFrame = () => 0")
        b.ask("Emulation.setEmulatedMedia", media="print", features=dark)
        b.until(f"$log.logTab.timeline.ink.text === {wanted[0]!r}")
        self.check("paper in a dark system", inks()[:3], wanted[:3])
        self.check("and what is drawn", inks()[3] == wanted[3], True)
        b.ask("Emulation.setEmulatedMedia", media="screen", features=[])
        b.scheme("light")
