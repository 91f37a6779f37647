"""The tab that plays a script: its text, its receivers, and the lanes of names and tags."""
from tests.page_support import (ChromiumCase, FirefoxCase, call, click, example, focus, of, open_script, printed,
                                program, settle, shown, text_of)


class ScriptTab:
    def test_a_script_is_edited_as_a_text(self):
        """The page plays it anew. A malformed row is named."""
        b = self.b
        click(b, "#tab-script")
        both = shown(b, "script-alone"), shown(b, "script-radio")
        self.check("one with the flag bit alone shows a mix", both, ("A1: closed today", "— no text —"))
        self.check("the mix is counted", text_of(b, "#script-count"),
                   "Ordinary radios show a mix: a text. With rdsrt none does.")
        self.check("it is the example", of(b, "#script-text", "value"), example("mix.csv").decode())
        for script in ("-,,1,GG\n" * 8 + "text,HELLO,1,GL\n" + "-,,1,GG\n" * 9, '-,,1,GG\n\n-,,1,GXG\n"-",,"1",GG\n'):
            call(b, "probe.choose", "script-text", script)
            settle(b)
            options = ["sim", "--pi", "C201", "--m", "8", "--pty", "10", "--why"]
            self.check("it is played", printed(b), program(options, script.encode())[1])
            held = of(b, "#script-text", "value"), of(b, "#script-example", "value")
            self.check("as it was typed", held, (script, ""))
        self.check("a fault", "row 2 (line 3)" in text_of(b, "#script-fault"), True, text_of(b, "#script-fault"))

    def test_up_and_down_choose_a_receiver(self):
        b = self.b
        open_script(b, "-,,1,GGG\n" * 20, m=8, k=0)
        focus(b, "script")
        first = int(of(b, "#script-radio", "ariaLabel").split()[1][0])
        for key, on in (("ArrowDown", 1), ("ArrowDown", 2), ("ArrowDown", 3), ("ArrowUp", 2)):
            b.key(key)
            self.check(key, of(b, "#script-radio", "ariaLabel"), f"Receiver {(first + on) % 3}, with rdsrt")

    def test_names_and_tags_have_lanes(self):
        b = self.b
        open_script(b, "".join(f"{line}GG\n" for line in example("chanson.csv").decode().splitlines()), m=8, k=0)
        names = [it.strip() for it in call(b, "probe.lanes", "script")]
        self.check("names and tags have lanes", [names.count(f"its {it}") for it in ("name", "tag 1", "tag 2")], [5, 5, 5])
        last = [call(b, "probe.runs", "script", which, "tag1", receiver)[-1]["value"]["text"]
                for which in ("alone", "views") for receiver in (0, 1)]
        self.check("tags of both kinds of receivers", last, ["Édith Piaf"] * 4)
        self.check("nothing is taken for a mix", "No receiver shows a mix" in text_of(b, "#script-count"), True)
        self.check("tags have their colour", 3 in call(b, "probe.codes", "script", "sent"), True)
        open_script(b, example("mix.csv").decode(), m=8, k=0)
        wanted = ["text" if "sent C201 2" in line else "other" for line in printed(b).splitlines() if " sent " in line]
        kinds = ["", "text", "name", "tags", "other"]
        got = [kinds[code & 7] for code in call(b, "probe.codes", "script", "sent") if code]
        self.check("announcements of tags have not", (got, "other" in got), (wanted, True))

    def test_a_wrong_group_is_shown_only_without_a_window(self):
        """The receiver with a window of 4 slots shows nothing of a wrong group. A second one within the window is refused."""
        b = self.b
        open_script(b, example("wrong.csv").decode(), m=8, k=0, w=8)
        self.check("the command", text_of(b, "#script-command"),
                   "rdsrt sim --pi C201 --pty 10 --m 8 --k 0 --confirm 8 --why")
        self.check("a radio shows a text that nobody sent", text_of(b, "#script-count"),
                   "Ordinary radios show a mix: a text. With rdsrt none does.")
        call(b, "probe.choose", "script-w", "")
        settle(b)
        self.check("without a window the row is refused", "only receivers with --confirm may get one" in
                   text_of(b, "#script-fault"), True)


class Chromium(ScriptTab, ChromiumCase):
    pass


class Firefox(ScriptTab, FirefoxCase):
    pass
