"""Files that the page opens."""
import gzip

from tests.page_support import (EVERY_100, HI, NOTHING, TABS, URL, ChromiumCase, FirefoxCase, call, click, example,
                                first_examples, hidden, idle, of, open_script, printed, program, run_program, settle,
                                text_of, to_tab, verdict_of, visit)

TURNS = "\u061c\u200e\u200f\u202a\u202b\u202c\u202d\u202e\u2066\u2067\u2068\u2069"


class Files:
    def test_the_log_tab_starts_with_a_field_for_a_log(self):
        """No answer over an example is shown before a choice. The keys reach the road, the field and the examples."""
        b = self.b
        seen = lambda query: b.run(f"[...document.querySelectorAll({query!r})].filter(it => it.checkVisibility())"
                                   ".map(it => it.textContent.trim())")
        result = "#log-form, #verdict, #log-radio, #log-alone, #log-time"
        names = b.run("RDSRT_EXAMPLES.log.map(it => it.name)")
        titles = ["A car leaves a tunnel. What does its display say?", "Open a log of your station"]
        self.check("the road and the field alone", (seen("#log h2"), seen(result)), (titles, []))
        self.check("the examples", (seen("#log-start-examples a"), len(names) > 4), (names, True))
        b.run("document.querySelector('#tab-log').focus()")
        reached = []
        on_road = [f"{it} tunnel, its {part}" for it in ("First", "Second") for part in ("place", "exit")]
        on_road = ["Text 1", "Text 2", "Text 3", *on_road, "Play", "Slot of the road", "road-share", "road-script"]
        for _ in range(len(on_road) + 1 + len(names)):
            b.key("Tab")
            reached.append(b.run("(e => e.id || e.ariaLabel || e.textContent)(document.activeElement)"))
        self.check("the tab key reaches them", reached, [*on_road, "log-start-file", *names])
        # a key presses no button in the window of a headless Firefox, which has no focus
        if b.run("document.hasFocus()"):
            b.key("Enter")
        else:
            b.run("document.activeElement.click()")
        idle(b)
        self.check("Enter opens one", (of(b, "#log-example", "selectedOptions[0].text"), len(seen(result))),
                   (names[-1], 5))
        self.check("the focus is on the examples", b.run("document.activeElement.id"), "log-example")
        visit(b, URL)
        call(b, "probe.pick", "log-start-file", "own.log", EVERY_100)
        settle(b)
        self.check("its button opens a file", (text_of(b, "#log-file-name"), seen("#log-start h2"), len(seen(result))),
                   ("own.log", [], 5))

    def test_of_several_files_the_first_is_opened(self):
        b = self.b
        open_script(b, "")
        script = example("tunnel.csv").decode()
        for names, tab in ((["a.csv", "b.log"], "script"), (["<b>.log", "b.csv", "c"], "log"), (["a.csv"], "script")):
            call(b, "probe.dropAll", [[name, script if name.endswith(".csv") else HI] for name in names])
            settle(b)
            got = hidden(b), text_of(b, f"#{tab}-file-name")
            self.check(f"dropped: {names}", got, ([it for it in TABS if it != tab], names[0]))

    def test_the_content_decides_what_a_file_is(self):
        b = self.b
        log = f"# noted\n{HI} @2024/06/01 07:58:12.00\n{NOTHING}\n"
        for name in ("plain.log", "spread.csv"):
            call(b, "probe.drop", name, log)
            settle(b)
            got = hidden(b), call(b, "probe.textOfLog"), text_of(b, "#log-lines")
            self.check(name, got, (["script"], log, '0 text "HI"\n'))
        script = "\uFEFFtext,HI,1,G\n"
        call(b, "probe.drop", "own.txt", script)
        settle(b)
        self.check("a script with a mark", (hidden(b), of(b, "#script-text", "value")), (["log"], script))

    def test_a_long_field_is_printed_nowhere(self):
        """A fault does not quote a field of 3 MB."""
        b = self.b
        long = "A" * 3_000_000
        for script in (f"{long},,1,G\n", f"text,{long},1,G\n-,,1,G\n", f"-,,1,{long}\n"):
            call(b, "probe.drop", "own.csv", script)
            settle(b)
            both = "[document.body.textContent, document.body.innerText]"
            sizes = b.run(f"{both}.map(text => text.includes('A'.repeat(500)))")
            note = run_program(["sim", "--pi", "C201"], script.encode())[2][-1]
            fault = text_of(b, "#script-fault").partition(". The rows from")[0]
            self.check(f"a field of 3 MB in {script[:8]}", (fault, sizes), (note, [False, False]))
        call(b, "probe.open", "log", f"{long}\n", {"m": 8})
        settle(b)
        self.check("nor is a line of 3 MB", b.run("document.body.textContent.includes('A'.repeat(100))"), False)

    def test_no_text_of_a_file_turns_the_words_around_it(self):
        """It is isolated, and marks of direction are escapes."""
        b = self.b
        for mark in [*TURNS, "\x1b", "\x85"]:
            open_script(b, f"text,a{mark}b,1,G\n", m=8, k=0)
            found = set(text_of(b, "#script-fault")) & set(TURNS + "\x1b\x85")
            self.check(f"U+{ord(mark):04X} in a fault", (found, of(b, "#script-fault", "checkVisibility()")), (set(), True))
        open_script(b, "text,\u0639,1,G\n", m=8, k=0)
        self.check("a quoted letter is isolated", text_of(b, "#script-fault bdi"), "'\u0639'")
        verdict_of(b, "C201 \u202e \u0639\n", 8)
        quoted = text_of(b, "#verdict bdi")
        self.check("a quoted line is isolated", (quoted[:6], set(quoted) & set(TURNS)), ('"C201 ', set()))
        for name, wanted in (("a\u202egol.csv", "a\\u202Egol.csv"), ("\u0639.csv", "\u0639.csv")):
            call(b, "probe.drop", name, "-,,1,G\n")
            settle(b)
            got = text_of(b, "#script-file-name bdi")
            self.check(f"a file's name {wanted}", got, wanted)
        first_examples(b)

    def test_the_next_file_keeps_m_and_k(self):
        """The first one has the defaults, whatever an example had. An example keeps its own M."""
        b = self.b
        for tab, name, text in (("log", "own.log", EVERY_100), ("script", "tunnel.csv", example("tunnel.csv").decode())):
            numbers = lambda: [of(b, f"#{tab}-{it}", "value") for it in ("m", "k")]
            to_tab(b, tab)
            call(b, "probe.choose", f"{tab}-example", 0)
            call(b, "probe.choose", f"{tab}-m", "5")
            settle(b)
            for way in ("drop", "pick"):
                call(b, f"probe.{way}", *([f"{tab}-file"] if way == "pick" else []), name, text)
                settle(b)
                self.check(f"{tab} by {way}", numbers(), ["128", "0"] if way == "drop" else ["64", "3"])
                for field, value in (("m", "64"), ("k", "3")):
                    call(b, "probe.choose", f"{tab}-{field}", value)
                settle(b)
            call(b, "probe.choose", f"{tab}-example", 0)
            settle(b)
            self.check(f"an example of {tab}", numbers(), ["8", "0"])
            call(b, "probe.drop", name, text)
            settle(b)
            self.check(f"{tab} after an example", numbers(), ["64", "3"])
            call(b, "probe.choose", f"{tab}-m", "")
            settle(b)
            call(b, "probe.drop", name, text)
            settle(b)
            self.check(f"{tab} after an M that is refused", numbers(), ["64", "3"])
        first_examples(b)

    def test_a_dropped_log_is_a_recording(self):
        """Its station was on air before it, unless a switch says that the log is complete."""
        b = self.b
        call(b, "probe.drop", "own.log", f"{HI}\nC201 B158 8002 0000\n")
        settle(b)
        self.check("a recording", (text_of(b, "#verdict h2"), of(b, "#log-running", "checked"),
                                   text_of(b, "#audit-command")),
                   ("✓ Passes with M = 128 (11.2 s)", True, "rdsrt audit --all --pi C201 --m 128 --k 0 --running"))
        click(b, "#log-running")
        settle(b)
        self.check("a complete log", (text_of(b, "#verdict h2"), text_of(b, "#audit-command")),
                   ("✗ EarlyTag with M = 128 (11.2 s)", "rdsrt audit --all --pi C201 --m 128 --k 0"))
        first_examples(b)
        self.check("an example is complete", of(b, "#log-running", "checked"), False)

    def test_padding_does_not_count_by_a_switch(self):
        b = self.b
        call(b, "probe.drop", "own.log", f"{HI}\nC201 2141 2020 2020\n")
        settle(b)
        self.check("spaces behind the carriage return", text_of(b, "#verdict h2"), "✗ NotOneText with M = 128 (11.2 s)")
        click(b, "#log-padded")
        settle(b)
        self.check("with the switch", (text_of(b, "#verdict h2"), text_of(b, "#audit-command")),
                   ("✓ Passes with M = 128 (11.2 s)",
                    "rdsrt audit --all --pi C201 --m 128 --k 0 --running --padded"))

    def test_a_file_is_read_as_the_program_reads_its_bytes(self):
        """Up to a malformed line, and without a byte-order mark."""
        b = self.b
        mark, log, script = b"\xef\xbb\xbf", example("hi.log"), example("tunnel.csv")
        latin = "text,Édith,1,\n".encode("latin-1")
        others = ["# Édith\n".encode("latin-1") + log, log.replace(b"\n", b"\r\n"), b"\xff\n" + log]
        for data, read in ((mark + log, log), (log + b"\xff\xfe\n" + log, log), *((it, it) for it in others)):
            call(b, "probe.drop", "own.log", list(data))
            settle(b)
            for name, words in (("log", ["decode", "--pi", "C201", "--why"]), ("audit", ["audit", "--pi", "C201"])):
                self.check(f"{words[0]} over a file that begins with {data[:12]}", text_of(b, f"#{name}-lines"),
                           program(words, read)[1])
            call(b, "probe.lose", 0)
            self.check("and once a slot is lost", text_of(b, "#audit-lines"),
                       program(["audit", "--pi", "C201"], read)[1])
        self.check("the last one has no slot before its fault", text_of(b, "#verdict h2"), "Line 1 is malformed")
        scripts = [mark + script, latin, script + latin, script.replace(b"\n", b"\r\n\r\n")]
        for data in scripts:
            call(b, "probe.drop", "own.csv", list(data))
            for m in (128, 8):
                call(b, "probe.choose", "script-m", m)
                settle(b)
                self.check(f"sim over a file that begins with {data[:12]}, M {m}", printed(b),
                           program(["sim", "--pi", "C201", "--pty", "10", "--m", str(m), "--why"], data)[1])

    def test_recordings_come_in_other_forms(self):
        """Packed by gzip, in UTF-16, or with a byte-order mark. What is no text is said, and so is an empty file."""
        b = self.b
        log = EVERY_100.encode()
        call(b, "probe.drop", "own.log", EVERY_100)
        settle(b)
        wanted = text_of(b, "#verdict h2")
        for name, data, box in (("packed", gzip.compress(log), "unpacked"), ("UTF-16", EVERY_100.encode("utf-16"), ""),
                                ("a mark", b"\xef\xbb\xbf" + log, "byte-order mark left out"),
                                ("both", gzip.compress(b"\xef\xbb\xbf" + log), "byte-order mark left out; unpacked")):
            call(b, "probe.drop", "own.log", list(data))
            settle(b)
            self.check(name, (text_of(b, "#verdict h2"), text_of(b, "#log-filled"), text_of(b, "#log-file-name")), (wanted, box, "own.log"))
        self.check("the command", text_of(b, "#audit-command").startswith("gunzip | tail -c +4 | rdsrt audit"), True)
        picture = b"\x89PNG\r\n\x1a\n\0\0\0\rIHDR"
        for name, data, why in (("empty.log", b"", "empty.log is empty."), ("empty.gz", gzip.compress(b""), "empty.gz is empty."),
                                ("a.png", picture, "a.png is no text, so it is no log and no script."),
                                ("cut.gz", gzip.compress(log)[:-12], "The page cannot unpack cut.gz: it is damaged, or too long.")):
            call(b, "probe.drop", name, list(data))
            settle(b)
            self.check(name, (text_of(b, "#verdict"), of(b, "#verdict", "className")), (f"{why}No log is open.", "verdict no"))

    def test_a_file_that_cannot_be_read_is_said(self):
        """A folder that is dropped, for example. Of two files at once the newer one is opened."""
        b = self.b
        own = "new File([{}], 'own.log')"
        slow = ("Object.assign({}, {{ arrayBuffer: async function () {{ await new Promise(done => setTimeout(done, 300));"
                " return File.prototype.arrayBuffer.call(this); }} }})")
        b.run("probe.openFile({ name: 'a <b>', arrayBuffer: async () => { throw new Error('a folder'); } })")
        settle(b)
        self.check("a folder", (text_of(b, "#verdict"), of(b, "#verdict", "className")),
                   ("The page cannot read a <b>.No log is open.", "verdict no"))
        b.run(f"probe.openFile({slow.format(own.format(repr(EVERY_100)))}); probe.openFile({own.format(repr(HI))})")
        b.until("new Promise(done => setTimeout(() => done(true), 600))")
        settle(b)
        self.check("two files", call(b, "probe.textOfLog"), HI)

    def test_what_is_pasted_is_opened(self):
        """Unless it belongs to a field, or is neither a log nor a script."""
        b = self.b
        paste = ("(text, at) => {{ const data = new DataTransfer(); data.setData('text', text); document.querySelector(at)"
                 ".dispatchEvent(Object.assign(new Event('paste', {{ bubbles: true }}), {{ clipboardData: data }})); }}")
        in_log, in_script = ["script"], ["log"]
        for text, at, wanted in ((EVERY_100, "h1", (in_log, EVERY_100)), (HI, "#log-m", (in_log, EVERY_100)),
                                 ("a line of a letter, and no log", "h1", (in_log, EVERY_100)),
                                 (example("tunnel.csv").decode(), "h1", (in_script, EVERY_100))):
            call(b, f"({paste.format()})", text, at)
            self.check(f"pasted over {at}: {text[:9]!r}", (hidden(b), call(b, "probe.textOfLog")), wanted)
            if text.startswith("a line"):
                self.check("why it is not", text_of(b, "#log-saved"), "The pasted text is no log and no script.")

    def test_a_log_that_changes_on_the_disk_stays_as_it_was_opened(self):
        """The answer and the search for a witness are over the same bytes."""
        b = self.b
        log = example("flags.log").decode()
        # a file whose bytes are others each time
        b.run("probe.openFile(Object.assign(new File([], 'own.log'), { times: 0, arrayBuffer: async function () { "
              f"return new TextEncoder().encode(this.times++ ? {HI!r} : {log!r}).buffer; }} }}))")
        settle(b)
        call(b, "probe.choose", "log-m", 8)
        settle(b)
        idle(b)
        wanted = program(["witness", "--pi", "C201", "--m", "8"], log.encode())[1]
        self.check("the witness", text_of(b, "#witness").split(": ", 2)[2].startswith(wanted.split(": ")[1].strip()), True,
                   text_of(b, "#witness"))

    def test_a_file_with_many_marks_is_soon_told_from_a_log(self):
        b = self.b
        for name, text in (("marks", "#" * 9000 + " my script\n"), ("lines", "\n" * 9000), ("blanks", " \t \n" * 9000)):
            call(b, "probe.drop", "own.csv", f"{text}Slot;Text\n")
            settle(b)
            self.check(name, hidden(b), ["log"])
            call(b, "probe.drop", "own.csv", f"{text[:9000]}\n{HI}\n")
            settle(b)
            self.check(f"{name} before a log", hidden(b), ["script"])

    def test_the_name_of_a_file_is_shown_as_long_as_the_file(self):
        """It is beside the field. The file can be chosen again."""
        b = self.b
        for tab, name, text in (("log", "<b>own</b>.log", EVERY_100),
                                ("script", "own.csv", example("tunnel.csv").decode())):
            shows = lambda: (text_of(b, f"#{tab}-file-name"), of(b, f"#{tab}-file", "files.length"))
            to_tab(b, tab)
            for way in ("pick", "drop"):
                call(b, f"probe.{way}", *([f"{tab}-file"] if way == "pick" else []), name, text)
                settle(b)
                # a field that still holds its file does not hear the same file again
                self.check(f"{tab}: a file by {way}", shows(), (name, 0))
                call(b, "probe.choose", f"{tab}-example", 1)
                self.check(f"{tab}: an example after it", shows(), ("", 0))
        call(b, "probe.drop", "own.csv", example("tunnel.csv").decode())
        settle(b)
        call(b, "probe.choose", "script-text", "-,,1,G\n")
        settle(b)
        self.check("an edited file", text_of(b, "#script-file-name"), "own.csv, edited")
        first_examples(b)


class Chromium(Files, ChromiumCase):
    def test_files_are_dropped(self):
        b = self.b
        rows = [("hi.log", example("hi.log").decode(), "log"), ("tunnel.csv", example("tunnel.csv").decode(), "script"),
                ("a", f"{NOTHING}\n{HI}\n", "log"), ("tunnel.txt", example("tunnel.csv").decode(), "script")]
        first_examples(b)
        for name, text, tab in rows:
            to_tab(b, "script" if tab == "log" else "log")
            call(b, "probe.drop", name, text)
            settle(b)
            opened = of(b, "#script-text", "value") if tab == "script" else call(b, "probe.textOfLog")
            self.check(f"{name} is dropped", (hidden(b), opened), ([it for it in TABS if it != tab], text))


class Firefox(Files, FirefoxCase):
    pass
