"""programs/lines: each form of a recording becomes the same log, its PI is named, and nothing is guessed in silence.

The groups are worked by hand, and the forms are those that the programs and radios print. The expected log is the one of
the groups in docs/FORMATS.md, with the times that the input had.
"""
import gzip
import io
import json
import os
import pty
import re
import socket
import subprocess
import threading
import zipfile

from tests.support import SECONDS, Case, path, temporary_folder, text_of

LINES = path("programs/lines")
LOST = "---- ---- ---- ----"
# two groups of C201, a lost slot, and a group of another programme
GROUPS = [("C201", "2140", "4849", "0D20"), ("C201", "0408", "E0CD", "4142"), None, ("1234", "2150", "594F", "0D20")]
CLOCKS = ["07:58:12.08", "07:58:12.17", "07:58:12.26", "07:58:12.34"]
DAY = "@2024/06/01"


def columns(between, write="{}".format, before="", after="", lost="----"):
    """Returns a form with the blocks in columns, and a time before or behind them: it makes the input of groups and times."""
    def made(groups, clocks):
        lines = []
        for group, clock in zip(groups, clocks):
            blocks = between.join(map(write, group) if group else [lost] * 4)
            lines.append(before.format(clock) + blocks + after.format(clock))
        return "".join(f"{it}\n" for it in lines)
    return made


def in_words(begin, end=""):
    """Returns a form with 16 digits in a word."""
    return lambda groups, clocks: "".join(f"{begin}{''.join(it or ['----'] * 4)}{end}\n" for it in groups)


def of_redsea(groups, clocks):
    """Makes the objects of redsea."""
    return "".join(json.dumps({"pi": "0xC201", "group": "2A", "raw_data": " ".join(it or ["----"] * 4),
                               "rx_time": f"2024-06-01T{clock}+0200"}) + "\n" for it, clock in zip(groups, clocks))


def of_a_radio(groups, clocks):
    """Makes the lines of a radio: a group with an error in place of a lost one."""
    return "".join(f"P{it[0]}\nR{''.join(it[1:])}00\n" if it else "S20\nR214048490D2004\n" for it in groups)


def decimal(block):
    return str(int(block, 16))


def behind(text, form):
    """Returns a form with other lines before it."""
    return lambda groups, clocks: text + form(groups, clocks)


# the name of a form, what makes it, what it is taken for, and what the times become
FORMS = [
    ("RDS Spy", behind('<recorder="RDS Spy">\n', columns(" ", after=" @2024/06/01 {}")), "blocks with spaces", f"{DAY} {{}}"),
    ("no times", columns(" "), "blocks with spaces", ""),
    ("redsea -x -t", columns(" ", after=" 2024-06-01T{}+0200"), "blocks with spaces", f"{DAY} {{}}+0200"),
    ("redsea --show-raw", of_redsea, "JSON of redsea", f"{DAY} {{}}+0200"),
    ("G: on a line", behind("S20\n", in_words("G:")), "lines G:", ""),
    ("G: on two lines", in_words("G:\r\n", "\r\n\r"), "lines G:", ""),
    ("a radio", of_a_radio, "the protocol", ""),
    ("16 digits", in_words(""), "16 digits in one word", ""),
    ("two spaces", columns("  "), "blocks with spaces", ""),
    ("tabs", columns("\t", after="\t{}"), "blocks with tabs", "@1970/01/01 {}"),
    ("commas", behind("time,a,b,c,d\n", columns(",", before="2024-06-01 {},")), "blocks with commas", f"{DAY} {{}}"),
    ("semicolons", columns(";", before="01.06.2024;{};"), "blocks with semicolons", f"{DAY} {{}}"),
    ("0x", columns(" ", "0x{}".format), "0x blocks", ""),
    ("0x with commas", columns(", ", "0x{}".format, after=", [{}]"), "0x blocks with commas", "@1970/01/01 {}"),
    ("decimal", columns(",", decimal), "decimal blocks with commas", ""),
    ("time first", columns(" ", before="[{}] "), "blocks with spaces", "@1970/01/01 {}"),
    ("quotation marks", columns('";"', before='"{}";"', after='"'), "blocks with semicolons", "@1970/01/01 {}"),
    ("lower case", columns(" ", str.lower), "blocks with spaces", ""),
    ("empty columns", columns(";", lost=""), "blocks with semicolons", ""),
    ("CR LF", lambda *given: columns(" ")(*given).replace("\n", "\r\n"), "blocks with spaces", ""),
]
# a radio that sends the PI with each group, and the same groups
RADIO = "RC201214048490D2000\nRC2010408E0CD414200\nRC2010408E0CD414240\nR12342150594F0D2000\n"
# times, and what they become; None is no time
TIMES = [
    ("2024-06-01 07:58:12,080", "@2024/06/01 07:58:12.080"), ("2024-06-01T07:58:12.08Z", "@2024/06/01 07:58:12.08Z"),
    ("2024/06/01 07:58:12", "@2024/06/01 07:58:12"), ("1.6.2024 7:58:12", "@2024/06/01 07:58:12"),
    ("Sat Jun  1 07:58:12 2024", "@2024/06/01 07:58:12"), ("INFO 2024-06-01 07:58:12.5 group", "@2024/06/01 07:58:12.5"),
    ("07:58:12.0812345678", "@1970/01/01 07:58:12.081234"), ("12,5", "12.5"), ("1717228692.08", "1717228692.08"),
    ("1717228692080", "1717228692.080"), ("12", None), ("98.0MHz", None), ("-3.5", None), ("hello", None), ("", None),
]
# an input that is refused, and what is said
REFUSED = [
    ("", "the input is empty"), ("hello\nthere\n", "no line has a group"),
    ("C201 2140 4849 0D20\nC201;2140;4849;0D20\n", "line 2: two forms: this line has blocks with semicolons between them, and "
     "the lines before it blocks with spaces between them"),
    ("# a\n\nC201 2140 4849 0D20\nC201 2140 48\nC201 2140 4849 0D20\n", "line 4: no group in this line: 'C201 2140 48'; a "
     "comment begins with #"),
    ('{"pi":"0xC201"}\n', "line 1: this JSON has no raw_data: run redsea with --show-raw"),
    ("C201 2140 4849 0D20 07:58:12\nC201 2140 4849 0D20 2024-06-01 07:58:12\n",
     "line 2: two forms of times: with a date and without a date"),
    ("C201 2140 4849 0D20\nC201 2140 4849 0D20 1.0\n12.5 C201 2140 4849 0D20\n", "line 3: no group in this line: "
     "'12.5 C201 2140 4849 0D20'; a comment begins with #"),
    ("1,49665,8512,18505,3360\n", "no line has a group"), ("C201;2140;4849;0D20;1234\n", "no line has a group"),
    ("G:C201214048490D20\nR214048490D2000\n", None),
]


def ran(given, *words):
    """Returns the status, the lines and the notes of the program."""
    given = given.encode() if isinstance(given, str) else given
    done = subprocess.run([LINES, *words], input=given, capture_output=True, timeout=SECONDS)
    return done.returncode, done.stdout.decode().splitlines(), done.stderr.decode().splitlines()


def wanted(times):
    """Returns the lines of the log of GROUPS."""
    return [" ".join([*(group or ["----"] * 4), *filter(None, [times.format(clock)])])
            for group, clock in zip(GROUPS, CLOCKS)]


def zipped(*texts):
    archive = io.BytesIO()
    with zipfile.ZipFile(archive, "w") as file:
        for number, text in enumerate(texts):
            file.writestr(f"recorded{number}.txt", text)
    return archive.getvalue()


def packed(text):
    """Yields an input of these bytes in each other form of a file, and what is said of it."""
    yield gzip.compress(text.encode()), ["packed by gzip"]
    yield zipped(text), ["packed by zip"]
    for code in ("utf-16", "utf-16-le", "utf-16-be"):
        yield text.encode(code), ["in UTF-16"]
    yield gzip.compress(text.encode("utf-16")), ["packed by gzip", "in UTF-16"]
    yield b"\xef\xbb\xbf" + text.encode(), []


class Forms(Case):
    def test_each_form_is_the_same_log(self):
        for name, make, form, times in [*FORMS, ("a radio with 16 digits", lambda *_: RADIO, "the protocol", "")]:
            given = make(GROUPS, CLOCKS)
            status, lines, notes = ran(given)
            log = wanted(times)
            self.check(name, (status, lines), (0, log), given)
            self.check(f"{name}: taken for", [form in it for it in notes if it.startswith("lines: taken for ")], [True])
            self.check(f"{name}: the PI", notes[-1], "lines: most groups are of C201: 2 of 3")

    def test_a_file_in_utf_16_or_packed_is_the_same_log(self):
        text = columns("\t", after="\t{}")(GROUPS, CLOCKS)
        for given, how in packed(text):
            status, lines, notes = ran(given)
            self.check(f"{how}", (status, lines), (0, wanted("@1970/01/01 {}")))
            self.check(f"{how} is said", [f"lines: the input is {it}" for it in how],
                       [it for it in notes if it.startswith("lines: the input is ")])
        self.check("two files", ran(zipped(text, text)),
                   (1, [], ["lines: the zip has 2 files: unpack it, and take one of them"]))

    def test_times(self):
        for words, time in TIMES:
            for begin, line in (("before", f"{words} C201 2140 4849 0D20\n"), ("behind", f"C201 2140 4849 0D20 {words}\n")):
                got = ran(line)[:2]
                self.check(f"{words!r} {begin}", got, (0, [" ".join(filter(None, ["C201 2140 4849 0D20", time]))]))
        night = "".join(f"C201 2140 4849 0D20 {it}\n" for it in ("23:59:59.9", "00:00:00.1", "00:00:00.2"))
        self.check("midnight", [it[20:] for it in ran(night)[1]],
                   ["@1970/01/01 23:59:59.9", "@1970/01/02 00:00:00.1", "@1970/01/02 00:00:00.2"])

    def test_what_is_left_out_is_said(self):
        given = "A report\n\n# a comment\nC201 2140 4849 0D20 hello\nC201 2140 4849 0D20\nC201 21"
        status, lines, notes = ran(given)
        self.check("the log", (status, lines), (0, ["C201 2140 4849 0D20"] * 2))
        self.check("left out", {it for it in notes if "left out" in it}, {f"lines: left out: {it}" for it in (
            "lines before the first group: 1", "empty lines: 1", "comments: 1", "a last line that is cut off: 1",
            "words beside the blocks that are no time: 1")})
        whole = gzip.compress(("C201 2140 4849 0D20\n" * 9999).encode())
        self.check("a cut file", "lines: the input is cut off" in ran(whole[:-9])[2], True)
        for damaged in (whole[:40] + b"\xff" * 40 + whole[80:], zipped("C201 2140 4849 0D20\n")[:-9]):
            status, _, notes = ran(damaged)
            self.check("a damaged file", (status, notes[-1].startswith("lines: the packed file is damaged: ")), (1, True), notes)

    def test_what_is_refused(self):
        for given, told in REFUSED:
            status, _, notes = ran(given)
            self.check(f"{given[:30]!r}", (status, told is None or notes[-1]), (1, told is None or f"lines: {told}"), given)
        self.check("no file", ran("", "/nowhere")[::2], (1, ["lines: /nowhere: No such file or directory"]))
        for words in (["--live", "a"], ["--baud", "9601"], ["a", "b"]):
            self.check(f"{words}", ran("", *words)[:2], (2, []))

    def test_digits_alone_are_hexadecimal_until_a_line_says_more(self):
        digits = "1234 2140 4849 0020\n"
        self.check("hexadecimal", ran(digits)[1], [digits.strip()])
        self.check("decimal", ran(digits + "1234 21400 4849 0020\n")[1], ["04D2 085C 12F1 0014", "04D2 5398 12F1 0014"])

    def test_notes_as_json(self):
        notes = [json.loads(it) for it in ran(FORMS[0][1](GROUPS, CLOCKS), "--json-notes")[2]]
        self.check("kinds", [it["kind"] for it in notes], ["form", "slots", "left_out", "pi"])
        self.check("the counts", {it: notes[1][it] for it in ("slots", "groups", "damaged", "lost", "times")},
                   {"slots": 4, "groups": 3, "damaged": 0, "lost": 1, "times": 4})
        self.check("the PI", (notes[-1]["pi"], notes[-1]["groups"], notes[-1]["of"]), ("C201", 2, 3))


class Radio(Case):
    """A radio that the test plays."""

    def test_a_radio_over_tcp_gives_times_and_pauses(self):
        with socket.create_server(("127.0.0.1", 0)) as server:
            asked = []

            def play():
                with server.accept()[0] as radio:
                    radio.sendall(b"0123456789abcdef\n")
                    file = radio.makefile("rb")
                    asked.extend([file.readline(), file.readline()])
                    radio.sendall(b"o1,0\nPC201\nR214048490D2000\n")
                    threading.Event().wait(1.5)
                    radio.sendall(b"PC201\nR214048490D2010\n")
            player = threading.Thread(target=play)
            player.start()
            status, lines, notes = ran("", "--password", "abc", f"127.0.0.1:{server.getsockname()[1]}")
            player.join()
        # the SHA-1 of the salt and the password
        self.check("what the radio gets", asked, [b"e30f85f0e45d851b3b9cb819636e0fb74eeb0a61\n", b"x\n"])
        self.check("the log", (status, [it[:19] for it in lines]), (0, ["C201 2140 4849 0D20", LOST, LOST]))
        times = [float(it[20:]) for it in lines]
        self.check("the times", (times == sorted(times), times[-1] - times[0] > 1), (True, True))
        self.check("the form", notes[0], "lines: taken for the protocol of XDR and TEF radios")

    def test_a_radio_at_a_serial_port(self):
        master, slave = pty.openpty()
        call = [LINES, os.ttyname(slave)]
        with subprocess.Popen(call, stdout=subprocess.PIPE, stderr=subprocess.DEVNULL, bufsize=0) as program:
            os.read(master, 2)
            os.write(master, b"PC201\nR214048490D2000\n")
            self.check("a line", program.stdout.readline()[:20], b"C201 2140 4849 0D20 ")
            program.terminate()
        os.close(master)
        os.close(slave)

    def test_the_lines_of_the_page(self):
        """docs/AIR.md: radio.txt, and the name of a radio."""
        text = text_of("docs/AIR.md")
        call, live = re.findall(r"^    (programs/lines radio\S+ \| \./rdsrt .*)$", text, re.M)
        self.check("a name and a port", re.search(r"radio\.local:\d+ ", live) is not None, True)
        folder = temporary_folder(self)
        os.symlink(path("programs"), os.path.join(folder, "programs"))
        with open(os.path.join(folder, "radio.txt"), "w", encoding="ascii") as file:
            file.write("PC201\nG:C201214048490D20\nS20\n")
        done = subprocess.run(["sh", "-c", call.replace("./rdsrt decode --pi C201", "cat")], cwd=folder, capture_output=True,
                              timeout=SECONDS)
        self.check("its log", done.stdout, b"C201 2140 4849 0D20\n")
