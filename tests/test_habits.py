"""docs/TEST.md, "What your encoder does": each row of its table is what logs of a few lines show.

The radio with the flag alone is `decode --m 65535`. The dwell is 8 slots. A row may have more than one log.
"""
import re
from typing import NamedTuple

from tests.support import Case, text_of
from tests.test_notes import noted
from tests.test_pace import segments_of

DWELL = 8
LOST = "---- ---- ---- ----"
# 11A carries RT+, or the application C563; 12A carries RT+
IN_11A, OTHER, IN_12A = "C201 3016 0000 4BD7", "C201 3016 0000 C563", "C201 3018 0000 4BD7"
# in 11A a title of four characters from 0 on, one of 30 from 5 on, and two empty tags; that of four in 12A
FOUR, THIRTY, EMPTY = "C201 B008 2006 0000", "C201 B008 22BA 0000", "C201 B000 0000 0000"
FOUR_IN_12A = FOUR.replace("B008", "C008")


def sent(text, flag=0):
    """Returns the lines of the segments of a text, or of all these bytes."""
    parts = segments_of(text) if isinstance(text, str) else [text[at:at + 4].hex().upper() for at in range(0, len(text), 4)]
    return [f"C201 {0x2000 | flag << 4 | place:04X} {it[:4]} {it[4:]}" for place, it in enumerate(parts)]


def name(text, flag=0):
    """Returns the lines of the two segments of a name."""
    data = text.ljust(8).encode().hex().upper()
    return [f"C201 {0xA000 | flag << 4 | place:04X} {data[8 * place:8 * place + 4]} {data[8 * place + 4:8 * place + 8]}"
            for place in (0, 1)]


OLD, BETWEEN, NEW = sent("NEWS AT TEN"), sent("ABBA SOS", 1), sent("ROCK SONG")
MIXED = ["NEWS AT TEN", "ROCK AT TEN", "ROCK SONTEN", "ROCK SONG"]
HARMLESS = "Here it may be harmless: receivers show nothing behind the carriage return. To judge the text without it: --padded"


class Play(NamedTuple):
    """A log, the answers of `audit --all --running`, a part of its notes, more options, the slots that are lost, and the
    texts and titles that the radio with the flag alone shows, if the row speaks of them. `none`: the text goes off the
    display."""
    log: list
    answers: list
    note: str = ""
    options: tuple = ()
    lost: range = range(0)
    radio: list = None


# the first cell of a row, and what is played for it
HABITS = {
    "fills its texts with spaces up to 64 characters, or ends each with a carriage return": [
        Play([*sent(b"NEWS AT TEN".ljust(64)), *sent(b"ABBA SOS".ljust(64), 1), *sent(b"ROCK SONG".ljust(64))], ["yes 48"]),
        Play([*OLD * 3, *BETWEEN * 3, *NEW * 3], ["yes 27"])],
    "ends a short text with spaces in its last segment, without a carriage return and without all 16 segments": [
        Play(sent(b"NEWS AT TEN ") * 3, ["yes 9"], "receivers of rdsrt do not show 1 of 1 text", radio=[]),
        Play(OLD * 3, ["yes 9"], radio=["NEWS AT TEN"]),
        Play(sent(b"NEWS AT TEN".ljust(64)), ["yes 16"], radio=["NEWS AT TEN".ljust(64)])],
    "sends spaces, zeros or old characters behind the carriage return": [
        Play(sent(b"NEWS\r".ljust(64)), ["no 2 NotOneText"], "in 1 of them it may be harmless"),
        Play(sent(b"NEWS\r".ljust(64, b"\0")), ["no 1 NotOneText"], "in 1 of them it may be harmless"),
        Play(sent(b"NEWS\rTEN"), ["no 1 NotOneText"], "in 1 of them it may be harmless", radio=["NEWS"]),
        *(Play(sent(it), ["yes 16"], options=("--padded",), radio=["NEWS"])
          for it in (b"NEWS\r".ljust(64), b"NEWS\r".ljust(64, b"\0"), b"NEWS\rAT TEN, WEATHER".ljust(64, b"?")))],
    "fills its texts with zeros, and sends no carriage return": [
        Play(sent(b"NEWS".ljust(64, b"\0")), ["no 1 NotOneText"]),
        Play(sent(b"NEWS".ljust(64, b"\0")), ["no 1 NotOneText"], options=("--padded",)),
        Play(sent(b"NEWS".ljust(32, b"\0")), ["no 1 NotOneText"], options=("--padded",), radio=[])],
    "sends a control character in a text": [
        Play(sent(b"NEWS\x02AT TEN\r"), ["no 1 NotOneText"], radio=[r"NEWS\x02AT TEN"]),
        Play(sent(b"NEWS\x02AT TEN\r"), ["no 1 NotOneText"], options=("--padded",)),
        Play(sent(b"NEWS\rAT TEN\r"), ["no 1 NotOneText"], radio=["NEWS"])],
    "never flips the flag": [Play([*OLD, *NEW], ["no 3 Changed"], radio=MIXED)],
    "changes one segment of a text without a flip, for example a clock or a frequency": [
        Play([*sent("98.0 MHz"), *sent("98.5 MHz")], ["no 3 Changed"],
             "in 1 of them no receiver shows a mix of texts: those with this flag agree, or differ in one segment",
             radio=["98.0 MHz", "98.5 MHz"])],
    "flips the flag some groups after the new text begins, or before": [
        Play([*OLD * 3, NEW[0], *sent("ROCK SONG", 1) * 3], ["no 9 Changed", "no 10 EarlyFlag"],
             radio=["NEWS AT TEN", "ROCK AT TEN", "none", "ROCK SONG"]),
        Play([*OLD * 3, sent("NEWS AT TEN", 1)[0], *sent("ROCK SONG", 1) * 3], ["no 10 Changed", "no 10 EarlyFlag"],
             radio=["NEWS AT TEN", "none", "ROCK SONG"])],
    "flips the flag without a new text, for example every 10 s": [
        Play([*OLD, *sent("NEWS AT TEN", 1), *OLD], ["no 6 EarlyFlag"],
             "in 1 of them no receiver shows a mix of texts: those with this flag agree, or differ in one segment",
             radio=["NEWS AT TEN", "none", "NEWS AT TEN", "none", "NEWS AT TEN"]),
        Play([*OLD, *sent("NEWS AT TEN", 1), *NEW], ["no 6 EarlyFlag"], lost=range(3, 6), radio=MIXED)],
    "changes its texts faster than every M + K slots": [
        Play([*OLD, *BETWEEN, *NEW], ["no 6 EarlyFlag"], lost=range(3, 6), radio=MIXED),
        Play([*OLD, *BETWEEN * 3, *NEW], ["yes 15"])],
    "sends RT+ tags together with their text": [
        Play([IN_11A, *OLD, *OLD, *BETWEEN, FOUR], ["no 10 EarlyTag"], lost=range(7, 10),
             radio=["NEWS AT TEN", "title NEWS"]),
        Play([IN_11A, *OLD, *OLD, *BETWEEN * 3, FOUR], ["yes 17"])],
    "sends two empty tags with each text, and its tags later": [
        Play([IN_11A, *OLD, *OLD, *BETWEEN, EMPTY, *BETWEEN * 3, FOUR], ["no 10 EarlyTag"],
             "in 1 of them both tags are empty, so no receiver shows them")],
    "lets a tag end outside its text": [
        Play([IN_11A, *OLD * 3, THIRTY], ["no 10 TagOutside"], radio=["NEWS AT TEN"])],
    "sends the tags of a text some groups before its first segment": [
        Play([IN_11A, *OLD * 3, FOUR, *BETWEEN * 3], ["yes 20"], radio=["NEWS AT TEN", "title NEWS", "none", "ABBA SOS"]),
        Play([IN_11A, *OLD * 3, THIRTY, *BETWEEN * 3], ["no 10 TagOutside"]),
        Play([IN_11A, *OLD * 2, FOUR, *BETWEEN, THIRTY], ["no 11 EarlyTag", "no 11 TagOutside"])],
    "sends RT+ in another group than 11A, for example in 12A": [
        Play([IN_12A, *OLD, *OLD, *BETWEEN, FOUR_IN_12A], ["yes 11"],
             "RT+ is in group 12A by the 3A groups, not in 11A: 1 group 12A was not judged. Give --rtplus 12A"),
        Play([IN_12A, *OLD, *OLD, *BETWEEN, FOUR_IN_12A], ["no 10 EarlyTag"], options=("--rtplus", "12A")),
        Play([IN_12A, *OLD, *OLD, *BETWEEN * 3, FOUR_IN_12A], ["yes 17"], options=("--rtplus", "12A"))],
    "uses 11A for another application": [
        Play([OTHER, *OLD, *OLD, *BETWEEN, FOUR], ["no 10 EarlyTag"],
             "group 11A carries the application C563 by the 3A groups, not RT+: these groups were read as tags"),
        Play([OTHER, *OLD * 3, THIRTY], ["no 10 TagOutside"], "the application C563")],
    "changes the programme type name (PTYN) without a flip": [
        Play([*name("JAZZ") * 5, *name("ROCK")], ["no 10 Changed"], "1 of 2 names: Changed in slot 10"),
        Play([*name("JAZZ") * 5, *name("ROCK", 1)], ["yes 12"])],
    "restarts on air": [
        Play([*OLD * 3, *BETWEEN, *NEW], ["no 12 EarlyFlag"]),
        Play([IN_11A, *OLD * 3, *BETWEEN * 3, *sent("ROCK SONG"), FOUR], ["no 22 EarlyTag"])],
    "sends RadioText in groups 2B, or none": [
        Play(["C201 2940 C201 4E45"], ["yes 1"], "the yes says nothing; 1 group 2B was not judged"),
        Play(["C201 0148 E0CD 4E45"], ["yes 1"], "no 2A, 10A or 11A group of C201: the yes says nothing")],
    "sends everything right, and the recording has one wrong group": [
        Play([*OLD * 4, NEW[0], *OLD * 4], ["no 12 Changed", "no 13 Changed", "no 13 EarlyFlag"]),
        Play([*OLD * 3, NEW[0], *OLD * 3], ["no 9 Changed", "no 10 Changed", "no 10 EarlyFlag"])],
}


def done(words, log):
    """Returns the output lines and the notes of a command over a log."""
    _, output, notes = noted(" ".join(words), "".join(f"{it}\n" for it in log).encode())
    return output.decode().splitlines(), notes


def shown(log, lost):
    """Returns the texts and titles that a radio with the flag alone shows, in their order. It loses some slots."""
    heard = [LOST if slot in lost else it for slot, it in enumerate(log)]
    lines = done(["decode", "--pi", "C201", "--m", "65535"], heard)[0]
    found = (re.fullmatch(r'\d+ (?:text "(.*)"|text (none)|tag1 ITEM.(TITLE) "(.*)")', it) for it in lines)
    return [it[1] or it[2] or f"title {it[4]}" for it in found if it]


class Habits(Case):
    def setUp(self):
        page = text_of("docs/TEST.md")
        section = page.split("## What your encoder does\n")[1].split("\n## ")[0]
        self.rows = dict(re.findall(r"^\| (.*?) \| (.*?) \|", section, re.M))
        self.filters = re.findall(r"^    sed -E 's/(.*?)/.*?/' station\.log \|", page, re.M)

    def test_each_row_is_played(self):
        self.check("rows", [it for it in self.rows if it not in ("What your encoder does", "---")], [*HABITS])

    def test_each_row_is_what_its_logs_show(self):
        for habit, plays in HABITS.items():
            for number, play in enumerate(plays):
                case, given = f"{habit} ({number})", "\n".join(play.log)
                lines, notes = done(["audit", "--all", "--running", "--pi", "C201", "--m", str(DWELL), *play.options],
                                    play.log)
                self.check(f"{case}: audit", lines, play.answers, given)
                self.check(f"{case}: notes", (play.note in notes, notes), (True, notes), given)
                faults = {it.split()[2] for it in lines if it.startswith("no")}
                self.check(f"{case}: the page names its faults", {it for it in faults if f"`{it}`" not in self.rows[habit]},
                           set())
                if play.radio is not None:
                    self.check(f"{case}: radio", shown(play.log, play.lost), play.radio, given)

    def test_the_note_on_the_first_fault(self):
        plays = HABITS["sends spaces, zeros or old characters behind the carriage return"][:3]
        for play in plays:
            words = ["audit", "--running", "--pi", "C201", "--m", str(DWELL)]
            self.check("the note proposes the option", HARMLESS in done(words, play.log)[1], True)
            padded = done([*words, "--padded"], play.log)
            self.check("with the option it is a yes", padded[0], [f"yes {len(play.log)}"])

    def test_what_is_left_out(self):
        """The two filters of the page leave out the groups with two empty tags, and all groups 11A."""
        empty, all_tags = map(re.compile, self.filters)
        for line, of_both in ((EMPTY, True), (FOUR, False), ("C201 B7F8 0000 0000", True), ("C201 B7F7 0000 0000", False)):
            self.check(f"{line}: two empty tags", bool(empty.match(line)), of_both)
            self.check(f"{line}: 11A", bool(all_tags.match(line)), True)
        for line in (IN_11A, OLD[0], FOUR_IN_12A, "C201 B808 0000 0000"):
            self.check(f"{line}: no group 11A", (bool(empty.match(line)), bool(all_tags.match(line))), (False, False))
