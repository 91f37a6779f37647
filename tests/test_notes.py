"""The notes of the program on standard error: each note, and the calls without one."""
import bz2
import collections
import gzip
import io
import json
import lzma
import os
import pty
import random
import re
import shlex
import subprocess
import sys
import zipfile

from tests import plain_audit, worked_rows
from tests.support import PROGRAM, PROMPT, SECONDS, ProgramCase, bytes_of, path, temporary_folder

SEED = 20261126
HI = worked_rows.HI
LOST = worked_rows.NO_GROUP
DECODE, AUDIT, WITNESS = (f"{it} --pi C201" for it in ("decode", "audit", "witness"))
ENCODE, SIM = "encode --pi C201 --m 1", "sim --pi C201 --m 1"
LOOKS = "; a log line looks like C201 2140 4849 0D20"
RUNNING = ". If the station was on air before the log began: --running"
PADDING = (". Here it may be harmless: receivers show nothing behind the carriage return. To judge the text without it: "
           "--padded")
# a malformed line of a log, and the cause; blocks are counted from 1
LINES = [
    ("C201 21400 4849 0D20", "block 2 has 5 characters, expected 4"),
    ("C2 2140 4849 0D20", "block 1 has 2 characters, expected 4"),
    (" C201 2140 4849 0D20", "block 1 has 0 characters, expected 4"),
    ("C201 2140 4849 0D20X", "block 4 has 5 characters, expected 4"),
    ("C2012140 48490D20", "block 1 has 8 characters, expected 4"),
    ("C201 2140 4849", "it ends after block 3"),
    ("C201 2140", "it ends after block 2"),
    ("C201 ", "block 2 has 0 characters, expected 4"),
    ("C201 2140 48G9 0D20", "block 3 has a character that is not a hexadecimal digit"),
    ("C201 2140 4849 --2-", "block 4 has a character that is not a hexadecimal digit"),
    ("O201 2140 4849 0D20", "block 1 has a character that is not a hexadecimal digit"),
    # a digit is missing, and a group follows from the second word on
    ("C20 2140 4849 0D20 1234", "block 1 has 3 characters, expected 4"),
    ("C201214048490D2", "it has no space"),
    ("C201214048490D20E", "it has no space"),
    ("R21404849", "it has no space"),
    ("hello", "it has no space"),
    ("text,HI,1,", "it looks like a row of a script, which encode and sim read"),
    ("-,,1,GG", "it looks like a row of a script, which encode and sim read"),
    ("C201,2140,4849", "it looks like a row of a script, which encode and sim read"),
    ("BZ", "it has no space"),
]
# a line that other programs and radios write, and what it looks like: programs/lines reads each of them
FORMS = [
    ('{"raw_data":"C201 2140 4849 0D20"}', "JSON"),
    ("G:C201214048490D20", "a line G: of a radio"),
    ("PC201\nR214048490D2000", "a line P or R of a radio"),
    ("RC201214048490D2000", "a line P or R of a radio"),
    ("C201214048490D20", "a group in one word"),
    ("C201214048490D20 2024-06-01 07:58:12.08", "a group in one word"),
    ("0xC201 0x2140 0x4849 0x0D20", "a group with 0x before each block"),
    ("0XC201,0X2140,0X4849,0X0D20", "a group with 0x before each block"),
    ("C201,2140,4849,0D20", "a group with commas between its blocks"),
    ("C201, 2140, 4849, 0D20, 12.5", "a group with commas between its blocks"),
    ("C201;2140;4849;0D20", "a group with semicolons between its blocks"),
    ("C201 ; 2140 ; 4849 ; 0D20 ; 12.5", "a group with semicolons between its blocks"),
    ("C201\t2140\t4849\t0D20", "a group with tabs between its blocks"),
    ("C201  2140 4849 0D20", "a group with more than one space between its blocks"),
    ("12:00:00 C201 2140 4849 0D20", "a group with its time before it"),
    ("2024-06-01 07:58:12.08,C201,2140,4849,0D20", "a group with its time before it"),
    ("12.5;C201;2140;4849;0D20", "a group with its time before it"),
    ("[07:58:12.08] C201214048490D20", "a group with its time before it"),
    ("1717228692080 C201 2140 4849 0D20", "a group with its time before it"),
]
# the first bytes of a log that is no ASCII
MARKS = [(b"\xEF\xBB\xBF" + HI, "it begins with a byte order mark: save the log as plain ASCII"),
         *((f"{mark}{HI.decode()}".encode(code), "it looks like UTF-16: rdsrt-lines reads it")
           for mark in ("\uFEFF", "") for code in ("utf-16-le", "utf-16-be"))]
# how a program compresses, and what the note on its file says
PACKERS = [(gzip.compress, "gzip: gunzip"), (bz2.compress, "bzip2: bunzip2"), (lzma.compress, "xz: unxz")]
# what to type without --pi
NO_PI = "write --pi C201, with the PI code of your station in its place"
QUOTE = 'a quotation mark (") is still open at the end of its line, so the lines after it are in the same field'
COMMA = ": put a text with a comma between quotation marks"
SEMICOLONS = "it has semicolons between its fields: write commas"
LOG_LINE = "it looks like a line of a log, which decode, audit, witness and slots read"
ROWS = [
    (ENCODE, "text,HI,1", "expected 4 fields (COMMAND,ARGUMENT,FREE,RECEPTIONS), found 3"),
    (ENCODE, "TEXT,HI,1,", "COMMAND is not one of -, restart, text, name, tags (lower case)"),
    (ENCODE, "command,argument,free,receptions", "COMMAND is not one of -, restart, text, name, tags (lower case)"),
    (ENCODE, "-,HI,1,", "ARGUMENT: - and restart take none"),
    (ENCODE, "text,Straße,1,", "ARGUMENT: rdsrt's character table has no 'ß', at character 5"),
    (ENCODE, "name,’,1,", "ARGUMENT: rdsrt's character table has no '’', at character 1"),
    (ENCODE, f"text,{'x' * 67},1,", "ARGUMENT: the text is too long by 3 (at most 64 characters)"),
    (ENCODE, "name,POP MUSIC,1,", "ARGUMENT: the name is too long by 1 (at most 8 characters)"),
    (ENCODE, "text,HI,2,", "FREE is not 0 or 1"),
    (ENCODE, "text,HI,,", "FREE is not 0 or 1"),
    (ENCODE, "text,HI,1,GG", "RECEPTIONS: encode takes none; leave the field empty, but keep the comma before it"),
    (SIM, "text,HI,1,X", "RECEPTIONS: character 1 is not G, L, W or R"),
    (SIM, "text,HI,1,GGGGGGGGG", "RECEPTIONS: more than 8 receivers"),
    (SIM, "text,HI,1,G2", "RECEPTIONS: receiver 0: G2 is later than --k 0 allows"),
    (ENCODE, "tags,0 0 64 0 0 0 0 0,1,", "ARGUMENT: class of tag 1 is 64, at most 63 is allowed"),
    (ENCODE, "tags,0 0 1 0 0 0 0,1,", "ARGUMENT: tags takes 8 numbers with one space between them, found 7"),
    # no clause says which cause a row has: each cause, at its limits, and the first of two
    (ENCODE, "x", "expected 4 fields (COMMAND,ARGUMENT,FREE,RECEPTIONS), found 1"),
    (ENCODE, 'text,"HI,1,\n-,,1,', QUOTE),
    (ENCODE, 'text,"HI,1,\n-,,1,\ntext,"YO",1,', QUOTE),
    (ENCODE, '"text,HI,1,\r-,,1,', QUOTE),
    (SIM, 'text,HI,1,"GG\r\n-,,1,GG', QUOTE),
    (ENCODE, 'text,"HI\nYO",1,', QUOTE),
    (ENCODE, 'text,"HI,1,', QUOTE),
    (ENCODE, "sing,HI,2,X,", f"expected 4 fields (COMMAND,ARGUMENT,FREE,RECEPTIONS), found 5{COMMA}"),
    (SIM, "text,Gone, not forgotten, HI,1,G", f"expected 4 fields (COMMAND,ARGUMENT,FREE,RECEPTIONS), found 6{COMMA}"),
    (ENCODE, "text;HI;1;", SEMICOLONS),
    (SIM, '-;"";1;G', SEMICOLONS),
    (ENCODE, "text;HI, YO;1;", SEMICOLONS),
    (ENCODE, "text,HI;YO;1", "expected 4 fields (COMMAND,ARGUMENT,FREE,RECEPTIONS), found 2"),
    (ENCODE, "te;xt,HI,1,", "COMMAND is not one of -, restart, text, name, tags (lower case)"),
    (ENCODE, "C201 2140 4849 0D20", LOG_LINE),
    (SIM, "c201 2140 ---- 0d20 @2024/06/01 07:58:12.08", LOG_LINE),
    (ENCODE, "---- ---- ---- ----, lost", LOG_LINE),
    (ENCODE, "C201 2140 4849 0D2", "expected 4 fields (COMMAND,ARGUMENT,FREE,RECEPTIONS), found 1"),
    (ENCODE, "C201 2140 4849x0D20", "expected 4 fields (COMMAND,ARGUMENT,FREE,RECEPTIONS), found 1"),
    (ENCODE, "sing,HI,2,X", "COMMAND is not one of -, restart, text, name, tags (lower case)"),
    (ENCODE, "restart, ,2,X", "ARGUMENT: - and restart take none"),
    (ENCODE, f"text,{'x' * 64}€,2,X", "ARGUMENT: the text is too long by 1 (at most 64 characters)"),
    (ENCODE, f"text,{'x' * 70}ß,2,X", "ARGUMENT: rdsrt's character table has no 'ß', at character 71"),
    (ENCODE, r"text,ab\x4,2,X", r"ARGUMENT: the backslash at character 3 begins no escape (\x and two hexadecimal digits)"),
    (ENCODE, r"text,é\x0Aa\x0D\x00,2,X", r"ARGUMENT: byte 4 of the text is \x0D, which a text may not contain"),
    (ENCODE, r"name,a\x0Ab,2,X", r"ARGUMENT: byte 2 of the name is \x0A, which a name may not contain"),
    (ENCODE, r"name,\x0Aabcdefgh,2,X", "ARGUMENT: the name is too long by 1 (at most 8 characters)"),
    (ENCODE, f"name,{'x' * 70},2,X", "ARGUMENT: the name is too long by 62 (at most 8 characters)"),
    (ENCODE, f"name,{'x' * 70}ß,2,X", "ARGUMENT: rdsrt's character table has no 'ß', at character 71"),
    (ENCODE, "tags,,2,X", "ARGUMENT: tags takes 8 numbers with one space between them, found 1"),
    (ENCODE, "tags,0 x 1 0 0 0 0 0 0,2,X", "ARGUMENT: tags takes 8 numbers with one space between them, found 9"),
    (ENCODE, "tags,0  1 0 0 0 0 0,2,X", "ARGUMENT: number 2 is not 1 to 3 decimal digits of at most 255"),
    (ENCODE, "tags,9 0 1 0 0 0 0 256,2,X", "ARGUMENT: number 8 is not 1 to 3 decimal digits of at most 255"),
    (ENCODE, "tags,0 0 +1 0 0 0 0 0,2,X", "ARGUMENT: number 3 is not 1 to 3 decimal digits of at most 255"),
    (ENCODE, "tags,2 2 64 64 64 64 64 32,2,X", "ARGUMENT: toggle is 2, at most 1 is allowed"),
    (ENCODE, "tags,1 2 64 64 64 64 64 32,2,X", "ARGUMENT: running is 2, at most 1 is allowed"),
    (ENCODE, "tags,1 1 63 64 64 64 64 32,2,X", "ARGUMENT: start of tag 1 is 64, at most 63 is allowed"),
    (ENCODE, "tags,1 1 63 63 64 64 64 32,2,X", "ARGUMENT: length marker of tag 1 is 64, at most 63 is allowed"),
    (ENCODE, "tags,1 1 0 63 63 64 64 32,2,X", "ARGUMENT: class of tag 2 is 64, at most 63 is allowed"),
    (ENCODE, "tags,1 1 0 63 63 63 64 32,2,X", "ARGUMENT: start of tag 2 is 64, at most 63 is allowed"),
    (ENCODE, "tags,1 1 0 63 63 63 63 32,2,X", "ARGUMENT: length marker of tag 2 is 32, at most 31 is allowed"),
    (ENCODE, "tags,1 1 0 0 1 0 1 0,2,X", "ARGUMENT: the first tag has class 0, so its start and its length marker must be 0"),
    (ENCODE, "tags,1 1 0 0 0 0 1 0,2,X", "ARGUMENT: the second tag has class 0, so its start and its length marker must be 0"),
    (ENCODE, "-,,01,X", "FREE is not 0 or 1"),
    (ENCODE, "-,,1,X", "RECEPTIONS: character 1 is not G, L, W or R"),
    (SIM, "-,,1,GLg", "RECEPTIONS: character 3 is not G, L, W or R"),
    (SIM, "-,,1,G0000L1", "RECEPTIONS: digits after the L or R at character 6, only G and W take digits"),
    (SIM, "-,,1,RF", "RECEPTIONS: digits after the L or R at character 1, only G and W take digits"),
    (SIM, "-,,1,LG00000", "RECEPTIONS: the G at character 2 takes up to 4 decimal digits"),
    (SIM, "-,,1,G1A", "RECEPTIONS: the G at character 1 takes up to 4 decimal digits"),
    (SIM, "-,,1,LLW214048490D2", "RECEPTIONS: the W at character 3 takes 12 hexadecimal digits (blocks 2 to 4)"),
    (SIM, "-,,1,GGGGGGGGX", "RECEPTIONS: more than 8 receivers"),
    (SIM, "-,,1,GGGGGGGXG", "RECEPTIONS: character 8 is not G, L, W or R"),
    (SIM, "-,,1,LG1", "RECEPTIONS: receiver 1: G1 is later than --k 0 allows"),
    (f"{SIM} --k 2", "-,,1,LG1", "RECEPTIONS: receiver 1: G1 asks for a slot before the first one"),
    (SIM, "-,,1,LW214048490D20", "RECEPTIONS: receiver 1: a wrong group; only receivers with --confirm may get one"),
]
# a log of a text with padding that breaks a rule, and what is wrong with the segment
PADDED_NOES = [
    (b"C201 2142 4242 4242\nC201 2142 4243 4242\nC201 2141 4141 4141\nC201 2140 4141 4141\n",
     "they leave no place for the carriage return"),
    (b"C201 2140 4802 0D20\n", "byte 0x02 at place 1"),
]
# a log that breaks one rule at this slot and line, its M and K, and the sentence
NOES = [
    (HI + HI.replace(b"4849", b"594F"), 1, 2, 4, 0,
     "a text changed without a flip of the A/B flag: if it changes in two segments, receivers show a mix"),
    (b"# a comment\n" + worked_rows.FLAG_AFTER_FIVE, 5, 7, 8, 0,
     "a text reused the A/B flag less than M + K = 8 slots after the last group of the text before the previous one, "
     "in slot 0"),
    (worked_rows.FLAG_AFTER_FIVE, 5, 6, 4, 2,
     "a text reused the A/B flag less than M + K = 6 slots after the last group of the text before the previous one, "
     "in slot 0"),
    (worked_rows.TAGS_IN_TIME, 4, 5, 8, 0,
     "RT+ tags came less than M + K = 8 slots after their text started, in slot 0"),
    (b"C201 B148 2002 0000\n", 0, 1, 8, 0, "RT+ tags came before any text"),
    (worked_rows.TAGS_AFTER_FOUR, 4, 5, 4, 0, "an RT+ tag ends past the end of its text"),
    (b"C201 2140 4849 0D58\n", 0, 1, 4, 0,
     f"the segments fit no text: byte 0x58 at place 3, after the carriage return{PADDING}"),
    # the text may end before that segment
    (b"C201 2141 4802 0D20\n", 0, 1, 4, 0, f"the segments fit no text: byte 0x02 at place 5{PADDING}"),
    (b"C201 2140 4802 0D20\n", 0, 1, 4, 0, "the segments fit no text: byte 0x02 at place 1"),
    (HI + b"C201 2142 4142 4344\n", 1, 2, 4, 0,
     f"the segments fit no text: a segment past the carriage return at place 2{PADDING}"),
    (b"C201 2142 4142 4344\n" + HI, 1, 2, 4, 0,
     f"the segments fit no text: a carriage return at place 2, before a segment that was sent{PADDING}"),
    (HI + b"C201 B140 0000 0000\n", 1, 2, 4, 0,
     "RT+ tags came less than M + K = 4 slots after their text started, in slot 0. Here both tags are empty, so no receiver "
     "shows them"),
    (HI + HI.replace(b"2140", b"2150") + HI, 2, 3, 4, 0,
     "a text reused the A/B flag less than M + K = 4 slots after the last group of the text before the previous one, in "
     "slot 0"),
    (b"C201 A541 5003 5020\n", 0, 1, 4, 0, "the segments fit no name (PTYN): byte 0x03 at place 5"),
]
# the time of a line, and how a note shows it
TIMES = [("@2024/06/01 07:58:12.08", ", 2024/06/01 07:58:12.08"), ("2026-11-12T10:16:12.08+01:00", ", 2026-11-12T10:16:12.08+01:00"),
         ("12.5", ", 12.5"), ("\t[@2024/06/01 07:58:12,080]", ", 2024/06/01 07:58:12,080"), ("[07:58:12.08] x", ", 07:58:12.08"),
         ("  1717228692080", ", 1717228692080"), ("noon", "")]


def noted(words, given, **more):
    """Returns status, output and notes of the program."""
    done = subprocess.run([PROGRAM, *shlex.split(words)], input=given, capture_output=True, timeout=SECONDS, **more)
    return done.returncode, done.stdout, done.stderr.decode()


def note(text):
    """Returns a note as the program prints it."""
    return f"rdsrt: {text}\n"


# the first note on a no of a log without a time and without a lost slot
MAY_LACK = note("this no may come from the recorder: no line has a time that rdsrt reads, and no line is a lost slot. If it "
                "left out lost groups, right texts look wrong. Record with times, and put rdsrt slots before this command, or "
                "record a line for each lost slot")


def note_of_pauses(paused, slots, m):
    """Returns the note that receivers of dwell m show no text in so many slots, if there are any."""
    return paused and note(f"in {paused} of {slots} slots no text segment had come for M = {m} slots: receivers with this M "
                           "show no text then. Keep the text on their displays (rdsrt decode --keep)") or ""


def paused_slots(slots, m):
    """Returns in how many of these slots no text segment had come for m slots, after the first one."""
    came = [slot for slot, it in enumerate(slots) if it and it.startswith("C201 21")]
    return sum(slot - max(it for it in came if it <= slot) >= m for slot in range(came[0] if came else 0, len(slots)) if came)


def next_commands(m, k, rule=""):
    """Returns the commands that a no by this rule proposes for a log on standard input."""
    late, look = f" --k {k}" if k else "", "look for lost slots that make a mix: rdsrt witness"
    if "changed" in rule:
        look = "see what receivers show: rdsrt decode"
    return f". To list all faults: rdsrt audit --all{late} --pi C201 --m {m}. To {look} --pi C201 --m {m}"


def where_of(fault, texts):
    """Returns the end of the sentence on a fault: the slots that it names, from the texts of the plain audit."""
    if fault == "EarlyFlag":
        return f", in slot {texts[-3].last}"
    if fault != "EarlyTag" or not texts:
        return ""
    newest = texts[-1]
    where = f", in slot {newest.start}"
    if newest.opened != newest.start:
        where += f" at the earliest; its first group is in slot {newest.opened}"
    if len(texts) > 1 and texts[-2].flag == newest.flag:
        where += f"; no segment from slot {texts[-2].last + 1} to {newest.opened - 1}, so the text began anew"
    return where


def end_of(slots, spacing):
    """Returns the fault of the slots by the plain audit, whether it is of a name, its slot, and the end of its sentence.
    None if the slots pass."""
    audit = plain_audit.Audit(spacing)
    for slot, group in enumerate(slots):
        faults = audit.slot(group)
        if faults:
            segment = plain_audit.segment_of(group)
            service = segment[0] if segment else "text"
            return faults[0], service == "name", slot, where_of(faults[0], audit.values[service])
    return None


def scripts_with_a_bad_row(rng):
    """Gives commands, scripts and the place of the first byte of their only bad row. Scripts have each line end and
    empty lines, some have a byte order mark, and some are longer than the 8192 bytes of one read."""
    for words, script, start in [(ENCODE, b"\n\nbad", 2), (ENCODE, b"\r\n\r\nbad\r\n", 4), (SIM, b"\rbad\r", 1)]:
        yield words, script, start
    ends = [[b"\n"], [b"\r\n"], [b"\r"], [b"\n", b"\r\n", b"\r"]]
    bad = [b"bad", b'"b\na\r\nd"', b'text,"a\r\rb\n\nc",1,', b"-,,1", b'"x"\xEF,,,', b'text,"open\n\r\n']
    for number in range(200):
        line_ends, rows = rng.choice(ends), rng.choice([0, 1, 3, 30, 1200, 3000])
        script = rng.choice([b"", b"", b"\xEF\xBB\xBF"])
        for _ in range(rows):
            script += b"".join(rng.choice(line_ends) for _ in range(rng.choice([0, 0, 0, 1, 4])))
            script += rng.choice([b"-,,1,", b'"-","",0,', b"text,HI,1,"]) + rng.choice(line_ends)
        script += b"".join(rng.choice(line_ends) for _ in range(rng.choice([0, 0, 1, 2, 9])))
        row = rng.choice(bad)
        after = rng.choice([b"", *line_ends, line_ends[0] + b"-,,1,\n" * rng.choice([1, 2000])])
        yield rng.choice([ENCODE, SIM]), script + row + (b"" if b"open" in row else after), len(script)


class Faults(ProgramCase):
    def test_times_in_whole_seconds_may_explain_a_no(self):
        """A no for which at most 12 slots lack may be false if all times are in whole seconds. A log that lacks more, one
        with a fraction, and one without times get no such note."""
        flags = worked_rows.FLAG_AFTER_FIVE.splitlines()
        for m, times, lacks in ((6, "7", 1), (17, "7", 12), (18, "7", None), (6, "7.5", None), (6, "", None)):
            log = b"".join(line + f" {times}".rstrip().encode() + b"\n" for line in flags)
            got = noted(f"audit --pi C201 --m {m}", log)[2]
            says = "" if lacks is None else note(
                f"this fault may be false: {lacks} {'slot lacks' if lacks == 1 else 'slots lack'} to M + K, and times in whole "
                "seconds can hide 12 lost slots")
            self.check(f"M = {m}, time {times!r}: {got}", got.endswith(says) and ("may be false" in got) == bool(says), True)
            if lacks:
                notes = [json.loads(it) for it in noted(f"audit --pi C201 --m {m} --json-notes", log)[2].splitlines()]
                self.check("as an object", [(it["lacks"], it["hides"]) for it in notes if it["kind"] == "whole_seconds"],
                           [(lacks, 12)])

    def test_a_refused_character_and_a_reason_are_facts(self):
        """--json-notes has the character that the table lacks, why a fault may be harmless, and its sentence alone."""
        row = json.loads(noted(f"{ENCODE} --json-notes", "text,Straße,1,\n".encode())[2])
        self.check("the character and its place", (row["character"], row["place"]), ("ß", 5))
        log = b"C201 2140 4849 0D58\n"
        reason = "receivers show nothing behind the carriage return"
        first = json.loads(noted(f"{AUDIT} --m 4 --json-notes", log)[2])
        self.check("of a no", (first["rule"], first["because"]),
                   ("the segments fit no text: byte 0x58 at place 3, after the carriage return", reason))
        found = json.loads(noted(f"{AUDIT} --m 4 --all --json-notes", log)[2].splitlines()[0])
        self.check("of a count", found["because"], reason)

    def test_a_malformed_line_is_shown_with_its_number_and_its_cause(self):
        for line, why in LINES:
            for words in (DECODE, AUDIT, WITNESS):
                for before in (b"", HI, b"# note\n\n" + HI + LOST):
                    number = before.count(b"\n") + 1
                    got = noted(words, before + line.encode() + b"\n")[2]
                    self.check(f"note on {line!r} after {number - 1} lines: {words}", got,
                               note(f'fault line {number}: "{line}": {why}{LOOKS}'))
        for log, why in MARKS:
            for words in (DECODE, AUDIT, WITNESS, "slots"):
                self.check(f"{words} of {log[:6]}", f": {why}{LOOKS}\n" in noted(words, log)[2], True)
        self.check("two bytes of three", "block 1 has 6 characters" in noted(DECODE, b"\xEF\xBB" + HI)[2], True)
        long = noted(DECODE, b"x" * 500 + b"\n")[2]
        self.check("note on a long line", long, note(f'fault line 1: "{"x" * 60}": it has no space{LOOKS}'))
        cut = subprocess.run(["bash", "-c",
                              f"(printf C2; sleep 0.3; printf '01 21400 4849 0D20\\n') | {PROGRAM} {DECODE}"],
                             capture_output=True, timeout=SECONDS).stderr.decode()
        self.check("note on a line that comes in two reads", cut,
                   note(f'fault line 1: "C201 21400 4849 0D20": block 2 has 5 characters, expected 4{LOOKS}'))

    def test_a_line_of_another_form_has_its_name_and_the_program_that_reads_it(self):
        """programs/lines finds a group in each of these lines."""
        for line, form in FORMS:
            given = f"{line}\r\n".encode()
            shown = line.split("\n")[0].replace("\t", "\\x09") + "\\x0D" * ("\n" not in line)
            for words in (DECODE, AUDIT, WITNESS, "slots"):
                got = noted(words, given)
                self.check(f"note on {line!r}: {words}", (got[0], got[2]),
                           (1, note(f'fault line 1: "{shown}": it looks like {form}: rdsrt-lines reads it{LOOKS}')))
            done = subprocess.run([sys.executable, "-B", path("programs/lines")], input=given * 2, capture_output=True,
                                  timeout=SECONDS)
            self.check(f"programs/lines reads {line!r}", (done.returncode, done.stdout.count(b"C201 ")), (0, 2))

    def test_a_compressed_log_has_the_name_of_the_program_that_unpacks_it(self):
        packed = io.BytesIO()
        with zipfile.ZipFile(packed, "w", zipfile.ZIP_DEFLATED) as file:
            file.writestr("station.log", HI * 3)
        for log, how in [(packed.getvalue(), "zip: unzip"), *((pack(HI * 3), how) for pack, how in PACKERS)]:
            for words in (DECODE, AUDIT, WITNESS, "slots"):
                got = noted(words, log)
                self.check(f"{words} of {log[:4]}", (got[0], f": the file is compressed by {how} it first{LOOKS}\n" in got[2]),
                           (1, True))
        self.check("two bytes of four", "it has no space" in noted(DECODE, b"PK\n")[2], True)

    def test_a_malformed_row_has_its_number_and_its_cause(self):
        for words, row, why in ROWS:
            got = noted(words, row.encode() + b"\n")
            self.check(f"note on {row!r}", got[2], note(f"fault row 1 (line 1): {why}"))
            self.check(f"status and output at {row!r}", got[:2],
                       (1, b"# fault row 1\n" if words == ENCODE else b"fault row 1\n"))
        later = noted(SIM, b"-,,1,GG\n\n-,,1,G\n")[2]
        self.check("note on receivers of another number", later,
                   note("fault row 2 (line 3): RECEPTIONS: the number of receivers is 1, but the first row has 2"))
        again = noted("sim --pi C201 --m 1 --k 2", b"-,,1,G\n-,,1,G1\n")[2]
        self.check("note on a group that was handed over", again,
                   note("fault row 2 (line 2): RECEPTIONS: receiver 0: it already has the slot of G1, or a newer one"))
        wrong = noted(f"{SIM} --confirm 3", b"-,,1,LW214048490D20\n" * 2)[2]
        self.check("note on the same wrong group again", wrong,
                   note("fault row 2 (line 2): RECEPTIONS: receiver 1: the same wrong group again within the window of --confirm"))
        mojibake = noted(ENCODE, b"text,\xff,2,X\n")[2]
        self.check("note on an argument that is not UTF-8", mojibake, note("fault row 1 (line 1): ARGUMENT is not UTF-8"))
        first = noted(SIM, b"sing,HI,2,X\n")[2]
        self.check("the first cause of three is told", first,
                   note("fault row 1 (line 1): COMMAND is not one of -, restart, text, name, tags (lower case)"))

    def test_the_line_of_a_malformed_row_is_that_of_a_plain_count(self):
        for number, (words, script, start) in self.cases(scripts_with_a_bad_row(random.Random(SEED))):
            line = 1 + len(re.findall(rb"\r\n|\r|\n", script[:start]))
            found = re.findall(r"\(line (\d+)\)", noted(words, script)[2])
            self.check(f"seed {SEED}, script {number}, line of the row at byte {start}", found, [str(line)], script)

    def test_the_line_of_a_malformed_row_whose_bytes_come_in_several_reads(self):
        for first, later, line in (("-,,1,\\r", "\\nbad", 2), ("\\n", "\\nbad\\n", 3), ("\\n\\nb", "ad\\n\\n", 3)):
            call = f"(printf -- '{first}'; sleep 0.2; printf -- '{later}') | {PROGRAM} {ENCODE}"
            done = subprocess.run(["bash", "-c", call], capture_output=True, timeout=SECONDS).stderr.decode()
            self.check(f"{first} and {later}", re.findall(r"\(line (\d+)\)", done), [str(line)])

    def test_a_failed_read_or_write_has_the_reason_of_the_system(self):
        folder = os.open("/", os.O_RDONLY)
        try:
            for words in (DECODE, AUDIT, WITNESS, ENCODE, SIM):
                done = subprocess.run([PROGRAM, *words.split()], stdin=folder, capture_output=True, timeout=SECONDS)
                self.check(f"note on a failed read: {words}", done.stderr.decode(),
                           note("fault read: reading standard input failed: Is a directory (os error 21)"))
        finally:
            os.close(folder)
        with open("/dev/full", "wb") as full:
            for words, given in ((DECODE, HI), (ENCODE, b"-,,1,\n"), (AUDIT, HI)):
                done = subprocess.run([PROGRAM, *words.split()], input=given, stdout=full, stderr=subprocess.PIPE,
                                      timeout=SECONDS)
                self.check(f"note on a failed write: {words}", (done.returncode, done.stderr.decode()),
                           (1, note("writing standard output failed: No space left on device (os error 28)")))
        call = f"printf 'text,HI,1\\n' | {PROGRAM} encode --pi C201 | {PROGRAM} audit --pi C201 --quiet"
        done = subprocess.run(["bash", "-c", call], capture_output=True, timeout=SECONDS)
        self.check("a fault of encode is seen behind a pipe", done.stderr.decode(),
                   note("fault row 1 (line 1): expected 4 fields (COMMAND,ARGUMENT,FREE,RECEPTIONS), found 3"))


class Warnings(ProgramCase):
    def test_slots_to_lose_that_are_none(self):
        no_slot = "is not a slot such as 12, and no span such as 3-7"
        for options, why in (
                ("--lose 5-3", '--lose "5-3" ends before it begins'), ("--lose ''", f'--lose "" {no_slot}'),
                ("--lose 3,2", '--lose "3,2": "2" does not begin after the span before it'),
                ("--quiet --lose 3-7,7", '--lose "3-7,7": "7" does not begin after the span before it'),
                ("--lose 3,,7", f'--lose "3,,7": "" {no_slot}'), ("--lose 1,3-4-5", f'--lose "1,3-4-5": "3-4-5" {no_slot}'),
                ("--lose +3", f'--lose "+3" {no_slot}'), ("--lose=-3", f'--lose "-3" {no_slot}'),
                ("--lose 3-", f'--lose "3-" {no_slot}'), ("--lose 0x3", f'--lose "0x3" {no_slot}'),
                ("--lose 4294967296", '--lose "4294967296" has a slot above 4294967295'),
                ("--flag-alone --lose 1,9999999999999", '--lose "1,9999999999999": "9999999999999" has a slot above 4294967295'),
                (f"--lose {'x' * 70}", f'--lose "{"x" * 60}" {no_slot}')):
            self.check(f"note on {options}", noted(f"witness --pi C201 {options}", HI), (2, b"fault lose\n", note(
                f"fault lose: {why}. Write spans in ascending order, for example 3-7,12")))
        self.check("no slots for radios", noted("witness --pi C201 --flag-alone", HI), (2, b"fault lose\n", note(
            "fault lose: --flag-alone needs --lose with slots, for example --lose 3-7,12")))
        flags = bytes_of("examples/flags.log")
        self.check("note on another programme", noted("witness --pi C202 --lose 2-3", flags),
                   (0, b"no mix with these slots lost\n",
                    note("no group of C202 in 6 slots (C201: 6): the answer says nothing")))

    def test_a_pi_that_is_no_pi_or_that_no_group_has(self):
        for given in ("C20", "0xC201", "C201 ", "", "GGGG", "C201C201"):
            for words in ("decode", "audit", "witness", "encode", "sim"):
                got = noted(f"{words} --pi '{given}'", HI)
                self.check(f"note on --pi {given!r}", (got[0], got[2]), (2, note(
                    f'fault pi: --pi "{given}": a PI code has four hexadecimal digits and no 0x, for example C201')))
        flags = bytes_of("examples/flags.log")
        slots = flags.count(b"C201 ")
        told = f"no group of C202 in {slots} slots (C201: {slots})"
        self.check("note on another programme: audit", noted("audit --pi C202", flags),
                   (0, f"yes {slots}\n".encode(), note(f"{told}: the yes says nothing")))
        self.check("note on another programme: decode", noted("decode --pi C202", flags), (0, b"", note(told)))
        self.check("note on another programme: witness", noted("witness --pi C202", flags)[2],
                   note(f"{told}: the search says nothing"))
        for words, says in ((AUDIT, ": the yes says nothing"), (WITNESS, ": the search says nothing"), (DECODE, ""),
                            (f"{WITNESS} --lose 1", ": the answer says nothing"), ("slots", ""), (ENCODE, ""), (SIM, "")):
            got = noted(words, b"")
            self.check(f"note on an empty input: {words}", (got[0], got[2]), (0, note(f"the input is empty{says}")))
            self.check(f"{words} --quiet", noted(f"{words} --quiet", b""), (*got[:2], ""))
        self.check("note on a log of a comment", noted(AUDIT, b"# a note\n")[2],
                   note("no group of C201 in 0 slots: the yes says nothing"))
        self.check("slots of a comment", noted("slots", b"# a note\n")[2], "")
        # `slots` names the PI of the first line that it left out
        for others, told in (([], ""), (["F201"], "1 line of another programme than C201 was left out (F201: 1)"),
                             (["F201", "F202", "F201"], "3 lines of other programmes than C201 were left out (F201: 2, others: 1)")):
            log = "".join(f"{pi} 2140 4849 0D20 {at}.0\n" for at, pi in enumerate(["C201", *others]))
            self.check(f"slots with lines of {others}", noted("slots --pi C201", log.encode())[2], told and note(told))
        self.check("note on lost slots alone", noted(DECODE, LOST * 3)[2], note("no group of C201 in 3 slots"))
        self.check("a single group of the programme is enough", noted(DECODE, flags + b"F000 2140 4849 0D20\n")[2], "")
        draw = random.Random(SEED)
        logs = ([draw.choice((0xC201, 0xF000, 0x1234, None)) for _ in range(draw.randrange(40))] for _ in range(100))
        for number, groups in self.cases(logs):
            log = b"".join(b"%04X 0000 0000 0000\n" % it if it else LOST for it in groups)
            heard = [it for it in groups if it]
            told = f"no group of ABCD in {len(groups)} slot{'s' * (len(groups) != 1)}"
            if heard:
                others = len(heard) - heard.count(heard[0])
                told += f" ({heard[0]:04X}: {heard.count(heard[0])}{f', others: {others}' if others else ''})"
            self.check(f"programmes of log {number}, seed {SEED}", noted("decode --pi ABCD", log)[2], note(told), log)

    def test_a_no_of_a_text_with_padding_names_its_segment(self):
        for log, cause in PADDED_NOES:
            told = noted(f"{AUDIT} --m 16 --padded", log)[2]
            self.check(cause, f"the segments fit no text: {cause}. To list" in told, True)

    def test_a_no_may_come_from_the_recorder(self):
        """If no line has a time, and no line is a lost slot. A segment that fits no text by itself does not."""
        changed = HI + HI.replace(b"4849", b"594F")
        timed = HI.rstrip() + b" 1.0\n"
        for name, log, wanted in [
                ("a no", changed, True), ("a yes", HI, False), ("a time", timed + changed, False),
                ("an unknown time", HI.rstrip() + b" 1717228692.080.5\n" + changed, True),
                ("a lost slot", LOST + changed, False), ("a byte of no text", b"C201 2140 4802 0D20\n", False),
                ("a byte behind the return", b"C201 2140 4849 0D58\n", False),
                ("a segment past the return", HI + b"C201 2142 4142 4344\n", True)]:
            told = noted(f"{AUDIT} --m 4", log)[2]
            self.check(name, told.startswith(MAY_LACK), wanted, told)
            self.check(f"{name}: once", MAY_LACK in told, wanted, told)
        self.check("all faults", noted(f"{AUDIT} --all", changed)[2].startswith(MAY_LACK), True)
        self.check("--quiet", noted(f"{AUDIT} --quiet", changed)[2], "")

    def test_a_no_names_its_slot_its_line_and_the_rule(self):
        for log, slot, line, m, k, rule in NOES:
            got = noted(f"{AUDIT} --m {m} --k {k}", log)
            told = f"slot {slot} (line {line}): {rule}{next_commands(m, k, rule)}"
            may_be_old = "RT+ tags came" in rule and ("in slot 0" in rule or rule.endswith("any text"))
            self.check(f"note on a no: {rule}", (got[0], got[2].removeprefix(MAY_LACK)), (1, note(told + RUNNING * may_be_old)))
        running = noted(f"{AUDIT} --m 8 --running", worked_rows.FLAG_AFTER_FIVE)[2]
        self.check("--running is not named again", RUNNING in running, False)
        for time, shown in TIMES:
            timed = noted(f"{AUDIT} --m 4", HI + HI.replace(b"4849", b"594F").rstrip() + f" {time}\n".encode())[2]
            self.check(f"the time {time}",
                       timed.removeprefix(MAY_LACK).startswith(f"rdsrt: slot 1 (line 2{shown}): a text"), True)
        name = b"C201 A540 504F 5020\n"
        changed = noted(f"{AUDIT} --m 4", name + name.replace(b"504F", b"4A41"))[2]
        self.check("note on a no of a name", changed,
                   MAY_LACK + note("slot 1 (line 2): a name (PTYN) changed without a flip of the A/B flag: if it changes in two segments, "
                        f"receivers show a mix{next_commands(4, 0, 'changed')}"))

    def test_the_slots_of_a_no_are_those_of_the_plain_audit(self):
        """The earlier slot of a no, the first group of its text, and a pause before it, on logs by chance."""
        draw = random.Random(SEED)
        groups = ["C201 2140 4849 0D20", "C201 2150 594F 0D20", "C201 A540 504F 5020", "C201 A550 4A41 5A5A",
                  "C201 B148 2002 0000", None]
        seen = collections.Counter()
        logs = ((draw.randrange(1, 6), draw.randrange(3),
                 [draw.choices(groups, (4, 4 * (at % 3 > 0), 2, 2, 1, 20))[0] for _ in range(60)])
                for at in range(1200))
        for number, (m, k, slots) in self.cases(logs):
            name = f"seed {SEED}, log {number}, M {m}, K {k}"
            wanted = end_of([it and it.split() for it in slots], m + k)
            log = "".join(f"{it or '---- ---- ---- ----'}\n" for it in slots).encode()
            _, answer, told = noted(f"{AUDIT} --m {m} --k {k}", log)
            if wanted is None:
                empty, pauses = slots.count(None), note_of_pauses(paused_slots(slots, m), 60, m)
                self.check(f"{name}: a yes", told.startswith((f"{pauses}rdsrt: judged in 60 slots, {empty} without a group: ",
                                                              "rdsrt: no 2A")), True, log)
                continue
            fault, is_name, slot, where = wanted
            rule = re.fullmatch(r"rdsrt: slot (\d+) \(line \d+\): (.*?)(, in slot .*)?\. To list .*?\n",
                                told.removeprefix(MAY_LACK))
            may_be_old = fault == "EarlyTag" and (not where or where.startswith(", in slot 0"))
            got = rule and (int(rule[1]), rule[3] or "", "name (PTYN)" in rule[2], told.endswith(RUNNING + "\n"))
            self.check(f"{name}: {fault}", got, (slot, where, is_name, may_be_old), log)
            running = noted(f"{AUDIT} --m {m} --k {k} --running", log)[1]
            self.check(f"{name}: --running answers otherwise exactly if the note names it", running != answer, may_be_old, log)
            seen.update(word for word in ("in slot", "earliest", "no segment from") if word in where)
        self.check_all("each kind of slot was named", (len(seen), min(seen.values(), default=0) > 5), (3, True))

    def test_what_a_yes_covers_and_what_is_not_read(self):
        text, other, name, tags = (b"C201 2140 4849 0D20\n", b"C201 2150 594F 0D20\n", b"C201 A540 504F 5020\n",
                                   b"C201 B148 2002 0000\n")
        second, plain = b"C201 2940 4849 0D20\n", b"C201 0000 0000 0000\n"
        pause = LOST * 8
        for log, words, told in (
                (text, AUDIT, "judged in 1 slot: 1 text, 0 names, 0 pairs of tags"),
                (text + pause + tags * 2 + other + name, f"{AUDIT} --m 8", note_of_pauses(3, 13, 8)[7:]
                 + "rdsrt: judged in 13 slots, 8 without a group: 2 texts, 1 name, 2 pairs of tags"),
                (text + LOST * 7 + text, f"{AUDIT} --m 8", "judged in 9 slots, 7 without a group: 2 texts, 0 names, 0 pairs of tags"),
                (text + LOST * 8, f"{AUDIT} --m 8", note_of_pauses(1, 9, 8)[7:]
                 + "rdsrt: judged in 9 slots, 8 without a group: 1 text, 0 names, 0 pairs of tags"),
                (tags + text, f"{AUDIT} --running", "judged in 2 slots: 1 text, 0 names, 0 pairs of tags"),
                (text + second * 3, AUDIT,
                 "judged in 4 slots: 1 text, 0 names, 0 pairs of tags; 3 groups 2B were not judged"),
                (second * 320, AUDIT,
                 "no 2A, 10A or 11A group of C201: the yes says nothing; 320 groups 2B were not judged"),
                (plain * 2, AUDIT, "no 2A, 10A or 11A group of C201: the yes says nothing"),
                (plain, WITNESS, "no 2A, 10A or 11A group of C201: the search says nothing"),
                (second, WITNESS,
                 "no 2A, 10A or 11A group of C201: the search says nothing; 1 group 2B was not read"),
                (plain, DECODE, "no 2A, 10A or 11A group of C201"),
                (second * 2, DECODE, "no 2A, 10A or 11A group of C201; 2 groups 2B were not read"),
                (text + b"C201 3019 0000 4BD7\n" + b"C201 C808 2006 0000\n" * 2, DECODE,
                 "RT+ is in group 12B by the 3A groups, not in 11A: 2 groups 12B were not read"),
                (text + b"C201 ---- 4849 0D20\n" * 2, DECODE, "2 of 3 groups of C201 had one lost block: rdsrt uses whole groups only"),
                (text + second, DECODE, "1 group 2B was not read")):
            got = noted(words, log)
            self.check(f"{words} of {log}", (got[0], got[2]), (0, note(told)))
            self.check(f"{words} --quiet", noted(f"{words} --quiet", log), (0, got[1], ""))

    def test_the_faults_of_a_log_are_not_counted_after_a_failed_write(self):
        """Each text has other bytes than the one before, and its flag. The output is more than the pipe of head takes."""
        log = b"".join(b"C201 2140 %04X 0D20\n" % (0x4141 + number % 26) for number in range(20_000))
        call = f"{PROGRAM} audit --all --running --pi C201 | head -n 2"
        done = subprocess.run(["bash", "-c", call], input=log, capture_output=True, timeout=SECONDS)
        self.check("audit --all | head", (len(done.stdout.splitlines()), done.stderr), (2, b""))
        with open("/dev/full", "wb") as full:
            done = subprocess.run([PROGRAM, *AUDIT.split(), "--all"], input=log, stdout=full, stderr=subprocess.PIPE,
                                  timeout=SECONDS)
        self.check("audit --all > /dev/full", (done.returncode, done.stderr.decode()),
                   (1, note("writing standard output failed: No space left on device (os error 28)")))

    def test_tags_before_the_first_text_are_counted_by_themselves(self):
        """They are of no text, so they are not one of so many texts."""
        text, tags = b"C201 2140 4849 0D20\n", b"C201 B148 2002 0000\n"
        before = note("tags before the first text: EarlyTag in slot 0 (line 1)")
        judged = "judged in {} slots: {}, 0 names, {} pairs of tags".format
        for log, told in ((tags + text + tags, before + note("1 of 1 text: EarlyTag in slot 2 (line 3)")
                           + note(judged(3, "1 text", 2))),
                          (tags * 2, before + note(judged(2, "0 texts", 2)))):
            self.check(f"audit --all of {log}", noted(f"{AUDIT} --all", log)[2], MAY_LACK + told)

    def test_a_refused_set_has_the_slot_in_which_it_can_be_accepted(self):
        """Tags wait for a text of their own, which takes a slot. A restart makes each of them wait longer."""
        silent = ("slot 0: text refused, the station is silent after a restart for 128 slots more: "
                  "set it in slot 128 at the earliest, if the encoder does not restart")
        for words in ("encode", "sim"):
            got = noted(f"{words} --pi C201", b"text,HI,1,\n" * 3)
            self.check(f"note on the first refused set: {words}", (got[0], got[2]), (0, note(silent)))
            self.check(f"accepted then: {words}",
                       b"128 text ok\n" in noted(f"{words} --pi C201", b"-,,1,\n" * 128 + b"text,HI,1,\n")[1],
                       True)
        held = noted("sim --pi C201 --m 4",
                     b"-,,1,\n" * 4 + b"text,HI,1,\nname,POP,1,\n-,,1,\nname,JAZZ,1,\ntext,YO,1,\n")[2]
        wanted = ("slot 7: name refused, the one before is still held for 6 slots more: "
                  "set it in slot 13 at the earliest, if the encoder does not restart")
        self.check("note on what is held", held, note(wanted))
        tags = b"tags,0 1 1 0 1 0 0 0,1,\n"
        wanted = ("slot 0: tags refused, the station is silent after a restart for 4 slots more: "
                  "set a text first, then tags in slot 5 at the earliest, if the encoder does not restart")
        got = noted("encode --pi C201 --m 4", tags + b"-,,1,\n" * 3 + tags)
        self.check("tags in the slot after the silence", (b"# 4 tags notext\n" in got[1], got[2]), (True, note(wanted)))
        restarted = noted("encode --pi C201 --m 4", b"text,HI,1,\nrestart,,1,\n" + b"-,,1,\n" * 2 + b"text,HI,1,\n")
        wanted = ("slot 0: text refused, the station is silent after a restart for 4 slots more: "
                  "set it in slot 4 at the earliest, if the encoder does not restart")
        self.check("a restart", (b"# 4 text silent 1\n" in restarted[1], restarted[2]), (True, note(wanted)))
        both = noted("encode --pi C201", b"text,HI,1,\nx\n")[2]
        self.check("a warning and a fault", both, note(silent) + note(
            "fault row 2 (line 2): expected 4 fields (COMMAND,ARGUMENT,FREE,RECEPTIONS), found 1"))


# segments that differ at one address, and then at a later one: a receiver that loses slot 4 holds parts of two texts
TWO_PLACES = b"".join(b"C201 21%s\n" % it for it in (b"40 4141 4141", b"41 4242 0D20", b"40 4343 4343", b"41 4242 0D20",
                                                     b"40 4141 4141", b"41 4444 0D20"))
# a command, its input, and words that its notes have, or (after a -) do not have: faults of notes that no other row would see
SAYS = [
    (f"{AUDIT} --all --m 8", TWO_PLACES, ["2 of 3 texts: Changed", "in 1 of them no receiver shows a mix of texts"]),
    (f"{AUDIT} --quiet", HI.rstrip() + b" 1.0\n" + HI.rstrip() + b" 11.0\n", ["-span"]),
    (DECODE, HI + b"C201 2140 4849 ----\nC201 2140 ---- 0D20\n", ["2 of 3 groups of C201 had one lost block"]),
    # the newest group 3A counts
    (DECODE, HI + b"".join(b"C201 %s 2002 0000\n" % it for it in (b"C008", b"D008"))
     + b"C201 3018 0000 4BD7\nC201 301A 0000 4BD7\n", ["Give --rtplus 13A"]),
    (f"{AUDIT} --json-notes", b"C201 A140 4849 2020\nC201 A140 4849 2121\n", ['"of":"name"']),
    (f"{AUDIT} --padded --m 8", HI + b"C201 2150 594F 0D20\n" + HI, ["rdsrt audit --all --padded --pi C201"]),
    (f"{AUDIT} --padded --m 2", HI + LOST + b"C201 B148 2002 0000\n", ["1 pair of tags"]),
    # one of the times has a fraction
    (f"{AUDIT} --m 8", HI.rstrip() + b" 12.5\nC201 2150 594F 0D20 13\n" + HI.rstrip() + b" 13\n", ["-may be false"]),
    # a pause of M slots begins another text
    (f"{DECODE} --m 2", b"C201 2140 4849 2020\n" + LOST + b"C201 2140 4849 2020\n", ["segments of 2 texts came"]),
]

# a command, its input, and its notes as objects without their sentences
OBJECTS = [
    (f"{DECODE}", b"bad\n", [{"kind": "fault", "fault": "line", "line": 1}]),
    (ENCODE, b"text,HI,1,\nx\n", [{"kind": "refused", "slot": 0, "set": "text", "why": "silent", "slots": 1},
                                  {"kind": "fault", "fault": "row", "row": 2}]),
    ("decode --pi X", b"", [{"kind": "fault", "fault": "pi"}]),
    (f"{AUDIT} --m 4", HI + b"C201 2150 594F 0D20 12.5\n" + HI,
     [{"kind": "no", "fault": "EarlyFlag", "of": "text", "slot": 2, "line": 3, "earlier": 0, "needed": 4,
       "harmless": False, "rule": "a text reused the A/B flag less than M + K = 4 slots after the last group of the text before "
                                  "the previous one, in slot 0"}]),
    (f"{AUDIT} --m 4", HI + b"C201 B148 2002 0000 @2024/06/01 07:58:12.08\n",
     [{"kind": "no", "fault": "EarlyTag", "of": "tags", "slot": 1, "line": 2, "time": "2024/06/01 07:58:12.08",
       "earlier": 0, "first": 0, "needed": 4, "harmless": False,
       "rule": "RT+ tags came less than M + K = 4 slots after their text started, in slot 0"}]),
    (f"{AUDIT} --m 4", b"C201 2140 4802 0D20\n",
     [{"kind": "no", "fault": "NotOneText", "of": "text", "slot": 0, "line": 1, "needed": 4, "cause": "byte", "byte": 2,
       "place": 1, "harmless": False, "rule": "the segments fit no text: byte 0x02 at place 1"}]),
    (f"{AUDIT} --m 8 --all", HI + b"C201 B148 2002 0000 12.5\n",
     [{"kind": "faults", "fault": "EarlyTag", "of": "text", "count": 1, "harmless": 0, "judged": 1, "first_slot": 1,
       "first_line": 2, "first_time": "12.5", "last_slot": 1, "last_line": 2, "last_time": "12.5"},
      {"kind": "judged", "slots": 2, "empty": 0, "texts": 1, "names": 0, "tags": 1, "short": 0}]),
    (AUDIT, HI.rstrip() + b" 0.1\n" + LOST,
     [{"kind": "few", "groups": 1, "slots": 2},
      {"kind": "judged", "slots": 2, "empty": 1, "texts": 1, "names": 0, "tags": 0, "short": 0}]),
    (DECODE, b"C201 2140 4849 2020\nC201 2150 4849 2020\nC201 2141 594F 0D20\n",
     [{"kind": "incomplete", "texts": 3, "complete": 0, "endless": 2}]),
    (f"{AUDIT} --m 2", HI + LOST * 3,
     [{"kind": "paused", "paused": 2, "slots": 4},
      {"kind": "judged", "slots": 4, "empty": 3, "texts": 1, "names": 0, "tags": 0, "short": 0}]),
    (AUDIT, b"C201 2140 4849 2020\n",
     [{"kind": "incomplete", "texts": 1, "complete": 0},
      {"kind": "judged", "slots": 1, "empty": 0, "texts": 1, "names": 0, "tags": 0, "short": 0}]),
    (f"{AUDIT} --m 1", b"".join(b"C201 21%d0 4849 %s\n" % (4 + at % 2, b"0D20" if at < 2 else b"2020") for at in range(5)),
     [{"kind": "incomplete", "texts": 5, "complete": 2},
      {"kind": "judged", "slots": 5, "empty": 0, "texts": 5, "names": 0, "tags": 0, "short": 0}]),
    (f"{AUDIT} --m 1", b"".join(b"C201 21%d0 4849 %s\n" % (4 + at % 2, b"0D20" if at < 3 else b"2020") for at in range(5)),
     [{"kind": "judged", "slots": 5, "empty": 0, "texts": 5, "names": 0, "tags": 0, "short": 0}]),
    (AUDIT, HI + b"C201 3018 0000 4BD7\nC201 C008 2006 0000\n",
     [{"kind": "tags_elsewhere", "group": "12A", "groups": 1},
      {"kind": "judged", "slots": 3, "empty": 0, "texts": 1, "names": 0, "tags": 0, "short": 0}]),
    (f"{AUDIT} --m 8 --all", HI + b"C201 2150 594F 0D20\n" + HI + b"C201 2150 4849 0D20\n",
     [{"kind": "may_lack"},
      {"kind": "faults", "fault": "EarlyFlag", "of": "text", "count": 2, "harmless": 2, "judged": 4, "first_slot": 2,
       "first_line": 3, "last_slot": 3, "last_line": 4,
       "because": "no receiver shows a mix of texts: those with this flag agree, or differ in one segment"},
      {"kind": "judged", "slots": 4, "empty": 0, "texts": 4, "names": 0, "tags": 0, "short": 0}]),
    (AUDIT, b"C201 2940 4849 0D20\n", [{"kind": "nothing", "short": 1}]),
    (DECODE, HI + b"C201 2940 4849 0D20\n", [{"kind": "short", "groups": 1}]),
    (DECODE, HI + b"C201 3018 0000 4BD7\nC201 C008 2006 0000\n", [{"kind": "tags_elsewhere", "group": "12A", "groups": 1}]),
    (WITNESS, HI + b"C201 3016 0000 C563\nC201 B008 2006 0000\n", [{"kind": "other_application", "group": "11A", "application": "C563"}]),
    (DECODE, HI + b"C201 2140 ---- 0D20\nC201 ---- ---- 0D20\n---- 2140 4849 0D20\nF201 2140 4849 ----\n" + LOST,
     [{"kind": "damaged", "damaged": 1, "whole": 1}]),
    ("decode --pi ABCD", HI + b"F201 2140 4849 0D20\n",
     [{"kind": "no_group", "slots": 2, "first": "C201", "groups": 1, "others": 1}]),
    (DECODE, HI.rstrip() + b" 0.0\n" + HI.rstrip() + b" 9.0\n", [{"kind": "lack", "slots": 103, "lines": 2, "start": True}]),
    ("slots --pi C201", b"F201 2140 4849 0D20 1.0\n" + HI + HI.rstrip() + b" 9.0\n" + HI.rstrip() + b" 8.0\n",
     [{"kind": "break", "why": "back", "line": 4}, {"kind": "untimed", "groups": 1},
      {"kind": "others", "lines": 1, "first": "F201", "of_first": 1},
      {"kind": "breaks", "count": 1, "line": 4}]),
    (ENCODE, b"", [{"kind": "empty"}]),
    ("slots --m 1", b"".join(HI.rstrip() + b" %d.0\n" % (at // 40) for at in range(200)) + HI.rstrip() + b" 7.0\n",
     [{"kind": "coarse"}]),
]


class Objects(ProgramCase):
    def test_each_note_is_an_object_with_its_facts_and_its_sentence(self):
        for words, given, wanted in OBJECTS:
            status, output, told = noted(f"{words} --json-notes", given)
            got = [json.loads(it) for it in told.splitlines()]
            plain = noted(words, given)
            sentences = [". ".join(filter(None, (it.pop("text"), it.pop("advice", None)))) for it in got]
            self.check(f"{words}: the sentences", "".join(map(note, sentences)), plain[2], given)
            self.check(f"{words}: status and output", (status, output), plain[:2], given)
            facts = [{name: it.get(name) for name in one} if one["kind"] == "coarse" else it
                     for it, one in zip(got, wanted)]
            self.check(f"{words}: the facts", (len(got), facts), (len(wanted), wanted), given)

    def test_what_to_try_next_has_a_key_of_its_own(self):
        no = json.loads(noted(f"{AUDIT} --m 4 --json-notes", HI + b"C201 B148 2002 0000\n")[2].splitlines()[-1])
        self.check("a no", (no["text"].count("rdsrt"), no["advice"].count("rdsrt")), (0, 2))
        yes = json.loads(noted(f"{AUDIT} --m 4 --json-notes", HI)[2])
        self.check("a yes", "advice" in yes, False)

    def test_with_quiet_only_faults_are_objects(self):
        got = noted(f"{ENCODE} --json-notes --quiet", b"text,HI,1,\nx\n")[2]
        self.check("--quiet", [json.loads(it)["kind"] for it in got.splitlines()], ["fault"])

    def test_a_sentence_with_quotation_marks_is_a_string(self):
        got = json.loads(noted(f"{DECODE} --json-notes", b'"\\\x01\xff\n')[2])["text"]
        self.check("the text", got, 'fault line 1: ""\\\\x01\\xFF": it has no space' + LOOKS)


class WithoutPi(ProgramCase):
    """Arguments without --pi: the note behind the refusal says what to type."""

    def refused(self, words, **more):
        """Returns the note behind the refusal, which goes to standard output too."""
        status, shown, told = noted(words, HI, **more)
        self.check(f"{words}: status, and a refusal on both", (status, told.startswith(shown.decode())), (2, True), told)
        return told[len(shown.decode()):]

    def test_it_names_the_pi_that_was_typed(self):
        for words, typed in (("decode -pi D201 x.log", "D201"), ("audit -pi=d201", "d201"), ("witness -piD201 --m 8", "D201"),
                             ("decode -p D201", "D201"), ("audit --PI D201 x.log", "D201"), ("decode D201 x.log", "D201"),
                             ("decode D201", "D201"), ("encode --m 8 D201 x.csv", "D201"), ("sim -pi D201", "D201"),
                             ("slots D201 x.log", "D201"), ("decode -m 1000 D201 x.log", "D201"), ("decode x.log D201", "D201")):
            self.check(words, self.refused(words), note(f"write --pi {typed}"))

    def test_it_names_the_pi_of_the_log(self):
        folder = temporary_folder(self)
        for name, log, told in (
                ("one.log", HI * 3 + LOST, "C201: the log has 3 groups of this PI"),
                ("two.log", HI * 2 + b"D201 2140 4849 0D20\n", "C201: the log has 2 groups of this PI and 1 of others"),
                ("few.log", HI + b"D201 2140 4849 0D20\n" * 2, "C201: the log has 1 group of this PI and 2 of others. "
                 "rdsrt-lines names the PI that most groups have"),
                ("bad.log", b"bad\n", NO_PI[11:]), ("none.log", LOST, NO_PI[11:]), ("empty.log", b"", NO_PI[11:])):
            with open(os.path.join(folder, name), "wb") as file:
                file.write(log)
            for words in ("decode", "audit --running", "witness --m 1000", "witness --lose 3"):
                self.check(f"{words} {name}", self.refused(f"{words} {name}", cwd=folder), note(f"write --pi {told}"))
        os.mkfifo(os.path.join(folder, "pipe"))
        for words in ("decode", "decode -", "decode missing.log", "encode one.log", "sim two.log", "decode pipe", "decode .",
                      "decode /dev/null"):
            self.check(words, self.refused(words, cwd=folder), note(NO_PI))

    def test_other_refusals_have_no_such_note(self):
        for words in ("", "sing", "decode --pi", "decode --pi=C201 -x", "decode --pi C201 x.log D201", "audit --confirm 5",
                      "decode --pi C201 -pi D201", "slots --m 0 C201"):
            self.check(words, self.refused(words), "")


class WhereNotesGo(ProgramCase):
    def test_a_terminal_gets_a_hint_and_each_refusal_once(self):
        for words, what in ((DECODE, "log"), (AUDIT, "log"), (WITNESS, "log"), (ENCODE, "script"), (SIM, "script")):
            for quiet in ("", " --quiet"):
                ours, theirs = pty.openpty()
                with subprocess.Popen([PROGRAM, *(words + quiet).split()], stdin=theirs, stdout=subprocess.PIPE,
                                      stderr=subprocess.PIPE) as program:
                    os.close(theirs)
                    os.write(ours, b"\x04")
                    try:
                        told = program.communicate(timeout=PROMPT)[1].decode()
                    except subprocess.TimeoutExpired:
                        program.kill()
                        told = "no end"
                    os.close(ours)
                first = told.split("\n")[0]
                wanted = "" if quiet else f"rdsrt: reading a {what} from the terminal; Ctrl-D ends it"
                self.check(f"note on a terminal: {words}{quiet}", first, wanted)
        for words, more in (("", ""), ("sing", ""), ("decode", note(NO_PI)), ("decode --pi C201 --m 0", "")):
            got = noted(words, b"")
            self.check(f"a refusal goes to both: {words}", (got[0], got[2]), (2, got[1].decode() + more))
            ours, theirs = pty.openpty()
            done = subprocess.run([PROGRAM, *words.split()], stdin=subprocess.DEVNULL, stdout=theirs,
                                  stderr=subprocess.PIPE,
                                  timeout=SECONDS)
            os.close(theirs)
            os.close(ours)
            self.check(f"a refusal on a terminal goes there alone: {words}", done.stderr, more.encode())
        self.check("help goes to standard output alone", noted("--help", b"")[2], "")

    def test_quiet_drops_warnings_and_standard_output_never_changes(self):
        """Warnings go, faults stay, and standard output does not change whatever becomes of standard error."""
        warned = [(AUDIT, LOST), (f"{AUDIT} --m 4", worked_rows.CHANGED), (DECODE, b""),
                  ("sim --pi C201", b"text,HI,1,\n")]
        failed = [(DECODE, HI + b"x\n"), (ENCODE, b"x\n"), ("decode --pi C20", HI)]
        for words, given in warned:
            loud, still = noted(words, given), noted(f"{words} --quiet", given)
            self.check(f"--quiet takes the warning away: {words}", (still, loud[2] == ""), ((*loud[:2], ""), False))
        for words, given in failed:
            self.check(f"--quiet leaves the fault: {words}", noted(f"{words} --quiet", given), noted(words, given))
        for words, given in warned + failed:
            wanted = noted(words, given)[:2]
            for call in ("2>&-", "2>/dev/full", "2>/dev/null"):
                done = subprocess.run(["bash", "-c", f'"$0" {words} {call}', PROGRAM], input=given,
                                      stdout=subprocess.PIPE,
                                      timeout=SECONDS)
                self.check(f"output with {call}: {words}", (done.returncode, done.stdout), wanted)
            done = subprocess.run(["bash", "-c", f'"$0" {words} >&- 2>&-', PROGRAM], input=given, timeout=SECONDS)
            self.check(f"both closed: {words}", done.returncode in (wanted[0], 1), True)

    def test_what_notes_say_of_rare_inputs(self):
        for words, given, says in SAYS:
            told = noted(words, given)[2]
            for it in says:
                self.check(f"{words}: {it}", it.lstrip("-") in told, not it.startswith("-"), given)
        _, lost, _ = noted(f"{WITNESS} --m 8 --lose 4", TWO_PLACES)
        self.check("the mix that one of the faults makes", lost, b'5 text "CCCCDD"\n')

    def test_rows_that_end_well_have_no_note(self):
        """Worked rows that end well and are of the programme that is asked for have no note."""
        for name, words, status, given, shown in worked_rows.rows():
            fine = status == 0 and b"C201 " in given and b"silent" not in shown and b"held" not in shown
            if fine and "C201" in words and not words.startswith(("encode", "sim")):
                told = noted(words, given)[2]
                judged = re.fullmatch("(rdsrt: in .* no text segment had come .*\n)?rdsrt: judged in .*\n", told)
                wanted = told if judged and words.startswith("audit") else ""
                if name == "second segment alone":
                    wanted = note("segments of 1 text came, and no text was complete: 1 lacked a segment before the carriage "
                                  "return")
                if name == "contrary announcement":
                    taken = ("these groups were read as tags" if words.startswith("audit")
                             else "after such a 3A group receivers ignore them")
                    wanted = note(f"group 11A carries the application CD46 by the 3A groups, not RT+: {taken}")
                self.check(f"no warning on the row {name}: {words}", told, wanted)
