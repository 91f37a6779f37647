"""The worked rows: name, arguments, status, input and output."""
import shlex
import struct

DECODE = "decode --pi C201"
SIM = "sim --m 4 --pi C201 --pty 10"
SIM_TWO_LATE = "sim --pi C201 --pty 10 --m 4 --k 2"
ENCODE = "encode --m 1 --pi C201 --pty 10"
AUDIT = "audit --pi C201 --m 4"
AUDIT_ONE_LATE = "audit --pi C201 --m 4 --k 1"
AUDIT_TWO_LATE = "audit --pi C201 --m 4 --k 2"

HI = b"C201 2140 4849 0D20\n"
NO_GROUP = b"---- ---- ---- ----\n"
# skipped lines, dashes, another programme, both cases of digits, a time stamp, a line that ends with a carriage return,
# and a bad line
MIXED_LOG = b"""<recorder="x">
C201 2140 4849 ----

F000 2140 4849 0D20
# note
c201 2140 4849 0d20 @2024/01/01
%
---- ---- ---- ----\r
C201 0148 0000 0000
C201 21405 4849 0D20
"""
ONE_TEXT = HI + NO_GROUP * 5
# two segments of the first song, none of the second, and all of the third, which has the flag of the first
TWO_SKIPPED_FLAGS = (NO_GROUP * 6 + b"C201 2141 5420 534F\n" + NO_GROUP + b"C201 2142 4E47 0D20\n" + NO_GROUP * 11
                     + b"C201 2140 5448 4952\n" + NO_GROUP + b"C201 2141 4420 534F\n" + NO_GROUP
                     + b"C201 2142 4E47 0D20\n")
# two texts at one address with one flag
CHANGED = HI + b"C201 2140 594F 0D20\n"
# a text and its tags in good time, with four slots before them, and a lost slot for each other group
TAGGED_LOG = b"""---- ---- ---- ----
---- ---- ---- ----
---- ---- ---- ----
---- ---- ---- ----
C201 2140 4142 4241
---- ---- ---- ----
C201 2141 202D 2057
---- ---- ---- ----
C201 2142 4154 4552
C201 3156 0000 4BD7
C201 2143 4C4F 4F0D
C201 B158 8006 08E7
"""
# a text with its tags four slots after it
TAGS_IN_TIME = HI + NO_GROUP * 3 + b"C201 B148 2002 0000\n"
# a text, and tags in the fourth slot after it that end past it
TAGS_AFTER_FOUR = HI + NO_GROUP * 3 + b"C201 B158 8006 08E7\n"
# a text, another with the other flag, and the first again after four slots
FLAG_AFTER_FIVE = HI + b"C201 2150 594F 0D20\n" + NO_GROUP * 3 + HI
# a text twice, four slots apart, and then its tags
TAGS_AFTER_A_GAP = HI + NO_GROUP * 3 + HI + b"C201 B148 2002 0000\n"
TAGS_ON_AIR = b"""-,,1,GGG
-,,1,GGG
-,,1,GGG
-,,1,GGG
text,ABBA - WATERLOO,1,GGL
tags,1 1 4 0 3 1 7 7,1,GGL
-,,1,GGL
-,,1,GGL
-,,1,GGL
-,,1,GLG
-,,1,GGL
-,,1,GGG
"""
TAGS_OUTPUT = b"""4 text ok
4 sent C201 2140 4142 4241
5 tags ok
6 sent C201 2141 202D 2057
8 sent C201 2142 4154 4552
9 sent C201 3156 0000 4BD7
10 sent C201 2143 4C4F 4F0D
10 r0 text "ABBA - WATERLOO"
10 r1 text "ABBA - WATERLOO"
11 sent C201 B158 8006 08E7
11 r0 item 1 1
11 r0 tag1 ITEM.ARTIST "ABBA"
11 r0 tag2 ITEM.TITLE "WATERLOO"
"""
# two segments of the first song are received, none of the second, and all of the third, which has the first one's flag;
# with THIRT the segments of the first song would make the third whole four slots too early
SONGS = {4: b"FIRST SONG", 12: b"OTHER SONG"}
SONGS_RECEIVED = {6, 8, *range(20, 25)}
# a name in two segments, between which the receiver loses a slot or restarts
NAME_ROWS = b"-,,1,G\n" * 4 + b"name,JAZZ FM,1,G\n-,,1,G\n-,,1,%s\n-,,1,G\n"
NAME_SENT = b"4 name ok\n5 sent C201 A140 4A41 5A5A\n7 sent C201 A141 2046 4D20\n"
# the receptions of a receiver if groups come up to two slots late, and the first row that is refused: a group from
# before slot 0, one more than two slots late, the same again, also after the receiver restarted, and an earlier one
IN_ORDER = [("G G G", None), ("L L G2 G2", None), ("G1", 1), ("L L L G3", 4), ("G G1", 2), ("L G R G2", 4),
            ("L G R G1", None), ("L L G G2", 4), ("G L L L L G2", None)]
ENCODED_SCRIPT = b"text,HI,1,\ntext,HI,1,\n"
ENCODED_LOG = b"""# 0 text silent 1
---- ---- ---- ----
# 1 text ok
C201 2140 4849 0D20
"""


def segment(sent, flag, address):
    """Returns the group of a text's four bytes at this address, programme type 10."""
    return b"C201 %04X %04X %04X" % (0x2140 + 16 * flag + address, *struct.unpack_from(">HH", sent, 4 * address))


def sent_segments(text, flag, slots):
    """Gives the lines of a text of three segments in these slots, from its first segment on."""
    sent = (text + b"\r").ljust(12)
    for count, slot in enumerate(slots):
        yield slot, b"%d sent %s\n" % (slot, segment(sent, flag, count % 3))


def three_songs(third):
    """Returns the script of three songs and its output: a segment in every other slot, and the announcement in slots 9
    and 17."""
    songs = {**SONGS, 20: third}
    commands = [b"text," + songs[slot] if slot in songs else b"-," for slot in range(25)]
    receptions = [b"G" if slot in SONGS_RECEIVED else b"L" for slot in range(25)]
    script = b"".join(b"%s,1,%s\n" % row for row in zip(commands, receptions))
    sent = {slot: b"%d sent C201 3156 0000 4BD7\n" % slot for slot in (9, 17)}
    for flag, (start, end) in zip((0, 1, 0), ((4, 12), (12, 20), (20, 25))):
        sent.update(sent_segments(songs[start], flag, range(start, end, 2)))
    lines = [(b"%d text ok\n" % slot if slot in songs else b"") + sent[slot] for slot in sorted(sent)]
    return script, b"".join(lines) + b'24 r0 text "%s"\n' % third


def in_order():
    """Gives the rows of such a receiver: of a station without commands, and of one that restarts in each slot."""
    for receptions, refused in IN_ORDER:
        each = receptions.encode().split()
        fault, played = (b"", len(each)) if refused is None else (b"fault row %d\n" % refused, refused - 1)
        told = b"".join(b"%d restart\n" % slot for slot in range(played))
        for command, shown in ((b"-", fault), (b"restart", told + fault)):
            script = b"".join(b"%s,,1,%s\n" % (command, reception) for reception in each)
            yield f"{receptions} in order", SIM_TWO_LATE, int(refused is not None), script, shown


DECODED = [
    ("first text", DECODE, 0, b"C201 2140 4849 0D20\n", b'0 text "HI"\n'),
    ("empty text", DECODE, 0, b"C201 2140 0D20 2020\n", b'0 text ""\n'),
    ("two segments", DECODE, 0, b"C201 2140 4142 4241\nC201 2141 0D20 2020\n", b'1 text "ABBA"\n'),
    ("second segment alone", DECODE, 0, b"C201 2141 0D20 2020\n", b""),
    ("other flag", DECODE, 0, b"C201 2140 4849 0D20\nC201 2151 0D20 2020\nC201 2150 4142 4241\n", b"""0 text "HI"
1 text none
2 text "ABBA"
"""),
    ("class by number", DECODE, 0, b"C201 3156 0000 4BD7\nC201 2140 4849 0D20\nC201 B149 8002 0000\n", b"""1 text "HI"
2 item 0 1
2 tag1 12 "HI"
"""),
    ("waterloo tags", DECODE, 0, b"""C201 3156 0000 4BD7
C201 2140 4142 4241
C201 2141 202D 2057
C201 2142 4154 4552
C201 2143 4C4F 4F0D
C201 B158 8006 08E7
""", b'4 text "ABBA - WATERLOO"\n5 item 1 1\n5 tag1 ITEM.ARTIST "ABBA"\n5 tag2 ITEM.TITLE "WATERLOO"\n'),
    ("tags that stay", DECODE, 0, b"""C201 3156 0000 4BD7
C201 2140 4849 0D20
C201 B148 2002 0000
C201 2140 4849 0D20
""", b"""1 text "HI"
2 item 0 1
2 tag1 ITEM.TITLE "HI"
"""),
    ("jazz name", DECODE, 0, b"C201 A140 4A41 5A5A\nC201 A141 2046 4D20\n", b'1 name "JAZZ FM "\n'),
    ("jazz name with loose bits", DECODE, 0, b"C201 A14E 4A41 5A5A\nC201 A141 2046 4D20\n", b'1 name "JAZZ FM "\n'),
    ("first half of a name", DECODE, 0, b"C201 A140 4A41 5A5A\n", b""),
    ("second half of a name", DECODE, 0, b"C201 A141 2046 4D20\n", b""),
    ("accents and euro", DECODE, 0, b"""C201 2140 4361 6682
C201 2141 20A9 0D20
""", b'1 text "Caf\xC3\xA9 \xE2\x82\xAC"\n'),
    ("escaped bytes", DECODE, 0, b"C201 2140 225C 240D\n", b'0 text "\\x22\\x5C\\x24"\n'),
    ("contrary announcement", DECODE, 0, b"""C201 3156 0000 4BD7
C201 2140 4849 0D20
C201 B148 2002 0000
C201 3156 0000 CD46
""", b'1 text "HI"\n2 item 0 1\n2 tag1 ITEM.TITLE "HI"\n3 item none\n3 tag1 none\n'),
    ("foreign encoder", "decode --pi C201 --m 4", 0, b"""C201 2140 4142 4241
C201 2141 0D20 2020
C201 2140 4849 0D20
C201 B148 2002 0000
C201 3156 0000 4BD7
C201 B148 2002 0000
C201 2150 594F 0D20
C201 2140 0D41 2020
C201 B148 2002 0000
C201 3154 0000 4BD7
C201 A140 4A0D 5A5A
C201 A151 2046 4D20
C201 A150 4A0D 5A5A
""", b"""1 text "ABBA"
2 text "HI"
5 item 0 1
5 tag1 ITEM.TITLE "HI"
6 text "YO"
6 item none
6 tag1 none
7 text ""
8 item 0 1
9 item none
11 text none
12 name "J\\x0DZZ FM "
"""),
    ("mixed log", DECODE, 1, MIXED_LOG, b'2 text "HI"\nfault line 10\n'),
    ("mixed log with a dwell", "decode --pi c201 --m 4", 1, MIXED_LOG, b'2 text "HI"\nfault line 10\n'),
    ("dwell of four", "decode --pi C201 --m 4", 0, ONE_TEXT, b'0 text "HI"\n4 text none\n'),
    ("dwell spelled otherwise", "decode --m=+004 --pi=C201", 0, ONE_TEXT, b'0 text "HI"\n4 text none\n'),
    ("dwell of one", "decode --pi C201 --m 1", 0, ONE_TEXT, b'0 text "HI"\n1 text none\n'),
    ("one segment, later", "decode --pi C201 --m 4", 0, NO_GROUP * 4 + ONE_TEXT, b'4 text "HI"\n8 text none\n'),
    ("second segment too late", "decode --pi C201 --m 4", 0, HI + NO_GROUP * 3 + b"C201 2141 4849 0D20\n",
     b'0 text "HI"\n4 text none\n'),
    ("two skipped flags", "decode --pi C201 --m 4", 0, TWO_SKIPPED_FLAGS, b'24 text "THIRD SONG"\n'),
    ("slots of another programme", "decode --pi C201 --m 2", 0,
     HI + b"F000 2150 594F 0D20\nF000 2140 594F 0D20\n", b'0 text "HI"\n2 text none\n'),
    ("greatest dwell", "decode --pi C201 --m 65535", 0, ONE_TEXT, b'0 text "HI"\n'),
    ("version", "--version", 0, ONE_TEXT, b"rdsrt 0.2.0\n"),
    ("end of input", DECODE, 1, b"C201 2140 4849 0D2", b"fault line 1\n"),
    ("no line end", DECODE, 0, b"C201 2140 4849 0D20", b'0 text "HI"\n'),
    ("carriage return at the end", DECODE, 0, b"C201 2140 4849 0D20\r", b'0 text "HI"\n'),
    ("empty log", DECODE, 0, b"", b""),
    ("binary garbage", DECODE, 1, b"\x00\xFF\r\n\x80", b"fault line 1\n"),
    ("another programme", "decode --pi F000", 0, b"F000 2140 4849 0D20\nC201 2150 594F 0D20\n", b'0 text "HI"\n'),
    ("fault of another programme", "decode --pi 0000", 1, b"0000 2140 4849 0D20\nx\n", b'0 text "HI"\nfault line 2\n'),
    ("digits of either case", "decode --pi c201", 0, b"C201 2140 4849 0D20\n", b'0 text "HI"\n'),
]

SIMULATED = [
    ("silence dwell and age", SIM, 0, b"""text,HI,1,G
-,,1,G
-,,1,G
text,HI,1,G
text,HI,1,G
-,,0,G
-,,0,G
-,,0,G
-,,0,G
""", b'0 text silent 4\n3 text silent 1\n4 text ok\n4 sent C201 2140 4849 0D20\n4 r0 text "HI"\n8 r0 text none\n'),
    ("held for twice the dwell", SIM, 0, b"""-,,0,
-,,0,
-,,0,
-,,0,
text,HI,0,
-,,0,
-,,0,
-,,0,
-,,0,
-,,0,
-,,0,
text,YO,0,
text,YO,1,
""", b"4 text ok\n11 text held 1\n12 text ok\n12 sent C201 2150 594F 0D20\n"),
    ("tags of no text", SIM, 0, b"-,,0,\n-,,0,\n-,,0,\n-,,0,\ntags,1 1 4 0 3 1 7 7,0,\n", b"4 tags notext\n"),
    ("restart keeps silence", SIM, 0, b"""-,,1,G
-,,1,G
-,,1,G
-,,1,G
text,HI,1,G
restart,,1,G
-,,1,G
-,,1,G
text,YO,1,G
text,YO,1,G
""", b"""4 text ok
4 sent C201 2140 4849 0D20
4 r0 text "HI"
5 restart
8 text silent 1
8 r0 text none
9 text ok
9 sent C201 2140 594F 0D20
9 r0 text "YO"
"""),
    ("tags on air", SIM, 0, TAGS_ON_AIR, TAGS_OUTPUT),
    ("neighbours in one slot", SIM, 0, b"""-,,1,GG
-,,1,GG
-,,1,GG
-,,1,GG
text,ONE,1,GG
-,,1,GG
-,,1,GG
-,,1,GG
-,,1,GG
-,,1,GG
-,,1,GG
-,,1,GG
text,TWO,1,GL
-,,1,GG
-,,1,GG
""", b"""4 text ok
4 sent C201 2140 4F4E 450D
4 r0 text "ONE"
4 r1 text "ONE"
6 sent C201 2140 4F4E 450D
8 sent C201 2140 4F4E 450D
9 sent C201 3156 0000 4BD7
10 sent C201 2140 4F4E 450D
12 text ok
12 sent C201 2150 5457 4F0D
12 r0 text "TWO"
14 sent C201 2150 5457 4F0D
14 r1 text "TWO"
"""),
    *(("two skipped flags of the last song", SIM, 0, *three_songs(song)) for song in (b"THIRD SONG", b"THIRT SONG")),
    *(("a name, one segment of which another slot parts from the next", SIM, 0, NAME_ROWS % between, NAME_SENT + shown)
      for between, shown in ((b"L", b'7 r0 name "JAZZ FM "\n'), (b"R", b""))),
    ("quoted comma", "sim --m 1 --pi C201 --pty 10", 0, b'-,,1,G\ntext,"A, B",1,G\n', b"""1 text ok
1 sent C201 2140 412C 2042
"""),
    ("name in both segments", SIM, 0, b"""-,,1,G
-,,1,G
-,,1,G
-,,1,G
name,JAZZ FM,1,G
-,,1,G
-,,1,G
-,,1,G
""", b'4 name ok\n5 sent C201 A140 4A41 5A5A\n7 sent C201 A141 2046 4D20\n7 r0 name "JAZZ FM "\n'),
    ("traffic programme", "sim --m 1 --pi C201 --pty 10 --tp", 0, b"""-,,1,G
text,HI,1,G
""", b'1 text ok\n1 sent C201 2540 4849 0D20\n1 r0 text "HI"\n'),
    ("no programme type", "sim --m 1 --pi c201", 0, b"""-,,1,G
text,HI,1,G
""", b'1 text ok\n1 sent C201 2000 4849 0D20\n1 r0 text "HI"\n'),
    ("empty script", "sim --pi C201 --pty 10", 0, b"", b""),
    ("another number of receivers", "sim --pi C201 --pty 10", 1, b"-,,1,G\n-,,1,GG\n", b"fault row 2\n"),
    ("row after output", SIM, 1, b"text,HI,1,G\n-,,1,G\n-,,1", b"0 text silent 4\nfault row 3\n"),
    ("row after an empty one", SIM, 1, b"-,,1,G\n-,,1", b"fault row 2\n"),
    ("no row after two", SIM, 1, b"text,HI,1,\n-,,1,\nx\n", b"0 text silent 4\nfault row 3\n"),
    ("tags refused", "sim --m 1 --pi C201 --pty 10", 0, b"""tags,0 1 1 0 1 0 0 0,1,
tags,0 1 1 0 1 0 0 0,1,
text,HI,1,
tags,0 1 1 0 2 0 0 0,1,
tags,0 1 1 0 1 1 2 0,1,
tags,0 1 1 0 1 0 0 0,1,
""", b"""0 tags silent 1
1 tags notext
2 text ok
3 tags outoftext 1
3 sent C201 2140 4849 0D20
4 tags outoftext 2
5 tags ok
5 sent C201 2140 4849 0D20
"""),
    # from here on: csv defines a record
    ("byte order mark", SIM, 0, b"\xEF\xBB\xBFtext,HI,1,\n", b"0 text silent 4\n"),
    ("lines end with a carriage return too", SIM, 0, b"text,HI,1,\r\ntext,HI,1,\r\n", b"""0 text silent 4
1 text silent 3
"""),
    ("empty lines", SIM, 0, b"\n\ntext,HI,1,\n\n\ntext,HI,1,", b"0 text silent 4\n1 text silent 3\n"),
    ("line end between quotes", SIM, 1, b'text,"H\nI",1,\n', b"fault row 1\n"),
    ("quote left open", SIM, 1, b'text,HI,1,\n-,,1,"\n-,,1,\n', b"0 text silent 4\nfault row 2\n"),
]

ENCODED = [
    ("encoded log", ENCODE, 0, ENCODED_SCRIPT, ENCODED_LOG),
    ("all of a traffic programme", "encode --m 1 --tp --pi C201 --pty 10", 0, b"""-,,1,
text,HI,1,
name,JAZZ FM,1,
tags,0 1 1 0 1 0 0 0,1,
-,,1,
-,,1,
-,,1,
-,,1,
-,,1,
""", b"""---- ---- ---- ----
# 1 text ok
C201 2540 4849 0D20
# 2 name ok
C201 A540 4A41 5A5A
# 3 tags ok
C201 2540 4849 0D20
C201 A541 2046 4D20
C201 2540 4849 0D20
C201 3556 0000 4BD7
C201 2540 4849 0D20
C201 B548 2002 0000
"""),
    ("greatest programme type", "encode --m 1 --pi FFFF --pty 31", 0, b"""-,,1,
text,HI,1,
""", b"---- ---- ---- ----\n# 1 text ok\nFFFF 23E0 4849 0D20\n"),
    ("empty script", "encode --pi C201 --pty 10", 0, b"", b""),
    ("row with a receiver", "encode --pi C201 --pty 10", 1, b"-,,1,G\n", b"# fault row 1\n"),
    ("row after the log", ENCODE, 1, b"""text,HI,1,
text,HI,1,
x
""", b"# 0 text silent 1\n---- ---- ---- ----\n# 1 text ok\nC201 2140 4849 0D20\n# fault row 3\n"),
]

# groups that come up to two slots late
LATE = [
    ("late group", SIM_TWO_LATE, 0, b"""-,,1,G
-,,1,G
-,,1,G
-,,1,G
-,,1,G
-,,1,G
text,HI,1,L
-,,1,L
-,,1,G2
-,,0,L
-,,0,L
-,,0,L
-,,0,L
""", b'6 text ok\n6 sent C201 2140 4849 0D20\n8 sent C201 2140 4849 0D20\n8 r0 text "HI"\n12 r0 text none\n'),
    ("late group refused", SIM_TWO_LATE, 1, b"""-,,1,G
-,,1,G
-,,1,G
-,,1,G
-,,1,G
-,,1,G
-,,1,G
-,,1,G2
""", b"fault row 8\n"),
    ("handed over already", SIM_TWO_LATE, 1, b"-,,1,G\n-,,1,G1\n", b"fault row 2\n"),
    ("five digits", SIM_TWO_LATE, 1, b"-,,1,G12345\n", b"fault row 1\n"),
    ("late where none may be", "sim --pi C201 --m 4 --k 0", 1, b"-,,1,G1\n", b"fault row 1\n"),
    ("late without --k", "sim --pi C201 --m 4", 1, b"-,,1,G1\n", b"fault row 1\n"),
]

AUDITED = [
    ("tags on air", AUDIT, 0, TAGGED_LOG, b"yes 12\n"),
    ("empty log", AUDIT, 0, b"", b"yes 0\n"),
    ("no slots", AUDIT, 0, b"# note\n\n%", b"yes 0\n"),
    ("no line feed at the end", AUDIT, 0, b"C201 2140 4849 0D20", b"yes 1\n"),
    ("another programme", AUDIT, 0, b"C201 2140 4849 0D20\nF000 2140 594F 0D20\nC201 2140 4849 0D20\n", b"yes 3\n"),
    ("changed", AUDIT, 1, CHANGED, b"no 1 Changed\n"),
    ("not one text", AUDIT, 1, b"C201 2140 0D41 2020\n", b"no 0 NotOneText\n"),
    ("name with a line feed", AUDIT, 1, b"C201 A140 0A41 4141\n", b"no 0 NotOneText\n"),
    ("name with a carriage return", AUDIT, 1, b"C201 A140 0D41 4141\n", b"no 0 NotOneText\n"),
    ("early flag after a slot", AUDIT, 1, HI + b"C201 2150 594F 0D20\n" + NO_GROUP + HI, b"no 3 EarlyFlag\n"),
    ("early flag", AUDIT, 1, b"C201 2140 4849 0D20\nC201 2150 594F 0D20\nC201 2140 4849 0D20\n", b"no 2 EarlyFlag\n"),
    ("tags of no text", AUDIT, 1, b"C201 B158 8006 08E7\n", b"no 0 EarlyTag\n"),
    ("tags of another programme", AUDIT, 0, HI + b"F000 2140 594F 0D20\nF000 B158 8006 08E7\n" + HI, b"yes 4\n"),
    ("tags after the dwell", AUDIT, 0, TAGS_IN_TIME, b"yes 5\n"),
    ("tags before a longer dwell", "audit --pi C201 --m 5", 1, TAGS_IN_TIME, b"no 4 EarlyTag\n"),
    ("early tag", AUDIT, 1, b"C201 2140 4849 0D20\nC201 B158 8006 08E7\n", b"no 1 EarlyTag\n"),
    ("tag outside", AUDIT, 1, b"""C201 2140 4849 0D20
---- ---- ---- ----
---- ---- ---- ----
---- ---- ---- ----
C201 B158 8006 08E7
""", b"no 4 TagOutside\n"),
    ("encoded log", "audit --pi C201 --m 1", 0, b"""# 0 text silent 1
---- ---- ---- ----
# 1 text ok
C201 2140 4849 0D20
""", b"yes 2\n"),
    ("lawful and not dense", AUDIT, 1, b"""C201 2140 4849 0D20
---- ---- ---- ----
---- ---- ---- ----
---- ---- ---- ----
C201 2140 4849 0D20
C201 B148 2002 0000
""", b"no 5 EarlyTag\n"),
    ("bad line", AUDIT, 1, b"C201 2140 4849\n", b"fault line 1\n"),
    ("bad line at the end", AUDIT, 1, b"C201 2140 4849 0D20\nx", b"fault line 2\n"),
    ("bad line after the no", AUDIT, 1, b"C201 2140 4849 0D20\nC201 2140 594F 0D20\nx\n", b"no 1 Changed\n"),
    ("bad line before the no", AUDIT, 1, b"C201 2140 4849 0D20\nx\nC201 2140 594F 0D20\n", b"fault line 2\n"),
]

# the rules with M + K in place of M
AUDITED_LATE = [
    ("tags on air", AUDIT_TWO_LATE, 0, TAGGED_LOG, b"yes 12\n"),
    ("tags after four slots, two late", AUDIT_TWO_LATE, 1, TAGS_AFTER_FOUR, b"no 4 EarlyTag\n"),
    ("tags after four slots, none late", AUDIT, 1, TAGS_AFTER_FOUR, b"no 4 TagOutside\n"),
    ("flag after five slots, none late", AUDIT, 0, FLAG_AFTER_FIVE, b"yes 6\n"),
    ("flag after five slots, two late", AUDIT_TWO_LATE, 1, FLAG_AFTER_FIVE, b"no 5 EarlyFlag\n"),
    ("lawful and not dense, one late", AUDIT_ONE_LATE, 0, TAGS_AFTER_A_GAP, b"yes 6\n"),
    ("lawful and not dense, two late", AUDIT_TWO_LATE, 1, TAGS_AFTER_A_GAP, b"no 5 EarlyTag\n"),
]

# each alone is a malformed script of `sim`
REFUSED_ROWS = [
    b"text,HI,1\n", b"-,,1,,\n", b"-,x,1,\n", b"restart,x,1,\n", b"Text,HI,1,\n", b"text,HI,2,\n", b"text,HI,,\n",
    b"tags,1 1 0 0 1 0 0 0,1,\n", b"tags,1 1 256 0 0 0 0 0,1,\n", b"tags,2 1 1 0 0 0 0 0,1,\n",
    b"tags,1 1 1 0 0 0 0,1,\n", b"tags,1 1 1 0 0 0 0 0 0,1,\n", b"tags,1 1 +1 0 0 0 0 0,1,\n", b"text,a\\x4,1,\n",
    b"name,123456789,1,\n", b"-,,1,GGGGGGGGG\n", b"-,,1,g\n", b'text,"HI',
]

# logs with a bad line, and the output
BAD_LINES = [
    (b"x\n", b"fault line 1\n"),
    (b"C201 2140 4849 0D2", b"fault line 1\n"),
    (b"C201 21405 4849 0D20\n", b"fault line 1\n"),
    (b"C201 2140 4849 0D20x\n", b"fault line 1\n"),
    (b"C201 2140 4849 0D2G\n", b"fault line 1\n"),
    (b"C201 2140 4849 --- \n", b"fault line 1\n"),
    (b"\n#\nC201 2140 4849 0D20\nx", b'0 text "HI"\nfault line 4\n'),
    (b"\x00\xFF\r\n\x80", b"fault line 1\n"),
]

# the class of each number, as a tag shows it
CLASSES = {
    1: b"ITEM.TITLE", 2: b"ITEM.ALBUM", 3: b"ITEM.TRACKNUMBER", 4: b"ITEM.ARTIST", 5: b"ITEM.COMPOSITION",
    6: b"ITEM.MOVEMENT", 7: b"ITEM.CONDUCTOR", 8: b"ITEM.COMPOSER", 9: b"ITEM.BAND", 10: b"ITEM.COMMENT",
    11: b"ITEM.GENRE", 12: b"12", 63: b"63",
}


def fitting_tags():
    """Gives tags that end in the text, and tags that end one character behind it."""
    waterloo = b"ABBA - WATERLOO"
    rows = [
        (b"A" * 64, b"1 0 63 0 0 0", b"ok"), (b"A" * 63, b"1 0 63 0 0 0", b"outoftext 1"),
        (waterloo, b"4 0 3 1 7 7", b"ok"), (waterloo, b"0 0 0 1 14 0", b"ok"),
        (waterloo, b"4 0 3 1 7 8", b"outoftext 2"), (waterloo, b"4 15 0 1 7 8", b"outoftext 1"),
    ]
    for text, tags, reply in rows:
        script = b"-,,0,\ntext,%s,0,\ntags,0 1 %s,0,\n" % (text, tags)
        yield f"tags {tags} of {text}", "sim --pi C201 --m 1", 0, script, b"1 text ok\n2 tags %s\n" % reply


def second_name():
    """Returns a row in which the second name has flag 1, although it is the same."""
    script = b"-,,1,\nname,JAZZ FM,1,\n-,,1,\nname,JAZZ FM,1,\n" + b"-,,1,\n" * 7
    shown = b"""1 name ok
2 sent C201 A140 4A41 5A5A
3 name ok
4 sent C201 A151 2046 4D20
6 sent C201 3156 0000 4BD7
10 sent C201 A150 4A41 5A5A
"""
    return "second name", "sim --m 1 --pi C201 --pty 10", 0, script, shown


def tags_after_the_dwell():
    """Returns a row with a dwell of 16: the tags of a text of slot 16 wait until slot 32, and their turn is in slot 39.
    """
    script = b"-,,1,\n" * 16 + b"text,HI,1,\ntags,0 1 1 0 1 0 0 0,1,\n" + b"-,,1,\n" * 22
    sent = {slot: b"2140 4849 0D20" for slot in range(16, 40, 2)}
    sent.update({slot: b"3156 0000 4BD7" for slot in range(21, 40, 8)})
    sent[39] = b"B148 2002 0000"
    lines = [b"16 text ok\n", b"%d sent C201 %s\n" % (16, sent.pop(16)), b"17 tags ok\n"]
    lines += [b"%d sent C201 %s\n" % slot for slot in sorted(sent.items())]
    return "tags after the dwell", "sim --m 16 --pi C201 --pty 10", 0, script, b"".join(lines)


def longest_dwell():
    """Returns a row with the longest dwell: silent for one dwell, and held for two."""
    none = b"-,,0,\n"
    script = (b"text,HI,0,\n" + none * 65533 + b"text,HI,0,\ntext,HI,1,\ntext,YO,0,\n" + none * 131067 + b"text,YO,0,\n"
              + none * 70000 + b"text,YO,0,\n" + b"-,,1,\n" * 2)
    shown = b"""0 text silent 65535
65534 text silent 1
65535 text ok
65535 sent C201 2140 4849 0D20
65536 text held 131069
196604 text held 1
266605 text ok
266607 sent C201 2150 594F 0D20
"""
    return "longest dwell", "sim --m 65535 --pi C201 --pty 10", 0, script, shown


def silent_and_held_for_late_groups():
    """Returns a row with a dwell of 4 slots and groups up to 2 slots late: silent for 6 slots, held for 12."""
    script = b"-,,0,\n" * 5 + b"text,HI,0,\n" * 2 + b"-,,0,\n" * 10 + b"text,YO,0,\ntext,YO,1,\n"
    shown = b"5 text silent 1\n6 text ok\n17 text held 1\n18 text ok\n18 sent C201 2150 594F 0D20\n"
    return "silent and held for late groups", SIM_TWO_LATE, 0, script, shown


def radios_and_what_is_on_air():
    """Returns a row with a radio that keeps its text after the station has another one, for a dwell of two slots. It loses
    the groups of the new text up to slot 12. The station restarts in slot 16, and so does the radio."""
    script = (b"-,,1,G\n" * 2 + b"text,HI,1,G\n-,,1,G\ntags,1 1 4 0 1 0 0 0,1,G\n" + b"-,,1,G\n" * 3
              + b"text,HO,1,L\n" + b"-,,1,L\n" * 4 + b"name,POP,1,G\n" + b"-,,1,G\n" * 2 + b"restart,,1,R\n-,,1,G\n")
    shown = b"""2 text ok
2 sent C201 2140 4849 0D20
2 r0 text "HI"
2 air text "HI"
4 tags ok
4 sent C201 2140 4849 0D20
4 air item 1 1
4 air tag1 ITEM.ARTIST "HI"
6 sent C201 2140 4849 0D20
7 sent C201 3156 0000 4BD7
8 text ok
8 sent C201 2150 484F 0D20
8 air text "HO"
8 air item none
8 air tag1 none
9 r0 text old
10 sent C201 2150 484F 0D20
12 sent C201 2150 484F 0D20
13 name ok
13 sent C201 A141 2020 2020
13 air name "POP     "
14 sent C201 2150 484F 0D20
14 r0 text "HO"
14 r0 text on air
15 sent C201 3156 0000 4BD7
16 restart
16 r0 text none
16 air text none
16 air name none
"""
    return "radios and what is on air", "sim --m 2 --pi C201 --pty 10 --flag-alone", 0, script, shown


def why_texts_are_not_shown():
    """Gives rows of a text that goes: the next one is incomplete, no segment came for M slots, and a receiver restarted.
    With a window the next one begins with the segment that comes again. The last text begins anew in the slot in which
    its dwell is over."""
    hell, o = b"C201 2150 4845 4C4C\n", b"C201 2151 4F0D 2020\n"
    shown = b'0 text "HI"\n1 text none incomplete\n2 text "HELLO"\n4 text none dropped\n'
    yield "why a text goes", "decode --pi C201 --m 2 --why", 0, HI + hell + o + NO_GROUP * 2, shown
    shown = b'1 text "HI"\n3 text none incomplete\n'
    yield "why a text goes, twice", "decode --pi C201 --m 4 --confirm 2 --why", 0, HI * 2 + hell * 2, shown
    anew, shown = HI + NO_GROUP + b"C201 2141 2020 2020\n", b'0 text "HI"\n2 text none incomplete\n'
    yield "why a text goes, anew", "decode --pi C201 --m 2 --why", 0, anew, shown
    script = b"-,,1,GG\n" * 2 + b"text,HI,1,GG\n-,,1,RG\n-,,0,GG\n"
    shown = b"""2 text ok
2 sent C201 2140 4849 0D20
2 r0 text "HI"
2 r1 text "HI"
3 r0 text none restarted
4 r1 text none dropped
"""
    yield "why texts go in a world", "sim --m 2 --pi C201 --pty 10 --why", 0, script, shown


def much_output():
    """Returns a row with more output for one read than the program writes at once."""
    shown = b"".join(b'%d text "%s"\n' % (slot, (b"HI", b"YO")[slot % 2]) for slot in range(2000))
    return "much output", DECODE, 0, (HI + b"C201 2150 594F 0D20\n") * 1000, shown


def carriage_return_at_each_place():
    """Gives rows with all sixteen segments and a carriage return at one of the 64 places, which ends the text."""
    for place in range(64):
        sent = b"A" * place + b"\r" + b"A" * (63 - place)
        log = b"".join(segment(sent, 0, address) + b"\n" for address in range(16))
        yield f"carriage return at {place}", DECODE, 0, log, b'%d text "%s"\n' % (place // 4, b"A" * place)


def decoded_classes():
    """Gives rows with each class of a tag: bits 8 to 3 of the upper half of the 37 bits, on the text `HI`."""
    for number, name in CLASSES.items():
        second, third = 0xB148 | number >> 3, number << 13 & 0xE000 | 2
        log = b"C201 3156 0000 4BD7\n" + HI + b"C201 %04X %04X 0000\n" % (second, third)
        yield f"class {number}", DECODE, 0, log, b'1 text "HI"\n2 item 0 1\n2 tag1 %s "HI"\n' % name


def one_of_three_programmes():
    """Gives rows of a log with three programmes. One of them is decoded."""
    log = b"F000 2140 4849 0D20\nC201 2150 594F 0D20\n0000 2140 4142 0D20\n"
    rows = {"F000": b'0 text "HI"\n', "C201": b'1 text "YO"\n', "0000": b'2 text "AB"\n', "FFFF": b""}
    for pi, shown in rows.items():
        yield f"programme {pi} of three", f"decode --pi {pi}", 0, log, shown


def faults_of_programmes():
    """Gives rows with a PI that does not have four hexadecimal digits."""
    for command, told in (("decode", b""), ("encode", b"# "), ("sim", b""), ("audit", b"")):
        for given in ("C20", "C2011", "C20G", "", "+201"):
            words = f"{command} --pi {shlex.quote(given)}"
            yield f"{command} of programme {given!r}", words, 2, HI, told + b"fault pi\n"


def rows():
    """Gives all rows: name, arguments, status, input and output."""
    yield from (*DECODED, *SIMULATED, *ENCODED, *LATE, *AUDITED, *AUDITED_LATE)
    for row in REFUSED_ROWS:
        yield "refused row", "sim --pi C201 --pty 10", 1, row, b"fault row 1\n"
    for log, told in BAD_LINES:
        yield "bad line", DECODE, 1, log, told
    # a text is shown while the last segment of its run came less than 128 slots before
    yield "shown for the dwell", DECODE, 0, HI + NO_GROUP * 130, b'0 text "HI"\n128 text none\n'
    yield from fitting_tags()
    yield from in_order()
    yield from (second_name(), tags_after_the_dwell(), longest_dwell(), silent_and_held_for_late_groups())
    yield radios_and_what_is_on_air()
    yield from why_texts_are_not_shown()
    yield much_output()
    yield from carriage_return_at_each_place()
    yield from decoded_classes()
    yield from one_of_three_programmes()
    yield from faults_of_programmes()
