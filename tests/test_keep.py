"""`decode --keep N` and `sim --keep N`: worked rows, and random logs and worlds beside a plain model.

In a slot in which the receiver shows no text, the display shows the last one, with its tags and item bits as they were
then. It does so if that was at most N slots ago, and if the receiver held no segment with another flag at the end of a
slot since. Names likewise. A restart of the receiver starts the display anew.
"""
import random

from tests import outputs
from tests.calls import DECODE, SIM
from tests.plain_receiver import LOST, Receiver, counting, segment_of, tags_in
from tests.plain_worlds import CLASSES, Wrongs, random_rows, script
from tests.support import ProgramCase, ran

SEED, LOGS, SLOTS, WORLDS = 20261201, 1000, 80, 1000
NOTHING = dict.fromkeys(("text", "name", "item", "tag1", "tag2"))
HI, HO_FLAG_1, HO = "C201 2140 4849 0D20", "C201 2150 484F 0D20", "C201 2140 484F 0D20"
# the first of two segments, with each flag
HELL, HELL_FLAG_1 = "C201 2140 4845 4C4C", "C201 2150 4845 4C4C"
JAZZ, FM, JAZZ_FLAG_1 = "C201 A140 4A41 5A5A", "C201 A141 2046 4D20", "C201 A150 4A41 5A5A"
ANNOUNCED, TITLE = "C201 3156 0000 4BD7", "C201 B148 2002 0000"
# what it shows, the lines of a log, the words, and the output. The receiver drops a text after two slots
ROWS = [
    ("nothing is kept", [HI, *[LOST] * 3], ["--keep", "0"], '0 text "HI"\n2 text none\n'),
    ("kept for one slot", [HI, *[LOST] * 5], ["--keep", "1"], '0 text "HI"\n3 text none\n'),
    ("kept for three slots", [HI, *[LOST] * 5], ["--keep", "3"], '0 text "HI"\n5 text none\n'),
    ("kept to the end", [HI, *[LOST] * 5], ["--keep", "65535"], '0 text "HI"\n'),
    ("shown again in time", [HI, *[LOST] * 3, HI, *[LOST] * 5], ["--keep", "3"], '0 text "HI"\n9 text none\n'),
    ("another text", [HI, LOST, LOST, HO], ["--keep", "9"], '0 text "HI"\n3 text "HO"\n'),
    ("a segment of the next text", [HI, LOST, LOST, HELL_FLAG_1], ["--keep", "9"], '0 text "HI"\n3 text none\n'),
    ("a segment of the next text at once", [HI, HELL_FLAG_1], ["--keep", "9"], '0 text "HI"\n1 text none\n'),
    ("a segment with its flag", [HI, LOST, LOST, HELL, *[LOST] * 9], ["--keep", "9"], '0 text "HI"\n11 text none\n'),
    ("another flag, and its own", [HI, LOST, LOST, HELL_FLAG_1, LOST, LOST, HELL], ["--keep", "9"],
     '0 text "HI"\n3 text none\n'),
    ("a name", [JAZZ, FM, *[LOST] * 5], ["--keep", "2"], '1 name "JAZZ FM "\n5 name none\n'),
    ("a segment of the next name", [JAZZ, FM, LOST, JAZZ_FLAG_1], ["--keep", "9"],
     '1 name "JAZZ FM "\n3 name none\n'),
    ("with its tags", [ANNOUNCED, HI, TITLE, *[LOST] * 5], ["--keep", "2"],
     '1 text "HI"\n2 item 0 1\n2 tag1 ITEM.TITLE "HI"\n5 text none\n5 item none\n5 tag1 none\n'),
    ("the reason is that of the slot", [HI, LOST, HELL, LOST, LOST, LOST], ["--keep", "2", "--why"],
     '0 text "HI"\n4 text none dropped\n'),
    ("what did not count ends no text", [HI, HI, LOST, LOST, HELL_FLAG_1, LOST, LOST], ["--keep", "3", "--confirm", "2"],
     '1 text "HI"\n6 text none\n'),
]
# a text is sent in slot 1, and no group after it. The script, the words, and what is displayed
HI_SENT = "-,,1,G\ntext,HI,1,G\n"
SIM_ROWS = [
    ("nothing is kept", HI_SENT + "-,,0,L\n" * 3, [], ['1 text "HI"', "2 text none"]),
    ("kept for two slots", HI_SENT + "-,,0,L\n" * 4, ["--keep", "2"], ['1 text "HI"', "4 text none"]),
    ("a restart", HI_SENT + "-,,0,L\n-,,0,R\n", ["--keep", "9"], ['1 text "HI"', "3 text none"]),
    ("a restart, and why", HI_SENT + "-,,0,L\n-,,0,R\n", ["--keep", "9", "--why"],
     ['1 text "HI"', "3 text none restarted"]),
    # the station sends nothing in slot 3
    ("shown again after a restart", HI_SENT + "-,,0,R\n-,,1,G\n-,,1,G\n-,,0,L\n-,,0,L\n", ["--keep", "1"],
     ['1 text "HI"', "2 text none", '4 text "HI"', "6 text none"]),
]


def views(log, dwell, window):
    """Gives of each slot the values and the flags of the segments held, by service. A text has its item bits and tags."""
    receiver = Receiver(dwell)
    counted = counting([segment_of(line) for line in log], window)
    for slot, (line, segment) in enumerate(zip(log, counted)):
        receiver.hear(slot, line if segment or not segment_of(line) else LOST)
        text, name = (receiver.value(service, slot) for service in ("text", "name"))
        pairs = receiver.pairs(slot)
        shown = {"name": name, "text": text if text is None else (text, *parts(text, pairs[0] if pairs else None))}
        yield {service: (shown[service], run[0][1].flag if (run := receiver.run(service, slot)) else None)
               for service in ("text", "name")}


def parts(text, pair):
    """Returns what the output says of the item bits and of the tags of a pair for a text, each or None."""
    if pair is None:
        return None, None, None
    tags = [f'{CLASSES[kind]} "{text[start:start + extra + 1].decode()}"' if kind and start + extra < len(text) else None
            for kind, start, extra in tags_in(pair)]
    return f"{pair >> 36 & 1} {pair >> 35 & 1}", *tags


def kept(moments, slot, keep):
    """Returns what the display shows at the end of a slot. A moment is what the receiver shows, and the flag it holds."""
    last = next((at for at in range(slot, -1, -1) if moments[at][0] is not None), None)
    if last is None or slot - last > keep:
        return None
    value, flag = moments[last]
    return value if all(held in (None, flag) for _, held in moments[last:slot + 1]) else None


def displays(log, dwell, window, keep):
    """Gives what the display shows at the end of each slot of a log, by part."""
    seen = list(views(log, dwell, window))
    for slot in range(len(log)):
        text, name = (kept([it[service] for it in seen], slot, keep) for service in ("text", "name"))
        text, item, one, two = text or (None, None, None, None)
        yield {"text": text and f'"{text.decode()}"', "name": name and f'"{name.decode()}"', "item": item, "tag1": one,
               "tag2": two}


def changes(displayed):
    """Returns the lines of the parts that differ from the slot before."""
    before, lines = NOTHING, []
    for slot, now in enumerate(displayed):
        lines += [f"{slot} {part} {now[part] or 'none'}" for part in NOTHING if now[part] != before[part]]
        before = now
    return lines


def displays_of(receptions, groups, *rules):
    """Gives the same of a receiver of a world. It hears each log between two restarts anew."""
    log = []
    for slot, reception in enumerate(receptions):
        if reception == "R":
            yield from displays(log, *rules)
            yield NOTHING
            log = []
        elif reception[0] == "W":
            log.append(f"C201 {reception[1:5]} {reception[5:9]} {reception[9:]}")
        else:
            log.append(groups.get(slot - int(reception[1:] or 0), LOST) if reception[0] == "G" else LOST)
    yield from displays(log, *rules)


def receptions_of(rng, late, window):
    """Gives the receptions of a receiver in tunnels. Groups may come late, and with a window some are wrong."""
    last, is_lost, wrongs = -1, False, Wrongs(rng, window)
    for slot in range(SLOTS):
        is_lost ^= rng.random() < 1 / 8
        oldest = max(last + 1, slot - late, 0)
        if rng.random() < 1 / 50:
            yield "R"
        elif is_lost:
            wrong = wrongs.reception(slot) if window and rng.random() < 1 / 4 else "L"
            # the model does not know which tags count with a window
            yield "L" if wrong.startswith("WB") else wrong
        else:
            last = rng.randint(oldest, slot)
            yield f"G{slot - last}" if slot > last else "G"


def random_line(rng, flag, has_tags):
    """Returns a segment of a short text or name, mostly with this flag, tags, or a lost slot."""
    chance = rng.random()
    if chance < 0.4:
        return LOST
    if has_tags and chance < 0.5:
        return f"C201 B148 {rng.choice(('2002', '2080', '8000'))} {rng.choice(('0000', '2003', '0805'))}"
    flag = flag if rng.random() < 0.9 else 1 - flag
    first, other = rng.choice((("4142", "430D"), ("4142", "430D"), ("4444", "4444")))
    if chance < 0.8:
        return rng.choice((f"C201 {0x2140 | flag << 4:04X} {first} {other}", f"C201 {0x2141 | flag << 4:04X} 450D 2020"))
    address = rng.randrange(2)
    return f"C201 {0xA140 | flag << 4 | address:04X} {('4A41 5A5A', '2046 4D20')[address]}"


class Keep(ProgramCase):
    def test_worked_logs(self):
        for name, log, words, wanted in ROWS:
            given = "".join(f"{line}\n" for line in log).encode()
            self.check(name, ran([*DECODE, "--m", "2", *words], given), (0, wanted.encode()), "\n".join(log))

    def test_random_logs(self):
        seen = 0
        for number, _ in self.cases(range(LOGS)):
            rng = random.Random(f"{SEED} {number}")
            dwell, keep, window = rng.randrange(1, 10), rng.choice((0, 1, 2, 5, 12, 65535)), rng.choice((None, None, 3, 9))
            turns = sorted(rng.sample(range(SLOTS), 3))
            flags = [sum(slot >= it for it in turns) % 2 for slot in range(SLOTS)]
            # the model does not know which tags count with a window
            log = [ANNOUNCED, *(random_line(rng, flag, not window) for flag in flags)]
            confirm = ["--confirm", str(window)] if window else []
            given = "".join(f"{line}\n" for line in log)
            words = ["--m", str(dwell), "--keep", str(keep), *confirm]
            wanted = changes(displays(log, dwell, window, keep))
            status, output = ran([*DECODE, *words], given.encode())
            self.check(f"log {number}: {words}", (status, output.decode().splitlines()), (0, wanted), given)
            seen += keep > 0 and wanted != changes(displays(log, dwell, window, 0))
        self.check_all("kept: often", seen > 300, True)

    def test_worked_scripts(self):
        for name, rows, words, wanted in SIM_ROWS:
            status, output = ran([*SIM, "--m", "1", *words], rows.encode())
            self.check(name, (status, outputs.parts_of(output, False)[2][0]), (0, wanted), rows)

    def test_radios_with_the_flag_alone_keep_nothing_more(self):
        rows = f"{HI_SENT}-,,0,L\n".encode()
        without, kept_for_nine = (ran([*SIM, "--m", "1", "--flag-alone", *words], rows) for words in ([], ["--keep", "9"]))
        self.check("both outputs", without, kept_for_nine)

    def test_random_worlds(self):
        seen = 0
        for number, _ in self.cases(range(WORLDS)):
            rng = random.Random(f"worlds {SEED} {number}")
            dwell, keep, late = rng.randrange(1, 7), rng.choice((0, 1, 2, 5, 12, 65535)), rng.randrange(3)
            window = rng.choice((None, None, 3, 9))
            pair = [list(receptions_of(rng, late, window or 0)) for _ in range(2)]
            rows = [row._replace(receptions="".join(it)) for row, it in zip(random_rows(rng, SLOTS), zip(*pair))]
            if window:
                rows = [row._replace(command="-", argument="") if row.command == "tags" else row for row in rows]
            words = ["--m", str(dwell), "--k", str(late), *(["--confirm", str(window)] if window else [])]
            status, output = ran([*SIM, *words, "--keep", str(keep)], script(rows))
            _, groups, shown, _ = outputs.parts_of(output, False)
            wanted = [changes(displays_of(it, groups, dwell, window, keep)) for it in pair]
            self.check(f"world {number}: {words} {keep}", (status, [shown[0], shown[1]]), (0, wanted), script(rows))
            seen += keep > 0 and wanted != [changes(displays_of(it, groups, dwell, window, 0)) for it in pair]
        self.check_all("kept: often", seen > 300, True)

    def test_a_number_past_the_last_is_refused(self):
        for command in (DECODE, SIM):
            self.check(f"{command}: 65536", ran([*command, "--keep", "65536"], b"")[0], 2)
