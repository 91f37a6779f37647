"""Many slots: the page answers as the program does."""
import json

from tests.page_support import ChromiumCase, call, first_examples, idle, move, program, settle, text_of

SLOTS = 100_000
# a day of slots: a text every 342 slots, in two segments
DAY = 982_000


def day_of_slots():
    """Returns the log of a day."""
    out = []
    for slot in range(DAY):
        number = slot // 342
        text = f"{number:04d}JAZ".encode() + b"\r"
        half = text[:4] if slot % 2 == 0 else text[4:]
        out.append(f"C201 21{4 + number % 2}{slot % 2} {half[:2].hex().upper()} {half[2:].hex().upper()}")
    return "\n".join(out) + "\n"


def give_day(b, log):
    """Makes the log a file of the page, `day`."""
    b.run("window.pieces = []")
    for at in range(0, len(log), 4_000_000):
        b.run(f"pieces.push({json.dumps(log[at:at + 4_000_000])})")
    b.run("window.day = new File([pieces.join('')], 'day.log'); window.pieces = null; undefined")


def take_day(b):
    """Shows the first examples again."""
    b.run("window.day = null")
    first_examples(b)


class Chromium(ChromiumCase):
    def test_100000_slots_are_answered_as_by_the_program(self):
        b = self.b
        rows = "".join(f"{f'text,Song number {slot}' if slot % 600 == 300 else '-,'},{1 if slot % 3 else 0},\n" for slot in range(SLOTS))
        script = rows.encode()
        log = program(["encode", "--pi", "C201"], script)[1].encode()
        for words, data in ((["encode", "--pi", "C201"], script), (["audit", "--pi", "C201"], log), (["decode", "--pi", "C201"], log)):
            got = b.run(f"probe.run({json.dumps(words)}, {json.dumps(data.decode())})[1]")
            self.check(f"{words[0]} of many slots", got, program(words, data)[1])

    def test_the_log_of_a_day_is_shown(self):
        b = self.b
        log = day_of_slots()
        give_day(b, log)
        b.run("probe.openFile(day)")
        call(b, "probe.choose", "log-m", 100)
        settle(b)
        move(b, "log", 981999)
        idle(b)
        self.check("its verdict", text_of(b, "#verdict h2"), "✓ Passes with M = 100 (8.76 s)")
        before, after = json.dumps(log[:10_000_000]), json.dumps(log[:100_000])
        b.run(f"window.day = new File([{before}, 'bad\\n', {after}], 'bad.log'); undefined")
        b.run("probe.openFile(day)")
        idle(b)
        self.check("the line of a fault is named", text_of(b, "#verdict h2"), "✓ Passes up to line 500,000 with M = 100 (8.76 s)")
        take_day(b)
