"""The command `witness` beside the plain search of plain_witness.py on short logs by chance, and on worked logs.

Each line that is printed is looked up in the output of `decode`, for the log without the slots and for the whole log.
"""
import random
import re

from tests.plain_witness import ANNOUNCED, LOST, first_mix
from tests.support import ProgramCase, ran, text_of

NONE = "no witness found with one burst lost"
LOGS = 3000
SEED, SEED_ELSEWHERE = 20261126, 51


def line(number, flag, address, data):
    """Returns a group of this number as a line of a log."""
    return f"C201 {number << 12 | 0x140 | flag << 4 | address:04X} {data[:2].hex().upper()} {data[2:].hex().upper()}"


def random_log(rng):
    """Returns some slots of an encoder that keeps no rule: few short texts and names, in any order, with any flags."""
    texts = [[b"ABCD", b"EF\r "], [b"GHIJ", b"KL\r "], [b"XY\r "], [b"ABCD", b"KLMN", b"O\r  "]]
    text, flag, name, turn, slots = rng.choice(texts), 0, [b"JAZZ", b" FM "], 0, [ANNOUNCED]
    for _ in range(rng.randrange(4, 15)):
        if rng.random() < 0.25:
            text, flag, turn = rng.choice(texts), flag ^ (rng.random() < 0.7), 0
        draw = rng.random()
        if draw < 0.7:
            slots.append(line(2, flag, turn % len(text), text[turn % len(text)]))
            turn += 1
        elif draw < 0.8:
            slots.append(line(10, rng.randrange(2), *rng.choice([(0, name[0]), (1, name[1]), (0, b"NEWS")])))
        elif draw < 0.9:
            bits = 1 << 29 | rng.randrange(3) << 23 | rng.randrange(4) << 17
            slots.append(line(11, bits >> 36 & 1, bits >> 32 & 15, (bits & 0xFFFFFFFF).to_bytes(4, "big")))
        else:
            slots.append(LOST)
    return slots


def logged(slots):
    """Returns the log as the program reads it."""
    return "".join(f"{it}\n" for it in slots).encode()


def witness(slots, dwell):
    """Returns the status and the lines of the command."""
    status, output = ran(["witness", "--pi", "C201", "--m", str(dwell)], logged(slots))
    return status, output.decode().splitlines()


def decoded(slots, dwell):
    """Returns the lines of `decode`."""
    return ran(["decode", "--pi", "C201", "--m", str(dwell)], logged(slots))[1].decode().splitlines()


def thing_of(line):
    """Returns a line of `decode` without its slot, and without the place of a tag."""
    return re.sub("^tag[12]", "tag", line.partition(" ")[2])


def moved(lines, times):
    """Returns the lines of the command if each slot had so many times its number."""
    number = r"\b\d+(?=[-:]| (?:text|name|tag[12]) )"
    return [re.sub(number, lambda it: str(int(it[0]) * times), it, count=3) for it in lines]


def mixes_of(slots, dwell, burst, slot):
    """Returns the line of each thing that a receiver newly shows in the slot if it loses the burst, and that a receiver
    that loses nothing does not show up to M - 1 slots later."""
    first, last = burst
    emptied = [LOST if first <= at <= last else it for at, it in enumerate(slots)]
    known = {thing_of(it) for it in decoded(slots[:slot + dwell], dwell)}
    shown, lines = {}, []
    for line in decoded(emptied[:slot + 1], dwell):
        at, part, *_ = line.split(" ")
        if int(at) < slot:
            shown[part] = thing_of(line)
        elif part in ("text", "name", "tag1", "tag2") and not line.endswith(" none"):
            lines.append(line)
    return [it for it in lines if thing_of(it) not in known and thing_of(it) not in shown.values()]


class Case(ProgramCase):
    def confirm(self, name, slots, dwell, printed):
        """Checks that `decode` prints the line without the lost slots, and that it shows the same thing nowhere in the
        whole log up to M - 1 slots later. Returns the slot of the mix."""
        found = re.fullmatch(r"lose (\d+)(?:-(\d+))?: ((\d+) .*)", printed)
        first, last, line, slot = int(found[1]), int(found[2] or found[1]), found[3], int(found[4])
        emptied = [LOST if first <= at <= last else it for at, it in enumerate(slots)]
        self.check(f"{name}: {printed}: without the slots", line in decoded(emptied, dwell), True,
                   logged(slots))
        known = {thing_of(it) for it in decoded(slots[:slot + dwell], dwell)}
        self.check(f"{name}: {printed}: with them", thing_of(line) in known, False, logged(slots))
        return (first, last), slot


def logs_by_chance():
    """Gives a dwell and a log, and with each tenth log another programme and a number of times."""
    rng, elsewhere = random.Random(SEED), random.Random(SEED_ELSEWHERE)
    for number in range(LOGS):
        dwell, slots = rng.choice((2, 3, 4, 6)), random_log(rng)
        other = (f"{elsewhere.randrange(65536):04X}", elsewhere.choice((2, 40, 1000, 10_000)))
        yield dwell, slots, other if number % 10 == 0 else None


class ByChance(Case):
    def test_a_mix_is_found_exactly_if_the_plain_search_finds_one(self):
        """Both find it in the same slot."""
        found, several = 0, 0
        for number, (dwell, slots, other) in self.cases(logs_by_chance()):
            status, lines = witness(slots, dwell)
            name, best = f"seed {SEED}, log {number}, dwell {dwell}", first_mix(slots, dwell)
            got = {self.confirm(name, slots, dwell, it) for it in lines if it != NONE}
            self.check(f"{name}: first mix", (status, {slot for _, slot in got}),
                       (0, set()) if best is None else (1, {best}), logged(slots))
            for burst, slot in got:
                self.check(f"{name}: each mix of slot {slot} has a line", [it.partition(": ")[2] for it in lines],
                           mixes_of(slots, dwell, burst, slot), logged(slots))
                several += len(lines) > 1
            found += bool(got)
            if other is not None:
                self.elsewhere(name, slots, dwell, (status, lines), *other)
        self.check_all("logs with a mix, and without", LOGS // 15 < found < LOGS - LOGS // 15, True)
        self.check_all("logs with several mixes in one slot", several > 5, True)

    def elsewhere(self, name, slots, dwell, answer, pi, times):
        """Checks that the answer is the same for another programme, and for longer slots and dwells."""
        others = [it if it == LOST else pi + it[4:] for it in slots]
        status, output = ran(["witness", "--pi", pi, "--m", str(dwell)], logged(others))
        self.check(f"{name}: programme {pi}", (status, output.decode().splitlines()), answer, logged(others))
        longer = [it for line in slots for it in [line] + [LOST] * (times - 1)]
        self.check(f"{name}: {times} times as long", witness(longer, dwell * times),
                   (answer[0], moved(answer[1], times)), logged(slots))


class Worked(Case):
    # the line over examples/flags.log at M = 8
    POP_FM = 'lose 2-3: 4 text "POP  FM"'

    def setUp(self):
        self.flags = text_of("examples/flags.log").splitlines()

    def test_the_log_of_readme(self):
        self.check("flags.log", witness(self.flags, 8), (1, [self.POP_FM]))
        self.confirm("flags.log", self.flags, 8, self.POP_FM)
        other = ran(["witness", "--pi", "C202"], logged(self.flags))
        self.check("another programme", other, (0, f"{NONE}\n".encode()))
        self.check("a bad line", ran(["witness", "--pi", "C201"], logged([*self.flags, "x"])), (1, b"fault line 7\n"))

    def test_the_shortest_and_the_longest_dwell(self):
        """With M = 1 no two segments are joined. The longest dwell joins the segments that M = 8 joins here."""
        self.check("M = 1", witness(self.flags, 1), (0, [NONE]))
        self.check("M = 65535", witness(self.flags, 65535), (1, [self.POP_FM]))
        self.confirm("M = 65535", self.flags, 65535, self.POP_FM)

    def test_a_fault_in_the_depth_of_a_long_lawful_log(self):
        texts = ["JAZZ AND SOUL", "NEWS AT TEN"]
        rows = [f"text,{texts[at % 32 > 0]},1,\n" if at % 16 == 0 else "-,,1,\n" for at in range(20_000)]
        log = ran(["encode", "--pi", "C201", "--m", "8"], "".join(rows).encode())[1].decode().splitlines()
        lawful = [it for it in log if it[0] != "#"] + [LOST] * 16
        self.check("a lawful log", witness(lawful, 8), (0, [NONE]))
        status, lines = witness(lawful + self.flags, 8)
        self.check("in the depth of a log", (status, len(lines)), (1, 1))
        self.confirm("in the depth of a log", lawful + self.flags, 8, lines[0])

    def test_a_no_that_no_receiver_pays_for(self):
        # one text of one segment, with a flag that turns each time
        harmless = [line(2, at % 2, 0, b"HI\r ") for at in range(3)] + [LOST] * 60
        self.check("alone", witness(harmless, 8), (0, [NONE]))
        self.check("the first behind it", witness(harmless + self.flags, 8), (1, ['lose 65-66: 67 text "POP  FM"']))
