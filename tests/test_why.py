"""`--why` by chance: why a text or a name is not shown any more, beside a plain check of the slots that each receiver
got. The output is otherwise that without `--why`."""
import collections
import random
import re

from tests import outputs
from tests.plain_receiver import counting, segment_of
from tests.plain_worlds import DWELL, SLOTS, random_rows, script
from tests.support import ProgramCase, ran
from tests.test_flag_alone import heard
from tests.test_worlds import receptions_of

WORLDS, RECEIVERS = 120, 2
REASONS = ("incomplete", "dropped", "restarted")
PARTS = ("text", "name")


def lives_of(rows, groups, receiver):
    """Gives the first slot of each life of a receiver, and the lines that it got in it. In the slot of a restart it gets
    nothing."""
    first, life = 0, []
    for slot, row in enumerate(rows):
        reception = re.findall(r"[A-Z][0-9A-F]*", row.receptions)[receiver]
        if reception == "R":
            yield first, life
            first, life = slot + 1, []
        else:
            life.append(heard(reception, slot, groups))
    yield first, life


class Why(ProgramCase):
    def play(self, seed, dwell, late, window):
        """Plays a world, and compares each reason. Returns them."""
        rng = random.Random(seed)
        receptions = zip(*(receptions_of(rng, late, window, SLOTS) for _ in range(RECEIVERS)))
        rows = [row._replace(receptions="".join(it)) for row, it in zip(random_rows(rng), receptions)]
        confirm = ["--confirm", str(window)] if window else []
        words = ["sim", "--pi", "C201", "--m", str(dwell), "--k", str(late), *confirm]
        name, given = f"seed {seed}, M {dwell}, K {late}, W {window}", script(rows)
        (status, output), plain = ran([*words, "--why"], given), ran(words, given)[1]
        cut = re.sub(rb"(?m)( r\d (?:text|name) none) \w+$", rb"\1", output)
        self.check(f"{name}: the rest", (status, cut), (0, plain), given)
        _, groups, changes, _ = outputs.parts_of(output, False)
        reasons = []
        for receiver in range(RECEIVERS):
            gone = [it.split() for it in changes[receiver] if re.match(r"\d+ (text|name) none", it)]
            told = {(int(slot), part): why for slot, part, _, why in gone}
            wanted = self.wanted(rows, groups, receiver, told, (dwell, window))
            self.check(f"{name}: receiver {receiver}", told, wanted, given)
            options, lives = ["--m", str(dwell), *confirm], lives_of(rows, groups, receiver)
            self.decode(f"{name}: receiver {receiver}", lives, told, options)
            reasons += told.values()
        return reasons

    def wanted(self, rows, groups, receiver, gone, tuning):
        """Returns the reason for each part that went in a slot, by what the receiver got."""
        dwell, window = tuning
        found = {}
        for first, life in lives_of(rows, groups, receiver):
            counted = counting(map(segment_of, life), window)
            for part in PARTS:
                counts = [it is not None and it.service == part for it in counted]
                # the slot after the life is that of the restart
                for slot in range(len(life) + 1):
                    if (first + slot, part) not in gone:
                        continue
                    lately = counts[max(0, slot + 1 - dwell):slot + 1]
                    why = "restarted" if slot == len(life) else "incomplete" if any(lately) else "dropped"
                    found[first + slot, part] = why
        return found

    def decode(self, name, lives, told, options):
        """Compares `decode --why` over each life of a receiver with what `sim` said of it."""
        for first, life in lives:
            log = "".join(f"{line}\n" for line in life).encode()
            output = ran(["decode", "--pi", "C201", *options, "--why"], log)[1].decode()
            gone = {(first + int(slot), part): why
                    for slot, part, why in re.findall(r"(?m)^(\d+) (text|name) none (\w+)$", output)}
            wanted = {at: why for at, why in told.items() if first <= at[0] < first + len(life)}
            self.check(f"{name}, from slot {first}: decode", gone, wanted, log)

    def test_why_a_text_or_a_name_is_not_shown(self):
        """Groups are lost, late and wrong, and the station and the receivers restart."""
        reasons = collections.Counter()
        for _, seed in self.cases(range(WORLDS)):
            window = seed % 3 and 2 + seed % 9
            reasons.update(self.play(seed, DWELL + seed % 3, seed % 4, window))
        self.check_all("each reason", min(reasons[it] for it in REASONS) > 20, True)
