"""`audit --padded` beside two plain checks of its rule: a search for plans, and the reigns."""
import collections
import random

from tests import plain_audit, plain_padded
from tests.calls import AUDIT
from tests.support import ProgramCase, ran

SEED = 20261129
BYTES = (0x41, 0x42, 0x20, 0x0D, 0x00, 0x0A)
TAGS = ("C201 B148 2002 0000", "C201 B158 8006 08E7", "C201 B148 207E 0000")


def random_log(rng):
    """Returns a short log of a few segments, tags and names."""
    addresses = rng.sample(range(16 if rng.random() < 0.5 else 3), 2)
    pool = [plain_padded.segment(int(rng.random() < 0.3), rng.choice(addresses), bytes(rng.choices(BYTES, k=4)))
            for _ in range(rng.randrange(2, 5))]
    if rng.random() < 0.4:
        pool.append(rng.choice(TAGS).split())
    if rng.random() < 0.2:
        pool.append("C201 A140 4A41 5A5A".split())
    return [None if rng.random() < 0.25 else rng.choice(pool) for _ in range(9)]


class Padded(ProgramCase):
    def test_random_logs_beside_both_plain_checks(self):
        rng, answers = random.Random(SEED), collections.Counter()
        for number in range(1000):
            log, dwell = random_log(rng), rng.randrange(1, 5)
            wanted = plain_padded.answer_by_reigns(log, dwell)
            slot = None if wanted.startswith("yes") else int(wanted.split()[1])
            self.check(f"seed {SEED}, plans of log {number}", plain_padded.answer_by_plans(log, dwell), slot)
            self.check(f"seed {SEED}, log {number}", ran([*AUDIT, "--padded", "--m", str(dwell)],
                                                          plain_padded.lines_of(log))[1], wanted.encode())
            answers[wanted.split()[-1] if slot is not None else "yes"] += 1
        self.check_all("answers", min(answers.values()) > 4, True)

    def test_all_faults_after_a_segment_that_fits_no_text(self):
        """It leaves the lengths as they are, and later segments narrow them: the tag at places 0 to 7 is outside of the text
        "?ABB". With the option a change behind the carriage return is no fault."""
        bad, good, end = "C201 2140 0041 4142", "C201 2140 4141 4142", "C201 2141 0D20 2020"
        tags = [TAGS[0], "C201 B148 200E 0000"]
        padding = ["C201 2142 4141 4141", "C201 2142 4242 4242"]
        for log, options, wanted in (([bad, end, *tags], [], "no 0 NotOneText\nno 3 TagOutside\n"),
                                     ([bad, end, *tags], ["--padded"], "no 0 NotOneText\nno 3 TagOutside\n"),
                                     ([good, end, *tags], ["--padded"], "no 3 TagOutside\n"),
                                     ([bad, end, *padding], ["--padded"], "no 0 NotOneText\n"),
                                     ([good, end, *padding], ["--padded"], "yes 4\n")):
            got = ran([*AUDIT, "--all", "--running", "--m", "1", "--k", "9", *options], "".join(f"{it}\n" for it in log).encode())
            self.check(f"{options}", got[1], wanted.encode(), "\n".join(log))

    def test_ways_to_pad(self):
        """Each way with a carriage return passes; without the option only two ways do."""
        texts = [b"NEWS AT NINE", b"POP FM - THE BEST OF TODAY", b"HI", b"WEATHER: RAIN IN THE WEST"]
        for way in plain_padded.WAYS:
            for order in plain_padded.ORDERS:
                slots = plain_padded.station(random.Random(SEED), way, order, texts, rounds=32)
                for options, answer in ((["--padded"], plain_padded.answer_by_reigns(slots, 32)),
                                        ([], plain_audit.audit(slots, 32))):
                    self.check(f"{way}, {order}, {options}", ran([*AUDIT, *options, "--m", "32"],
                                                                 plain_padded.lines_of(slots))[1], answer.encode())
