"""`--rtplus`: each command over a log with tags in another group type does what it does without the option over the same
log with its tags in 11A. Here the two types are exchanged by arithmetic on block 2."""
import random
import re

from tests.calls import AUDIT, DECODE, ENCODE, SIM, WITNESS
from tests.support import ProgramCase, bytes_of, ran
from tests.test_notes import note, noted

SEED = 20261130
NUMBERS = (5, 6, 7, 8, 9, 11, 12, 13)
SCRIPT = bytes_of("examples/chanson.csv")


def other(code, number):
    """Returns the other one of the types 11A and `number`A, given as five bits, for one of them."""
    return {22: 2 * number, 2 * number: 22}.get(code, code)


def exchanged(second, number):
    """Returns block 2 with the two types exchanged."""
    code, rest = divmod(second, 2048)
    if code == 6:
        rest = rest // 32 * 32 + other(rest % 32, number)
    return other(code, number) * 2048 + rest


def with_exchanged(lines, number):
    """Returns these lines of a log, or of `sim`, with the two types exchanged in each group."""
    result = []
    for line in lines.decode().splitlines():
        head, found, group = line.rpartition("C201 ")
        if found:
            group = f"{exchanged(int(group[:4], 16), number):04X}{group[4:]}"
        result.append(head + found + group)
    return "".join(f"{it}\n" for it in result).encode()


def random_log(rng):
    """Returns a log of two texts with their tags, of announcements, and of groups of any type."""
    pool = [f"C201 {0x2000 | flag << 4 | place:04X} {text[:4]} {text[4:]}" for flag, text in ((0, "41424344"), (1, "580D2020"))
            for place in range(1 + (flag == 0))]
    pool += ["C201 3016 0000 4BD7", "C201 3018 0000 4BD7", "C201 B148 2002 0000", "C201 B158 8006 08E7", "C201 C148 2002 0000",
             "C201 A140 4A41 5A5A", "C201 A141 5A5A 4A41"]
    pool += [f"C201 {rng.randrange(65536):04X} {rng.randrange(65536):04X} 4BD7" for _ in range(4)]
    lines = [None if rng.random() < 0.2 else rng.choice(pool) for _ in range(rng.randrange(8, 40))]
    return "".join(f"{it or '---- ---- ---- ----'}\n" for it in lines).encode()


class Rtplus(ProgramCase):
    def test_logs(self):
        rng = random.Random(SEED)
        for number in range(200):
            log, group = random_log(rng), rng.choice(NUMBERS)
            call = rng.choice(([*DECODE, "--m", "5"], [*DECODE, "--why", "--m", "3"], [*AUDIT, "--all", "--m", "4"],
                               [*AUDIT, "--running", "--m", "2"], WITNESS, [*WITNESS, "--lose", "1-3"]))
            self.check(f"seed {SEED}, log {number}: {call} {group}A",
                       ran([*call, "--rtplus", f"{group}A"], with_exchanged(log, group)), ran(call, log))

    def test_scripts(self):
        for call in ([*ENCODE, "--m", "8"], [*SIM, "--m", "8"]):
            status, written = ran(call, SCRIPT)
            self.check(f"{call[0]}: tags are sent", b" B158 " in written and b" 3156 " in written, True)
            for group in NUMBERS:
                self.check(f"{call[0]} {group}A", ran([*call, "--rtplus", f"{group}A"], SCRIPT),
                           (status, with_exchanged(written, group)))

    def test_what_is_encoded_is_read_again(self):
        plain = ran([*ENCODE, "--m", "8"], SCRIPT)[1]
        log = ran([*ENCODE, "--m", "8", "--rtplus", "12A"], SCRIPT)[1]
        for call in ([*DECODE, "--m", "8"], [*AUDIT, "--m", "8"]):
            self.check(call[0], ran([*call, "--rtplus", "12A"], log), ran(call, plain))

    def test_notes(self):
        """Notes name the group types of the log, and the commands that they propose have the option."""
        log = b"C201 3018 0000 4BD7\nC201 2140 4849 0D20\nC201 C14F 2002 0000\n"
        no = noted("audit --pi C201 --m 8 --rtplus 12A", log)
        self.check("the commands", re.findall("rdsrt (?:audit|witness) [^.]*", no[2]),
                   ["rdsrt audit --all --pi C201 --m 8 --rtplus 12A", "rdsrt witness --pi C201 --m 8 --rtplus 12A"])
        self.check("other tags", noted("decode --pi C201 --rtplus 12A", log.replace(b"3018", b"3016") + b"C201 B14F 2002 0000\n")[2],
                   note("RT+ is in group 11A by the 3A groups, not in 12A: 1 group 11A was not read. Give --rtplus 11A"))
        self.check("another application", noted("decode --pi C201 --rtplus 12A", log.replace(b"4BD7", b"CD46"))[2],
                   note("group 12A carries the application CD46 by the 3A groups, not RT+: after such a 3A group receivers ignore them"))
        self.check("nothing to read", noted("audit --pi C201 --rtplus 13A", b"C201 B14F 2002 0000\n")[2],
                   note("no 2A, 10A or 13A group of C201: the yes says nothing"))

    def test_unequal_options_show_tags_of_another_text(self):
        """The headline asks for one `--rtplus`. A log has HI, then YO and its tags, too early. Without the option of its
        tags `audit` judges none of them and says yes. A receiver that loses YO, with the option, shows them of HI."""
        sent = b"C201 3018 0000 4BD7\nC201 2140 4849 0D20\nC201 2150 594F 0D20\nC201 C148 2002 0000\n"
        for tags, other in ((12, 11), (11, 12)):
            log = sent if tags == 12 else with_exchanged(sent, 12)
            heard = b"".join(it if b"594F" not in it else b"---- ---- ---- ----\n" for it in log.splitlines(True))
            judged = [ran([*AUDIT, "--m", "4", "--rtplus", f"{it}A"], log) for it in (other, tags)]
            self.check(f"tags in {tags}A: audit", judged, [(0, b"yes 4\n"), (1, b"no 3 EarlyTag\n")], log)
            shown = [ran([*DECODE, "--m", "4", "--rtplus", f"{it}A"], heard)[1] for it in (tags, other)]
            self.check(f"tags in {tags}A: decode", shown,
                       [b'1 text "HI"\n3 item 0 1\n3 tag1 ITEM.TITLE "HI"\n', b'1 text "HI"\n'], heard)

    def test_other_groups_are_refused(self):
        for group in ("10A", "11B", "12", "12a", "4A", "14A", "", "+12A"):
            for words in (f"--rtplus={group}", f"--m 8 --rtplus '{group}'"):
                self.check(words, noted(f"decode --pi C201 {words}", b""),
                           (2, b"", note(f'--rtplus "{group}": write one of 5A, 6A, 7A, 8A, 9A, 11A, 12A and 13A')))
