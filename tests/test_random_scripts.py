"""Arguments and scripts by chance: each of the four commands beside the others, and bad rows and lines at any depth."""
import bisect
import collections
import functools
import itertools
import random

from tests import outputs, plain_audit, random_scripts
from tests.calls import OF_A_STATION
from tests.support import ProgramCase, ran
from tests.worked_rows import HI

SEED = 20261122
# the output over an empty input, of the commands that have some
OVER_NOTHING = {"audit": b"yes 0\n", "witness": b"no witness found with one burst lost\n"}
BAD_LINES = (b"x\n", b"C201\n", b"C201 2140 4849 0D2\n", b" ---- ---- ---- ----\n", b"---- ---- ---- ----x\n")


class Scripts(ProgramCase):
    """Scripts of good rows for each dwell and lateness, and each with a bad row at some depths."""

    def setUp(self):
        self.seen = collections.Counter()

    def test_all_commands_agree_on_scripts_by_chance(self):
        stations = 4 * list(itertools.product(random_scripts.DWELLS, random_scripts.LATENESSES))
        for number, (dwell, late) in self.cases([*stations, (65535, 0), (65535, 1024)]):
            # each script can be made without those before it
            self.rng = random.Random(f"{SEED} {number}")
            count = self.rng.choice((0, 1, 2, 3, 10, 50, 200, 600))
            # some scripts are long enough that texts follow one another
            count += 3 * (dwell + late) if dwell <= 1000 and self.rng.random() < 0.5 else 0
            self.family(number, dwell, late, count if number < len(stations) else 70_000)
        replies = {"ok", "silent", "held", "notext", "outoftext", "restart"}
        self.check_all("replies", replies - {it for it, times in self.seen.items() if times > 20}, set())
        self.check_all("receivers that showed something", {f"view of {it}" for it in range(8)} - set(self.seen), set())
        self.check_all("faults", self.seen["bad row"] > 500, True)

    def family(self, number, dwell, late, count):
        """Plays a script of so many rows, the same with a bad row, and its log with a bad line."""
        rng = self.rng
        asked, receivers = random_scripts.station(rng, dwell, late), rng.randrange(9)
        kept = list(random_scripts.rows(rng, count, receivers, late))
        rows = [row for row, _ in kept]
        name = f"seed {SEED}, script {number} of {count} rows, {receivers} receivers, {asked}"
        words, log = self.good_script(asked, name, rows)
        for depth in {0, count, *(rng.randrange(count + 1) for _ in range(2))}:
            lasts = kept[depth - 1][1] if depth else [-1] * receivers
            self.bad_row_at(asked, f"{name}, bad row at {depth}", words, rows, depth, lasts)
        self.bad_line_at(f"{name}, bad line", words, log, rng.randrange(count + 1))

    def good_script(self, asked, name, rows):
        """Plays good rows with `sim` and `encode`, and the log with `decode` and `audit`. Returns the arguments and the
        log."""
        words = {command: random_scripts.words(self.rng, command, asked) for command in OF_A_STATION}
        script = b"".join(map(random_scripts.line, rows))
        check = functools.partial(self.check, given=script)
        status, simulated = ran(words["sim"], script)
        check(f"{name}: end of sim", status, 0)
        status, log = ran(words["encode"], b"".join(random_scripts.line(row._replace(receptions="")) for row in rows))
        check(f"{name}: end of encode", status, 0)
        replies, groups, views, _ = outputs.parts_of(simulated, False)
        *encoded, slots = outputs.parts_of(log, True)
        check(f"{name}: a slot line for each row", slots, len(rows))
        check(f"{name}: encode as sim", encoded[:2], [replies, groups])
        commands = [(slot, row.command) for slot, row in enumerate(rows) if row.command != "-"]
        check(f"{name}: a reply for each command", [it[:2] for it in replies], commands)
        check(f"{name}: groups only in free slots", [slot for slot in groups if rows[slot].free == "0"], [])
        starts = [0, *(slot for slot, row in enumerate(rows) if row.command == "restart")]
        ages = {slot: slot - starts[bisect.bisect_right(starts, slot) - 1] for slot in groups}
        check(f"{name}: silence at first", [slot for slot, age in ages.items() if age < asked.dwell + asked.late], [])
        heads = {(it[:4], int(it[5:9], 16) & 0x7E0) for it in groups.values()}
        check(f"{name}: heads", heads - {(asked.pi, asked.tp << 10 | asked.pty << 5)}, set())
        # the first receiver gets each group in its slot
        status, shown = ran(words["decode"], log)
        check(f"{name}: end of decode", status, 0)
        if rows and rows[0].receptions:
            check(f"{name}: decode as the first receiver", shown.decode().splitlines(), views[0])
        blocks = [groups[slot].split() if slot in groups else None for slot in range(len(rows))]
        answer = plain_audit.audit(blocks, asked.dwell + asked.late)
        self.check_run(f"{name}: audit", words["audit"], log, (0 if answer.startswith("yes") else 1, answer.encode()))
        self.seen.update(rest.split(" ")[0] or what for _, what, rest in replies)
        self.seen.update(f"view of {number}" for number in views)
        return words, log

    def bad_row_at(self, asked, name, words, rows, depth, lasts):
        """Puts a malformed record after so many rows. The output is that of the rows before it, and the fault."""
        for command, mark in (("sim", b""), ("encode", b"# ")):
            good = [row if command == "sim" else row._replace(receptions="") for row in rows]
            before, after = (b"".join(map(random_scripts.line, it)) for it in (good[:depth], good[depth:]))
            bad = random_scripts.bad_line(self.rng, depth, asked.late, lasts, command == "encode")
            _, wanted = ran(words[command], before)
            given = before + bad + after
            self.check_run(f"{name} of {command}, {bad!r}", words[command], given,
                           (1, wanted + mark + b"fault row %d\n" % (depth + 1)))
            self.seen["bad row"] += 1

    def bad_line_at(self, name, words, log, depth):
        """Puts a malformed line after so many slots of the log."""
        lines = log.splitlines(keepends=True)
        ends = [0] + [number for number, it in enumerate(lines, 1) if it[:1] != b"#"]
        place = ends[depth]
        given = b"".join((*lines[:place], self.rng.choice(BAD_LINES), *lines[place:]))
        fault = b"fault line %d\n" % (place + 1)
        _, wanted = ran(words["decode"], b"".join(lines[:place]))
        self.check_run(f"{name} of decode", words["decode"], given, (1, wanted + fault))
        status, wanted = ran(words["audit"], b"".join(lines[:place]))
        self.check_run(f"{name} of audit", words["audit"], given, (1, wanted if status else fault))


class Arguments(ProgramCase):
    def test_good_arguments_are_taken_and_a_wrong_one_is_refused(self):
        most = 0
        for number, _ in self.cases(range(300)):
            rng = random.Random(f"{SEED} {number}")
            asked = random_scripts.station(rng, rng.choice(random_scripts.DWELLS),
                                           rng.choice(random_scripts.LATENESSES))
            for command in OF_A_STATION:
                words = random_scripts.words(rng, command, asked)
                most = max(most, len(words))
                self.check(f"seed {SEED}, {words}", ran(words), (0, OVER_NOTHING.get(command, b"")))
                words = random_scripts.refused_words(rng, command, asked)
                status, output = ran(words, HI)
                self.check(f"seed {SEED}, refused {words}", (status, output[:7]), (2, b"error: "))
        self.check_all("eleven words", most, 11)
