"""Tests of the package beside the program that RDSRT_PROGRAM names."""
import io
import random
import re
import subprocess
import unittest

import by_chance
import rdsrt
from by_chance import PROGRAM, ran
from rdsrt import Audit, MalformedLine, Receiver, format_group, read_log, slot_time, type_name
from rdsrt.characters import CHARACTERS, PRINTED, coded


def program_name(number):
    return type_name(number) if number <= 11 else str(int(number))


@unittest.skipUnless(PROGRAM, "RDSRT_PROGRAM does not name the program")
class BesideTheProgram(unittest.TestCase):
    def test_version(self):
        self.assertEqual(ran("--version"), [f"rdsrt {rdsrt.__version__}"])
        self.assertEqual(rdsrt.library_version(), rdsrt.__version__)

    def test_each_byte_is_shown_as_the_program_prints_it(self):
        log = "".join(f"C201 2140 {byte:02X}0D 2020\n---- ---- ---- ----\n" for byte in range(256)).encode()
        printed = [re.fullmatch(r'(\d+) text "(.*)"', it) for it in ran("decode", "--pi", "C201", "--m", "1", log=log)]
        printed = {int(it[1]) // 2: it[2] for it in printed if it}
        self.assertGreaterEqual(set(printed), set(range(0x20, 256)))
        table = {first + at: it for first, stretch in PRINTED.items() for at, it in enumerate(stretch)}
        for byte, character in printed.items():
            if byte == 0x0D:
                self.assertEqual(character, "")
            elif character.startswith("\\x"):
                self.assertEqual(character, f"\\x{byte:02X}")
                self.assertTrue(byte not in table or table[byte] == '"', character)
            else:
                self.assertEqual((table[byte], CHARACTERS[byte]), (character, character))

    def test_each_character_is_read_as_the_program_reads_it(self):
        characters = [it for stretch in PRINTED.values() for it in stretch]
        rows = "-,,1,\n" + "".join('text,"{}",1,\n-,,1,\n'.format(it.replace('"', '""')) for it in characters)
        log = subprocess.run([PROGRAM, "encode", "--pi", "C201", "--m", "1"], input=rows.encode(), capture_output=True,
                             timeout=by_chance.SECONDS).stdout
        # groups 2A
        firsts = [it[2] >> 8 for it in read_log(io.BytesIO(log)) if it and it[1] >> 11 == 4]
        self.assertEqual(list(dict.fromkeys(firsts)), [coded(it)[0] for it in characters])

    def test_decode(self):
        rng, changes = random.Random(7), 0
        for dwell in (1, 8, 16, 32, 300):
            groups = by_chance.heard(rng, by_chance.groups(rng, dwell, 4000))
            for keep in (0, 5, 60):
                receiver, words = Receiver(0xC201, dwell, keep_seconds=slot_time(keep)), ["--m", str(dwell), "--keep", str(keep)]
                lines = ran("decode", "--pi", "C201", *words, log=by_chance.log_of(groups))
                mine = [by_chance.shown_in(*it, program_name) for it in receiver.watch(groups)]
                self.assertEqual(mine, by_chance.shown_by(lines))
                changes += len(mine)
        self.assertGreater(changes, 1000)

    def test_audit(self):
        rng, answers = random.Random(8), set()
        for _ in range(40):
            dwell, late = rng.choice((1, 8, 16)), rng.choice((0, 3))
            groups = by_chance.groups(rng, rng.choice((dwell + late, 4)), rng.choice((40, 400)), rng.choice((0.8, 1)))
            words = ["audit", "--pi", "C201", "--m", str(dwell), "--k", str(late)]
            audit = Audit(0xC201, dwell, late)
            found = audit.take(read_log(io.BytesIO(by_chance.log_of(groups))))
            self.assertEqual(audit.passed, found is None)
            mine = f"no {found[0]} {found[1]}" if found else f"yes {audit.slots}"
            self.assertEqual(ran(*words, log=by_chance.log_of(groups)), [mine])
            answers.add(mine.partition(" ")[2] if found is None else str(found[1]))
        self.assertGreater(len(answers), 3)

    def test_all_faults(self):
        rng, faults = random.Random(10), 0
        for number in range(40):
            groups = by_chance.groups(rng, rng.choice((2, 4, 8)), rng.choice((40, 400)), rng.choice((0.8, 1)))
            log, running, padded = by_chance.log_of(groups), number % 2, number // 2 % 2
            audit = Audit(0xC201, 30, running=bool(running), padded=bool(padded))
            mine = [f"no {slot} {fault}" for slot, group in enumerate(read_log(io.BytesIO(log)))
                    for fault in audit.all_faults(group)]
            faults += len(mine)
            lines, notes = by_chance.ran_with_notes("audit", "--all", "--pi", "C201", "--m", "30", *["--running"] * running,
                                                    *["--padded"] * padded, log=log)
            self.assertEqual(lines, mine or [f"yes {audit.slots}"])
            texts = re.search(r"(\d+) texts?, (\d+) names?", notes)
            self.assertEqual((int(texts[1]), int(texts[2])) if texts else (0, 0), (audit.texts, audit.names))
        self.assertGreater(faults, 100)

    def test_logs_of_any_bytes(self):
        rng, faults = random.Random(9), 0
        log = by_chance.log_of(by_chance.groups(rng, 8, 2000))
        for _ in range(150):
            piece, last = by_chance.hostile(rng, log), []
            try:
                for it in Receiver(0xC201, 8).watch(read_log(io.BytesIO(piece))):
                    last.append(by_chance.shown_in(*it, program_name))
                fault = []
                why = ""
            except MalformedLine as malformed:
                fault, faults = [f"fault line {malformed.line}"], faults + 1
                why = f": {malformed.why}; a log line looks like C201 2140 4849 0D20"
            lines, notes = by_chance.ran_with_notes("decode", "--pi", "C201", "--m", "8", log=piece)
            told = [it for it in lines if it.startswith("fault")]
            self.assertEqual((told, last), (fault, by_chance.shown_by(lines[:len(lines) - len(told)])))
            self.assertIn(why, notes)
        self.assertGreater(faults, 20)


if __name__ == "__main__":
    unittest.main()
