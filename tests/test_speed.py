"""The program takes no more instructions a slot than README states, by callgrind."""
import re
import sys
import tempfile
import unittest

from tests.needed import needs
from tests.support import PROGRAM, TARGET, ProgramCase, needs_proved, path, text_of

sys.path.insert(1, path("bench"))
import logs
import tasks

SLOTS = 10_000
# by how much a number may be above README's: another version of the kit's compiler makes other code
MOST = 0.1


def per_slot(task, folder):
    """Returns the instructions of one slot of a task, without those that the program needs to start."""
    few, many = (tasks.instructions(tasks.ours(PROGRAM, task, 0),
                                    tasks.made_input(folder, PROGRAM, task, 0, 0, slots)) for slots in (SLOTS, 2 * SLOTS))
    return (many - few) / SLOTS


def stated():
    """Returns the instructions of each task in README's table."""
    head, row = re.search(r"^\| \|(`decode`.*)\n.*\n\|rdsrt\|(.*)\|$", text_of("README.md"), re.M).groups()
    return dict(zip(re.findall("`(.*?)`", head), (int(it.replace(",", "")) for it in row.split("|"))))


@needs_proved
@unittest.skipIf(TARGET, "valgrind runs no program of another processor")
@needs("valgrind")
class Speed(ProgramCase):
    def test_no_number_is_above_that_of_the_page(self):
        with tempfile.TemporaryDirectory() as folder:
            for task, number in stated().items():
                counted = per_slot(task, folder)
                self.check(f"{task}: README has {number}, counted {counted:.0f}", counted <= (1 + MOST) * number, True)

    def test_many_spans_of_lost_slots_take_little_more_than_one(self):
        """Of a station with one text, so that no loss makes a mix."""
        slots, count = 30_000, 10_000
        with tempfile.NamedTemporaryFile() as log:
            log.write(b"C201 2140 4849 0D20\n" * slots)
            log.flush()
            one, many = (tasks.instructions([PROGRAM, "witness", "--pi", "C201", "--m", "8", "--lose", spans], log.name)
                         for spans in ("0", ",".join(str(3 * it) for it in range(count))))
        self.check(f"{many} instructions beside {one}", many <= 1.5 * one, True)

    def test_twice_the_mixes_take_little_more(self):
        """Of random segments, so that a receiver shows a mix in nearly each slot between two lost ones."""
        slots, spans = 10_000, 1500
        with tempfile.NamedTemporaryFile("w") as log:
            log.writelines(f"{line}\n" for line in logs.random_segments(slots))
            log.flush()
            few, many = (tasks.instructions(tasks.losing(PROGRAM, count), log.name, (0, 1)) for count in (spans, 2 * spans))
        self.check(f"{many} instructions beside {few}", many <= 1.5 * few, True)

    def test_all_faults_take_the_instructions_of_the_first_one(self):
        """Of a log that passes, where both judge each slot: one engine serves both."""
        with tempfile.TemporaryDirectory() as folder:
            call = tasks.ours(PROGRAM, "audit", 0)
            few, many = (tasks.made_input(folder, PROGRAM, "audit", 0, 0, slots) for slots in (SLOTS, 2 * SLOTS))
            counts = [tasks.instructions(words, many) - tasks.instructions(words, few)
                      for words in (call, [*call, "--all"])]
            self.check(f"{counts[1]} instructions beside {counts[0]}", counts[1] <= 1.01 * counts[0], True)


if __name__ == "__main__":
    unittest.main()
