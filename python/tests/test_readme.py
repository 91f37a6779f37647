"""Runs the lines of README.md as they stand, with a queue, a studio and a modulator in place of the user's."""
import os
import re
import subprocess
import sys
import tempfile
import unittest

PYTHON = os.path.dirname(os.path.dirname(os.path.abspath(__file__)))
SECONDS = 60
# a queue that gives a text, then for 20 s nothing; its clock is its own
FLOWGRAPH = """
import queue, time
now = [100.0]
time.clock_gettime = lambda clock: now[0]
class Groups:
    def get(self, timeout):
        if now[0] == 100.0:
            now[0] += 0.01
            return now[0], (0xC201, 0x2140, 0x4849, 0x0D20)
        if now[0] > 120:
            raise SystemExit
        now[0] += timeout
        raise queue.Empty
groups = Groups()
"""
# quotes without a byte, a text that is too long, no artist, and two equal pieces that are too long for the second tag
SONGS = [("ABBA", "Waterloo"), ("Guns N\u2019 Roses", "\u201cEstranged\u201d"), ("Björk", "x" * 60), ("", "Jóga"),
         ("y" * 40, "y" * 40)]
STUDIO = f"""
import modulator
def playing():
    return {SONGS}[len(modulator.sent) // 300]
"""
# after some slots it shows the display of a receiver
MODULATOR = """
from rdsrt import ContentType, Receiver
sent = []
def send(group):
    sent.append(group)
    if len(sent) == 1500:
        for slot, view in Receiver(0xC201).watch(sent):
            print(slot, view.text, view.tag(ContentType.ITEM_ARTIST), view.tag(ContentType.ITEM_TITLE))
        raise SystemExit
"""
LOG = "F201 2140 4849 0D20\n" + "---- ---- ---- ----\n" * 128


def blocks():
    """Returns the Python lines of README.md: of a log, of one with malformed lines, of GNU Radio, of a log with times and of
    a station."""
    with open(os.path.join(PYTHON, "README.md"), encoding="utf-8") as file:
        return re.findall(r"```python\n(.*?)```", file.read(), re.S)


def ran(lines, given=""):
    """Returns the status, the output and the errors of a script of these lines."""
    with tempfile.TemporaryDirectory() as folder:
        for name, text in (("flowgraph", FLOWGRAPH), ("studio", STUDIO), ("modulator", MODULATOR), ("lines", lines)):
            with open(os.path.join(folder, f"{name}.py"), "w", encoding="utf-8") as file:
                file.write(text)
        paths = os.pathsep.join(it for it in (folder, os.environ.get("PYTHONPATH")) if it)
        done = subprocess.run([sys.executable, "-B", os.path.join(folder, "lines.py")], input=given, text=True,
                              capture_output=True, timeout=SECONDS, env={**os.environ, "PYTHONPATH": paths})
        return done.returncode, done.stdout.splitlines(), done.stderr


class Readme(unittest.TestCase):
    def test_blocks(self):
        self.assertEqual(len(blocks()), 5)

    def test_a_log(self):
        self.assertEqual(ran(blocks()[0], LOG), (0, ["0 HI None None", "128 None None None"], ""))

    def test_a_malformed_line_is_a_lost_slot(self):
        log = LOG.replace("---- ---- ---- ----", "---- ---- --")
        self.assertEqual(ran(blocks()[1], log), (0, ["0 HI", "128 None"], ""))

    def test_gnu_radio(self):
        self.assertEqual(ran(blocks()[2]), (0, ["0 HI", "128 "], ""))

    def test_a_log_with_times(self):
        """The text goes 128 slots after its group, 11.2 s, although only later groups have a line."""
        log = "".join(f"F201 {group} @2024/06/01 07:58:{time}\n"
                      for group, time in (("2140 4849 0D20", "12.00"), ("0548 0000 0000", "40.00")))
        begins = 1717228692
        self.assertEqual(ran(blocks()[3], log), (0, [f"{begins}.0 HI", f"{begins + 11.2:.1f} "], ""))

    def test_a_station(self):
        status, lines, errors = ran(blocks()[4])
        self.assertEqual((status, errors), (0, ""))
        shown = [it.partition(" ")[2] for it in lines]
        guns, long, equal = "Guns N' Roses - \"Estranged\"", "Björk - " + "x" * 56, "y" * 40 + " - " + "y" * 21
        wanted = ["ABBA - Waterloo None None", "ABBA - Waterloo ABBA Waterloo", f"{guns} None None",
                  f"{guns} Guns N' Roses \"Estranged\"", f"{long} None None", f"{long} Björk None", "Jóga None None",
                  "Jóga None Jóga", f"{equal} None None"]
        self.assertEqual([it for it in dict.fromkeys(shown) if it != "None None None"], wanted)


if __name__ == "__main__":
    unittest.main()
