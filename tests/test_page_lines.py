"""The program in the page prints the same as the program: status, output and notes."""
import os
import random

from tests.page_support import EXAMPLES, GROUPS, SEED, ChromiumCase, FirefoxCase, call, example, run_program


def some_line(dice):
    """Returns a line of a log by chance."""
    if dice.random() < 0.98:
        return dice.choice(GROUPS)
    return dice.choice(["", "# note", "<x>", "bad", f"C201 {dice.randrange(65536):04x} 1234 0d0D @time"])


def some_log(dice):
    """Returns a log by chance."""
    return "\n".join(some_line(dice)
                     for _ in range(dice.randrange(80))).encode() + (b"\n" if dice.random() < 0.8 else b"")


def some_script(dice, receivers, late):
    """Returns a script by chance."""
    arguments = {"text": ["HI", "Édith", '"a, b"', "X" * 64, "", "no\u2603"], "name": ["POP MIX", "CHANSON"],
                 "tags": ["1 1 4 0 1 1 0 0", "0 0 1 60 3 0 0 0", "x"]}
    rows = []
    for _ in range(dice.randrange(1, 120)):
        command = dice.choice(["-"] * 12 + ["text", "text", "name", "tags", "restart"])
        heard = ["G", "G", "G", "L", "R"] + (["G1"] if late and dice.random() < 0.1 else [])
        letters = "".join(dice.choice(heard) for _ in range(receivers))
        rows.append(f"{command},{dice.choice(arguments.get(command, ['']))},{dice.choice('011')},{letters}")
    return ("\n".join(rows) + "\n").encode()


class Lines:
    def same(self, name, words, data):
        """Compares the page's status, output and notes with those of the program."""
        got = call(self.b, "probe.run", words, list(data))
        self.check(f"{name}: {' '.join(words)}", got, run_program(words, data), data)

    def test_the_lines_of_examples(self):
        calls = [["decode", "--pi", "C201"], ["decode", "--pi", "F201", "--m", "8"],
                 ["audit", "--pi", "C201", "--m", "8"],
                 ["audit", "--pi", "F201", "--k", "3"], ["sim", "--pi", "C201", "--pty", "24", "--m", "8"],
                 ["sim", "--pi", "C201", "--pty", "10", "--m", "4", "--k", "2"],
                 ["encode", "--pi", "C201", "--pty", "10", "--m", "8", "--tp"]]
        names = sorted(name for name in os.listdir(EXAMPLES) if name.endswith((".log", ".csv")))
        self.check("examples", len(names) > 5, True)
        for name in names:
            for words in calls:
                self.same(name, words, example(name))

    def test_help_and_refusals(self):
        rows = [[], ["--help"], ["-h"], ["--version"], ["sing"], ["help"], ["help", "decode"], ["help", "nonsense"],
                ["decode"],
                ["decode", "--help"], ["encode", "--help"], ["sim", "--help"], ["audit", "--help"],
                ["decode", "--pi", "C20"],
                ["encode", "--pi", "xyzw"], ["decode", "--pi", "C201", "--m", "0"],
                ["encode", "--pi", "C201", "--pty", "32"],
                ["audit", "--pi", "C201", "--k", "1025"], ["decode", "--pi", "Ĉ201"]]
        for words in rows:
            self.same("words", words, b"C201 2140 4849 0D20\n")
        self.same("no input", ["decode", "--pi", "C201"], b"")
        self.same("bytes that are no text", ["decode", "--pi", "C201"], b"C201 2140 4849 0D20\n\xff\xfe\n")
        self.same("a long line", ["decode", "--pi", "C201"], b"#" + b"x" * 300_000 + b"\nC201 2140 4849 0D20\n")

    def test_logs_and_scripts_by_chance(self):
        dice = random.Random(SEED)
        logs = ((some_log(dice), str(dice.choice([1, 2, 5, 8, 128, 65535])), str(dice.choice([0, 0, 1, 7, 1024])))
                for _ in range(120))
        for number, (data, m, k) in self.cases(logs):
            self.same(f"seed {SEED}, log {number}", ["decode", "--pi", "C201", "--m", m], data)
            self.same(f"seed {SEED}, log {number}", ["audit", "--pi", "C201", "--m", m, "--k", k], data)
        for number in range(120):
            m, k = dice.choice([1, 2, 4, 8]), dice.choice([0, 0, 1, 2])
            options = ["--pi", "C201", "--m", str(m), "--k", str(k)]
            self.same(f"seed {SEED}, script {number}", ["sim", *options], some_script(dice, dice.randrange(9), k))
            self.same(f"seed {SEED}, script {number}", ["encode", *options], some_script(dice, 0, k))

    def test_an_input_that_has_no_room_is_said(self):
        """The memory has 4 GB at most, and a phone gives less."""
        b = self.b
        b.run("WebAssembly.Memory.prototype.grow = () => { throw new RangeError('full') }")
        got = b.run("(() => { try { return probe.run(['decode'], '#'.repeat(9e6)) } catch (error) { return error.message } })()")
        self.check("a sentence", got, "no memory for this input: the page takes up to about 180 MB")


class Chromium(Lines, ChromiumCase):
    pass


class Firefox(Lines, FirefoxCase):
    pass
