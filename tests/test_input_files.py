"""The file that a command reads in place of standard input."""
import os
import shutil
import subprocess

from tests.calls import AUDIT, DECODE, ENCODE, ENGINES, FLAGS, SIM, SLOTS, WITNESS
from tests.support import PROGRAM, SECONDS, ProgramCase, temporary_folder
from tests.worked_rows import HI

NOBODY = 65534


def noted(words, given=b"", program=PROGRAM, **more):
    """Returns status, output and standard error of the program."""
    done = subprocess.run([program, *words], input=given, capture_output=True, timeout=SECONDS, **more)
    return done.returncode, done.stdout, done.stderr.decode()


class InputFiles(ProgramCase):
    def setUp(self):
        self.folder = temporary_folder(self)

    def file(self, given, name="it.log"):
        """Writes a file into the folder of the test. Returns its path."""
        path = os.path.join(self.folder, name)
        with open(path, "wb") as file:
            file.write(given)
        return path

    def test_a_file_gives_what_its_bytes_on_standard_input_give(self):
        for words, given, _ in ENGINES:
            wanted = noted(words, given)
            path = self.file(given)
            notes = wanted[2].replace(" --m 8", f" --m 8 {path}")
            self.check(f"file after {words}", noted([*words, path]), (*wanted[:2], notes))
            self.check(f"file before the options of {words}", noted([words[0], path, *words[1:]]), (*wanted[:2], notes))
            self.check(f"standard input by its name: {words}", noted([*words, "-"], given), wanted)

    def test_a_file_may_have_any_name(self):
        for name in ("with space.log", "--m.log", "-m", "-", "größe.log", "it's.log"):
            self.file(HI, name)
            for words in ([*DECODE, f"./{name}"], [*DECODE, "--", name])[:1 if name == "-" else 2]:
                self.check(f"{words}", noted(words, cwd=self.folder), (0, b'0 text "HI"\n', ""))

    def test_the_name_of_a_file_is_no_word(self):
        """A file with the name of a command or an option gets the notes of any other file."""
        gap = HI.replace(b"\n", b" 1.0\n") + HI.replace(b"\n", b" 31.0\n") + HI.replace(b"\n", b" 30.0\n")
        for words in (SLOTS, DECODE):
            self.file(gap, "gap.log")
            wanted = noted([*words, "--", "gap.log"], cwd=self.folder)
            self.check(f"{words} notes", bool(wanted[2]), True)
            for name in ("audit", "slots", "--quiet", "--json-notes"):
                self.file(gap, name)
                self.check(f"{words} {name}", noted([*words, "--", name], cwd=self.folder), wanted)

    def test_what_cannot_be_read_is_named_in_one_line(self):
        missing = os.path.join(self.folder, "no.log")
        for words in (DECODE, SIM, ENCODE, AUDIT, WITNESS, SLOTS):
            mark = b"# " if words[0] in ("encode", "slots") else b""
            for path, why in ((missing, "No such file or directory (os error 2)"),
                              (self.folder, "Is a directory (os error 21)")):
                wanted = 1, mark + b"fault read\n", f'rdsrt: fault read: reading "{path}" failed: {why}\n'
                self.check(f"{words} {path}", noted([*words, path], HI), wanted)

    def test_a_name_is_shown_as_it_is(self):
        """Except characters that move the cursor or turn the text, and what is behind 256 bytes."""
        for name, shown in (("Müller.log", "Müller.log"), ("записи.log", "записи.log"), ("a\tb\x7f", r"a\x09b\x7F"),
                            ("\x9b2J\u202egol", r"\xC2\x9B2J\xE2\x80\xAEgol"), ("\u2066\u2028", r"\xE2\x81\xA6\xE2\x80\xA8"),
                            ("é" * 100 + "/" + "é" * 27 + "€b", "é" * 100 + "/" + "é" * 27)):
            wanted = f'rdsrt: fault read: reading "{shown}" failed: No such file or directory (os error 2)\n'
            for words in (DECODE, SIM):
                self.check(f"{words} {name!r}", noted([*words, f"{name}"], cwd=self.folder)[2], wanted)

    def test_a_file_without_permission(self):
        path = self.file(HI)
        os.chmod(path, 0)
        os.chmod(self.folder, 0o755)
        wanted = f'rdsrt: fault read: reading "{path}" failed: Permission denied (os error 13)\n'
        # root reads each file, so another user tries
        other = {"program": shutil.copy(PROGRAM, self.folder), "user": NOBODY} if os.getuid() == 0 else {}
        self.check("no permission", noted([*DECODE, path], **other), (1, b"fault read\n", wanted))

    def test_the_proposed_commands_name_the_file(self):
        """A name that a shell takes as it is, and that is no option; FILE stands for others."""
        for name in ("flags.log", "./flags.log", "-x.log", "with space.log", "$(reboot).log", "x" * 255):
            shown = "FILE" if {*name} & {*" $("} else f"./{name}" if name[0] == "-" else name
            self.file(FLAGS, name)
            notes = noted([*AUDIT, "-m", "8", "-k", "1", "--running", "--", name], cwd=self.folder)[2]
            wanted = (f". To list all faults: rdsrt audit --all --k 1 --running --pi C201 --m 8 {shown}"
                      f". To look for lost slots that make a mix: rdsrt witness --pi C201 --m 8 {shown}\n")
            self.check(f"commands for {name}", notes[-len(wanted):], wanted)

    def test_a_second_file_is_refused(self):
        path = self.file(HI)
        self.check("two files", noted([*DECODE, path, path])[0], 2)
