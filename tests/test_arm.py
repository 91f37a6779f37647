"""64-bit Arm under an emulator: the C library, the short tests of the program, and an install."""
import os
import re
import subprocess
import sys

from tests import c_library, emulated
from tests.needed import needs
from tests.support import INSTALL, ROOT, Case, build_archive, bytes_of, output, temporary_folder, text_of

ARM = emulated.ARM
# the modules of the program that take seconds under the emulator
SHORT = ("test_help", "test_worked_rows", "test_status", "test_pipes")
needs_an_emulator = needs(*emulated.PACKAGES)


@needs_an_emulator
class Library(Case):
    """The C library beside the program of this machine."""

    @classmethod
    def setUpClass(cls):
        build_archive(ARM.name)
        cls.library, cls.given = ARM.built("rds_ffi", "librds_ffi.a"), c_library.inputs()

    def build_and_run(self, compiler, language):
        compiler = ARM.prefix + compiler
        folder, how = temporary_folder(self), " ".join([compiler, *language])
        c_library.built(self.check, how, compiler, language, folder, self.library)
        c_library.run_all(self.check, how, folder, self.given, emulated.runner())

    def test_it_exports_the_calls_of_the_header_and_needs_and_writes_nothing_else(self):
        c_library.archive(self.check, self.library, ARM.prefix)

    def test_the_header_has_the_stack_of_each_call(self):
        c_library.stack(self.check, self.library, ARM.prefix, 2)

    def test_c11(self):
        self.build_and_run("gcc", ["-std=c11"])

    def test_cpp17(self):
        self.build_and_run("g++", ["-std=c++17", "-x", "c++"])


@needs_an_emulator
class Program(Case):
    def test_the_short_tests_of_the_program_pass(self):
        words = [sys.executable, "-B", "-m", "tests", "--target", ARM.name, *SHORT]
        done = subprocess.run(words, cwd=ROOT, stdout=subprocess.PIPE, text=True)
        *reports, last = [it for it in done.stdout.splitlines() if not it.startswith("== ")] or [""]
        print("".join(f"for 64-bit Arm: {it}\n" for it in reports), end="")
        counts = re.fullmatch(r"(\d+) passed, 0 failed, 0 skipped", last)
        self.check("the last line and the status", (last if not counts else int(counts[1]) > 10, done.returncode),
                   (True, 0))


@needs_an_emulator
class Install(Case):
    @classmethod
    def setUpClass(cls):
        cls.folder = temporary_folder(cls)
        cls.prefix = os.path.join(cls.folder, "prefix")
        cls.status, cls.printed = output([INSTALL, cls.prefix, "--target", ARM.name], seconds=3600)

    def test_it_has_the_same_files(self):
        self.check("./install", (self.status, self.status and self.printed), (0, 0))
        self.check("what is installed", c_library.installed_in(self.prefix), c_library.STAGED)

    def test_the_program_decodes(self):
        words = [*emulated.runner(), os.path.join(self.prefix, "bin/rdsrt"), "decode", "--pi", "C201"]
        self.check("hi.log", output(words, bytes_of("examples/hi.log")), (0, b'0 text "HI"\n'))

    def test_proofs_names_the_functions_of_c_that_the_program_rests_on(self):
        reached = re.findall(r"^  \S+::(\w+) +reached$", text_of(f"{ARM.built('rdsrt', 'rdsrt')}.verdict"), re.M)
        text, count = re.search(r"^(- `axioms=(\d+)`.*?)\n\n", text_of("docs/proof/PROOFS.md"), re.M | re.S).groups()
        self.check("the functions", {*re.findall(r"`([a-z_]\w*)`", text)}, {*reached})
        self.check("how many", count, str(len(reached)))

    @needs("pkg-config")
    def test_pkg_config_finds_the_library(self):
        c_library.readme(self.check, self.folder, self.prefix, emulated.COMPILER, emulated.runner())
