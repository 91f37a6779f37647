"""The Python package: its own tests, its types, its wheel, and `slots` beside that of the program."""
import os
import random
import re
import shutil
import subprocess
import sys
import tempfile
import zipfile

from tests import c_library
from tests.needed import needs
from tests.package import (SOURCES, PackageCase, checkout_without_library, examples, plain_environment,
                           run_example)
from tests.support import ARCHIVE, ROOT, path, ran, temporary_folder

SECONDS = 300


def output(words, given="", **more):
    """Returns the status and the output of these words, standard error included."""
    done = subprocess.run(words, input=given, stdout=subprocess.PIPE, stderr=subprocess.STDOUT, timeout=SECONDS,
                          text=True, **more)
    return done.returncode, done.stdout


class PythonPackage(PackageCase):
    def test_its_own_tests_pass(self):
        words = [sys.executable, "-m", "unittest", "discover", "-v", "-s", path("python/tests")]
        _, printed = output(words, env=self.names)
        # a test with a description has its result in the next line
        found = re.findall(r"^(test_\w+) \(.*\)(?:\n.*)? \.\.\. (.*)$", printed, re.M)
        for name, result in found:
            self.check(name, result, "ok")
        self.check("each test has a result", re.findall(r"^Ran (\d+) tests", printed, re.M), [str(len(found))])
        self.check("its last line", printed[-2000:].endswith("OK\n") or printed[-2000:], True)

    @needs("mypy")
    def test_mypy_finds_no_fault(self):
        with tempfile.TemporaryDirectory() as cache:
            status, printed = output(["mypy", "--strict", "--cache-dir", cache, SOURCES])
        self.check(f"mypy --strict\n{printed}", status, 0)

    def test_without_a_library_the_first_call_raises_no_library(self):
        """The package can be imported without it."""
        code = ("import rdsrt\ntry:\n    rdsrt.Receiver(1)\nexcept rdsrt.NoLibrary as fault:\n"
                "    print(isinstance(fault, ImportError), 'RDSRT_LIBRARY' in str(fault))")
        for library in ("/nowhere.so", "libc.so.6"):
            got = output([sys.executable, "-c", code], env={**self.names, "RDSRT_LIBRARY": library})
            self.check(f"{library} in place of the library", got, (0, "True True\n"))

    def test_without_a_library_the_examples_say_what_to_do(self):
        """In one line, and without a traceback."""
        folder, names = temporary_folder(self), plain_environment()
        at = checkout_without_library(folder)
        status, printed, errors = run_example("monitor", folder, names, at)
        self.check(f"monitor without a library: {errors}", (status, printed, errors.count("\n")), (2, "", 1))
        self.check("monitor: what to do", re.match(r"monitor: no librdsrt\.so\.\d.*: run \./install PREFIX", errors)
                   is not None, True)
        self.check("station needs no library", run_example("station", folder, names, at), (0, "-,,1,\n-,,0,\n", ""))
        shutil.rmtree(os.path.join(folder, "python"))
        for name in ("station", "monitor"):
            self.check(f"{name} without a package", run_example(name, folder, names, at),
                       (1, "", f"{name}: No module named 'rdsrt': install the Python package rdsrt, or run {name} in a "
                               "checkout\n"))

    def test_slots_counts_as_the_program(self):
        """The times come by chance, and go back now and then."""
        code = ("import sys\nfrom rdsrt import *\n"
                "pairs = ((float(line.split()[4]), next(read_log([line]))) for line in sys.stdin)\n"
                "for it in slots(pairs, dwell=5):\n    print(format_group(it))")
        rng, time, lines = random.Random(20261126), 1e9, []
        for number in range(3000):
            jumps = rng.random() >= 0.99
            time += rng.choice([-50, -0.01, 86_401]) if jumps else rng.choice([0.0876, 0.01, rng.random()])
            lines.append(f"C201 0000 0000 {number:04X} {time:.4f}\n")
        _, wanted = ran(["slots", "--m", "5"], "".join(lines).encode())
        wanted = [it[:19] for it in wanted.decode().splitlines() if not it.startswith("#")]
        got = output([sys.executable, "-c", code], "".join(lines), env=self.names)[1].splitlines()
        self.check("seed 20261126", got, wanted, "".join(lines))
        self.check("lost slots were added", len(got) > 3000, True)

    @needs("gcc", "python3-pip")
    def test_a_wheel_made_twice_has_the_same_bytes_and_works_alone(self):
        """Whatever the umask is. It is one of a platform, and works without RDSRT_LIBRARY."""
        with tempfile.TemporaryDirectory() as folder:
            made = []
            for place in ("one", "two"):
                words = [os.path.join(ROOT, "python/wheel"), ARCHIVE, "x86_64", os.path.join(folder, place)]
                status, printed = output(words, umask={"one": 0o022, "two": 0o077}[place])
                self.check(f"the wheel is made\n{printed}", status, 0)
                if status:
                    return
                with open(printed.splitlines()[-1], "rb") as file:
                    made.append(file.read())
            self.check("the wheel made twice", made[0] == made[1], True)
            inside = os.path.join(folder, "inside")
            with zipfile.ZipFile(printed.splitlines()[-1]) as packed:
                packed.extractall(inside)
            inner = os.path.join(inside, f"rdsrt/librdsrt.so.{c_library.ABI}")
            self.check("the library in the wheel", os.path.exists(inner), True)
            with open(os.path.join(inside, f"rdsrt-{c_library.header_version()}.dist-info/WHEEL"), encoding="utf-8") as file:
                said = file.read()
            self.check("its kind", re.findall(r"^(?:Root-Is-Purelib|Tag): (.*)$", said, re.M),
                       ["false", "py3-none-manylinux_2_17_x86_64"])
            self.check("it has its types", os.path.exists(os.path.join(inside, "rdsrt/py.typed")), True)
            with open(os.path.join(os.path.dirname(file.name), "METADATA"), encoding="utf-8") as file:
                kinds = re.findall("^Classifier: (.*)$", file.read(), re.M)
            self.check("its kinds", {"Typing :: Typed", "Operating System :: POSIX :: Linux"} - {*kinds}, set())
            alone = {name: it for name, it in self.names.items() if name != "RDSRT_LIBRARY"}
            code = ("import rdsrt\nreceiver = rdsrt.Receiver(0xC201)\nreceiver.slot((0xC201, 0x2140, 0x4849, 0x0D20))\n"
                    "print(receiver.view.text)")
            got = output([sys.executable, "-c", code], env={**alone, "PYTHONPATH": inside})
            self.check("a text by the wheel", got, (0, "HI\n"))
            examples(self.check, "by the wheel", folder, {**alone, "PYTHONPATH": inside}, checkout_without_library(folder))
            self.check("a wheel for no processor", output([words[0], ARCHIVE])[0], 2)
