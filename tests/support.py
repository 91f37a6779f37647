"""What all tests share: paths, the program, time limits, calls of programs, and the base classes.

The program is the one that tools/build or `rt ci` made. The tests stop if a source is newer. RDSRT_UNPROVED=1 in the
environment gives them the program that ./rdsrt runs: if none of these sources is proved, an unproved build of them.
RDSRT_TARGET=aarch64 gives them the program for 64-bit Arm, which runs under an emulator.
RDSRT_CASE=12 makes the tests with cases by chance try case 12 alone.
"""
import atexit
import difflib
import glob
import hashlib
import importlib.machinery
import importlib.util
import json
import os
import pprint
import shutil
import subprocess
import sys
import tempfile
import traceback
import unittest

ROOT = os.path.dirname(os.path.dirname(os.path.abspath(__file__)))
# the tests import targets from there too
sys.path.insert(1, os.path.join(ROOT, "tools"))
from crates import is_stale, listed

from tests.needed import missing

TARGET, UNPROVED = os.environ.get("RDSRT_TARGET"), os.environ.get("RDSRT_UNPROVED")
# the number of the one case that is tried of those by chance
ONLY = os.environ.get("RDSRT_CASE")
# seconds after which a call has failed: much longer than it takes on a busy machine or an emulator, since each wait ends as
# soon as what it waits for is there
SECONDS = 900 if TARGET else 300
# in which a program ends that waits for nothing
PROMPT = 150 if TARGET else 60
ARCHIVE = os.path.join(ROOT, "crates/rds_ffi/out/librds_ffi.a")
# the scripts that build, all named here
BUILD, BUILD_PAGE, INSTALL = (os.path.join(ROOT, it) for it in ("tools/build", "page/build", "install"))


def path(name):
    """Returns the path of a file of the repository."""
    return os.path.join(ROOT, name)


def text_of(name):
    """Returns the text of a file of the repository."""
    with open(path(name), encoding="utf-8") as file:
        return file.read()


def bytes_of(name):
    """Returns the bytes of a file of the repository."""
    with open(path(name), "rb") as file:
        return file.read()


def script(name):
    """Returns a script of the repository as a module."""
    loader = importlib.machinery.SourceFileLoader(os.path.basename(name), path(name))
    found = importlib.util.module_from_spec(importlib.util.spec_from_loader(loader.name, loader))
    loader.exec_module(found)
    return found


def output(words, given=b"", seconds=300, **more):
    """Returns the status and the output of any program, standard error included."""
    done = subprocess.run(words, input=given, stdout=subprocess.PIPE, stderr=subprocess.STDOUT, timeout=seconds, **more)
    return done.returncode, done.stdout


# ---- the program


def target_program():
    """Builds the program for the target. Returns the path of a script that runs it under the emulator."""
    from tests import emulated
    if missing(*emulated.PACKAGES):
        sys.exit(f"{TARGET}: {missing(*emulated.PACKAGES)}")
    status, printed = output([BUILD, "--target", TARGET], seconds=3600)
    if status:
        sys.exit(f"the program for {TARGET} is not built: {printed[-2000:].decode()}")
    folder = tempfile.mkdtemp(prefix="rdsrt-")
    atexit.register(shutil.rmtree, folder, ignore_errors=True)
    return emulated.wrapped(emulated.ARM.built("rdsrt", "rdsrt"), folder)


def why_not_tested(made, crate, *more):
    """Returns why no test may take this built file of a crate, or None: it is missing, or older than a source of the crate or
    one of these files more."""
    if not is_stale(path(made), crate, listed(), *more):
        return None
    return f"{made} is {'older than its sources' if os.path.exists(path(made)) else 'missing'}"


def proved_program():
    """Returns the path of the proved program. Ends the tests if it is missing, or older than a source."""
    made = "crates/rdsrt/out/rdsrt"
    why = why_not_tested(made, "rdsrt")
    if why:
        sys.exit(f"{why}: tools/build proves and builds it. To test an unproved build of the sources, in 40 seconds to 2 "
                 "minutes: python3 -m tests --unproved, or RDSRT_UNPROVED=1 python3 -m unittest")
    return path(made)


def unproved_program():
    """Returns the path of the program that ./rdsrt runs. It is built first if that is needed."""
    done = subprocess.run([path("tools/unproved")], stdin=subprocess.DEVNULL, stdout=subprocess.PIPE, text=True)
    if done.returncode:
        sys.exit("tools/unproved did not build the program")
    return done.stdout.strip()


def found_program():
    """Returns the path of the program. The processes that this one starts take the same program."""
    if "RDSRT_TESTED" not in os.environ:
        find = target_program if TARGET else unproved_program if UNPROVED else proved_program
        os.environ["RDSRT_TESTED"] = find()
    return os.environ["RDSRT_TESTED"]


def __getattr__(name):
    """Gives PROGRAM, the path of the program, to a module that imports it. Other modules load without a program."""
    if name != "PROGRAM":
        raise AttributeError(name)
    return found_program()


def ran(words, given=b"", program=None, **more):
    """Returns the status and the output of the program for these arguments and this input, without standard error."""
    done = subprocess.run([program or found_program(), *words], input=given, stdout=subprocess.PIPE, stderr=subprocess.DEVNULL,
                          timeout=SECONDS, **more)
    return done.returncode, done.stdout


def ran_by_shell(call, given=b"", **more):
    """Returns the status and the output of a line of bash, without standard error."""
    done = subprocess.run(["bash", "-c", call], input=given, stdout=subprocess.PIPE, stderr=subprocess.DEVNULL,
                          timeout=SECONDS, **more)
    return done.returncode, done.stdout


def build_archive(target=None):
    """Builds the archive of the C library if a source is newer. That takes minutes if it must be proved. Raises if that
    failed."""
    words = ["--target", target] if target else []
    status, printed = output([BUILD, "rds_ffi", *words], seconds=3600)
    if status:
        raise RuntimeError(f"the archive of the C library is not built: {printed[-2000:].decode()}")


# ---- the tests


def needs_proved(test):
    """Skips a test of the program's memory or instructions if the program may be one that is not proved."""
    return unittest.skipIf(UNPROVED, "an unproved program takes other memory and more instructions")(test)


def temporary_folder(test):
    """Makes a folder that goes with the test, or with the class of tests."""
    folder = tempfile.TemporaryDirectory()
    (test.addClassCleanup if isinstance(test, type) else test.addCleanup)(folder.cleanup)
    return folder.name


def commit(folder, file):
    """Makes a repository with one commit of this file in the folder, whoever the user is and however git is set up."""
    plain = {**os.environ, "GIT_CONFIG_GLOBAL": os.devnull, "GIT_CONFIG_NOSYSTEM": "1"}
    names = ["-c", "user.name=test", "-c", "user.email=test@localhost"]
    for words in (["init", "-q"], ["add", file], ["commit", "-q", "-m", file]):
        subprocess.run(["git", *names, *words], cwd=folder, env=plain, check=True)


# ---- inputs by chance that failed once

INPUTS = path("tests/kept")


def keep(words, given, wanted):
    """Writes a run into a file of tests/kept, named by its content. Returns the name."""
    status, output = wanted
    run = {"words": list(words), "given": given.decode("latin-1"), "status": status, "output": output.decode("latin-1")}
    text = json.dumps(run, indent=1) + "\n"
    at = os.path.join(INPUTS, f"{words[0]}-{hashlib.sha256(text.encode()).hexdigest()[:12]}.json")
    os.makedirs(INPUTS, exist_ok=True)
    with open(at, "w", encoding="ascii") as file:
        file.write(text)
    return os.path.relpath(at, ROOT)


def kept_runs():
    """Gives of each kept run its file, the arguments, the input, and the status and the output that are wanted."""
    for at in sorted(glob.glob(os.path.join(INPUTS, "*.json"))):
        with open(at, encoding="ascii") as file:
            run = json.load(file)
        given, output = (run[it].encode("latin-1") for it in ("given", "output"))
        yield os.path.basename(at), run["words"], given, (run["status"], output)


# ---- what a failed check shows

# a longer input is kept in a file
MOST_SHOWN = 4000
KEPT = path("tests/out")
# lines of a comparison, and equal lines around those that differ
MOST_LINES, CONTEXT = 60, 2
# files of the stack that have no check of their own
NOT_TESTS = tuple(os.path.join("tests", it) for it in ("support.py", "worker.py", "__main__.py"))


def readable(value):
    """Returns the value with text in place of bytes."""
    if isinstance(value, bytes):
        return value.decode("utf-8", "backslashreplace")
    if isinstance(value, dict):
        return {readable(key): readable(it) for key, it in value.items()}
    if isinstance(value, (list, tuple, set)):
        return {list: list, tuple: tuple, set: set}.get(type(value), tuple)(map(readable, value))
    return value


def in_lines(value):
    """Returns a value as lines. Characters that a terminal does not show are escaped."""
    text = value if isinstance(value, str) else pprint.pformat(value, width=110, sort_dicts=True)
    return ["".join(it if it.isprintable() else ascii(it)[1:-1] for it in line) for line in text.split("\n")]


def difference(got, wanted):
    """Returns how the values differ: the first lines that do, or both values if each is one line."""
    ours, theirs = (in_lines(readable(it)) for it in (got, wanted))
    if ours == theirs:
        return f"got {got!r:.2000}, expected {wanted!r:.2000}"
    if len(ours) == len(theirs) == 1:
        return f"got      {readable(got)!r:.2000}\nexpected {readable(wanted)!r:.2000}"
    first = next((at for at, (it, other) in enumerate(zip(ours, theirs)) if it != other), min(len(ours), len(theirs)))
    parts = [[it[:500] for it in lines[max(0, first - CONTEXT):first + MOST_LINES // 2]] for lines in (theirs, ours)]
    found = [it if it[:2] != "@@" else ".." for it in difflib.unified_diff(*parts, n=CONTEXT, lineterm="")]
    return "\n".join([f"line {first + 1} differs: - is expected, + is what the test got", *found[3:]])


def line_of_the_check(frames):
    """Returns the file and line of the check among these frames of a stack, and the lines that called it."""
    own = [f"{os.path.relpath(it.filename, ROOT)}:{it.lineno}" for it in reversed(frames)
           if it.filename.startswith(ROOT + os.sep) and not it.filename.endswith(NOT_TESTS)]
    return own[0] + (f" (from {', '.join(own[1:])})" if own[1:] else "") if own else ""


class Case(unittest.TestCase):
    """A test of many checks. It goes on after a check that failed."""

    # how many classes may run at a time, this one included: None is one for each core
    most = None
    # the number of the case by chance that is tried now
    number = None

    def check(self, name, got, wanted, given=None):
        """Compares two values, as a subtest of this name. A failure shows the line of the check, how the values differ,
        and the input `given`."""
        if got == wanted:
            return
        parts = [line_of_the_check(traceback.extract_stack()), difference(got, wanted)]
        if given is not None:
            parts.append(self.input_of(given))
        if self.number is not None:
            parts.append(f"this case alone: RDSRT_CASE={self.number} python3 -m unittest {self.id()}")
        with self.subTest(name):
            self.fail("\n".join(parts))

    def input_of(self, given):
        """Returns the input of a failed check. A long one is kept in a file, whose name is returned with the start."""
        text = readable(given)
        if len(text) <= MOST_SHOWN:
            return f"the input:\n{text}"
        os.makedirs(KEPT, exist_ok=True)
        handle, at = tempfile.mkstemp(".txt", f"{self.id().removeprefix('tests.')}-", KEPT)
        with open(handle, "wb") as file:
            file.write(given if isinstance(given, bytes) else text.encode())
        begin = "\n".join(text.split("\n", 10)[:10])[:MOST_SHOWN]
        return f"the whole input is in {os.path.relpath(at, ROOT)}. It begins:\n{begin}"

    def cases(self, given):
        """Gives the number of each case by chance and the case, or the one whose number is RDSRT_CASE alone."""
        for number, case in enumerate(given):
            if ONLY is None or number == int(ONLY):
                self.number = number
                yield number, case
        self.number = None

    def check_all(self, name, got, wanted):
        """Compares what all cases by chance have together. It has no meaning for one case."""
        if ONLY is None:
            self.check(name, got, wanted)


class ProgramCase(Case):
    """A test of the program alone. `python3 -m tests --target aarch64` runs these tests."""

    def check_run(self, name, words, given, wanted):
        """Compares the status and the output of the program with these. If they differ, the arguments, the input and
        what was wanted become a file of tests/kept, which test_kept plays from then on."""
        got = ran(words, given)
        self.check(f"{name} ({keep(words, given, wanted)})" if got != wanted else name, got, wanted, given)
