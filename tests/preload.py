"""Libraries that make system calls or requests for memory of the program fail: fail_calls.c and refuse_memory.c."""
import os
import subprocess
import tempfile

from tests.support import ROOT, TARGET, ran


def made(source, folder):
    """Builds the library from this source in tests/. Returns its path."""
    compiler = "cc"
    if TARGET:
        from tests import emulated
        compiler = emulated.COMPILER
    library = os.path.join(folder, source.replace(".c", ".so"))
    source = os.path.join(ROOT, "tests", source)
    subprocess.run([compiler, "-shared", "-fPIC", "-O1", "-o", library, source, "-ldl"], check=True)
    return library


def preloaded(library, **more):
    """Returns an environment in which the program is loaded with the library. The emulator itself is not."""
    name, preload = ("QEMU_SET_ENV", f"LD_PRELOAD={library}") if TARGET else ("LD_PRELOAD", library)
    return {**os.environ, name: preload, **more}


def failing(library, words, given, **names):
    """Runs the program with calls that are cut short or fail, as fail_calls.c says. Returns its outcome and the
    calls."""
    with tempfile.TemporaryFile() as calls:
        names = {name: str(number) for name, number in {**names, "CALLS_TO": calls.fileno()}.items()}
        got = ran(words, given, env=preloaded(library, **names), pass_fds=(calls.fileno(),))
        calls.seek(0)
        return got, calls.read().decode()


def refusing(library, words, given, number, program=None):
    """Runs the program, and refuses its request for memory of this number. Returns its outcome and whether it asked so
    often."""
    reads, writes = os.pipe()
    names = {"REFUSE": str(number), "REFUSED_TO": str(writes)}
    got = ran(words, given, program, env=preloaded(library, **names), pass_fds=(writes,))
    os.close(writes)
    with os.fdopen(reads, "rb") as noted:
        return got, noted.read() == b"!"
