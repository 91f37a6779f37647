"""The Python package over the C library of this checkout: its shared library, and the environment that finds both."""
import atexit
import functools
import os
import shutil
import subprocess
import sys
import tempfile

from tests.needed import needs
from tests.support import ARCHIVE, SECONDS, Case, build_archive, found_program, path, temporary_folder

SOURCES = path("python/src")
# the programs of programs/; the other files there have an ending
NAMES = sorted(it for it in os.listdir(path("programs")) if "." not in it and not it.startswith("__"))


def shared_library(folder):
    """Links the shared library into the folder. Returns its path."""
    # it may have to prove the library, which takes minutes
    build_archive()
    library = os.path.join(folder, "librdsrt.so")
    link = ["cc", "-shared", "-Wl,--whole-archive", ARCHIVE, "-Wl,--no-whole-archive", "-o", library]
    subprocess.run(link, check=True)
    return library


def environment(library):
    """Returns the environment in which Python finds the package of this checkout and this library."""
    return {**os.environ, "PYTHONPATH": SOURCES, "RDSRT_LIBRARY": library, "RDSRT_PROGRAM": found_program(),
            "PYTHONDONTWRITEBYTECODE": "1"}


def plain_environment():
    """Returns the environment of a user who named neither the package nor the library."""
    return {name: it for name, it in os.environ.items() if name not in ("PYTHONPATH", "RDSRT_LIBRARY")}


def run_example(name, folder, names, at=path("programs/")):
    """Returns status, output and errors of station or monitor, started without any option for a library. `at` is what their
    paths begin with. The station writes two rows, and the monitor reads one group."""
    with open(os.path.join(folder, "file"), "w", encoding="utf-8") as file:
        file.write("A C201\n")
    words = ["--slots", "2"] if name == "station" else []
    done = subprocess.run([sys.executable, "-B", at + name, *words, file.name], text=True,
                          input="A C201 2140 4849 0D20\n", capture_output=True, timeout=SECONDS, env=names)
    return done.returncode, done.stdout, done.stderr


def examples(check, how, folder, names, at=path("programs/")):
    """Checks that station and monitor find the package and the library."""
    check(f"station, {how}", run_example("station", folder, names, at), (0, "-,,1,\n-,,0,\n", ""))
    status, printed, errors = run_example("monitor", folder, names, at)
    check(f"monitor, {how}", (status, '"radiotext": "HI"' in printed, errors), (0, True, ""))


def checkout_without_library(folder):
    """Returns what the paths of the programs begin with, of a copy of the checkout in which nothing was built."""
    for name in ("programs", "python/src"):
        shutil.copytree(path(name), os.path.join(folder, name), ignore=shutil.ignore_patterns("__pycache__"))
    return os.path.join(folder, "programs/")


@functools.cache
def installed_programs():
    """Returns a folder with links to the programs, by the names that ./install gives them. It lives as long as this
    process."""
    folder = tempfile.mkdtemp()
    atexit.register(shutil.rmtree, folder)
    for name in NAMES:
        os.symlink(path(f"programs/{name}"), os.path.join(folder, f"rdsrt-{name}"))
    return folder


@functools.cache
def environment_of_process():
    """Returns such an environment with a library that lives as long as this process."""
    folder = tempfile.mkdtemp()
    atexit.register(shutil.rmtree, folder)
    return environment(shared_library(folder))


@needs("gcc")
class PackageCase(Case):
    """Tests with the package: `names` is the environment, `folder` the folder of the library."""

    @classmethod
    def setUpClass(cls):
        cls.folder = temporary_folder(cls)
        cls.names = environment(shared_library(cls.folder))
