"""The packages of packages.txt: which of them are missing here, and which tests want them.

usage: python3 -m tests.needed [--as-it-is]

As a program it gets this machine ready for the tests: as root on a system with apt-get it installs what is missing. With
--as-it-is, and for anybody else, it says what to type, and how many tests are skipped without it.
"""
import functools
import os
import re
import shutil
import subprocess
import sys
import unittest

LIST = os.path.join(os.path.dirname(os.path.abspath(__file__)), "packages.txt")
# the one that sees Debian's packages
PYTHON = "/usr/bin/python3"
INSTALL = "apt-get install -y --no-install-recommends"
# the end of the reason of a test that is skipped for want of packages
WANTS = re.compile(r" \(apt-get install (.*)\)$")


@functools.cache
def packages():
    """Returns what the tests look for of each package."""
    with open(LIST, encoding="utf-8") as file:
        rows = [line.partition("#")[0].partition(": ") for line in file]
    return {name: things.split() for name, _, things in rows if things}


def found(programs):
    """Returns the path of the first of these programs that is installed, or None."""
    return next(filter(None, map(shutil.which, programs.split("|"))), None)


def program_of(package):
    """Returns the path of the program of a package, or None."""
    return found(packages()[package][0])


@functools.cache
def is_there(thing):
    """Returns whether a program, a module of Python or a file of a compiler is installed."""
    kind, _, name = thing.partition(":")
    if not name:
        return found(thing) is not None
    if shutil.which(PYTHON if kind == "python" else kind) is None:
        return False
    if kind == "python":
        return subprocess.run([PYTHON, "-W", "ignore", "-c", f"import {name}"], stderr=subprocess.DEVNULL).returncode == 0
    at = subprocess.run([kind, f"-print-file-name={name}"], stdout=subprocess.PIPE, text=True).stdout
    # a compiler prints the bare name of a file that it does not find
    return os.path.isabs(at)


def missing(*names):
    """Returns why these packages are not all here, or None."""
    lacking = [(name, thing) for name in names for thing in packages()[name] if not is_there(thing)]
    if not lacking:
        return None
    advice = " ".join(dict.fromkeys(name for name, _ in lacking))
    return f"no {lacking[0][1].partition(':')[2] or lacking[0][1].partition('|')[0]} here (apt-get install {advice})"


def needs(*names):
    """Skips a test, or a class of tests, with a message if one of these packages is missing."""
    why = missing(*names)

    def marked(test):
        test.needs = {*names, *getattr(test, "needs", ())}
        return unittest.skipIf(why, why)(test)
    return marked


def wanted_by(test):
    """Returns the packages that a test wants, or its class."""
    return {*getattr(test, "needs", ()), *getattr(getattr(test, test._testMethodName), "needs", ())}


def how_many(lacking):
    """Returns how many tests want one of these packages."""
    # no test runs here, so none needs the program
    os.environ.setdefault("RDSRT_TESTED", "rdsrt")
    from tests.__main__ import tests_of
    return sum(bool(wanted_by(test) & {*lacking}) for test in tests_of([]))


def install(lacking):
    """Installs these packages. Says first which, and at the end if that failed: then the tests go on without them."""
    print(f"installing {len(lacking)} packages for the tests (./test --as-it-is installs none): {' '.join(lacking)}", flush=True)
    for words in (["apt-get", "-qq", "update"], [*INSTALL.split(), "-qq", *lacking]):
        status = subprocess.run(words, stdin=subprocess.DEVNULL, stdout=subprocess.DEVNULL,
                                env={**os.environ, "DEBIAN_FRONTEND": "noninteractive"}).returncode
        if status:
            print(f"{' '.join(words[:2])} failed with status {status}: the tests go on without these packages", flush=True)
            return


def main():
    if sys.argv[1:] not in ([], ["--as-it-is"]):
        sys.exit("usage: python3 -m tests.needed [--as-it-is]")
    lacking = [it for it in packages() if missing(it)]
    if lacking and not sys.argv[1:] and os.geteuid() == 0 and shutil.which("apt-get"):
        install(lacking)
    elif lacking:
        print(f"{how_many(lacking)} tests are skipped without these packages. To install them:\n"
              f"    {INSTALL} {' '.join(lacking)}", flush=True)


if __name__ == "__main__":
    main()
