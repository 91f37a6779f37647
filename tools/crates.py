"""Reads crates.txt: the crates with their libraries. Knows where their files are and which of these are stale, and makes calls
of the kit's compiler. As a program it prints the folder of the kit.
"""
import hashlib
import os
import pathlib
import shutil
import subprocess
import sys

ROOT = os.path.dirname(os.path.dirname(os.path.abspath(__file__)))
LIST = os.path.join(ROOT, "crates.txt")
RT = shutil.which("rt") or sys.exit('the command rt (the kit of Rattle) is not in PATH: see README, "Get it"')
KIT = os.path.dirname(os.path.dirname(os.path.realpath(RT)))
# how long the first proof of the program takes
FIRST_PROOF = "12 to 35 minutes on 4 cores"


def rows():
    """Yields the words before and after the colon of each line of crates.txt."""
    with open(LIST, encoding="utf-8") as file:
        for line in file:
            head, _, libraries = line.partition("#")[0].partition(":")
            if head.strip():
                yield head.split(), libraries.split()


def listed():
    """Returns each crate of crates.txt with the libraries that it uses."""
    return {head[0]: libraries for head, libraries in rows()}


def static_libraries():
    """Returns the crates that crates.txt builds as static libraries."""
    return {head[0] for head, _ in rows() if head[1:] == ["staticlib"]}


def below(name, uses):
    """Returns the repository's crates below this one, lowest first."""
    found = []
    for it in uses[name]:
        found += [dep for dep in [*below(it, uses), it] if dep not in found] if it in uses else []
    return found


def with_below(names, uses):
    """Returns these crates and those below them, lowest first."""
    return [*dict.fromkeys(it for name in names for it in [*below(name, uses), name])]


def folder(name):
    return os.path.join(ROOT, "crates", name)


def rlib(name):
    """Returns the folder of a proved library, which the crates above it need."""
    return os.path.join(folder(name), "out/rlib", f"{name}.rlib")


def newest_source(name, uses):
    """Returns when a source of the crate or of one below it was last written, or one of its files added."""
    walks = [it for crate in with_below([name], uses) for part in ("src", "specs", "proofs")
             for it in os.walk(os.path.join(folder(crate), part))]
    return max(os.path.getmtime(os.path.join(at, file)) for at, _, files in walks for file in ("", *files))


def is_stale(made, name, uses, *more):
    """Returns whether a built file of the crate is missing, or is older than a source of the crate or of one below it,
    than crates.txt, or than one of these files more."""
    if not os.path.exists(made):
        return True
    return os.path.getmtime(made) < max(newest_source(name, uses), *map(os.path.getmtime, (LIST, *more)))


def keeping_toolchain(at, clang):
    """Fills a folder with links to the kit's toolchain, and with this script in place of its clang. Returns the folder."""
    subprocess.run(["cp", "-as", f"{KIT}/toolchain/.", at], check=True)
    path = os.path.join(at, "bin/clang")
    os.remove(path)
    with open(path, "w", encoding="utf-8") as file:
        file.write(clang)
    os.chmod(path, 0o755)
    return at


def compile_words(name, uses, jobs, *more, verb="build"):
    """Returns the call of the kit's compiler, in the crate's folder, that proves and builds the crate. The verb `check`
    only proves it."""
    source = next(it for it in ("src/main.rt", "src/lib.rt") if os.path.exists(os.path.join(folder(name), it)))
    made = [(it, rlib(it) if it in uses else f"{KIT}/rlibs/{it}.rlib") for it in ("std", *uses[name])]
    folders = [f"{KIT}/rlibs", *(os.path.dirname(rlib(it)) for it in below(name, uses))]
    return [f"{KIT}/bin/rattle", verb, "--crate-name", name, source, "--links", f"{name}=",
            "--jobs", str(jobs), "--logic-built", f"{KIT}/logic_built",
            "--antt-project", f"{KIT}/rattle/logic/antt-project.json",
            *(["--crate-type", "staticlib"] if name in static_libraries() else []),
            *(it for crate, at in made for it in ("--extern", f"{crate}={at}")),
            *(it for at in dict.fromkeys(folders) for it in ("-L", f"dependency={at}")), *more]


def record_verdict(made, printed):
    """Keeps these lines of what the kit printed in a file beside the built one, below the sums of that: the axioms that
    the code reaches, and the verdict."""
    kept = [it for it in printed.splitlines() if it.startswith(("axioms ", "logic=")) or it.endswith(" reached")]
    with open(f"{made}.verdict", "w", encoding="utf-8") as file:
        file.writelines(f"{it}\n" for it in (*sums(made), *kept))


def sums(made):
    """Returns a line with the sum of a built file, and one for the static program beside it."""
    return [f"sha256={hashlib.sha256(pathlib.Path(it).read_bytes()).hexdigest()} {os.path.basename(it)}"
            for it in (made, f"{made}-static") if os.path.exists(it)]


if __name__ == "__main__":
    print(KIT)
