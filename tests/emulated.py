"""Programs for 64-bit Arm on this machine: Debian's cross compiler builds them, and the emulator qemu runs them."""
import os
import shlex
import shutil
import subprocess

# tests.support makes the folder of the next module known
import tests.support
import targets

ARM = targets.ALL["aarch64"]
COMPILER = f"{ARM.prefix}gcc"
EMULATOR = "qemu-aarch64"
LOADER = "ld-linux-aarch64.so.1"
# what builds and runs these programs
PACKAGES = "g++-aarch64-linux-gnu", "libc6-dev-arm64-cross", "qemu-user"


def place_of(file):
    """Returns the path of a file of that processor's C library. Without the file, the compiler prints its bare name."""
    return subprocess.run([COMPILER, f"-print-file-name={file}"], capture_output=True, text=True,
                          check=True).stdout.strip()


def runner():
    """Returns the words before a program for 64-bit Arm: the emulator, with the folder of that processor's
    libraries."""
    return [EMULATOR, "-L", os.path.dirname(os.path.dirname(os.path.realpath(place_of(LOADER))))]


def wrapped(program, folder):
    """Writes a script rdsrt that runs a copy of the program under the emulator. Returns its path."""
    script, copy = os.path.join(folder, "rdsrt"), os.path.join(folder, "program")
    # a build may replace the program while tests run
    shutil.copy(program, copy)
    with open(script, "w", encoding="utf-8") as file:
        file.write(f'#!/bin/sh\nexec {shlex.join(runner())} -0 rdsrt {shlex.quote(copy)} "$@"\n')
    os.chmod(script, 0o755)
    return script
