"""The targets: processors that the library and the program are built for. The folder `out/NAME` of a crate gets the files
that are built for the target NAME.

The code for a target runs on every processor of its kind. The kit's default for x86-64 is a later processor, and a library
does not check where it runs.
"""
import os
import shutil
import subprocess
import sys
from typing import NamedTuple

TOOLS = os.path.dirname(os.path.abspath(__file__))
from crates import KIT, folder

# what the kit's compiler needs of Debian's packages for another processor
PACKAGES = "gcc-aarch64-linux-gnu libc6-dev-arm64-cross"
PARTS = ("crtbeginS.o", "crtendS.o", "libgcc.a", "libgcc_s.so.1", "Scrt1.o", "crti.o", "crtn.o", "libc.so.6",
         "libc_nonshared.a", "libm.so.6", "ld-linux-aarch64.so.1")


class Target(NamedTuple):
    """A target: the name that the kit has for it, its processor, and the start of the names of its C tools."""
    name: str
    triple: str
    cpu: str
    prefix: str

    def place_of(self, part):
        """Returns where the target's gcc finds a file of its C library. Ends the script if it finds none."""
        words = [f"{self.prefix}gcc", f"-print-file-name={part}"]
        if not shutil.which(words[0]):
            sys.exit(f"no {words[0]} here (apt-get install {PACKAGES})")
        at = subprocess.run(words, stdout=subprocess.PIPE, text=True, check=True).stdout.strip()
        # gcc prints the bare name of a file that it does not find
        return os.path.realpath(at) if os.path.isabs(at) else sys.exit(f"no {part} here (apt-get install {PACKAGES})")

    def toolchain(self):
        """Returns the folder of the target's compiler and C library. That of another processor than this one is made of
        links."""
        if self.name == "x86_64":
            return f"{KIT}/toolchain"
        made = os.path.join(TOOLS, "out", f"toolchain-{self.name}")
        os.makedirs(f"{made}/lib", exist_ok=True)
        links = {"bin": f"{KIT}/toolchain/bin", **{f"lib/{it}": self.place_of(it) for it in PARTS}}
        for at, source in links.items():
            subprocess.run(["ln", "-sfn", source, f"{made}/{at}"], check=True)
        return made

    def words(self):
        """Returns the words by which the kit's compiler builds for the target."""
        return ["--target", self.triple, "--cpu", self.cpu]

    def built(self, crate, file):
        """Returns where the file of a crate is, once it is built for the target."""
        return os.path.join(folder(crate), "out", self.name, file)


ALL = {it.name: it for it in (
    Target("x86_64", "x86_64-unknown-linux-gnu", "x86-64", "x86_64-linux-gnu-"),
    Target("aarch64", "aarch64-unknown-linux-gnu", "generic", "aarch64-linux-gnu-"),
)}
