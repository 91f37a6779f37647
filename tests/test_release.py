"""tools/release before it proves anything: what stops it, what it leaves when it is stopped, and the bytes of the source.
tests/release tests the files of a whole release."""
import gzip
import os
import re
import shutil
import signal
import subprocess
import sys
import time
from unittest import mock

from tests import c_library
from tests.needed import needs
from tests.support import PROMPT, SECONDS, Case, commit, output, path, script, temporary_folder, text_of

import crates

FILES = ("ABOUT", "README.md", "CHANGELOG.md", "docs/man", "include", "python", "tools",
         "crates/rds_cli/src/command_line.rt", "crates/rds_ffi/src/version.rt")
RELEASE = script("tools/release")
VERSION = c_library.header_version()
# replaces the kit's `rt`, which takes long: it has a child
RT = "#!/bin/sh\nsleep 600 &\necho $! > {}\nwait\n"


class Repository(Case):
    """A repository of one commit that a release can be made of."""

    def setUp(self):
        self.tree = os.path.join(temporary_folder(self), "a tree")
        for name in FILES:
            to = os.path.join(self.tree, name)
            os.makedirs(os.path.dirname(to), exist_ok=True)
            if os.path.isdir(path(name)):
                shutil.copytree(path(name), to, ignore=shutil.ignore_patterns("out", "__pycache__"))
            else:
                shutil.copy(path(name), to)
        self.change("CHANGELOG.md", r"^## .*$", f"## {VERSION} (2026-12-24)")
        self.change("ABOUT", r"^maintainer:.*$", "maintainer: Ada <ada@example.org>")
        self.commit()

    def change(self, name, old, new):
        """Replaces the first place of a file that has a pattern."""
        text = re.sub(old, new, text_of(os.path.join(self.tree, name)), count=1, flags=re.M)
        with open(os.path.join(self.tree, name), "w", encoding="utf-8") as file:
            file.write(text)

    def commit(self, tag=True):
        """Makes a repository with one commit of all files."""
        shutil.rmtree(os.path.join(self.tree, ".git"), ignore_errors=True)
        commit(self.tree, ".")
        if tag:
            subprocess.run(["git", "tag", f"v{VERSION}"], cwd=self.tree, check=True)

    def obstacles(self, is_snapshot=False):
        """Returns what stops a release, but for tools that are not here."""
        found = script(os.path.join(self.tree, "tools/release")).obstacles(VERSION, is_snapshot)
        return [it for it in found if " here" not in it]


class Obstacles(Repository):
    def test_a_tag_and_versions_that_agree_are_enough(self):
        self.check("a release", self.obstacles(), [])
        self.check("a snapshot", self.obstacles(True), [])

    def test_a_file_with_another_version_is_named(self):
        for name in RELEASE.PLACES:
            before = text_of(os.path.join(self.tree, name))
            at = re.search(RELEASE.PLACES[name], before).start(1)
            with open(os.path.join(self.tree, name), "w", encoding="utf-8") as file:
                file.write(f"{before[:at]}7{before[at + 1:]}")
            self.commit()
            other = f"7{VERSION[1:]}"
            for is_snapshot in (False, True):
                found = [it for it in self.obstacles(is_snapshot) if not it.startswith("CHANGELOG.md does not begin")]
                self.check(name, found, [f"{name} names {other}, and ABOUT {VERSION}"])
            with open(os.path.join(self.tree, name), "w", encoding="utf-8") as file:
                file.write(before)

    def test_a_release_needs_a_date_a_tag_a_maintainer_and_a_commit(self):
        self.change("CHANGELOG.md", r"^## .*$", f"## {VERSION} (2026-12-24, not released)")
        self.change("ABOUT", r"^maintainer:.*$", "maintainer:")
        self.commit(tag=False)
        self.check("a snapshot", self.obstacles(True), [])
        self.check("a release", self.obstacles(), [f"CHANGELOG.md does not begin with ## {VERSION} (YYYY-MM-DD)",
                                                   f"the commit has no tag v{VERSION}; --snapshot needs none",
                                                   "ABOUT names no maintainer; --snapshot needs none"])
        self.change("README.md", "rdsrt", "RDSRT")
        self.check("a change", self.obstacles(True), ["commit your changes first: a release is made of a commit"])

    @needs("dpkg")
    def test_all_that_is_missing_is_named_at_once(self):
        tools = temporary_folder(self)
        for name in ("bash", "dirname", "env", "git", "rt", "sed", "gzip"):
            os.symlink(shutil.which(name), os.path.join(tools, name))
        os.symlink(sys.executable, os.path.join(tools, "python3"))
        words = [os.path.join(self.tree, it) for it in ("tools/release", "README.md")]
        status, said = output(words, env={"PATH": tools})
        for it in (*RELEASE.COMPILERS, "dpkg-deb"):
            self.check(f"without {it}", f"tools/release: no {it} here\n" in said.decode(), True)
        self.check("an OUT that is a file", f"{words[1]} is not an empty folder\n" in said.decode(), True)
        self.check("the status", status, 1)

    def test_the_words(self):
        for words in ([], ["--snap", "out"], ["out", "more"]):
            status, said = output([path("tools/release"), *words])
            first = b"usage: tools/release [-h] [--snapshot] OUT"
            self.check(f"tools/release {words}", (status, said.split(b"\n")[0]), (2, first))


@needs("dpkg", "gcc", "binutils", "g++-aarch64-linux-gnu", "libc6-dev-arm64-cross", "python3-pip")
class Stopped(Repository):
    def setUp(self):
        super().setUp()
        self.child, self.room, self.kit = (os.path.join(temporary_folder(self), it) for it in ("child", "room", "kit/bin"))
        for it in (self.room, self.kit, os.path.join(self.tree, "crates/rdsrt")):
            os.makedirs(it)
        for at, text in (("crates/rdsrt/main.rt", ""), (os.path.join(self.kit, "rt"), RT.format(self.child))):
            with open(os.path.join(self.tree, at), "w", encoding="utf-8") as file:
                file.write(text)
        os.chmod(file.name, 0o755)
        self.commit()

    def test_nothing_is_left(self):
        out = os.path.join(os.path.dirname(self.tree), "made")
        with subprocess.Popen([os.path.join(self.tree, "tools/release"), out], stdout=subprocess.DEVNULL,
                              stderr=subprocess.DEVNULL,
                              env={**os.environ, "TMPDIR": self.room,
                                   "PATH": self.kit + os.pathsep + os.environ["PATH"]}) as run:
            end = time.monotonic() + PROMPT
            while not (os.path.exists(self.child) and text_of(self.child)) and time.monotonic() < end:
                time.sleep(0.05)
            self.check("nothing yet", os.path.exists(out), False)
            run.send_signal(signal.SIGTERM)
            self.check("the status", run.wait(SECONDS), 128 + signal.SIGTERM)
        self.check("temporary files", os.listdir(self.room), [])
        self.check("beside OUT", os.listdir(os.path.dirname(self.tree)), [os.path.basename(self.tree)])
        self.check("the child of `rt`", os.path.exists(f"/proc/{text_of(self.child).strip()}"), False)


class Bytes(Repository):
    def source(self, home, **more):
        """Returns the source that a user with this home gets."""
        out = temporary_folder(self)
        with mock.patch.dict(os.environ, {**os.environ, "HOME": home, **more}, clear=True):
            release = script(os.path.join(self.tree, "tools/release"))
            with mock.patch.dict(os.environ, release.plain_environment(), clear=True):
                release.write_source(release.cloned(out), f"rdsrt-{VERSION}", out)
        with open(os.path.join(out, f"rdsrt-{VERSION}-source.tar.gz"), "rb") as file:
            return file.read()

    def test_the_source_is_the_same_for_each_user(self):
        home = temporary_folder(self)
        os.makedirs(os.path.join(home, ".config/git"))
        with open(os.path.join(home, ".gitconfig"), "w", encoding="utf-8") as file:
            file.write("[core]\n autocrlf = true\n eol = crlf\n[tar]\n umask = 0077\n")
        with open(os.path.join(home, ".config/git/attributes"), "w", encoding="utf-8") as file:
            file.write("* text eol=crlf\n*.md export-ignore\n")
        before, self.umask = self.source(temporary_folder(self)), os.umask(0o077)
        try:
            after = self.source(home, TZ="Pacific/Auckland", LC_ALL="tr_TR.UTF-8", GZIP="-1",
                                GIT_CONFIG_GLOBAL=f"{home}/.gitconfig")
        finally:
            os.umask(self.umask)
        self.check("the bytes", before == after, True)
        self.check("ends of lines", b"\r\n" in gzip.decompress(after), False)


class Proof(Case):
    def test_each_crate_has_the_verdict_below_its_name(self):
        at = os.path.join(temporary_folder(self), "verdicts")
        with open(at, "w", encoding="utf-8") as file:
            for name, count in (("low", 1), ("high", 2)):
                file.write(f"rt: chose --jobs 4 for {name}\nfn {name}::f: proved\nlogic=proved functions={count} sum=a\n")
        wanted = {"low": "logic=proved functions=1 sum=a", "high": "logic=proved functions=2 sum=a"}
        self.check("verdicts", script("tools/proof").verdicts_in(at), wanted)

    def test_a_changed_binary_is_found(self):
        made, proof = os.path.join(temporary_folder(self), "rdsrt"), script("tools/proof")
        for name in (made, f"{made}-static"):
            with open(name, "wb") as file:
                file.write(b"code")
        crates.record_verdict(made, "logic=proved functions=1\n")
        lines = proof.verdict(made)
        # sha256sum of "code"
        known = "5694d08a2e53ffcae0c3103e5ad6f6076abd960eb1f8a56577040bc1028f702b"
        sums = [f"sha256={known} {it}" for it in ("rdsrt", "rdsrt-static")]
        self.check("the lines", lines, [*sums, "logic=proved functions=1"])
        for name in (made, f"{made}-static"):
            with open(name, "wb") as file:
                file.write(b"cods")
            with self.assertRaisesRegex(SystemExit, "changed after its check"):
                proof.verdict(made)
            with open(name, "wb") as file:
                file.write(b"code")
