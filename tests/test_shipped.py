"""The pages of the packages over the files of this checkout, and the file ABOUT."""
import glob
import gzip
import os
import re
import shutil
import subprocess
import zipfile

from tests import c_library, package, shipped_pages
from tests.needed import needs
from tests.support import (ARCHIVE, PROGRAM, ROOT, SECONDS, Case, build_archive, commit, output, path, temporary_folder,
                           text_of)

SHIPPED = path("tools/shipped.py")
ADDRESSES = ("homepage", "reports")
VERSION = c_library.header_version()


def played(tree, folder=".", environment=None):
    """Returns a function that plays lines of sh in a folder of the tree. The programs are in its bin, and in PATH."""
    programs = os.path.join(tree, "bin")
    shutil.copytree(package.installed_programs(), programs, symlinks=True)
    os.symlink(PROGRAM, os.path.join(programs, "rdsrt"))
    names = {**(environment or os.environ), "PATH": f"{programs}:{os.environ['PATH']}"}

    def run(call):
        done = subprocess.run(["sh", "-c", call], cwd=os.path.join(tree, folder), stdout=subprocess.PIPE,
                              stderr=subprocess.DEVNULL, timeout=SECONDS, env=names)
        return done.stdout.decode()
    return run


def about(field, root=ROOT):
    """Returns a field of the file ABOUT."""
    return output([os.path.join(root, "tools/about"), field])[1].decode().strip()


class Pages(Case):
    def setUp(self):
        self.tree = temporary_folder(self)

    def lay(self, layout, places):
        """Copies files of the checkout to where a kind of package has them, and writes its pages."""
        for name, place in places.items():
            to = os.path.join(self.tree, place)
            os.makedirs(os.path.dirname(to), exist_ok=True)
            if os.path.isdir(path(name)):
                shutil.copytree(path(name), to, ignore=shutil.ignore_patterns("microcontrollers", "__pycache__"))
            else:
                shutil.copy(path(name), to)
        self.assertEqual(output([SHIPPED, layout, self.tree]), (0, b""))

    def test_install(self):
        """The commands of the pages that ./install lays down run in their folder."""
        doc = "share/doc/rdsrt"
        self.lay("install", {"examples": f"{doc}/examples"})
        shipped_pages.links(self.check, self.tree)
        pages, run = shipped_pages.pages(self.tree), played(self.tree, doc)
        self.check("it plays commands", shipped_pages.commands(self.check, self.tree, pages, run) > 15, True)
        text = "".join(map(text_of, pages))
        self.check("no path of a checkout", re.findall(r"(?<![\w/])programs/\w+|(?<![./])\./rdsrt", text), [])
        self.check("files that no install has", [it for it in re.findall(r"\bexamples/[\w./-]*\w", text)
                                                if not os.path.exists(os.path.join(self.tree, doc, it))], [])

    def test_tarball(self):
        """The pages but README, whose commands need the C library."""
        self.lay("tarball", {"examples": "share/doc/rdsrt/examples", "python/src": "share/rdsrt/python/src",
                             "include/rdsrt.h": "include/rdsrt.h", "tools/tarball.md": "README.md",
                             "page/index.html": "share/rdsrt/page/index.html"})
        run = played(self.tree)
        shipped_pages.links(self.check, self.tree)
        readme, *among = shipped_pages.pages(self.tree)
        self.check("the first page", os.path.basename(readme), "README.md")
        shipped_pages.names(self.check, self.tree, among)
        self.check("it plays commands", shipped_pages.commands(self.check, self.tree, among, run) > 15, True)
        left = [page for page in shipped_pages.pages(self.tree) if re.search(r"(?<![./])\./rdsrt", text_of(page))]
        self.check("pages with the command of the repository", left, [])

    def test_debian(self):
        doc = "usr/share/doc/rdsrt"
        self.lay("debian", {"examples": f"{doc}/examples", "include/rdsrt.h": "usr/include/rdsrt.h"})
        shipped_pages.links(self.check, self.tree)
        guide = "".join(text_of(os.path.join(self.tree, doc, f"{it}.md")) for it in ("TEST", "STATION", "RECEIVER"))
        for word in ("programs/", "/opt/rdsrt", "./rdsrt"):
            self.check(f"the pages of Debian have no {word}", word in guide, False)
        for word in ("| rdsrt-json |", "| rdsrt-monitor {}"):
            self.check(f"the pages of Debian have {word}", word in guide, True)

    def test_wheel(self):
        self.lay("wheel", {})
        shipped_pages.links(self.check, self.tree)

    @needs("systemd")
    def test_systemd_takes_the_unit_of_debian(self):
        self.lay("debian", {})
        unit = os.path.join(self.tree, "usr/lib/systemd/system/rdsrt-monitor.service")
        text = text_of(unit)
        self.check("the unit has no path of a checkout", re.findall("/opt|/usr/local|LIBRARY", text), [])
        self.check("its words", "exec rdsrt-monitor --metrics /var/lib/rdsrt/rdsrt.prom /etc/rdsrt/stations" in text,
                   True)
        self.check("systemd-analyze", output(["systemd-analyze", "verify", unit]), (0, b""))


class Uses(package.PackageCase):
    @needs("jq")
    def test_what_a_user_of_the_packages_types_first(self):
        """tests/release does the same where they are installed."""
        folder = temporary_folder(self)
        names = {**self.names, "LC_ALL": "C.UTF-8", "examples": path("examples")}
        run = played(folder, environment=names)
        for name, call, wanted in shipped_pages.USES:
            self.check(name, run(call), wanted)


class About(Case):
    """The man page, the Debian packages and the wheel of a repository by its file ABOUT, which has an address or has none."""
    FILES = ("CHANGELOG.md", "docs", "examples", "include", "programs", "python", "tools")
    ADDRESS = {"homepage": "https://example.org/rdsrt", "reports": "https://example.org/rdsrt/issues"}
    MAINTAINER = "Ada Lovelace <ada@example.org>"

    def repository(self, address, maintainer=MAINTAINER):
        """Returns a folder with the files that packages are made of, for x86-64 as this machine's own."""
        tree = temporary_folder(self)
        for name in self.FILES:
            if os.path.isdir(path(name)):
                shutil.copytree(path(name), os.path.join(tree, name), ignore=shutil.ignore_patterns("out", "__pycache__"))
            else:
                shutil.copy(path(name), tree)
        with open(os.path.join(tree, "ABOUT"), "w", encoding="utf-8") as file:
            file.write(f"# a comment\nversion: {VERSION}\n" + "".join(f"{it}: {address.get(it, '')}\n" for it in ADDRESSES)
                       + f"maintainer: {maintainer}\n")
        for name, built in (("rdsrt/out/x86_64/rdsrt", PROGRAM), ("rds_ffi/out/x86_64/librds_ffi.a", ARCHIVE)):
            at = os.path.join(tree, "crates", name)
            os.makedirs(os.path.dirname(at))
            shutil.copy(built, at)
        commit(tree, "ABOUT")
        return tree

    @needs("dpkg", "gcc", "binutils")
    def test_the_packages_have_the_address_or_no_field(self):
        build_archive()
        for address in ({}, self.ADDRESS):
            tree, out = self.repository(address), temporary_folder(self)
            self.check("tools/about", [about(it, tree) for it in ("version", *ADDRESSES, "maintainer")],
                       [VERSION, *(address.get(it, "") for it in ADDRESSES), self.MAINTAINER])
            self.check("tools/deb", output([f"{tree}/tools/deb", "x86_64", out])[0], 0)
            deb = os.path.join(out, f"rdsrt_{VERSION}-0upstream1_amd64.deb")
            self.check("Homepage", output(["dpkg-deb", "-f", deb, "Homepage"])[1].decode().split(),
                       [*address.values()][:1])
            self.check("Maintainer", output(["dpkg-deb", "-f", deb, "Maintainer"])[1].decode().strip(), self.MAINTAINER)
            self.assertEqual(output(["dpkg-deb", "-x", deb, out])[0], 0)
            with gzip.open(os.path.join(out, "usr/share/man/man1/rdsrt.1.gz"), "rt", encoding="utf-8") as file:
                bugs = re.findall(r"\.SH BUGS\nReport bugs at (.*)\.\n", file.read())
            self.check("BUGS", bugs, [*address.values()][1:])
            found = dict(re.findall(r"^(Source|Upstream-Contact): (.*)$",
                                    text_of(os.path.join(out, "usr/share/doc/rdsrt/copyright")), re.M))
            self.check("copyright", [found.get(it) for it in ("Source", "Upstream-Contact")],
                       [address.get("homepage"), address.get("reports")])

    @needs("gcc", "python3-pip")
    def test_the_wheel_has_the_address_or_no_field(self):
        build_archive()
        for address in ({}, self.ADDRESS):
            tree, out = self.repository(address), temporary_folder(self)
            words = [f"{tree}/python/wheel", f"{tree}/crates/rds_ffi/out/x86_64/librds_ffi.a", "x86_64", out]
            self.check("python/wheel", output(words)[0], 0)
            with zipfile.ZipFile(glob.glob(f"{out}/*.whl")[0]) as wheel:
                metadata = wheel.read(f"rdsrt-{VERSION}.dist-info/METADATA").decode()
            urls = re.findall(r"^(?:Home-page|Project-URL): (?:\w+, )?(.*)$", metadata, re.M)
            self.check("METADATA", urls, [*address.values()])

    @needs("dpkg", "gcc", "binutils", "python3-pip")
    def test_a_snapshot_sorts_below_its_version(self):
        """The Debian packages, and the wheel as pip compares versions."""
        build_archive()
        tree, out = self.repository({}, ""), temporary_folder(self)
        names = {**os.environ, "RDSRT_SNAPSHOT": "20261129101530.g9058da50"}
        self.check("tools/deb", output([f"{tree}/tools/deb", "x86_64", out], env=names)[0], 0)
        found = {output(["dpkg-deb", "-f", it, "Version"])[1].decode().strip() for it in glob.glob(f"{out}/*.deb")}
        self.check("Debian", found, {f"{VERSION}~20261129101530.g9058da50-0upstream1"})
        self.check("dpkg", output(["dpkg", "--compare-versions", *found, "lt", f"{VERSION}-0upstream1"])[0], 0)
        python = output([path("python/wheel"), "--python"])[1].decode().strip()
        words = [f"{tree}/python/wheel", f"{tree}/crates/rds_ffi/out/x86_64/librds_ffi.a", "x86_64", out]
        self.check("python/wheel", output(words, env=names)[0], 0)
        version = os.path.basename(glob.glob(f"{out}/*.whl")[0]).split("-")[1]
        self.check("the wheel", version, f"{VERSION}.dev0+20261129101530.g9058da50")
        code = ("import sys; from pip._vendor.packaging.version import Version; "
                "sys.exit(not Version(sys.argv[1]) < Version(sys.argv[2]))")
        self.check("pip", output([python, "-c", code, version, VERSION])[0], 0)

    @needs("dpkg", "gcc", "binutils")
    def test_only_a_snapshot_needs_no_maintainer(self):
        """test_a_snapshot_sorts_below_its_version makes one."""
        tree, out = self.repository({}, ""), temporary_folder(self)
        self.check("tools/deb", output([f"{tree}/tools/deb", "x86_64", out]), (1, b"tools/deb: ABOUT names no maintainer\n"))
        self.check("no package is made", os.listdir(out), [])

    def test_readme_has_the_address(self):
        for field in ADDRESSES:
            self.check(f"README has the {field} of ABOUT", about(field) in text_of("README.md"), True)
