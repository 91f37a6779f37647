"""The C library on this machine: the header, the archive, the examples as each compiler builds them, and an install."""
import os
import re
import sys
import tempfile

from tests import c_library, package
from tests.needed import needs
from tests.support import ARCHIVE, INSTALL, Case, build_archive, bytes_of, output, path, ran, temporary_folder, text_of


class Header(Case):
    def test_it_has_the_codes_of_the_definitions(self):
        defined = dict(re.findall(r"^(RDSRT_\w+) = (\d+)$", text_of(c_library.CODES), re.M))
        declared = dict(re.findall(r"\b(RDSRT_[A-Z0-9_]+)(?: = | UINT32_C\()(\d+)", text_of(c_library.HEADER)))
        declared["RDSRT_ABI"] = str(c_library.ABI)
        self.check("codes", declared, defined)


class Archive(Case):
    @classmethod
    def setUpClass(cls):
        build_archive()

    @needs("binutils")
    def test_it_exports_the_calls_of_the_header_and_needs_and_writes_nothing_else(self):
        c_library.archive(self.check)

    @needs("binutils")
    def test_the_header_has_the_stack_of_each_call(self):
        c_library.stack(self.check, ARCHIVE, "", 1)

    def test_each_call_gets_any_bytes(self):
        tried = re.findall(r"\b(rdsrt_\w+)\(", text_of("tests/c/any_bytes.c"))
        self.check("calls without a try", c_library.declared() - {*tried}, set())

    @needs("clang", "libclang-rt-dev")
    def test_the_line_of_security_runs_a_fuzzer(self):
        folder = temporary_folder(self)
        line, = re.findall(r"^    (clang .*) && \./fuzz$", text_of("SECURITY.md"), re.M)
        *words, name = line.split()
        self.check("what it makes", name, "fuzz")
        fuzzer = os.path.join(folder, name)
        self.check("it is built", output([*words, fuzzer], cwd=path(".")), (0, b""))
        status, said = output([fuzzer, "-seed=1", "-runs=100000", "-timeout=20"], cwd=folder)
        self.check("no call does harm", (status, b"\nDone 100000 runs" in said), (0, True), said)


@needs("gcc", "libc6-dev")
class Compilers(Case):
    """The programs of C do what rdsrt does, as each compiler builds them."""

    @classmethod
    def setUpClass(cls):
        build_archive()
        cls.given = c_library.inputs()

    def build_and_run(self, compiler, language):
        folder, how = temporary_folder(self), " ".join([compiler, *language])
        if c_library.SANITIZED[1] in language and not c_library.sanitizes(compiler, folder):
            self.skipTest(f"no sanitizers of {compiler} here")
        c_library.built(self.check, how, compiler, language, folder)
        c_library.run_all(self.check, how, folder, self.given)

    def test_c11(self):
        self.build_and_run("cc", ["-std=c11"])

    @needs("g++")
    def test_cpp17(self):
        self.build_and_run("c++", ["-std=c++17", "-x", "c++"])

    @needs("clang")
    def test_clang(self):
        self.build_and_run("clang", ["-std=c11"])

    def test_stored_structs_keep_their_bytes(self):
        """COMPATIBILITY promises them for one RDSRT_ABI. If a layout changes, change RDSRT_ABI, and then the shown file."""
        program = os.path.join(temporary_folder(self), "stored")
        words = ["cc", "-std=c11", *c_library.WARNINGS, "-I", path("include"), path("tests/c/stored.c"), ARCHIVE, "-o", program]
        self.check("it is built", output(words), (0, b""))
        self.check("the bytes of each struct", output([program]), (0, bytes_of("tests/shown/stored_structs.txt")))

    def test_sanitizers(self):
        self.build_and_run("cc", ["-std=c11", *c_library.SANITIZED])


@needs("gcc", "pkg-config")
class Install(Case):
    """A fresh prefix, which is moved before it is used: the files for pkg-config and CMake find the prefix where it
    is."""

    @classmethod
    def setUpClass(cls):
        build_archive()
        cls.folder = temporary_folder(cls)
        prefix, cls.prefix = os.path.join(cls.folder, "prefix"), os.path.join(cls.folder, "moved")
        cls.status, cls.printed = output([INSTALL, prefix], seconds=3600)
        cls.files, cls.beside = c_library.installed_in(prefix), os.listdir(cls.folder)
        os.rename(prefix, cls.prefix)

    def test_it_has_all_files_and_writes_none_beside_the_prefix(self):
        self.check("./install", (self.status, self.status and self.printed), (0, 0))
        self.check("what is installed", self.files, c_library.STAGED)
        self.check("what lies beside the prefix", self.beside, ["prefix"])

    @needs("binutils")
    def test_the_shared_library_exports_the_calls_of_the_list(self):
        listed = re.findall(r"^ +(rdsrt_\w+);$", text_of("include/rdsrt.map"), re.M)
        self.check("the list has the calls of the header", sorted(listed), sorted(c_library.declared()))
        symbols = output(["nm", "-D", "--defined-only", os.path.join(self.prefix, "lib/librdsrt.so")])[1].decode()
        exported = sorted(it.split()[1:] for it in symbols.splitlines())
        self.check("what is exported", exported, sorted(["T", it] for it in listed))

    def test_the_program_decodes(self):
        words = [os.path.join(self.prefix, "bin/rdsrt"), "decode", "--pi", "C201"]
        self.check("hi.log", output(words, bytes_of("examples/hi.log")), (0, b'0 text "HI"\n'))

    def test_pkg_config_finds_the_library(self):
        c_library.readme(self.check, self.folder, self.prefix)
        c_library.typed(self.check, temporary_folder(self), self.prefix)

    def test_the_lines_of_each_example_build_and_run_it(self):
        c_library.typed_examples(self.check, temporary_folder(self), self.prefix)

    def test_it_has_the_pages_and_the_example_that_the_header_names(self):
        folder = os.path.join(self.prefix, "share/doc/rdsrt")
        named = set(re.findall(r"\b[A-Z]{4,}\.md\b|examples/c/\w+\.c", text_of(c_library.HEADER)))
        self.check("what the header names", named, {"DEFINITIONS.md", "FORMATS.md", "examples/c/tuner.c"})
        self.check("what lacks", [it for it in named if not os.path.exists(os.path.join(folder, it))], [])

    def test_the_programs_find_the_library(self):
        package.examples(self.check, "after ./install", temporary_folder(self), package.plain_environment())
        package.examples(self.check, "installed", temporary_folder(self), package.plain_environment(),
                         os.path.join(self.prefix, "bin/rdsrt-"))

    @needs("cmake")
    def test_cmake_finds_the_library_for_the_versions_that_fit(self):
        with tempfile.TemporaryDirectory() as folder:
            c_library.cmake(self.check, folder, self.prefix)

    @needs("cmake")
    def test_cmake_finds_the_library_through_a_link(self):
        c_library.cmake_by_link(self.check, temporary_folder(self), self.prefix)

    def test_python_takes_the_library(self):
        code, library = "import rdsrt; print(rdsrt.library_version())", os.path.join(self.prefix, "lib/librdsrt.so")
        version = ran(["--version"])[1].split()[1]
        names = {**os.environ, "PYTHONPATH": path("python/src"), "RDSRT_LIBRARY": library,
                 "PYTHONDONTWRITEBYTECODE": "1"}
        self.check("version", output([sys.executable, "-c", code], env=names), (0, version + b"\n"))
