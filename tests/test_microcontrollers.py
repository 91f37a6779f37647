"""The C library on 32-bit processors, as examples/microcontrollers compiles it, under emulators."""
import os
import re
import sys

from tests import c_library
from tests.c_library import WARNINGS
from tests.needed import needs
from tests.support import INSTALL, Case, bytes_of, output, path, temporary_folder, text_of

FOLDER = path("examples/microcontrollers")
sys.path.insert(1, FOLDER)
import narrow

# for each Cortex-M a board of the emulator, and the end of its RAM: 4 MB, and 16 KB
BOARDS = {"cortex-m4": ("mps2-an386", 0x20400000), "cortex-m4f": ("mps2-an386", 0x20400000), "cortex-m0plus": ("microbit", 0x20004000)}
BARE = ["--specs=rdimon.specs", "-Wl,--section-start=.vectors=0", "-Wl,-Tdata=0x20000000", "-Wl,-z,noexecstack"]
# each program of a board, its argument, input and output; a group of tuner.c, and its text a dwell and 60 s later
PROGRAMS = [("tests/c/calls.c", "", b"", b"ok\n"), ("tests/c/any_bytes.c", c_library.ROUNDS, b"", b"ok\n"),
            ("examples/c/tuner.c", "C201", b"1664000 C201 2140 4849 0D20 0 0 0 0\n1700000\n80000000\n",
             b'0 text "HI"\n813 text none\n')]
# a receiver alone
RECEIVER = b"""#include <rdsrt.h>
struct rdsrt_receiver receiver; struct rdsrt_view view; uint16_t blocks[4];
void entry(void) {
    rdsrt_receiver_init(&receiver, 0xC201, 128); rdsrt_receiver_slot(&receiver, blocks, 4);
    rdsrt_receiver_view(&receiver, &view);
}
"""
# the same with the count of slots by times
RADIO = b"""#include "radio.h"
static struct radio radio; uint16_t blocks[4]; volatile uint64_t now;
static void show(const struct radio *it, const struct rdsrt_view *was) { (void)it; (void)was; }
void entry(void) { radio_init(&radio, 0xC201, 128, 0, 60, show); radio_group(&radio, now, blocks); radio_time(&radio, now); }
"""
# nanoseconds of an instruction of the emulator, as its power of two
SHIFT = 7
# a startup code and a linker script, which lay out all that a program needs
STARTUP = b"extern int main(void);\nvoid entry(void) { main(); for (;;) {} }\n"
BOARD = b"""ENTRY(entry)
SECTIONS {
    .text 0 : { *(.text*) *(.rodata*) } .ARM.exidx : { *(.ARM.exidx*) }
    .data 0x20000000 : { *(.data*) } .bss : { *(.bss*) *(COMMON) }
}
"""
# forms that differ on 32 bits, and one that LLVM does not have
UNKNOWN = ["@other = global i32 0, align 4", "@static.9 = private constant [1 x ptr] [ptr @static.0], align 8",
           "  %x = alloca [2 x ptr], align 8", "  %x = load { i16, ptr }, ptr %y, align 8",
           "  %x = load { ptr, ptr }, ptr %y, align 8", "  %x = load { i8, ptr }, ptr %y, align 8, !noundef !1",
           "  %x = load i256, ptr %y, align 16", "  %x = ptrtoint ptr %y to i64",
           "  %x = getelementptr ptr, ptr %y, i64 1", "  %x = nonsense i32 %y"]


def ran_on(board, program, argument="", given=b"", more=()):
    """Returns the status and the output of a program on a board of the emulator."""
    arguments = f"enable=on,target=native,arg={os.path.basename(program)},arg={argument}"
    return output(["qemu-system-arm", "-M", board, *more, "-display", "none", "-monitor", "none", "-serial", "none",
                   "-semihosting-config", arguments, "-kernel", program], given)


@needs("gcc-arm-none-eabi", "libnewlib-arm-none-eabi", "gcc-arm-linux-gnueabihf", "libc6-dev-armhf-cross", "qemu-system-arm",
       "qemu-user")
class Microcontrollers(Case):
    def built(self, target):
        """Builds the library for a target. Returns the words of its compiler, and the library."""
        tools, machine = narrow.TARGETS[target]
        compiler, library = f"{tools}-gcc", os.path.join(FOLDER, "out", target, "librdsrt.a")
        status, printed = output([os.path.join(FOLDER, "narrow.py"), target], seconds=3600)
        self.assertEqual((status, printed), (0, b""), f"{target}: the library is built")
        return [compiler, *machine, "-std=c11", "-I", path("include")], library

    def on_a_board(self, target):
        """Runs calls.c, any_bytes.c and the example with an interrupt on a board without a system."""
        (compiler, library), (board, top) = self.built(target), BOARDS[target]
        folder = temporary_folder(self)
        for source, argument, given, wanted in PROGRAMS:
            program = self.for_board(compiler, library, top, folder, source)
            self.check(source, ran_on(board, program, argument, given), (0, wanted))
        place, page = 1 + (target == "cortex-m0plus"), text_of("docs/RECEIVER.md")
        said = re.search(r"(\d+) KB on a Cortex-M4, (\d+) KB on an M0\+", page)
        self.check(f"flash of a receiver alone for {target}, in KB", self.flash(compiler, library, folder, RECEIVER)[0],
                   int(said[place]))
        said = re.search(r"radio\.h\)\) \| (\d+) bytes of memory; (\d+) KB of flash on a Cortex-M4, (\d+) KB on an M0\+", page)
        self.check(f"flash and memory with radio.h for {target}", self.flash(compiler, library, folder, RADIO),
                   (int(said[place + 1]), int(said[1])))
        said = re.search(r"([\d,]+) bytes on a Cortex-M4, ([\d,]+) on an M0\+", text_of("docs/RECEIVER.md"))
        room = int(said[place].replace(",", ""))
        program = self.for_board([*compiler, f"-DCOUNT={1 << SHIFT}"], library, top, folder, "tests/c/stack.c")
        taken, mean, most = map(int, ran_on(board, program, more=["-icount", f"shift={SHIFT}"])[1].split())
        if place == 1:
            said = re.search(r"(\d+) on average, at most ([\d,]+)", page)
            self.check("instructions of a call", (mean, most), (int(said[1]), int(said[2].replace(",", ""))))
        self.check(f"stack of a call for {target}", (taken <= room, taken), (True, taken))

    def for_board(self, compiler, library, top, folder, source):
        """Builds a C program for a board. Returns its path."""
        program = os.path.join(folder, os.path.basename(source)[:-2])
        words = [*compiler, *(it for it in WARNINGS if it != "-pthread"), *BARE, f"-Wl,--defsym=top_of_stack={top}",
                 os.path.join(FOLDER, "board.c"), path(source), library, "-o", program]
        self.check(f"{source} is built", output(words), (0, b""))
        return program

    def flash(self, compiler, library, folder, source):
        """Returns how much flash a program takes in KB, as docs/RECEIVER.md says it, and the memory of its largest struct."""
        program = os.path.join(folder, "alone")
        words = [*compiler, "-I", path("examples/c"), "-Os", "-nostartfiles", "-Wl,-e,entry", "-Wl,--gc-sections", "-x", "c", "-", "-x", "none",
                 library, "-o", program]
        self.check("a receiver alone is built", output(words, source)[0], 0)
        text, data = output(["arm-none-eabi-size", program])[1].split()[6:8]
        sizes = re.findall(rb"^[0-9a-f]+ ([0-9a-f]+) [bB]", output(["arm-none-eabi-nm", "-S", program])[1], re.M)
        return round((int(text) + int(data)) / 1000), max(int(it, 16) for it in sizes)

    def test_cortex_m4(self):
        self.on_a_board("cortex-m4")

    def test_cortex_m4f(self):
        self.on_a_board("cortex-m4f")

    def test_cortex_m0plus(self):
        self.on_a_board("cortex-m0plus")

    def test_the_line_that_compiles_a_program(self):
        """With a startup code and a linker script for no board. The program is not run."""
        self.built("cortex-m4")
        line, = re.findall(r"^arm-none-eabi-gcc .*\n.*$", text_of("examples/microcontrollers/README.md"), re.M)
        folder = temporary_folder(self)
        for name in ("include", "examples"):
            os.symlink(path(name), os.path.join(folder, name))
        files = {"main.c": RECEIVER.replace(b"void entry", b"int main"), "startup.c": STARTUP, "board.ld": BOARD}
        for name, text in files.items():
            with open(os.path.join(folder, name), "wb") as file:
                file.write(text)
        self.check(line, output(["sh", "-c", line], cwd=folder), (0, b""))
        self.check("what it makes", os.path.exists(os.path.join(folder, "main.elf")), True)

    def test_armv7(self):
        (compiler, *language), library = self.built("armv7")
        folder = temporary_folder(self)
        c_library.built(self.check, "armv7", compiler, [*language, "-static"], folder, library)
        c_library.run_all(self.check, "armv7", folder, c_library.inputs(), ["qemu-arm"])

    def test_install_for_armv7(self):
        _, library = self.built("armv7")
        prefix = temporary_folder(self)
        self.check("./install", output([INSTALL, prefix, "--target", "armv7"], seconds=3600), (0, b""))
        self.check("what is installed", c_library.installed_in(prefix), {"include/rdsrt.h", "lib/librdsrt.a"})
        self.check("the library", bytes_of(os.path.join(prefix, "lib/librdsrt.a")), bytes_of(library))

    def test_a_module_with_an_unknown_form_is_refused(self):
        os.makedirs(narrow.OUT, exist_ok=True)
        module, header = narrow.kept_module(), text_of(c_library.HEADER)
        for line in ["", *UNKNOWN]:
            try:
                narrow.narrowed(f"{module}\n{line}\n", "", header)
                stopped = ""
            except SystemExit as why:
                stopped = str(why)
            self.check(f"'{line}'", "unknown form" in stopped, line != "")
