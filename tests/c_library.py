"""The C library as C programs use it: the examples as each compiler builds them, the archive, and an install.

test_c_library has the tests for this machine, test_arm and test_microcontrollers those for other processors.
"""
import glob
import itertools
import os
import random
import re
import shutil

from tests.slot import NINETEEN_SLOTS
from tests.support import ARCHIVE, output, path, ran, text_of

HEADER, CODES = "include/rdsrt.h", "crates/rds_ffi/specs/Codes.antt"
WARNINGS = ["-O1", "-Wall", "-Wextra", "-pedantic", "-Werror", "-pthread"]
SANITIZED = ["-g", "-fsanitize=address,undefined", "-fno-sanitize-recover=all"]
ABI = int(re.search(r"#define RDSRT_ABI (\d+)", text_of(HEADER)).group(1))
PROGRAMS = ["examples/c/decode.c", "examples/c/encode.c", "examples/c/audit.c", "examples/c/receive.c",
            "examples/c/tuner.c", "tests/c/calls.c", "tests/c/any_bytes.c", "tests/c/threads.c"]
LIBC = {"memcpy", "memset", "memmove", "memcmp"}
# the files that tools/stage lays out, for ./install and for a release: programs, the Python package, examples, and all
PROGRAMS_IN_BIN = {f"bin/rdsrt-{it}" for it in os.listdir(path("programs")) if "." not in it and it != "__pycache__"}
PACKAGE = {f"share/rdsrt/python/src/rdsrt/{it}" for it in (f"librdsrt.so.{ABI}", *os.listdir(path("python/src/rdsrt")))
           if it != "__pycache__"}
EXAMPLES = {"examples/README.md", *(os.path.relpath(it, path("")) for kind in ("*.log", "*.csv", "c/*")
                                    for it in glob.glob(path(f"examples/{kind}"))),
            *(f"examples/rdsrt-{os.path.basename(it)}" for it in glob.glob(path("programs/*.service")))}
STAGED = {"bin/rdsrt", "include/rdsrt.h", "lib/librdsrt.a", "lib/librdsrt.so", f"lib/librdsrt.so.{ABI}",
          "lib/pkgconfig/rdsrt.pc", "lib/cmake/rdsrt/rdsrt-config.cmake", "lib/cmake/rdsrt/rdsrt-config-version.cmake",
          "share/man/man1/rdsrt.1",
          *PROGRAMS_IN_BIN, *PACKAGE, *(f"share/doc/rdsrt/{it}" for it in (
              "AIR.md", "DEFINITIONS.md", "FORMATS.md", "TEST.md", "STATION.md", "RECEIVER.md", *EXAMPLES)),
          "share/bash-completion/completions/rdsrt", "share/zsh/site-functions/_rdsrt",
          "share/fish/vendor_completions.d/rdsrt.fish",
          *(f"share/{it}" for name in PROGRAMS_IN_BIN for it in (f"bash-completion/completions/{name[4:]}",
                                                                f"fish/vendor_completions.d/{name[4:]}.fish"))}
# a project that finds the library by CMake
PROJECT = """cmake_minimum_required(VERSION 3.13)
project(trial C)
find_package(rdsrt ${ASKED} REQUIRED)
add_executable(shared hi.c)
target_link_libraries(shared PRIVATE rdsrt::rdsrt)
add_executable(static hi.c)
target_link_libraries(static PRIVATE rdsrt::static)
"""
ROWS, PIECES, ROUNDS = 100_000, 60, 3000
DWELL, LATE, WINDOW = "16", "3", "64"
# microseconds of examples/c/radio.h's grain, of an hour, and from 1970 to a day of 2023
GRAIN, HOUR, EPOCH = 20_000, 3_600_000_000, 1_700_000_000_000_000
LOST = b"---- ---- ---- ----\n"


def header_version():
    """Returns the version in the header."""
    macros = dict(re.findall(r"^#define RDSRT_VERSION_(\w+) (\d+)$", text_of(HEADER), re.M))
    return ".".join(macros[it] for it in ("MAJOR", "MINOR", "PATCH"))


def stack(check, at, prefix, column):
    """Checks the bytes of stack of each call in the header: in column 1 for x86-64, in column 2 for 64-bit Arm. No call
    takes more, and none has far too many there. How many it takes is the compiler's."""
    written = {it[0]: int(it[column]) for it in re.findall(r"(rdsrt_\w+) +(\d+) +(\d+)", text_of(HEADER))}
    status, lines = output([path("tests/stack"), at, f"{prefix}objdump"])
    taken = {name: int(count) for name, count in (line.split() for line in lines.decode().splitlines())}
    check(f"calls with a stack, column {column}", (status, set(taken)), (0, set(written)))
    wrong = {it: (taken[it], written[it]) for it in written if not taken[it] <= written[it] <= 2 * taken[it] + 64}
    check(f"stack of each call, column {column}: taken and written", wrong, {})


def declared():
    """Returns the calls of the header."""
    return {*re.findall(r"\b(rdsrt_\w+)\(", re.sub(r"/\*.*?\*/", "", text_of(HEADER), flags=re.S))}


def archive(check, at=ARCHIVE, prefix=""):
    """Checks the exported and needed symbols of the archive, and that it has no writable data."""
    symbols = output([f"{prefix}nm", at])[1].decode()
    exported = set(re.findall(r" T (\w+)$", symbols, re.M))
    check("calls of the header", declared(), exported)
    needed = set(re.findall(r" U (\w+)$", symbols, re.M))
    check("what the archive needs", needed - LIBC, set())
    # name, flags and the rest; tables of pointers are read-only once they are loaded
    found = output([f"{prefix}readelf", "-SW", at])[1].decode()
    sections = re.findall(r"\] (\S+) +\w+ +\w+ \w+ (\w+) \w+ +(\w*W\w*) ", found)
    writable = [name for name, size, _ in sections if int(size, 16) and not name.startswith(".data.rel.ro")]
    check("writable data of the archive", writable, [])


def field(text):
    """Returns a field of a record, between quotation marks if necessary."""
    return '"' + text.replace('"', '""') + '"' if set(text) & set(',"') else text


def script(seed, rows):
    """Gives rows of a script with texts, names, tags and restarts."""
    roll = random.Random(seed)
    for _ in range(rows):
        command = "-", ""
        kind = roll.random()
        if kind < 0.02:
            command = "text", f"TRACK {roll.randrange(999)}, Beyoncé {'x' * roll.randrange(40)}"
        elif kind < 0.03:
            command = "name", roll.choice(["POP", "NEWS", "JAZZ FM", ""])
        elif kind < 0.06:
            command = "tags", f"{roll.randrange(2)} 1 1 0 {roll.randrange(9)} 4 8 {roll.randrange(32)}"
        elif kind < 0.0605:
            command = "restart", ""
        yield f"{command[0]},{field(command[1])},{int(roll.random() < 0.7)},\n"


def heard(seed, sent):
    """Gives the lines of the log with some slots lost, of another programme, or written in another way."""
    roll = random.Random(seed)
    for line in sent.splitlines(True):
        kind = roll.random()
        if line.startswith(b"#") or kind > 0.3:
            yield line
        elif kind < 0.2:
            yield LOST
        elif kind < 0.22:
            yield line[:5] + b"----" + line[9:]
        elif kind < 0.24:
            yield line[:-1].lower() + b" @12:00\r\n"
        elif not line.startswith(b"-"):
            yield b"D" + line[1:]


def hostile(seed, log):
    """Returns a piece of the log with a few of its bytes changed to others that matter."""
    roll = random.Random(seed)
    start = roll.randrange(len(log))
    piece = bytearray(log[start:start + roll.randrange(4000)])
    for _ in range(roll.randrange(4) if piece else 0):
        piece[roll.randrange(len(piece))] = roll.choice(b"\r\n\x00 -#<%0aFg\xff")
    return bytes(piece)


def lost_slots(apart):
    """Returns how many slots were lost between two groups so many microseconds apart, by the rule: the least n such
    that 19 apart are at most 19 GRAIN and n + 1 slots more."""
    return next(n for n in itertools.count() if 19 * apart <= 19 * GRAIN + NINETEEN_SLOTS * (n + 1))


def timed(seed, log, most):
    """Returns the received groups of a log with their times in microseconds, with timers and a clock that is set now
    and then, and the log of the slots that a receiver counts by these times. When the clock is set it counts `most`
    slots."""
    roll = random.Random(seed)
    # the time of the last group, the lost slots that timers told since then, and how far the clock is ahead
    groups, slots, last, told, ahead = b"", b"", 0, 0, EPOCH
    for slot, line in enumerate(it for it in log.splitlines() if not it.startswith(b"#")):
        # just after the slot has begun, or just before it ends
        time = ahead + slot * NINETEEN_SLOTS // 19 + roll.randrange(80_000)
        if b"----" in line or roll.random() < 0.1:
            # slots count from the first time, here that of a group
            if groups and roll.random() < 0.2:
                groups, told = groups + b"%d\n" % time, lost_slots(time - last)
            continue
        lost = lost_slots(time - last) if groups else 0
        if groups and roll.random() < 0.005:
            jump = roll.choice([-10_000_000, HOUR + 1])
            ahead, time, lost = ahead + jump, time + jump, told + most
        groups += b"%d %s\n" % (time, line[:19])
        slots += LOST * lost + line[:19] + b"\n"
        last, told = time, 0
    time += 2 * int(DWELL) * NINETEEN_SLOTS // 19
    return groups + b"%d\n" % time, slots + LOST * lost_slots(time - last)


def interrupted(seed, log, most_errors=0):
    """Returns the groups of a log as interrupts of examples/c/tuner.c, with its calls of the main loop, and the log of
    the slots that it counts. Some groups are lost, some have a block with an error, and the main loop is late now and
    then, so that there is no place for a ninth group. The timer of 32 bits begins again on the way. Blocks up to the
    level `most_errors` count."""
    roll = random.Random(seed)
    # slots count from the first call of the main loop
    start = last = 2 ** 32 - 60_000_000
    interrupts, slots, waiting, late = b"%d\n" % start, b"", 0, 0
    for slot, line in enumerate(it for it in log.splitlines() if not it.startswith(b"#")):
        time = start + slot * NINETEEN_SLOTS // 19 + roll.randrange(60_000)
        if b"-" not in line and roll.random() < 0.9:
            errors = [roll.randrange(1, 4) if roll.random() < 0.02 else 0 for _ in range(4)]
            interrupts += b"%d %s %d %d %d %d\n" % (time % 2 ** 32, line, *errors)
            if max(errors) <= most_errors and waiting < 8:
                slots += LOST * lost_slots(time - last) + line + b"\n"
                last, waiting = time, waiting + 1
        late = roll.randrange(30) if late == 0 and roll.random() < 0.01 else max(late - 1, 0)
        if late == 0:
            interrupts, waiting = interrupts + b"%d\n" % ((time + roll.randrange(20_000)) % 2 ** 32), 0
    time += 300 * NINETEEN_SLOTS // 19
    return interrupts + b"%d\n" % (time % 2 ** 32), slots + LOST * lost_slots(time - last)


def received():
    """Gives worked inputs of receive.c, each with its dwell and answer. ABCDEF is two groups, and HI is one."""
    one, two, whole = b"%d C201 2140 4142 4344\n", b"%d C201 2141 4546 0D20\n", b"%d C201 2140 4849 0D20\n"
    # the receiver shows two groups that are less slots apart than the dwell
    pairs = [(20, 0, b'1 text "ABCDEF"\n'), (20, NINETEEN_SLOTS, b'19 text "ABCDEF"\n'),
             (20, NINETEEN_SLOTS + GRAIN, b'19 text "ABCDEF"\n'), (20, NINETEEN_SLOTS + GRAIN + 1, b""), (128, 11_122_526, b'127 text "ABCDEF"\n'),
             (128, 11_210_105, b""), (20, -1, b"")]
    # the text goes in slot 20; after a break there are 20 slots without a group
    again = b'0 text "HI"\n20 text none\n%d text "HI"\n'
    repeated = [(HOUR, again % 41_106), (HOUR + 1, again % 21), (-1, again % 21)]
    timers = [(1_771_578, b'0 text "HI"\n'), (1_771_579, b'0 text "HI"\n20 text none\n')]
    for begins in (NINETEEN_SLOTS, EPOCH):
        for dwell, later, shown in pairs:
            yield dwell, one % begins + two % (begins + later), shown
        # an hour after a time without a group, and more than an hour after the last group
        yield 20, one % begins + b"%d\n" % (begins + 10 ** 6) + two % (begins + 10 ** 6 + HOUR), b""
        for later, shown in repeated:
            yield 20, whole % begins + whole % (begins + later), shown
        for later, shown in timers:
            yield 20, whole % begins + (b"%d\n" % (begins + later)) * 2, shown


# seconds for which a display keeps a text, and the whole slots in them: 1187.5 bits a second, 104 bits a slot
KEPT = [("0", 0), ("5", 57)]


def receive_inputs(log, options):
    """Gives inputs of receive.c without and with a window and a display that keeps, and their answers."""
    for window in ("0", WINDOW):
        for seconds, keep in KEPT:
            groups, slots = timed(3, log, max(int(DWELL), int(window)) + keep)
            more = ["--keep", str(keep), *(["--confirm", window] if window != "0" else [])]
            yield "receive", ["C201", DWELL, window, seconds], groups, ran(["decode", *options, *more], slots)


def tuner_inputs():
    """Gives inputs of tuner.c, whose dwell is 128 and which keeps for 60 s, without and with a window, and their answers."""
    log = ran(["encode", "--pi", "C201"], "".join(script(4, 8000)).encode())[1]
    for most_errors, words, keep in ((0, [], 685), (0, ["0", "0"], 0), (1, [WINDOW, "5"], 57)):
        interrupts, slots = interrupted(5, log, most_errors)
        more = ["--keep", str(keep), *(["--confirm", WINDOW] if most_errors else [])]
        yield "tuner", ["C201", *words], interrupts, ran(["decode", "--pi", "C201", *more], slots)


def inputs():
    """Returns inputs of the programs of C with the answers of the program rdsrt: arguments, input, status and
    output."""
    rows = "".join(script(1, ROWS)).encode()
    options = ["--pi", "C201", "--m", DWELL]
    station = [*options, "--pty", "10", "--k", LATE]
    sent = ran(["encode", *station], rows)
    log = b"".join(heard(2, sent[1]))
    given = [("encode", ["C201", "10", DWELL, LATE], rows, sent),
             *receive_inputs(sent[1][:200_000].rpartition(b"\n")[0], options),
             *tuner_inputs(),
             *(("receive", ["C201", str(dwell), "0", "0"], text, (0, wanted)) for dwell, text, wanted in received())]
    for one in [log, *(hostile(seed, log) for seed in range(PIECES))]:
        given.append(("decode", ["C201", DWELL], one, ran(["decode", *options], one)))
    for one in [sent[1], log, *(hostile(seed, sent[1]) for seed in range(PIECES))]:
        given.append(("audit", ["C201", DWELL, LATE], one, ran(["audit", *options, "--k", LATE], one)))
    return given


def built(check, how, compiler, language, folder, library=ARCHIVE):
    """Builds the programs of C with this compiler."""
    for source in PROGRAMS:
        program = os.path.join(folder, os.path.basename(source)[:-2])
        words = [compiler, *language, *WARNINGS, "-I", path("include"), path(source), "-x", "none",
                 library, "-o", program]
        check(f"{how}: {source} is built", output(words), (0, b""))


def run_all(check, how, folder, given, runner=()):
    """Checks that the programs do what rdsrt does, that each call answers as it should, and that any bytes and eight
    threads do no harm."""
    def run(name, *words, text=b""):
        return output([*runner, os.path.join(folder, name), *words], text)
    for number, (name, words, text, wanted) in enumerate(given):
        check(f"{how}: {name}, input {number}", run(name, *words, text=text) == wanted, True)
    check(f"{how}: each call", run("calls"), (0, b"ok\n"))
    check(f"{how}: any bytes", run("any_bytes", str(ROUNDS)), (0, b"ok\n"))
    check(f"{how}: eight threads", run("threads", "50000"), (0, b"ok\n"))


def sanitizes(compiler, folder):
    """Returns whether the compiler has its sanitizers."""
    words = [compiler, *SANITIZED, "-x", "c", "-", "-o", os.path.join(folder, "empty")]
    return output(words, b"int main(void) { return 0; }")[0] == 0


def write_hi(folder):
    """Writes README's lines of C into the folder. Returns the path."""
    source = os.path.join(folder, "hi.c")
    with open(source, "w", encoding="utf-8") as file:
        file.write(re.search(r"```c\n(.*?)```", text_of("README.md"), re.S).group(1))
    return source


def readme(check, folder, prefix, compiler="cc", runner=()):
    """Checks that README's lines of C, built by pkg-config, show HI."""
    source, program = write_hi(folder), os.path.join(folder, "hi")
    paths = dict(os.environ, PKG_CONFIG_PATH=os.path.join(prefix, "lib/pkgconfig"))
    warnings, found = "-Wall -Wextra -pedantic -Werror", "$(pkg-config --cflags --libs rdsrt)"
    call = f"{compiler} -std=c11 {warnings} {source} {found} -o {program}"
    check("README's lines of C are built", output(["sh", "-c", call], env=paths), (0, b""))
    libraries = os.path.join(prefix, "lib")
    # the emulator gives the variable to the program
    paths.update({"QEMU_SET_ENV": f"LD_LIBRARY_PATH={libraries}"} if runner else {"LD_LIBRARY_PATH": libraries})
    check("README's lines of C", output([*runner, program], env=paths), (0, b"HI\n"))


def typed(check, folder, prefix):
    """Types README's commands for C in a shell whose home has the installed library, and checks that they print HI."""
    write_hi(folder)
    home = os.path.join(folder, "home")
    os.mkdir(home)
    os.symlink(prefix, os.path.join(home, "rdsrt"))
    lines = re.search(r"```sh\n(export PKG_CONFIG_PATH=.*?)```", text_of("README.md"), re.S).group(1)
    call = ["sh", "-ec", f"cd '{folder}'\n{lines}"]
    check("README's commands for C", output(call, env=dict(os.environ, HOME=home)), (0, b"HI\n"))


def typed_examples(check, folder, prefix):
    """Types the lines at the start of each file of examples/c in a shell whose home has the installed library."""
    home = os.path.join(folder, "home")
    os.mkdir(home)
    os.symlink(prefix, os.path.join(home, "rdsrt"))
    place = shutil.copytree(path("examples/c"), os.path.join(folder, "c"))
    group, script_of_hi = "C201 2140 4849 0D20", "-,,1,\n" * 128 + "text,HI,1,\n"
    for name, text in (("log", f"{group}\n"), ("groups", f"0 {group}\n"), ("interrupts", f"0 {group} 0 0 0 0\n0\n"),
                       ("script.csv", script_of_hi)):
        with open(os.path.join(place, name), "w", encoding="utf-8") as file:
            file.write(text)
    shown = b'0 text "HI"\n'
    wanted = {"decode": shown, "receive": shown, "tuner": shown, "audit": b"yes 1\n",
              "encode": ran(["encode", "--pi", "C201", "--pty", "10"], script_of_hi.encode())[1]}
    for name, printed in wanted.items():
        head = text_of(f"examples/c/{name}.c").partition("#include")[0]
        lines = "\n".join(re.findall(r"^ \* {5}(\S.*)$", head, re.M))
        call = ["sh", "-ec", f"cd '{place}'\n{lines}"]
        check(f"the lines of {name}.c", output(call, env=dict(os.environ, HOME=home)), (0, printed))


def cmake(check, folder, prefix):
    """Checks that CMake finds the library for the versions that fit, and that README's lines of C show HI by either
    library.
    """
    write_hi(folder)
    with open(os.path.join(folder, "CMakeLists.txt"), "w", encoding="utf-8") as file:
        file.write(PROJECT)
    major, minor, patch = map(int, header_version().split("."))
    newer = (f"{major}.{minor}.{patch + 1}", f"{major}.{minor + 1}", f"{major + 1}")
    fitting = ("", f"{major}", f"{major}.{minor}.{patch}", f"{major}.{minor}")
    for asked, fits in [*((it, False) for it in newer), *((it, True) for it in fitting)]:
        build = os.path.join(folder, f"build{asked}")
        words = ["cmake", "-S", folder, "-B", build, f"-DCMAKE_PREFIX_PATH={prefix}", f"-DASKED={asked}"]
        check(f"CMake asks for version '{asked}'", output(words)[0] == 0, fits)
    status, _ = output(["cmake", "--build", build])
    check("CMake builds README's lines of C", status, 0)
    for name in ("shared", "static") if status == 0 else ():
        check(f"README's lines of C by CMake, {name}", output([os.path.join(build, name)]), (0, b"HI\n"))


def cmake_by_link(check, folder, prefix):
    """Checks that CMake finds the library through a link to its folder, as it finds /lib before /usr/lib if PATH has
    /bin first."""
    write_hi(folder)
    with open(os.path.join(folder, "CMakeLists.txt"), "w", encoding="utf-8") as file:
        file.write(PROJECT)
    root, build = os.path.join(folder, "linked"), os.path.join(folder, "build-linked")
    os.mkdir(root)
    os.symlink(os.path.join(prefix, "lib"), os.path.join(root, "lib"))
    check("CMake through a link", output(["cmake", "-S", folder, "-B", build, f"-DCMAKE_PREFIX_PATH={root}"])[0], 0)
    status, _ = output(["cmake", "--build", build])
    check("CMake through a link builds README's lines of C", status, 0)
    if status == 0:
        check("README's lines of C through a link", output([os.path.join(build, "shared")]), (0, b"HI\n"))


def installed_in(prefix):
    """Returns the files in the prefix."""
    return {os.path.relpath(os.path.join(at, it), prefix) for at, _, its in os.walk(prefix) for it in its}
