"""Each command that a page, the man page or a help shows. What a page shows under a command is what it prints, on
standard output and then on standard error. For each other command a table has what it does, or who else runs it, or why
nothing does."""
import glob
import importlib
import os
import re
import stat
import subprocess

from tests import package
from tests.needed import needs
from tests.support import ROOT, SECONDS, Case, found_program, temporary_folder, text_of

MANUAL = "docs/man/rdsrt.1"
HELP = ["tests/shown/help.txt",
        *(f"tests/shown/help_of_{it}.txt" for it in ("decode", "audit", "witness", "slots", "encode", "sim"))]
PAGES = sorted(os.path.relpath(it, ROOT) for at in ("", "docs", "docs/proof", "examples", "examples/*", "python")
               for it in glob.glob(os.path.join(ROOT, at, "*.md")))
# programs that say at their start how they are called
EXAMPLES = sorted([*(f"programs/{it}" for it in package.NAMES),
                   *(os.path.relpath(it, ROOT) for it in glob.glob(os.path.join(ROOT, "examples/c/*.c")))])
# programs that a command in a sentence begins with, beside the scripts of the repository
PROGRAMS = ("rt", "rdsrt", "pip", "cc", "man", "parallel", "python3", "apt-get")
HI, YO, HA = "C201 2140 4849 0D20", "C201 2150 594F 0D20", "C201 2140 4841 0D20"
LOST = "---- ---- ---- ----"
# groups 176 ms apart, with one lost between them
SPY = f"{HI} @2024/06/01 07:58:12.000\n{YO} @2024/06/01 07:58:12.176\n"
SLOTS = f"{HI} @2024/06/01 07:58:12.000\n{LOST}\n{YO} @2024/06/01 07:58:12.176\n"
# 11A of another application: a text, that application announced, and its groups
OTHER = f"{HI}\nC201 3156 1234 ABCD\nC201 B140 2008 1234\nc201 b148 2002 0000\n{LOST}\n"
# a station with three faults: a flag that comes back at once, a text without a flip, a flag that comes back again
FAULTY = [HI, YO, HA, YO, *[LOST] * 200, HI, HA, *[LOST] * 200, YO, HI, YO.replace("594F", "4142")]


def taken(form, groups, lost=0, times=0):
    """Returns what programs/lines says of an input of this form with groups of C201."""
    return (f"lines: taken for {form}\nlines: slots: {groups + lost}; whole groups: {groups}; groups without a block: 0; lost "
            f"slots: {lost}; slots with a time: {times}\nlines: most groups are of C201: {groups} of {groups}\n")


# the first words of a command in a page, the files and programs of the reader, its output, and a file that it writes
RUN = [
    ("./rdsrt slots spy.log > station.log", {"spy.log": SPY}, {}, "", ("station.log", SLOTS)),
    ("./rdsrt audit --running --pi C201 spy.log", {"spy.log": SPY.replace(".176", ".088")}, {},
     "yes 2\nrdsrt: judged in 2 slots: 2 texts, 0 names, 0 pairs of tags\n", None),
    ("rtl_fm -M fm -l 0 -A std -p 0 -s 171k -g 40 -F 9 -f 98.0M | redsea ", {},
     {"rtl_fm": "true", "redsea": f"printf '{SPY}'"}, "", ("station.log", SLOTS)),
    ("programs/lines times.log | ./rdsrt slots", {"times.log": re.sub("(?m)^(.*) (@.*)$", r"\2 \1\r", SPY)}, {},
     taken("blocks with spaces between them; times with a date stand before the blocks", 2, times=2), ("station.log", SLOTS)),
    ("programs/lines station.log > /dev/null", {"station.log": f"{HI}\n{LOST}\n{YO.lower()}\n"}, {},
     taken("blocks with spaces between them", 2, lost=1), None),
    ("sed -E 's/^([0-9A-Fa-f]{4} [Bb][0-7].[08]) ", {"station.log": f"{HI}\nC201 B140 0000 0000\n"}, {},
     "yes 2\nrdsrt: judged in 2 slots, 1 without a group: 1 text, 0 names, 0 pairs of tags\n", None),
    ("sed -E 's/^([0-9A-Fa-f]{4} [Bb][0-7].{2}) ", {"station.log": OTHER}, {},
     "yes 5\nrdsrt: judged in 5 slots, 3 without a group: 1 text, 0 names, 0 pairs of tags\n", None),
    ("./rdsrt audit --all --running --pi C201 station.log > faults.txt",
     {"station.log": "# time went back\n" + "".join(f"{it} {at}.0\n" for at, it in enumerate(FAULTY))}, {},
     "rdsrt: 1 of 9 texts: Changed in slot 205 (line 207, 205.0); in 1 of them no receiver shows a mix of texts: those with this "
     "flag agree, or differ in one segment\n"
     "rdsrt: 3 of 9 texts: EarlyFlag, first in slot 2 (line 4, 2.0), last in slot 408 (line 410, 408.0); in 3 of them no "
     "receiver shows a mix of texts: those with this flag agree, or differ in one segment\n"
     "rdsrt: in 146 of 409 slots no text segment had come for M = 128 slots: receivers with this M show no text then. Keep the "
     "text on their displays (rdsrt decode --keep)\n"
     "rdsrt: judged in 409 slots, 400 without a group: 9 texts, 0 names, 0 pairs of tags\n",
     ("faults.txt", "no 2 EarlyFlag\nno 3 EarlyFlag\nno 205 Changed\nno 408 EarlyFlag\n")),
    ("./rdsrt decode --pi C201 station.log | programs/json", {"station.log": f"{HI}\n" + f"{LOST}\n" * 128}, {},
     "HI\n", None),
    ("rdsrt decode --pi C201 received.log | rdsrt-json --pi C201", {"received.log": f"{HI}\n" + f"{LOST}\n" * 128}, {},
     "HI\n", None),
]
# a command, and the test or the script that runs it
RUN_BY = [
    (r"parallel -k --tag ", "test_guide.Guide.test_the_lines_of_parallel"),
    (r"(?:programs/|rdsrt-)station --m 128 now.txt .*send HOST:PORT$", "test_send.Send.test_the_line_of_the_page"),
    (r"(?:programs/|rdsrt-)station --m 128 ", "test_guide.Guide.test_the_pipe_of_a_station"),
    (r"rdsrt: 447 of 449 texts: ",
     "test_guide.Guide.test_the_counts_of_a_station_with_short_texts"),
    (r"awk ", "test_guide.Guide.test_each_fault_has_the_time_of_its_line"),
    (r"split -n l/2 stations|feed \| rdsrt-monitor ", "test_monitor"),
    (r"tools/held$", "test_held"),
    (r"tools/progress$", "test_gate.Progress"),
    (r"programs/json --times ", "test_json.Filter.test_the_times_of_a_log"),
    (r"(?:programs/|rdsrt-)lines (?:recorded|radio)", "test_lines"),
    (r"(?:programs/|rdsrt-)letter recorded.txt", "test_letter"),
    (r"rdsrt encode --pi C201 script \| rdsrt-transmit ", "test_fm"),
    (r"\./rdsrt encode --pi C201 --pty 10 --m 8 examples/chanson.csv \| programs/transmit ",
     "test_fm.Pages.test_the_trial_without_hardware"),
    (r"rtl_fm .* programs/receive --live \|\n", "test_fm.Pages.test_the_pi_that_is_heard_is_passed_on"),
    (r"arecord .* \| sox .*\n.*programs/receive |sox .* mpx.wav ",
     "test_fm.Pages.test_the_lines_for_a_sound_card"),
    (r"\./rdsrt witness --pi C201 station.log$", "test_guide.Guide.test_the_letter_has_the_counts_and_the_text_of_a_station"),
    (r"\./rdsrt decode --pi C201 station.log$", "test_fm.EndToEnd"),
    (r"export PKG_CONFIG_PATH=~/rdsrt/lib/pkgconfig\ncc hi\.c", "test_c_library.Install.test_pkg_config_finds_the_library"),
    (r"export PKG_CONFIG_PATH=~/rdsrt/lib/pkgconfig\ncc (?!hi)\w+\.c",
     "test_c_library.Install.test_the_lines_of_each_example_build_and_run_it"),
    (r"\./install(?: PREFIX| ~/rdsrt|)$", "test_c_library.Install"),
    (r"python/wheel ", "test_python_package.PythonPackage.test_a_wheel_made_twice_has_the_same_bytes_and_works_alone"),
    (r"examples/microcontrollers/narrow.py", "test_microcontrollers.Microcontrollers.test_cortex_m4"),
    (r"arm-none-eabi-gcc ", "test_microcontrollers.Microcontrollers.test_the_line_that_compiles_a_program"),
    (r"bench/(?:guide|corrected)$", "test_guide.Guide.test_its_tables_are_those_that_the_scripts_print"),
    (r"bench/fades$", "test_fades"),
    (r"page/build$", "test_page_build"),
    (r"tools/shipped.py$", "test_shipped"),
    (r"tools/build rds_ffi", "test_c_library.Archive"),
    (r"clang -g .* && \./fuzz$", "test_c_library.Archive.test_the_line_of_security_runs_a_fuzzer"),
    (r"rdsrt slots \| head -c ", "test_pipes"),
    (r"\./rdsrt (?:decode|audit|witness|encode|sim) .* examples/[\w.]+$", "test_examples"),
    (r"rdsrt slots$|rdsrt \.\. \| head$", "test_pipes"),
]
# a command that nothing runs here, and the reason
NOT_HERE = [
    (r"\./test(?: --as-it-is)?$|python3 -m tests|python3 -m unittest ", "the tests themselves"),
    (r"\(cd crates/rdsrt && rt try |\$\(tools/unproved\) ", "it compiles the program anew, for minutes on a busy machine"),
    (r"\(cd crates/rds_encoder && rt check\)", "it proves a crate with a wrong line; test_trust has the line"),
    (r"rt ", "a command of the kit: the gate runs `rt ci`, and that takes minutes"),
    (r"\./install PREFIX --target (?:aarch64|armv7)$", "it builds for another target; tests/release runs it"),
    (r"tools/build$", "it proves for up to half an hour, and the tests run what it made"),
    (r"tools/unproved$", "it builds for minutes; test_crates runs it with programs in place of the kit's"),
    (r"tools/release$|tools/release (?:--snapshot )?OUT$|tests/release$", "makes or tries all packages, by hand: 30 minutes"),
    (r"tools/edits(?: NAME)?$", "it proves for minutes; test_edits tests all that needs no prover"),
    (r"bin/rdsrt decode |pip install ", "tests/release runs it in a fresh system"),
    (r"bench/", "measures for minutes, by hand when the code has changed"),
    (r"rtl_fm |(?:programs/|rdsrt-)v4l2 --frequency |wsl ", "it needs a tuner, or Windows"),
    (r"apt-get (?:install |update$)", "installs packages"),
    (r"\./rdsrt$", "the program without arguments, named in a sentence"),
]


def manual(path=MANUAL):
    """Returns the man page as text, without its requests and escapes."""
    lines = [re.sub(r"^\.[A-Za-z]{1,2} ?", "", line) for line in text_of(path).splitlines()]
    return "\n".join(lines).replace(r"\e", "\\").replace(r"\-", "-")


def shell_blocks(path):
    """Returns the blocks of shell lines: those of a page, and the examples of the man page and of help."""
    if path.endswith(".1"):
        return manual(path).split("EXAMPLES\n")[1].split("\nNOTES")[0].split("\n\n")
    if not path.endswith(".md"):
        return re.findall(r"^Example:\n(.*?)(?:\n\n|\Z)", text_of(path), re.M | re.S)
    text = text_of(path)
    indented = re.findall(r"\n\n((?: {4,}\S.*\n)+)(?=\n|\Z)", re.sub(r"```.*?```", "", text, flags=re.S))
    return re.findall(r"```sh\n(.*?)```", text, re.S) + [it for it in indented if not re.match(r" +[-*\d]", it)]


def plain_blocks(path):
    """Gives each block without the spaces before all of its lines."""
    for block in shell_blocks(path):
        spaces = min(len(it) - len(it.lstrip(" ")) for it in block.splitlines() if it.strip())
        yield "".join(f"{it[spaces:]}\n" for it in block.strip("\n").splitlines())


def commands_in(path):
    """Gives each command after a dollar sign, with the lines under it. A line of standard error goes on in lines with
    four spaces before them."""
    for block in plain_blocks(path):
        for shown in re.split(r"^\$ ", block, flags=re.M)[1:]:
            command, _, output = shown.partition("\n")
            yield command, re.sub(r"\n    (?=\S)", " ", output)


def is_command(text):
    """Returns whether words in a sentence are a command: a program with arguments, or a script. A program of programs/
    without arguments is only named."""
    first, _, more = text.partition(" ")
    at = os.path.join(ROOT, first)
    is_script = "/" in first and os.path.isfile(at) and os.access(at, os.X_OK)
    return bool(more) and first in PROGRAMS or is_script and (bool(more) or not first.startswith("programs/"))


def typed_in(path):
    """Gives each command without a dollar sign: blocks of a page, commands in its sentences, and the lines at the start
    of an example."""
    if path in EXAMPLES:
        head = re.split(r"^(?:import|#include) ", text_of(path), maxsplit=1, flags=re.M)[0]
        yield "\n".join(re.findall(r"^(?: \* )? {4}(\S.*?)(?: \*/)?$", head, re.M))
    if path.endswith(".md"):
        yield from (it for it in plain_blocks(path) if not it.startswith("$ "))
        sentences = re.sub(r"```.*?```", "", text_of(path), flags=re.S)
        yield from filter(is_command, re.findall(r"(?<!`)`([^`\n]+)`(?!`)", sentences))


def is_there(name):
    """Returns whether a test of this name exists: a module, a class or a method."""
    module, _, rest = name.partition(".")
    found = importlib.import_module(f"tests.{module}")
    for it in rest.split(".") if rest else []:
        found = getattr(found, it, None)
    return found is not None


def ran(call, folder=ROOT, errors=subprocess.STDOUT):
    """Returns the output of lines of a page, with the built program as ./rdsrt and as rdsrt."""
    # the proved program comes before the script of the same name, which may run one that is not proved
    paths = [os.path.dirname(found_program()), folder, package.installed_programs(), os.environ["PATH"]]
    environment = {**os.environ, "LC_ALL": "C.UTF-8", "PATH": os.pathsep.join(paths)}
    done = subprocess.run(["bash", "-c", call.replace("./rdsrt", "rdsrt")], cwd=folder, stdin=subprocess.DEVNULL,
                          stdout=subprocess.PIPE, stderr=errors, timeout=SECONDS, env=environment)
    return done.stdout.decode()


class Commands(Case):
    def test_each_command_prints_the_lines_under_it(self):
        """Each command with a dollar sign prints the lines under it. Help shows standard output alone."""
        for path in [*PAGES, MANUAL, *HELP]:
            errors = subprocess.DEVNULL if path in HELP else subprocess.STDOUT
            for command, output in commands_in(path):
                self.check(f"{path}: {command}", ran(command, errors=errors), output)

    def test_these_pages_show_commands(self):
        for path in ["README.md", "docs/TEST.md", "docs/RECEIVER.md", "docs/FORMATS.md",
                     "docs/proof/ARCHITECTURE.md", MANUAL, *HELP]:
            self.check(f"{path} has commands", [*commands_in(path)] != [], True)

    @needs("jq")
    def test_each_other_command_does_what_the_table_says(self):
        texts = {it.rstrip("\n") for path in [*PAGES, *EXAMPLES] for it in typed_in(path)}
        for begin, files, programs, output, written in RUN:
            call = [it for it in texts if it.startswith(begin)]
            self.check(f"'{begin}' is one command", len(call), 1)
            self.check(call[0], *self.played(call[0], files, programs, written, output))

    def played(self, call, files, programs, written, output):
        """Runs the lines in a folder with these files and programs. Returns what they print and write, and what they
        should."""
        folder = temporary_folder(self)
        for name in ("examples", "programs"):
            os.symlink(os.path.join(ROOT, name), os.path.join(folder, name))
        for name, text in {**files, **{it: f"#!/bin/sh\n{does}\n" for it, does in programs.items()}}.items():
            with open(os.path.join(folder, name), "w", encoding="utf-8") as file:
                file.write(text)
            os.chmod(file.name, stat.S_IRWXU)
        printed = ran(call, folder)
        if not written:
            return printed, output
        with open(os.path.join(folder, written[0]), encoding="utf-8") as file:
            return (printed, file.read()), (output, written[1])

    def test_each_command_is_run_or_has_a_reason(self):
        """Each command without a dollar sign is in one of the tables, and each row of a table is a command."""
        texts = {it: path for path in [*PAGES, *EXAMPLES] for it in typed_in(path)}
        begins, used = tuple(it[0] for it in RUN), set()
        for text, path in texts.items():
            rows = [row for row, _ in [*RUN_BY, *NOT_HERE] if re.match(row, text)]
            used |= set(rows)
            self.check(f"{path}: '{text}' is in a table", len(rows) > 0 or text.startswith(begins), True)
        self.check("rows without a command", {row for row, _ in [*RUN_BY, *NOT_HERE]} - used, set())
        self.check("tests that are not there", [name for _, name in RUN_BY if not is_there(name)], [])

    def test_a_page_plays_each_example(self):
        played = {it for path in PAGES for command, _ in commands_in(path)
                  for it in re.findall(r"examples/[\w.]+\.(?:csv|log)", command)}
        files = {os.path.relpath(it, ROOT) for kind in ("csv", "log")
                 for it in glob.glob(os.path.join(ROOT, f"examples/*.{kind}"))}
        self.check("a page plays each example", files - played, set())
