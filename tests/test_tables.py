"""What other languages repeat is that of the program: the default dwell, content types, the time of a slot."""
import re

from tests.calls import DECODE
from tests.slot import NINETEEN_SLOTS
from tests.support import ProgramCase, ran, text_of

# each place of the default dwell: a file, and the pattern in front of the number
DWELLS = [
    ("include/rdsrt.h", r"#define RDSRT_DEFAULT_DWELL "),
    ("python/src/rdsrt/_library.py", r"\nDEFAULT_DWELL = "),
    ("page/ui/app.js", r"DEFAULTS = \{ m: "),
    ("page/index.html", r'id="log-m" min="1" max="65535" value="'),
    ("programs/station", r'"--m", type=int, default='),
    ("docs/TEST.md", r"The default is "),
]
# each table of names: a file, and the pattern in front of the names between quotation marks
NAMES = [
    ("bench/c/decode.c", r"classes\[12\] = \{"),
]


def shown_class(number):
    """The word for a tag of this content type in the output of the program."""
    groups = [(0xC201, 0x3016, 0, 0x4BD7), (0xC201, 0x2140, 0x4849, 0x0D20),
              (0xC201, 0xB000 | number >> 3, (number & 7) << 13 | 1 << 1, 0)]
    log = "".join(" ".join(f"{block:04X}" for block in group) + "\n" for group in groups)
    _, output = ran(DECODE, log.encode())
    return re.search(rb'^2 tag1 (\S+) "HI"$', output, re.M)[1].decode()


class Tables(ProgramCase):
    def test_the_default_dwell_is_that_of_the_help(self):
        _, shown = ran(["decode", "--help"])
        wanted = re.search(rb"-m, --m.*?\[default: (\d+)\]", shown, re.S)[1].decode()
        for path, before in DWELLS:
            self.check(f"{path}: {before}", re.findall(before + r"(\d+)", text_of(path)), [wanted])

    def test_a_slot_is_one_of_slots_in_each_language(self):
        """In so many microseconds 18 groups are lost, and with one more 19."""
        for apart, lost in ((NINETEEN_SLOTS, 18), (NINETEEN_SLOTS + 1, 19)):
            log = "".join(f"C201 2140 4849 0D20 {time / 1e6:.6f}\n" for time in (0, apart))
            _, output = ran(["slots", "--grain", "0"], log.encode())
            self.check(f"{apart} us", output.count(b"----\n"), lost)
        for place in ("page/model/lines.js", "programs/station", "programs/letter"):
            bits, rate = re.search(r"\bSLOT = (\d+) / ([\d.]+)\b", text_of(place)).groups()
            self.check(place, round(19e6 * int(bits) / float(rate)), NINETEEN_SLOTS)

    def test_the_names_of_content_types_are_those_of_the_output(self):
        wanted = [shown_class(number) for number in range(1, 13)]
        self.check("a content type without a name is a number", wanted.pop(), "12")
        for path, before in NAMES:
            found = re.search(before + r"(.*?)[\]}]", text_of(path), re.S)
            names = re.findall(r'"([\w.]+)"', found[1] if found else "")
            self.check(path, [f"ITEM.{name.removeprefix('ITEM.')}" for name in names], wanted)
        # the library has more names, and the one of the dummy before them
        names = re.findall(r'codes "([\w.]+)"', text_of("crates/rds_ffi/specs/Names.antt"))
        self.check("the names of the C library", names[1:12], wanted)
