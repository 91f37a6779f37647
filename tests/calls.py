"""Arguments and inputs that several tests give the program."""
from tests.support import bytes_of
from tests.worked_rows import CHANGED, ENCODED_SCRIPT, HI, MIXED_LOG, TAGGED_LOG, TAGS_ON_AIR

DECODE = ["decode", "--pi", "C201"]
SIM = ["sim", "--pi", "C201", "--pty", "10"]
ENCODE = ["encode", "--pi", "C201", "--pty", "10"]
AUDIT = ["audit", "--pi", "C201"]
WITNESS = ["witness", "--pi", "C201", "--m", "8"]
LOSE = [*WITNESS, "--lose", "2-3"]
SLOTS = ["slots", "--m", "2"]
ALL_OPTIONS = ["sim", "--pi", "C201", "--m", "1", "--k", "2", "--pty", "24", "--tp"]
# the commands of one station, which have the option --pi, and all of them
OF_A_STATION = ("decode", "audit", "witness", "encode", "sim")
COMMANDS = (*OF_A_STATION, "slots")
SHOWS_HI = b'0 text "HI"\n'
FLAGS = bytes_of("examples/flags.log")
# a log of received groups with times
TIMED = b"C201 2140 4849 0D20 1.0\nC201 2150 594F 0D20 1.3\n"
# arguments, input, and the start of the line of a fault
ENGINES = [
    ([*DECODE, "--m", "2"], HI * 2 + b"---- ---- ---- ----\n" * 3 + CHANGED + b"# note\n" + HI, b""),
    ([*SIM, "--m", "4"], TAGS_ON_AIR, b""),
    ([*ENCODE, "--m", "1"], ENCODED_SCRIPT * 3, b"# "),
    (AUDIT, HI * 3, b""),
    ([*AUDIT, "--all", "--m", "4"], CHANGED + TAGGED_LOG, b""),
    (WITNESS, FLAGS, b""),
    (LOSE, FLAGS, b""),
    (SLOTS, TIMED, b"# "),
    (DECODE, b"".join(MIXED_LOG.splitlines(keepends=True)[:9]), b""),
]
