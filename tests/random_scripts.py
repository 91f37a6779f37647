"""Arguments and scripts by chance, good ones and bad ones, by the rules of README.md and docs/FORMATS.md.

Nothing here asks the program, and nothing here knows a reply or a view. Of the rows so far it keeps only the slot that
each receiver got last, since a row may not go back behind it.
"""
import collections

DWELLS = (1, 2, 10, 127, 128, 129, 1000, 65535)
LATENESSES = (0, 1, 2, 10, 128, 1024)
# characters of the table that each give one byte; the backslash begins an escape
CHARACTERS = [chr(it) for it in (*range(0x20, 0x5C), 0x5D, 0x5F, *range(0x61, 0x7E))] + list("áàéèñçÑ€£ÁÀâäôüÖÛ")
# bytes of a text and not of a name, of both, and of neither
TEXT_BYTES = (r"\x0A", r"\x0b", r"\x1F")
VALUE_BYTES = (r"\x22", r"\x5C", r"\xff")
NO_BYTES = (r"\x0D", r"\x00", r"\x1e")

Station = collections.namedtuple("Station", "pi dwell late pty tp")
Row = collections.namedtuple("Row", "command argument free receptions")


def station(rng, dwell, late):
    """Returns a station with this dwell and lateness."""
    return Station(f"{rng.randrange(1 << 16):04X}", dwell, late, rng.randrange(32), rng.random() < 0.5)


def words(rng, command, asked):
    """Returns the command and its options in any order and spelling. An option at its default may be left out."""
    given = [("--pi", rng.choice((asked.pi, asked.pi.lower())))]
    numbers = [("--m", asked.dwell, 128)]
    numbers += [("--k", asked.late, 0)] if command not in ("decode", "witness") else []
    numbers += [("--pty", asked.pty, 0)] if command in ("encode", "sim") else []
    for name, number, default in numbers:
        if number != default or rng.random() < 0.5:
            spelling = rng.choice((name, name[1:])) if name in ("--m", "--k") else name
            given.append((spelling, rng.choice((f"{number}", f"0{number}", f"+{number}"))))
    if command in ("encode", "sim") and asked.tp:
        given.append(("--tp",))
    if rng.random() < 0.3:
        given.append(("--quiet",))
    rng.shuffle(given)
    options = []
    for option in given:
        options += ["=".join(option)] if rng.random() < 0.3 else option
    return [command, *options]


def refused_words(rng, command, asked):
    """Returns arguments with one thing wrong."""
    good = words(rng, command, asked)
    numbers = [("--m", it) for it in ("0", "65536", "", " 8", "8 ", "x", "0x8", "8.0", "-1", "99999999999999999999")]
    numbers += [("--k", "1025"), ("--k", "-1"), ("--pty", "32"), ("--pty", "256")]
    numbers += [("--confirm", "1"), ("--confirm", "256")]
    return rng.choice((
        [command],
        [*good, "--nothing"], [*good, "-x"], [*good, "", ""], [*good, "a", "b"], [*good, "--", "a", "b"], [*good, *good],
        [*good, "--pi", "C201"], [*good, "--pi"], [*good, "--tp", "--tp"], [*good, "--tp=1"],
        [f" {command}", *good[1:]], [command.upper(), *good[1:]], ["", *good], [*good[1:], command],
        *([command, "--pi", "C201", name, number] for name, number in numbers),
    ))


def field(text):
    """Returns a field of a record, between quotation marks if necessary."""
    return '"' + text.replace('"', '""') + '"' if set(text) & set(',"\n') else text


def line(row):
    """Returns a row as a line."""
    return ",".join((row.command, field(row.argument), row.free, row.receptions)).encode() + b"\n"


def value(rng, most, escapes):
    """Returns the printed form of a value of at most so many bytes."""
    count = rng.choice((0, 1, 2, most - 1, most, rng.randrange(most + 1)))
    return "".join(rng.choice(escapes) if rng.random() < 0.05 else rng.choice(CHARACTERS) for _ in range(count))


def tag(rng, most_extra):
    """Returns class, start and extra. A class of 0 has nothing more."""
    kind = rng.randrange(64) if rng.random() < 0.8 else 0
    # most name a short piece near the front, so that some end in the text
    start, extra = (4, 4) if rng.random() < 0.8 else (64, most_extra + 1)
    return [kind, rng.randrange(start), rng.randrange(extra)] if kind else [0, 0, 0]


def tags(rng):
    """Returns the argument of a command `tags`."""
    numbers = [rng.randrange(2), rng.randrange(2), *tag(rng, 63), *tag(rng, 31)]
    return " ".join(rng.choice((f"{it}", f"{it:02}", f"{it:03}")) for it in numbers)


def argument(rng, command):
    """Returns an argument of the command."""
    if command == "text":
        return value(rng, 64, TEXT_BYTES + VALUE_BYTES)
    if command == "name":
        return value(rng, 8, VALUE_BYTES)
    return tags(rng) if command == "tags" else ""


def reception(rng, slot, late, last):
    """Returns a reception, and the slot whose group the receiver has got last. Before, it got that of the slot `last`.
    """
    if rng.random() < 0.3:
        return rng.choice("LLR"), last
    oldest = max(last + 1, slot - late, 0)
    if rng.random() < 0.5 or oldest == slot:
        return "G", slot
    got = rng.randrange(oldest, slot + 1)
    return rng.choice((f"G{slot - got}", f"G{slot - got:04}")), got


def rows(rng, count, receivers, late):
    """Gives so many rows of so many receivers, and after each row the slot that each receiver got last. The first
    receiver gets each group in its slot."""
    lasts = [-1] * receivers
    often = rng.choice((0.05, 0.3, 0.9))
    for slot in range(count):
        commands = ("text", "name", "tags", "restart")
        command = rng.choices(commands, weights=(10, 4, 10, 0.2))[0] if rng.random() < often else "-"
        got = [reception(rng, slot, late, last) if number else ("G", slot) for number, last in enumerate(lasts)]
        lasts = [last for _, last in got]
        free = "1" if rng.random() < 0.9 else "0"
        yield Row(command, argument(rng, command), free, "".join(it for it, _ in got)), lasts


def bad_receptions(slot, late, lasts):
    """Returns receptions that no row may have after these."""
    if not lasts:
        # the first row fixes the number
        return ["GGGGGGGGG", "X", "1", " "] + (["G"] if slot else [])
    bad = ["", "G" * (len(lasts) + 1)] if slot else ["G" * 9]
    bad += [it + "G" * (len(lasts) - 1) for it in (
        "g", "X", "-", "1", "G00000", "GA", "W", "W214048490D2", "W214048490D20", f"G{late + 1}", f"G{slot + 1}")]
    if slot and lasts[0] == slot - 1:
        bad.append("G1" + "G" * (len(lasts) - 1))
    return bad


def bad_line(rng, slot, late, lasts, is_encode):
    """Returns a record that is malformed in this slot, after a row with these receptions."""
    got = "" if is_encode else "L" * len(lasts)
    bad = [Row(command, it, "1", got) for command, it in (
        ("-", "x"), ("restart", "x"), ("TEXT", "HI"), ("", ""), (" text", "HI"), ("text ", "HI"), ("texts", "HI"),
        ("text", "x" * 65), ("name", "x" * 9), ("name", TEXT_BYTES[0]), ("text", "`"), ("text", "^"), ("text", "文"),
        ("text", "\\"), ("text", r"\x4"), ("text", r"\xZZ"), ("tags", ""), ("tags", "1 1 4 0 3 1 7"),
        ("tags", "1 1 4 0 3 1 7 7 7"), ("tags", "1  1 4 0 3 1 7 7"),
        ("tags", " 1 1 4 0 3 1 7 7"), ("tags", "1 1 4 0 3 1 7 7 "),
        ("tags", "2 1 4 0 3 1 7 7"), ("tags", "1 2 4 0 3 1 7 7"), ("tags", "1 1 64 0 3 1 7 7"),
        ("tags", "1 1 4 64 3 1 7 7"), ("tags", "1 1 4 0 64 1 7 7"), ("tags", "1 1 4 0 3 1 7 32"),
        ("tags", "1 1 0 1 0 1 7 7"), ("tags", "1 1 4 0 3 0 0 1"),
        ("tags", "0001 1 4 0 3 1 7 7"), ("tags", "+1 1 4 0 3 1 7 7"), ("tags", "1 1 260 0 3 1 7 7"))]
    bad += [Row(command, it, "1", got) for command in ("text", "name") for it in NO_BYTES]
    bad += [Row("-", "", free, got) for free in ("", "2", "01", " 1", "yes")]
    bad += [Row("-", "", "1", it) for it in (("G", "L", "X", " ") if is_encode else bad_receptions(slot, late, lasts))]
    lines = [line(row) for row in bad]
    lines += [b"x\n", b"-\n", b"-,,1\n", f"-,,1,{got},\n".encode(), f"text,HI,{got}\n".encode()]
    lines += [f"text,HI\xff,1,{got}\n".encode("latin-1"), b'text,"HI,1,\n']
    return rng.choice(lines)
