#!/usr/bin/env python3
"""Lowers a WebAssembly module with 64-bit memory and tables to 32 bits: more browsers have these.

usage: lower.py MODULE LOWERED

Functions keep their types, so an address stays a number of 64 bits. Before each instruction that takes an address, this
script puts one that drops its upper 32 bits. So each address has to be below 4 GiB, which the caller of the module sees
to. An instruction or a part of a module that the script does not know ends it with a message.
"""
import sys

I32, I64, F32, F64 = 0x7F, 0x7E, 0x7D, 0x7C
WRAPPED = bytes([0xA7])
GET, SET, I32_CONST, I64_CONST, END = 0x20, 0x21, 0x41, 0x42, 0x0B
LOADS = range(0x28, 0x36)
# the type of the value that each store has above its address
STORES = {0x36: I32, 0x37: I64, 0x38: F32, 0x39: F64, 0x3A: I32, 0x3B: I32, 0x3C: I64, 0x3D: I64, 0x3E: I64}
CALL_INDIRECT, BR_TABLE, MORE, COPY, FILL, CONVERSIONS = 0x11, 0x0E, 0xFC, 10, 11, range(8)
# the numbers that follow an instruction: none, or one
PLAIN = {0x00, 0x01, 0x05, END, 0x0F, 0x1A, 0x1B, *range(0x45, 0xC5)}
NUMBERED = {0x02, 0x03, 0x04, 0x0C, 0x0D, 0x10, GET, SET, 0x22, 0x23, 0x24, I32_CONST, I64_CONST}
# constants of floats, with their bytes
FLOATS = {0x43: 4, 0x44: 8}
TYPES, FUNCTIONS, TABLES, MEMORIES, ELEMENTS, CODE, DATA = 1, 3, 4, 5, 9, 10, 11
# of limits: has a most, and is of 64 bits
HAS_MOST, IS_WIDE, MOST_PAGES = 1, 4, 1 << 16


class Reader:
    """Reads bytes from their start."""

    def __init__(self, data):
        self.data, self.at = data, 0

    def byte(self):
        return self.take(1)[0]

    def take(self, count):
        self.at += count
        return self.data[self.at - count:self.at]

    def number(self, is_signed=False):
        """Reads a number in LEB128."""
        value = shift = 0
        while True:
            byte = self.byte()
            value |= (byte & 127) << shift
            shift += 7
            if byte < 128:
                return value - (1 << shift) if is_signed and byte & 64 else value

    def ended(self):
        return self.at >= len(self.data)


def number(value, is_signed=False):
    """Returns a number in LEB128."""
    out = b""
    while True:
        low, value = value & 127, value >> 7
        if value == 0 and not (is_signed and low & 64) or value == -1 and is_signed and low & 64:
            return out + bytes([low])
        out += bytes([low | 128])


def unknown(what):
    sys.exit(f"lower.py: the module has {what}, which this script does not know")


def limits(reader):
    """Returns the limits of a memory or a table without their flag of 64 bits."""
    flags, least = reader.byte(), reader.number()
    most = number(min(reader.number(), MOST_PAGES)) if flags & HAS_MOST else b""
    return bytes([flags & ~IS_WIDE]) + number(least) + most


def place(reader):
    """Returns the place of data or of functions, a constant, as one of 32 bits."""
    operation, value, end = reader.byte(), reader.number(is_signed=True), reader.byte()
    if (operation, end) != (I64_CONST, END) or not 0 <= value < 1 << 31:
        unknown(f"a place {operation:x}")
    return bytes([I32_CONST]) + number(value, is_signed=True) + bytes([END])


class Locals:
    """More locals of a function: they keep what stands above an address while it is wrapped."""

    TYPES = (I32, I64, F32, F64, I32)
    COUNT = 4

    def __init__(self, first):
        self.first = first

    def put(self, name):
        return bytes([SET]) + number(self.first + name)

    def get(self, name):
        return bytes([GET]) + number(self.first + name)

    def under(self, kind):
        """Returns the code that wraps the address under a value of this type."""
        value = self.TYPES.index(kind)
        return self.put(value) + WRAPPED + self.get(value)

    def under_two(self, is_copy):
        """Returns the code that wraps the length of a copy or a fill, the source of a copy, and the place under both."""
        source = WRAPPED if is_copy else b""
        return WRAPPED + self.put(self.COUNT) + source + self.under(I32) + self.get(self.COUNT)


def instruction(reader, own):
    """Reads an instruction. Returns the code that has to come before it."""
    operation = reader.byte()
    if operation in LOADS or operation in STORES or operation == CALL_INDIRECT:
        reader.number()
        if reader.number() >= 1 << 32:
            unknown("an offset of more than 32 bits")
        return own.under(STORES[operation]) if operation in STORES else WRAPPED
    if operation == MORE:
        kind = reader.number()
        if kind in (COPY, FILL):
            reader.take(2 if kind == COPY else 1)
            return own.under_two(kind == COPY)
        if kind not in CONVERSIONS:
            unknown(f"the instruction fc {kind}")
    elif operation == BR_TABLE:
        for _ in range(reader.number() + 1):
            reader.number()
    elif operation in NUMBERED:
        reader.number()
    elif operation in FLOATS:
        reader.take(FLOATS[operation])
    elif operation not in PLAIN:
        unknown(f"the instruction {operation:x}")
    return b""


def body(code, parameters):
    """Returns the body of a function with its addresses wrapped."""
    reader = Reader(code)
    groups = [(reader.number(), reader.byte()) for _ in range(reader.number())]
    own = Locals(parameters + sum(count for count, _ in groups))
    groups += [(1, kind) for kind in Locals.TYPES]
    out = bytearray(number(len(groups)) + b"".join(number(count) + bytes([kind]) for count, kind in groups))
    while not reader.ended():
        start = reader.at
        out += instruction(reader, own) + code[start:reader.at]
    return bytes(out)


def functions(reader):
    """Returns the numbers of parameters of a module's types."""
    counts = []
    for _ in range(reader.number()):
        if reader.byte() != 0x60:
            unknown("a type that is no function")
        counts.append(reader.number())
        reader.take(counts[-1])
        reader.take(reader.number())
    return counts


def lowered(module):
    """Returns the module with 32-bit memory and tables."""
    reader, out, parameters, types = Reader(module), b"", [], []
    out += reader.take(8)
    while not reader.ended():
        section, content = reader.byte(), reader.take(reader.number())
        inside = Reader(content)
        if section == TYPES:
            parameters = functions(inside)
        elif section == FUNCTIONS:
            types = [inside.number() for _ in range(inside.number())]
        elif section in CHANGED:
            count = inside.number()
            content = number(count) + b"".join(CHANGED[section](inside, i, parameters, types) for i in range(count))
        out += bytes([section]) + number(len(content)) + content
    return out


def table(reader, *_):
    return reader.take(1) + limits(reader)


def memory(reader, *_):
    return limits(reader)


def elements(reader, *_):
    if reader.number() != 0:
        unknown("elements of another form")
    at, count = place(reader), reader.number()
    return number(0) + at + number(count) + b"".join(number(reader.number()) for _ in range(count))


def code(reader, i, parameters, types):
    lower = body(reader.take(reader.number()), parameters[types[i]])
    return number(len(lower)) + lower


def data(reader, *_):
    if reader.number() != 0:
        unknown("data of another form")
    at, length = place(reader), reader.number()
    return number(0) + at + number(length) + reader.take(length)


CHANGED = {TABLES: table, MEMORIES: memory, ELEMENTS: elements, CODE: code, DATA: data}


def main():
    with open(sys.argv[1], "rb") as file:
        module = file.read()
    with open(sys.argv[2], "wb") as file:
        file.write(lowered(module))


if __name__ == "__main__":
    main()
