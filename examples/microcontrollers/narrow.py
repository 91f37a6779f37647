#!/usr/bin/env python3
"""Compiles the C library for a 32-bit processor. The result is tested and NOT proved.

usage: examples/microcontrollers/narrow.py cortex-m4|cortex-m4f|cortex-m0plus|armv7

The result is out/TARGET/librdsrt.a in this folder.

The kit hands its clang an LLVM module for x86-64. This script takes that module, changes the forms that differ on 32
bits, and compiles it again. In the module a usize has 64 bits, and a pointer has a place of 8 bytes: on 32 bits the
pointer fills the first 4 bytes. The script stops at every line whose form it does not know.
"""
import os
import re
import subprocess
import sys
import tempfile

sys.dont_write_bytecode = True
HERE = os.path.dirname(os.path.abspath(__file__))
ROOT = os.path.dirname(os.path.dirname(HERE))
sys.path.insert(0, os.path.join(ROOT, "tools"))
from crates import KIT, folder

CLANG, OUT = f"{KIT}/toolchain/bin/clang", os.path.join(HERE, "out")
HEADER, MODULE = os.path.join(ROOT, "include/rdsrt.h"), os.path.join(folder("rds_ffi"), "out/rds_ffi.bc")
# the start of the names of the C tools, and their words for the processor
TARGETS = {"cortex-m4": ("arm-none-eabi", ["-mthumb", "-mcpu=cortex-m4", "-mfloat-abi=soft"]),
           "cortex-m4f": ("arm-none-eabi", ["-mthumb", "-mcpu=cortex-m4", "-mfpu=fpv4-sp-d16", "-mfloat-abi=hard"]),
           "cortex-m0plus": ("arm-none-eabi", ["-mthumb", "-mcpu=cortex-m0plus", "-mfloat-abi=soft"]),
           "armv7": ("arm-linux-gnueabihf", ["-march=armv7-a", "-mfpu=vfpv3-d16", "-mfloat-abi=hard", "-fPIC"])}
# the words that the kit gives clang for every processor
LLVM = ["no-trap-after-noreturn", "trap-unreachable", "disable-machine-licm", "disable-postra-machine-licm",
        "sink-common-insts=false"]
OF_THE_KIT = ["-O3", "-ffunction-sections", "-fdata-sections", *(word for it in LLVM for word in ("-mllvm", f"-{it}"))]

# ---- the forms of lines that are known

NAME, LOCAL, INT = r'@(?:[\w.]+|"[^"]*")', r"%[\w.]+", r"i(?:1|8|16|32|64|128)"
ONE, VECTOR = rf"(?:{INT}|ptr)", r"<\d+ x i(?:1|8|16)>"
# in a PAIR the second place is the same for pointers of 4 and of 8 bytes; `narrowed` takes loads of { i8, ptr } apart
PAIR = rf"\{{ (?:{INT}, {INT}|ptr, i64) \}}"
ANY_PAIR = rf"(?:{PAIR}|\{{ i8, ptr \}})"
VALUE = rf"(?:{LOCAL}|{NAME}|-?\d+|true|false|null)"
BYTES = r'\[\d+ x i8\] (?:c"[^"]*"|zeroinitializer)'
GIVEN = rf"{ONE}(?: noundef)?(?: zeroext)? {VALUE}"
CALL = rf"(?:noundef )?(?:zeroext )?(?:void|{ONE}|{ANY_PAIR}) {NAME}\((?:{GIVEN}(?:, {GIVEN})*)?\)"
FORMS = [
    r"|;.*|\}|  \]|[\w.]+:.*|  unreachable|  ret void|source_filename = .*|target .*|![\w.]+ = .*|attributes #\d+ = .*",
    # `widened` looks into the second form
    rf"@static\.\d+ = private (?:unnamed_addr )?constant (?:{BYTES}|<\{{ .* \}}>)(?:, align \d+)?",
    r"declare void @llvm\.(?:trap|memset\.p0\.i64|memmove\.p0\.p0\.i64)\(.*|declare i64 @llvm\.cttz\.i64\(.*",
    rf"define (?:internal )?{CALL} #\d+ \{{", rf"  (?:{LOCAL} = )?call {CALL}",
    rf"  {LOCAL} = alloca (?:{INT}|\[\d+ x i8\]), align \d+",
    rf"  {LOCAL} = load (?:{ONE}|{PAIR}|{VECTOR}), ptr {VALUE}, align \d+(?:, !range !\d+)?(?:, !noundef !\d+)?",
    rf"  store (?:{ONE} {VALUE}|{VECTOR} (?:{LOCAL}|splat \(i8 \d+\))), ptr {VALUE}, align \d+",
    rf"  {LOCAL} = getelementptr (?:inbounds nuw )?i8, ptr {VALUE}, i64 {VALUE}",
    rf"  {LOCAL} = (?:zext|sext|trunc) (?:{INT} {VALUE} to {INT}|{VECTOR} {LOCAL} to {VECTOR})",
    rf"  {LOCAL} = (?:add|sub|mul|udiv|urem|and|or|xor|shl|lshr) {INT} {VALUE}, {VALUE}",
    rf"  {LOCAL} = icmp (?:(?:eq|ne|ult|ule|ugt|uge) {INT} {VALUE}, {VALUE}|eq ptr {LOCAL}, null)",
    rf"  {LOCAL} = icmp (?:eq|slt) {VECTOR} {LOCAL}, (?:{LOCAL}|zeroinitializer)",
    rf"  {LOCAL} = extractvalue {ANY_PAIR} {LOCAL}, [01]", rf"  {LOCAL} = ptrtoaddr ptr {LOCAL} to i32",
    rf"  {LOCAL} = insertvalue \{{ i8, ptr \}} (?:poison|{LOCAL}), (?:i8|ptr) {LOCAL}, [01]",
    rf"  {LOCAL} = insertelement {VECTOR} (?:{LOCAL}|zeroinitializer), i(?:8|16) {LOCAL}, i32 \d+",
    rf"  {LOCAL} = extractelement {VECTOR} {LOCAL}, i32 \d+",
    rf"  {LOCAL} = shufflevector {VECTOR} {LOCAL}, {VECTOR} zeroinitializer, <\d+ x i32> <[i\d, ]+>",
    rf"  {LOCAL} = bitcast {VECTOR} {LOCAL} to (?:i16|i64|{VECTOR})",
    rf"  br (?:i1 {VALUE}, label {LOCAL}, )?label {LOCAL}", rf"  switch {INT} {VALUE}, label {LOCAL} \[",
    rf"    {INT} -?\d+, label {LOCAL}", rf"  ret (?:{ONE} {VALUE}|{ANY_PAIR} {LOCAL})",
]
# a byte and a pointer: the code has the pointer at byte 8, and LLVM would load it from byte 4
BYTE_AND_POINTER = r"""  \1.byte = load i8, ptr \2, align 1
  \1.at = getelementptr i8, ptr \2, i64 8
  \1.ptr = load ptr, ptr \1.at, align 4
  \1.half = insertvalue { i8, ptr } poison, i8 \1.byte, 0
  \1 = insertvalue { i8, ptr } \1.half, ptr \1.ptr, 1"""
KNOWN = re.compile("|".join(f"(?:{it})" for it in FORMS))


def stop(why):
    sys.exit(f"examples/microcontrollers/narrow.py: {why}")


def ran(words, at=HERE):
    """Returns the output of the command. Stops if it fails."""
    done = subprocess.run(words, cwd=at, stdout=subprocess.PIPE, stderr=subprocess.STDOUT, text=True)
    if done.returncode:
        stop(f"{' '.join(words)}\n{done.stdout}")
    return done.stdout


def kept_module():
    """Returns the module as text."""
    ran([os.path.join(ROOT, "tools/build"), "rds_ffi", "--module"])
    with tempfile.TemporaryDirectory() as work:
        ran([CLANG, "--no-default-config", "-S", "-emit-llvm", "-x", "ir", MODULE, "-Xclang", "-disable-llvm-passes", "-O0",
             "-o", f"{work}/module.ll"])
        with open(f"{work}/module.ll", encoding="latin-1") as file:
            return file.read()


def widened(constant):
    """Returns the constant with 4 more bytes after each pointer."""
    parts = re.fullmatch(r"(@static.*? constant )<\{ (.*?) \}> <\{ (.*) \}>(, align \d+)?", constant)
    if not parts:
        return constant
    pointer = rf"ptr (?:getelementptr \(i8, ptr {NAME}, i64 \d+\)|{NAME})"
    pieces = re.findall(f"{BYTES}|{pointer}", parts[3])
    kinds = parts[2].split(", ")
    if ", ".join(pieces) != parts[3] or kinds != [re.match(r"ptr|\[.*?\]", it)[0] for it in pieces]:
        stop("a constant has an unknown form")
    kinds = ", ".join("ptr, i32" if it == "ptr" else it for it in kinds)
    pieces = ", ".join(f"{it}, i32 0" if it[0] == "p" else it for it in pieces)
    return f"{parts[1]}<{{ {kinds} }}> <{{ {pieces} }}>{parts[4] or ''}"


def narrowed(code, target_lines, header):
    """Returns the module for 32 bits. Names a call wide_.. if its C form differs there: narrow.c has the C form."""
    code = re.sub(r"^target .*\n", "", code, flags=re.M)
    code = re.sub(r"^source_filename = .*", lambda it: f"{it[0]}\n{target_lines}", code, flags=re.M)
    code = re.sub(r' "probe-stack"="inline-asm" "stack-probe-size"="\d+" "target-cpu"="x86-64[^"]*"', "", code)
    code = re.sub(r"^@static.*", lambda it: widened(it[0]), code, flags=re.M)
    code = re.sub(r"= alloca ptr, align", "= alloca [8 x i8], align", code)
    code = re.sub(r"^  (%\w+) = ptrtoaddr ptr (%\w+) to i64$",
                  r"  \1.low = ptrtoaddr ptr \2 to i32\n  \1 = zext i32 \1.low to i64", code, flags=re.M)
    code = re.sub(r"^  (%\w+) = load \{ i8, ptr \}, ptr (%\w+), align \d+$", BYTE_AND_POINTER, code, flags=re.M)
    exported = re.findall(r"^define (?:noundef )?(i\d+|void|\{.*?\}) @(rdsrt_\w+)\((.*?)\)", code, re.M)
    declared = re.findall(r"^(struct|void|uint32_t|uint64_t)[ \w]* (rdsrt_\w+)\((.*?)\);", header, re.M | re.S)
    if {it[1] for it in declared} != {it[1] for it in exported}:
        stop("the header and the module have other calls")
    # a uint64_t is passed and returned on 32 bits as i64 is
    wide = {name: len(re.findall(r"uint64_t (?!\*)", given)) for _, name, given in declared}
    numbers = {("i32", "uint32_t"), ("i64", "uint64_t"), ("void", "void")}
    returned = {name: kind for kind, name, _ in declared}
    differing = {name for kind, name, given in exported
                 if (kind, returned[name]) not in numbers or given.count("i64") > wide[name]}
    if differing != {name for kind, name, given in declared if kind == "struct" or "size_t" in given}:
        stop("the header and the module differ in the calls with a size_t or a returned struct")
    code = re.sub(r"@(rdsrt_\w+)\(", lambda it: f"@wide_{it[1]}(" if it[1] in differing else it[0], code)
    for number, line in enumerate(code.split("\n"), 1):
        if not KNOWN.fullmatch(line) or "x86" in line:
            stop(f"line {number} of the module has an unknown form: {line[:200]}")
    for kind, name, given in exported:
        if name in differing and kind not in ("i32", "void"):
            code += (f"\ndefine void @wide_{name}_into({', '.join(filter(None, ['ptr %into', given]))}) {{\n"
                     f"  %made = call {kind} @wide_{name}({given})\n"
                     "  store {kind} %made, ptr %into, align 4\n  ret void\n}\n".replace("{kind}", kind))
    return code


def main():
    if sys.argv[1:] not in [[it] for it in TARGETS]:
        sys.exit(f"usage: examples/microcontrollers/narrow.py {'|'.join(TARGETS)}")
    tools, machine = TARGETS[sys.argv[1]]
    made = os.path.join(OUT, sys.argv[1])
    os.makedirs(made, exist_ok=True)
    with open(HEADER, encoding="utf-8") as file:
        header = file.read()
    clang = [CLANG, "--no-default-config", f"--target={tools}", *machine]
    empty = ran([*clang, "-S", "-emit-llvm", "-x", "c", os.devnull, "-o", "-"])
    target_lines = "\n".join(re.findall(r"^target .*", empty, re.M))
    if not re.search(r'"e-.*-p:32:32-.*-i64:64-', target_lines):
        stop("the processor has other sizes")
    with open(f"{made}/module.ll", "w", encoding="latin-1") as file:
        file.write(narrowed(kept_module(), target_lines, header))
    ran([*clang, *OF_THE_KIT, "-c", "-x", "ir", f"{made}/module.ll", "-o", f"{made}/module.o"])
    ran([f"{tools}-gcc", *machine, "-std=c11", "-ffreestanding", "-O2", "-Wall", "-Wextra", "-Werror",
         "-ffunction-sections", "-I", os.path.dirname(HEADER), "-c", f"{HERE}/narrow.c", "-o", f"{made}/narrow.o"])
    ran([f"{tools}-ar", "rcsD", f"{made}/librdsrt.a", f"{made}/module.o", f"{made}/narrow.o"])


if __name__ == "__main__":
    main()
