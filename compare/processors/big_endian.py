#!/usr/bin/env python3
"""Prints a module of the kit, on standard input, for a big-endian processor:

    compare/processors/big_endian.py <MODULE.ll

The kit compiles for little-endian processors, and relies on it in two places, which no code of Rattle can see. The bytes
of a constant stand in that order: here they become numbers. The library has two constants. One is the table of the
checksum, 256 numbers of 32 bits (crates/crc32c); the other is zeros, which have no order. And which case of an enum a
value is is written as 16, 32 or 64 bits and read as the first 8 of them: here they are written in that order. These are
the only wide stores with no alignment. A module that is otherwise fails."""
import itertools
import re
import sys

CONSTANT = re.compile(r'(?m)^(@static\.\d+ = private unnamed_addr constant) \[(\d+) x i8\] c"((?:\\\\|\\..|[^"\\])*)"')
ZEROS = re.compile(r'(?m)^@static\.\d+ = private unnamed_addr constant \[\d+ x i8\] zeroinitializer, align \d+$')
TABLE = 256
FUNCTION = re.compile(r"(?ms)^define [^\n]*?(@[^(\n]+)\([^\n]*\{\n.*?^\}\n")
WIDE = r"(?:i16|i32|i64|i128|ptr)"
CASE = re.compile(r"(?m)^  store (i16|i32|i64) (\S+), (ptr \S+), align 1$")
SWAP = "declare %s @llvm.bswap.%s(%s)\n"


def as_bytes(text):
    code = re.compile(r"\\(?:(\\)|([0-9A-F]{2}))")
    return code.sub(lambda found: found[1] or chr(int(found[2], 16)), text).encode("latin-1")


def as_numbers(found):
    data = as_bytes(found[3])
    if len(data) != int(found[2]) or len(data) != 4 * TABLE:
        sys.exit("a constant of %s bytes is not known here" % found[2])
    numbers = (int.from_bytes(data[place:place + 4], "little") for place in range(0, len(data), 4))
    return "%s [%d x i32] [%s]" % (found[1], TABLE, ", ".join("i32 %d" % number for number in numbers))


def with_cases(module):
    """The module with each case of an enum written lowest byte first."""
    numbers, widths = itertools.count(), set()

    def swapped(found):
        width, case, place = found.groups()
        widths.add(width)
        name = "%%swapped.%d" % next(numbers)
        call = "  %s = call %s @llvm.bswap.%s(%s %s)\n" % (name, width, width, width, case)
        return call + "  store %s %s, %s, align 1" % (width, name, place)

    text = CASE.sub(swapped, module)
    declared = (SWAP % (width, width, width) for width in sorted(widths))
    return text + "".join(line for line in declared if line not in module)


def check_others(module):
    """Fails where something else is read or written with no alignment, but for the slices of the exported functions."""
    for found in FUNCTION.finditer(module):
        rest = CASE.sub("", found[0])
        loads = [] if found[1].startswith("@oddrafisk_") else re.findall(r"load %s, ptr \S+, align 1\b" % WIDE, rest)
        for other in loads + re.findall(r"store %s \S+, ptr \S+, align 1\b" % WIDE, rest):
            sys.exit("%s: `%s` is not known here" % (found[1], other))


text, count = CONSTANT.subn(as_numbers, sys.stdin.read())
if count != 1 or len(re.findall(r"(?m)^@", text)) != 1 + len(ZEROS.findall(text)):
    sys.exit("the module has other constants than the table of the checksum and zeros")
check_others(text)
print(with_cases(text), end="")
