#!/usr/bin/env python3
"""Prints the records of a log, a line each: offset, key and value. It calls the shared object that `bindings/install
PREFIX` makes, by ctypes alone:

    LD_LIBRARY_PATH=PREFIX/lib python3 read.py LOG"""
import ctypes
import sys

library, number, size, pointer = ctypes.CDLL("liboddrafisk.so.0.4"), ctypes.c_uint32, ctypes.c_size_t, ctypes.c_void_p
library.oddrafisk_check.argtypes = number, pointer, size, pointer
library.oddrafisk_read.argtypes = number, pointer, size, pointer, size, pointer, size, pointer
assert library.oddrafisk_version() == 4000, "the library has another version"

# The mode, the places of entries and those in rows, as oddrafisk.h names them.
KEYED = 1
ENTRIES, BASE_OFFSET, RECORDS, HEADERS, BYTES = 16, 0, 11, 12, 13
RECORD_ROW, HEADER_ROW, OFFSET_DELTA, KEY_START, VALUE_START = 8, 4, 1, 2, 4


class Stopped(Exception):
    """Where a log cannot be read on, and by which number."""


def table(numbers):
    """A table to lend. It has a number more than asked for, so that it is never without an address."""
    return (ctypes.c_int64 * (numbers + 1))()


def records_of(log):
    """The offset, the key and the value of each record of a log."""
    place, answer = 0, table(ENTRIES)
    while place < len(log):
        lent = KEYED, ctypes.cast(log, pointer).value + place, len(log) - place
        refused = library.oddrafisk_check(*lent, answer)
        records, headers = table(RECORD_ROW * answer[RECORDS]), table(HEADER_ROW * answer[HEADERS])
        refused = refused or library.oddrafisk_read(*lent, records, len(records), headers, len(headers), answer)
        if refused:
            raise Stopped("stopped at %d by number %d" % (place, refused))
        for at in range(0, RECORD_ROW * answer[RECORDS], RECORD_ROW):
            spans = (records[at + start : at + start + 2] for start in (KEY_START, VALUE_START))
            key, value = (None if n == -1 else log[place + start : place + start + n] for start, n in spans)
            yield answer[BASE_OFFSET] + records[at + OFFSET_DELTA], key, value
        place += answer[BYTES]


def shown(span):
    """A key or a value between quotes; what is not plain text in it in hex."""
    if span is None:
        return "null"
    plain = (chr(byte) if 32 <= byte < 127 and byte not in b'"\\' else "\\x%02x" % byte for byte in span)
    return '"%s"' % "".join(plain)


def main(name):
    try:
        for offset, key, value in records_of(open(name, "rb").read()):
            print(offset, shown(key), shown(value))
    except Stopped as why:
        sys.exit("%s: %s" % (name, why))


if len(sys.argv) != 2:
    sys.exit("usage: read.py LOG")
main(sys.argv[1])
