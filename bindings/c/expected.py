#!/usr/bin/env python3
"""Prints what example.c is to print of a log: from the log's bytes, after document 01, and by nothing of the library.

    bindings/c/expected.py LOG

The log is taken to have no fault but that it may be cut off or have a bare marker: then the last line is what is to be
said of that. Other markers print nothing."""
import struct
import sys


def number(log, at):
    """A number of varying length, and the place after it."""
    code = shift = 0
    more = True
    while more:
        more, code, shift, at = log[at] >= 128, code | (log[at] & 127) << shift, shift + 7, at + 1
    return (code // 2 if code % 2 == 0 else -(code + 1) // 2), at


def span(log, at):
    """Bytes after their length, as they are shown, and the place after them."""
    length, at = number(log, at)
    if length < 0:
        return "null", at
    end = at + length
    shown = ("\\x%02x" % byte if byte in b'"\\' or not 32 <= byte <= 126 else chr(byte) for byte in log[at:end])
    return '"' + "".join(shown) + '"', end


def show_record(log, at, base):
    """Prints the record at a place: the place after it."""
    length, at = number(log, at)
    _, delta_at = number(log, at + 1)
    delta, key_at = number(log, delta_at)
    key, value_at = span(log, key_at)
    value, _ = span(log, value_at)
    print(base + delta, key, value)
    return at + length


# The bytes of an abort and of a commit in the bare form.
BARE = bytes(4), bytes(3) + b"\1"


def main(name):
    log = open(name, "rb").read()
    place, stop = 0, "1: more bytes are needed"
    while len(log) - place >= 12:
        base, length = struct.unpack_from(">qi", log, place)
        end = place + 12 + length
        if end > len(log):
            break
        attributes, at = struct.unpack_from(">h", log, place + 21)[0], place + 61
        if attributes & 32 and log[at:end] in BARE:
            stop = "41: bare markers are withdrawn: write keyed ones; `oddrafisk convert IN OUT` converts a stored log"
            break
        for _ in range(0 if attributes & 32 else struct.unpack_from(">i", log, place + 57)[0]):
            at = show_record(log, at, base)
        place = end
    if place < len(log):
        print("%s: stopped at %d by number %s" % (name, place, stop))


main(sys.argv[1])
