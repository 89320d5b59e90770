#!/usr/bin/env python3
"""Runs the program list, or the one that is named, on files that are made here and on samples/*.log, and compares
what it prints with what is expected: tools/listing_cases.py [PROGRAM]

Files are put together here, and the expected text of each stands beside it. The samples' is worked out by the decoder
below, which is held to all the other cases too. Both are written from document 01 and, for control batches, from
document 02's C-16 and C-24; nothing of the code under test is used. The program has to leave its standard error empty.
Where its standard input cannot be read it has to say so there, in one line, and to print nothing. It has to end with
status 0 in every case. Prints each case that differs, and fails where one does."""
import contextlib
import pathlib
import socket
import subprocess
import sys
import time

sys.dont_write_bytecode = True
from verdict import end

TOP = pathlib.Path(__file__).resolve().parent.parent
HEADING = "base bytes kind records headers\n"
TOO_LONG = "file too long\n"
UNREADABLE = b"list: standard input cannot be read\n"
MOST = 65536
RECORD_ROWS, HEADER_ROWS = 1024, 2048
ABORT, COMMIT = bytes([0, 0, 0, 0]), bytes([0, 0, 0, 1])
KINDS = {ABORT: "abort", COMMIT: "commit"}

# ---- writing, after documents 01 and 02


def crc32c(data):
    crc = 0xFFFFFFFF
    for byte in data:
        crc ^= byte
        for _ in range(8):
            crc = crc >> 1 ^ (0x82F63B78 if crc & 1 else 0)
    return crc ^ 0xFFFFFFFF


def varint(n):
    code = 2 * n if 0 <= n else -2 * n - 1
    out = bytearray()
    while 128 <= code:
        out.append(code % 128 + 128)
        code //= 128
    return bytes(out) + bytes([code])


def sized(data):
    return varint(-1) if data is None else varint(len(data)) + data


def record(key=None, value=None, headers=()):
    fields = bytes([0]) + varint(0) + varint(0) + sized(key) + sized(value) + varint(len(headers))
    fields += b"".join(sized(k) + sized(v) for k, v in headers)
    return varint(len(fields)) + fields


def framed(base, body, count, attributes=0, magic=2):
    """A batch with a right length and a right checksum, whatever its body is."""
    checked = attributes.to_bytes(2, "big") + bytes(34) + count.to_bytes(4, "big", signed=True) + body
    return (base.to_bytes(8, "big", signed=True) + (9 + len(checked)).to_bytes(4, "big") + bytes(4) + bytes([magic])
            + crc32c(checked).to_bytes(4, "big") + checked)


def batch(base, *records):
    return framed(base, b"".join(records), len(records))


def control(base, body):
    return framed(base, body, 1, 32)


def marker(base, key):
    return control(base, record(key))


# ---- reading, after documents 01 and 02


class Refused(Exception):
    def __init__(self, number):
        self.number = number


class Bytes:
    """Bytes that are read up to an end."""

    def __init__(self, data, at, end):
        self.data, self.at, self.end = data, at, end

    def take(self, n):
        if self.end - self.at < n:
            raise Refused(8)
        self.at += n
        return self.data[self.at - n:self.at]

    def integer(self, n):
        return int.from_bytes(self.take(n), "big", signed=True)

    def varint(self, bits):
        code, most = 0, (bits + 6) // 7
        for i in range(most):
            byte = self.take(1)[0]
            if i == most - 1 and 2 ** (bits - 7 * i) <= byte:
                raise Refused(9)
            code += byte % 128 * 128 ** i
            if byte < 128:
                break
        return code // 2 if code % 2 == 0 else -(code // 2) - 1

    def length(self, least):
        n = self.varint(32)
        if n < least:
            raise Refused(10)
        return n

    def sized(self, least):
        return self.take(max(self.length(least), 0))


def read_record(body):
    """A record's key, and its headers, counted."""
    size = body.length(0)
    fields = Bytes(body.data, body.at, min(body.at + size, body.end))
    fields.take(1)
    fields.varint(64)
    fields.varint(32)
    key = fields.sized(-1)
    fields.sized(-1)
    headers = fields.length(0)
    for _ in range(headers):
        try:
            fields.sized(0).decode("utf-8")
        except UnicodeDecodeError:
            raise Refused(11)
        fields.sized(0)
    if fields.at != body.at + size:
        raise Refused(13)
    body.at = fields.at
    return key, headers


def read_marker(body):
    """The kind of a control batch. A marker that stands alone is withdrawn. Any other begins the key of a record, which
    is looked at when all else is right."""
    if body.data[body.at:body.end] in KINDS:
        raise Refused(41)
    key, _ = read_record(body)
    if body.at != body.end:
        raise Refused(13)
    if key[:4] not in KINDS:
        raise Refused(12)
    return KINDS[key[:4]]


def read_batch(data, start):
    """The batch that starts there: base offset, bytes, kind, records, headers."""
    left = len(data) - start
    if left < 12:
        raise Refused(1)
    head = Bytes(data, start, len(data))
    base, size = head.integer(8), head.integer(4)
    if size < 9:
        raise Refused(2)
    if left < 17:
        raise Refused(1)
    if data[start + 16] != 2:
        raise Refused(3)
    if left < 12 + size:
        raise Refused(1)
    end = start + 12 + size
    if int.from_bytes(data[start + 17:start + 21], "big") != crc32c(data[start + 21:end]):
        raise Refused(4)
    body = Bytes(data, start + 21, end)
    attributes = body.integer(2)
    codec = attributes % 8
    if 4 < codec:
        raise Refused(5)
    body.take(34)
    count = body.integer(4)
    if count < -1:
        raise Refused(7)
    if codec:
        raise Refused(6)
    count = max(count, 0)
    if attributes // 32 % 2:
        if count != 1:
            raise Refused(7)
        counts = read_marker(body), 0, 0
    else:
        counts = "records", count, sum(read_record(body)[1] for _ in range(count))
    if body.at != end:
        raise Refused(13)
    if RECORD_ROWS < counts[1] or HEADER_ROWS < counts[2]:
        raise Refused(14)
    return base, 12 + size, *counts


def listed(data):
    if MOST < len(data):
        return TOO_LONG
    text, place = HEADING, 0
    while place < len(data):
        try:
            line = read_batch(data, place)
        except Refused as refused:
            return text + "stop %d at %d\n" % (refused.number, place)
        text += "%d %d %s %d %d\n" % line
        place += line[1]
    return text + "end at %d\n" % place


# ---- the cases: a name, a file, and the lines after the heading

A = record(value=b"A")
EMPTY = batch(0)
ONE = batch(7, A)


def altered(data, place, byte):
    return data[:place] + bytes([byte]) + data[place + 1:]


def of_size(size):
    """A batch of that many bytes: one record with a long value."""
    length = size
    while True:
        data = batch(0, record(value=bytes(length)))
        if len(data) == size:
            return data
        length -= max(1, len(data) - size)


def stop_cases():
    """What is refused, each by itself and after a good batch, with another good batch after it."""
    yield 1, "three bytes", bytes(3)
    yield 1, "eleven bytes", ONE[:11]
    yield 1, "twelve bytes", ONE[:12]
    yield 1, "sixteen bytes", ONE[:16]
    yield 1, "seventeen bytes", ONE[:17]
    yield 1, "the last byte missing", ONE[:-1]
    yield 2, "batchLength 8", bytes(8) + (8).to_bytes(4, "big") + bytes(20)
    yield 2, "batchLength -1", bytes(8) + b"\xff" * 4 + bytes(20)
    yield 3, "magic 1", framed(0, b"", 0, magic=1)
    yield 3, "magic -1", framed(0, b"", 0, magic=255)
    yield 4, "a wrong checksum", altered(ONE, 20, ONE[20] ^ 1)
    yield 4, "a bit changed", altered(ONE, 68, ONE[68] ^ 128)
    yield 4, "an abort alone, made a commit", altered(control(5, ABORT), 64, 1)
    for codec in (5, 6, 7):
        yield 5, "codec %d" % codec, framed(0, b"", 0, codec)
    yield 5, "a marker alone, codec 5", framed(0, ABORT, 1, 32 + 5)
    for codec in (1, 2, 3, 4):
        yield 6, "codec %d" % codec, framed(0, b"", 0, codec)
    yield 6, "a marker alone, codec 1", framed(0, ABORT, 1, 32 + 1)
    yield 7, "count -2", framed(0, b"", -2)
    commit = record(COMMIT)
    for body, name in (commit, "a control batch"), (ABORT, "a marker alone"):
        yield 7, "%s, count 2" % name, framed(0, body, 2, 32)
        yield 7, "%s, count -1" % name, framed(0, body, -1, 32)
    yield 8, "batchLength 9", bytes(8) + (9).to_bytes(4, "big") + bytes(4) + b"\x02" + crc32c(b"").to_bytes(4, "big")
    yield 8, "a record missing", framed(0, A, 2)
    yield 8, "a value past its record", framed(0, bytes.fromhex("0E000000010441 00"), 1)
    yield 8, "a control batch of two bytes", control(0, bytes(2))
    yield 8, "a control batch of five bytes", control(0, bytes(5))
    yield 8, "four bytes that are no marker, version 1", control(0, bytes([0, 1, 0, 0]))
    yield 8, "four bytes that are no marker, type 2", control(0, bytes([0, 0, 0, 2]))
    yield 8, "a marker's record cut", control(0, commit[:-1])
    yield 9, "a varint beyond its limits", framed(0, bytes.fromhex("FFFFFFFF10"), 1)
    yield 10, "a key length of -2", framed(0, bytes.fromhex("0C000000030100"), 1)
    yield 10, "a record length of -1", framed(0, varint(-1), 1)
    yield 11, "a header key that is no UTF-8", batch(0, record(headers=[(b"\xed\xa0\x80", b"")]))
    yield 12, "control version 1", marker(0, bytes([0, 1, 0, 0]))
    yield 12, "control type 2", marker(0, bytes([0, 0, 0, 2]))
    yield 12, "a control key of three bytes", marker(0, bytes(3))
    yield 12, "a control key that is null", marker(0, None)
    yield 13, "a byte after the last record", framed(0, A + b"\x00", 1)
    yield 13, "a byte after the marker", control(0, commit + b"\x00")
    yield 13, "a byte after a marker that is unknown", control(0, record(None) + b"\x00")
    yield 13, "a length of 100 over six bytes", framed(0, varint(100) + bytes.fromhex("000000010100"), 1)
    yield 14, "1,025 records", batch(0, *[record()] * 1025)
    yield 14, "2,049 headers of one record", batch(0, record(headers=[(b"", b"")] * 2049))
    two = record(headers=[(b"", b"")] * 2048), record(headers=[(b"k", b"v")])
    yield 14, "2,049 headers of two records", batch(0, *two)
    yield 41, "an abort alone", control(5, ABORT)
    yield 41, "a commit alone", control(6, COMMIT)
    yield 41, "a commit alone, every bit but the codec's", framed(6, COMMIT, 1, 0xFFF8)


def cases():
    yield "document 01's", EMPTY + ONE + bytes(3), "0 61 records 0 0\n7 69 records 1 0\nstop 1 at 130\n"
    yield "an empty file", b"", "end at 0\n"
    yield "no records", EMPTY, "0 61 records 0 0\nend at 61\n"
    yield "count -1", framed(0, b"", -1), "0 61 records 0 0\nend at 61\n"
    yield "an abort", marker(5, ABORT), "5 72 abort 0 0\nend at 72\n"
    yield "a commit", marker(6, COMMIT), "6 72 commit 0 0\nend at 72\n"
    yield "an abort with a value", control(3, record(ABORT, bytes(6))), "3 78 abort 0 0\nend at 78\n"
    headed = control(4, record(COMMIT + b"more", None, [(b"a", b"bc")] * 2049))
    yield "a commit with 2,049 headers", headed, "4 %d commit 0 0\nend at %d\n" % (len(headed), len(headed))
    kinds = ONE + marker(8, ABORT) + marker(9, COMMIT) + batch(10, record(b"k", b"v", [(b"a", b""), (b"b", b"c")]), A)
    yield "each kind", kinds, "7 69 records 1 0\n8 72 abort 0 0\n9 72 commit 0 0\n10 85 records 2 2\nend at 298\n"
    for base in (-1, -10, -2 ** 63, 2 ** 63 - 1, 9, 10, 99, 100, 10 ** 18):
        yield "base offset %d" % base, batch(base), "%d 61 records 0 0\nend at 61\n" % base
    for number, name, data in stop_cases():
        yield name, data, "stop %d at 0\n" % number
        yield name + ", second", ONE + data, "7 69 records 1 0\nstop %d at 69\n" % number
        if number != 1:
            lines = "0 61 records 0 0\n7 69 records 1 0\nstop %d at 130\n" % number
            yield name + ", in the middle", EMPTY + ONE + data + ONE, lines
    full = batch(1, *[record(headers=[(b"", b""), (b"k", b"v")])] * 1024)
    line = "1 %d records 1024 2048\n" % len(full)
    yield "all rows", full, line + "end at %d\n" % len(full)
    yield "all rows, twice", full + full, 2 * line + "end at %d\n" % (2 * len(full))
    many = batch(2, record(headers=[(b"", b"")] * 2048))
    yield "2,048 headers of one record", many, "2 %d records 1 2048\nend at %d\n" % (len(many), len(many))
    lines = "".join("%d 61 records 0 0\n" % n for n in range(1074))
    yield "1,074 batches", b"".join(batch(n) for n in range(1074)), lines + "end at 65514\n"
    yield "65,536 bytes, a batch", of_size(MOST), "0 65536 records 1 0\nend at 65536\n"
    yield "65,536 bytes, two batches", ONE + of_size(MOST - 69), "7 69 records 1 0\n0 65467 records 1 0\nend at 65536\n"
    yield "65,536 bytes, the last missing", of_size(MOST + 1)[:MOST], "stop 1 at 0\n"
    yield "65,536 bytes of 0", bytes(MOST), "stop 2 at 0\n"
    for size in (MOST + 1, MOST + 2, 4 * MOST):
        yield "%d bytes of 0" % size, bytes(size), None
    yield "65,537 bytes, a batch", of_size(MOST + 1), None
    yield "65,537 bytes, batches and a byte", ONE + of_size(MOST - 69) + b"\x00", None
    samples = sorted(TOP.glob("samples/*.log"))
    if not samples:
        sys.exit("samples/ has no log")
    for sample in samples:
        data = sample.read_bytes()
        yield sample.name, data, listed(data)[len(HEADING):]
        yield sample.name + " without its last byte", data[:-1], listed(data[:-1])[len(HEADING):]


def worded(printed, complaint, status):
    """What the program prints, and, below that, its complaint and its status, where there is one or the other."""
    text = printed.decode("ascii", "replace")
    if complaint or status:
        text += "and ends with status %d, on standard error: %s\n" % (status, complaint)
    return text


def said(started, data=None):
    printed, complaint = started.communicate(data)
    return worded(printed, complaint, started.returncode)


def start(program, stdin=subprocess.PIPE):
    return subprocess.Popen(program, stdin=stdin, stdout=subprocess.PIPE, stderr=subprocess.PIPE, bufsize=0)


def run(program, data):
    return said(start(program), data)


def run_in_parts(program, data):
    """The same where the file comes bit by bit."""
    started = start(program)
    # Where the program has ended early, what it says shows that.
    with contextlib.suppress(BrokenPipeError):
        for at in range(0, len(data), 4001):
            started.stdin.write(data[at:at + 4001])
            time.sleep(0.002)
    return said(started)


def run_redirected(program, redirection):
    """The same where the standard input is what the shell makes of it."""
    return said(start(["sh", "-c", 'exec "$@" ' + redirection, "sh", *program]))


def run_reset(program):
    """The same where the file comes by a connection that is reset after a whole batch. That is told once: the read
    after it finds the end."""
    ours, theirs = socket.socketpair()
    theirs.sendall(b"never read")
    ours.sendall(ONE)
    ours.close()
    with theirs:
        return said(start(program, theirs))


def unreadable(program):
    """Standard inputs that cannot be read, each with what the program says."""
    yield "a folder", run_redirected(program, "</")
    yield "closed", run_redirected(program, "<&-")
    yield "opened for writing only", run_redirected(program, "0>/dev/null")
    yield "a connection that is reset", run_reset(program)


def main():
    program = sys.argv[1:2] or [str(TOP / "tools/program"), "list"]
    counted = differ = 0

    def compare(name, answers, due):
        nonlocal counted, differ
        counted += 1
        wrong = ["%s says\n%s" % (who, text[-400:]) for who, text in answers.items() if text != due]
        if wrong:
            differ += 1
            print("%s: expected\n%s\nand %s" % (name, due[-400:], "\nand ".join(wrong)))

    for name, data, lines in cases():
        answers = {"the program": run(program, data), "the decoder here": listed(data)}
        compare(name, answers, TOO_LONG if lines is None else HEADING + lines)
    for name, data in ("in parts", of_size(MOST)), ("too long, in parts", of_size(MOST + 1)):
        compare(name, {"the program": run_in_parts(program, data)}, listed(data))
    for name, text in unreadable(program):
        compare("standard input: " + name, {"the program": text}, worded(b"", UNREADABLE, 0))
    print("listing: %d cases, %d differ" % (counted, differ))
    end(counted - differ, differ)


main()
