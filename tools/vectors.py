#!/usr/bin/env python3
"""Writes the cases of an example program, crates/vectors, crates/batch_vectors or crates/entry_vectors:

    tools/vectors.py vectors > crates/vectors/stdin

Every expectation is worked out here, by Python's arithmetic, from the sentences and tables of document 01, from
document 02's C-16 for control batches as brokers write them and C-24 for markers that stand alone, from RFC 3720's
polynomial and from RFC 3629's rows. Nothing of the code under test is used."""
from itertools import islice
import sys
import zlib

ABOUT = """\
# Cases for crates/vectors, written by tools/vectors.py. The expectations come from the sentences and tables of
# document 01, from "Fixed fields" to "Reader's numbers", by Python's arithmetic, and not from the code under test.
# Those of checksums are RFC 3720's examples, section B.4, and what a division by its polynomial leaves; those of UTF-8
# come from the rows of RFC 3629, section 4, and Python's decoder agrees with each.
#
# = NAME                         the cases that follow, up to the next such line, are the group NAME
# KIND HEX NUMBER [VALUE END]    reading KIND at the start of the bytes HEX answers document 01's NUMBER, and where that
#                                is 0 (accepted) the VALUE, and END, the place after it
# length, nulllength             the same for a length; null, which only nulllength allows, is the value -1
# span, nullspan                 HEX NUMBER [START LEN END]: bytes after their length; null is START 0, LEN -1
# KIND@K                         reads at place K
# put KIND VALUE HEX             writing VALUE as KIND gives the bytes HEX
# copy HEX ROOM AT COUNT END     putting the bytes HEX into an output of ROOM bytes, from place AT on, puts COUNT of
#                                them there, changes nothing else and gives the place END after them
# crc32c HEX SUM                 the checksum of the bytes HEX is SUM, of all at once and of two parts, whatever the cut
# crc32c-run LENGTH SEED SUM     the same for LENGTH bytes: x, at first SEED, becomes (25173 x + 13849) modulo 65536 for
#                                each byte, which is x / 256
# utf8 HEX VERDICT               the bytes HEX, with 0 to 17 ASCII bytes before them and 0 to 17 after them, are UTF-8
#                                (1) or not (0)
# records HEX COUNT FIRST R H NUMBER [RECORDS HEADERS END[|ROWS|ROWS]]
#                                reading COUNT records at the start of the bytes HEX, with header rows from row FIRST
#                                on, into tables of R and of H numbers answers NUMBER. Where that is 0 or 14 (no room),
#                                RECORDS and HEADERS say how many there are, and END is the place after them. Where it
#                                is 0, the numbers of all record rows follow, and those of all header rows; all other
#                                numbers of both tables stay as they are. The check without tables answers the same,
#                                and 0 in place of 14. records@K reads at place K
# total LENGTH TOTAL             a batch with that batchLength is TOTAL bytes
#
# HEX is capital digits, two to a byte, or - for no bytes."""
ABOUT_BATCHES = """\
# Cases for crates/batch_vectors, written by tools/vectors.py. The expectations come from the sentences and tables of
# document 01 and, for control batches, of document 02's C-16 and C-24, by Python's arithmetic, and not from the code
# under test.
#
# = NAME                         the cases that follow, up to the next such line, are the group NAME
# bare .., keyed ..              the case that follows the word holds in bare mode, which has no control batch, or in
#                                keyed mode, where a marker stands in the key of a record, as brokers write it. Every
#                                other holds in both modes
# batch HEX R H NUMBER [..]      reading a batch at the start of the bytes HEX into tables of R and of H numbers answers
#                                document 01's NUMBER, or C-24's 41. After 0 (accepted) follow the fields: base offset,
#                                leader epoch, last offset delta, first and max timestamp, producer id, producer epoch,
#                                base sequence, timestamp type (0 create, 1 log append) and transactional (0, 1); then
#                                the kind (0 records, 1 abort, 2 commit), the counts of records and headers, the bytes
#                                consumed, and |ROWS|ROWS, the numbers of all record rows and of all header rows. After
#                                1 follow the bytes needed; after 14 the records and headers needed, and | with what the
#                                check answers. Else the check answers the same, and all other numbers of both tables
#                                always stay as they are
# cuts HEX K R H NUMBER [..]     the same for each start of HEX with K bytes or more. A shorter one needs 12 bytes or,
#                                where it has them, 17 or, where it has them, K
# time FIRST DELTA [TIME]        a record's time, or none, after that first timestamp, whichever the timestamp type
# write SOURCE BYTES CODEC KIND COUNT FIELDS NUMBER|ROWS|ROWS
#                                writing a batch of that kind, and of COUNT records (-1 stands for 2^64 - 1), with the
#                                ten fields, from both tables and the source, is answered by document 01's NUMBER, or
#                                by C-24's 41. Where that is 0, the output begins with BYTES; they are canonical, are
#                                read, and are written again from what was read. The output has each length from 0 to
#                                100 more than those bytes: a shorter one is answered by 24, and all its other bytes
#                                always stay as they are. Measuring answers the same, but for 24
# write-records SOURCE BYTES FIRST COUNT AT NUMBER|ROWS|ROWS
#                                the same of COUNT records alone, with header rows from row FIRST on, whose bytes begin
#                                at place AT of the output. Where NUMBER is 0, BYTES are canonical records. -1 stands
#                                for 2^64 - 1
# large RECORDS HEADERS KEY VALUE NUMBER SIZE
#                                measuring a batch of so many records, whose source is 262,144 bytes 80, answers NUMBER
#                                and SIZE; writing it into 100 bytes answers NUMBER, or 24 in place of 0. All records
#                                but the last show all of the source as key and as value. The last has as many headers
#                                as HEADERS says, with an empty key and all of the source as value; but the last of them
#                                shows KEY and VALUE bytes of it. The tables have 8,192 and 16,384 rows
# canonical HEX K                the first K bytes of HEX are canonical, and no other start of HEX is; none where K is 0
#
# HEX, SOURCE and BYTES are capital digits, two to a byte, or - for no bytes."""
ABOUT_ENTRIES = """\
# Cases for crates/entry_vectors, written by tools/vectors.py. The expectations come from the sentences and tables of
# documents 01 and 02, by Python's arithmetic, and not from the code under test.
#
# = NAME                         the cases that follow, up to the next such line, are the group NAME
# convert HEX ROOM NUMBER TAKEN GIVEN BYTES
#                                converting the batch at the start of the bytes HEX into an output of ROOM bytes answers
#                                NUMBER. Where that is 0, TAKEN bytes of HEX are taken, and the output begins with the
#                                GIVEN bytes BYTES. Where it is 1, TAKEN is how many bytes are needed. What is not named
#                                is 0, and all other bytes of the output always stay as they are
#
# HEX and BYTES are capital digits, two to a byte, or - for no bytes."""

# Document 01, the rows of "Numbers of varying length": bytes and value, at both widths.
ROWS = [
    ("00", 0), ("01", -1), ("02", 1),
    ("7E", 63), ("7F", -64),
    ("8001", 64), ("8101", -65),
    ("FEFFFFFF0F", 2147483647),
    ("FFFFFFFF0F", -2147483648),
]
ROW_VARLONG = ("FFFFFFFFFFFFFFFFFF01", -9223372036854775808)
ROW_READ_ONLY = ("8000", 0)
ROWS_REFUSED = ["FFFFFFFF10", "8080808080"]
# Document 01, "A record, in reading order": the bytes of a record and its row; and "Reader's numbers", both sides: one
# that names length 100, whose six bytes of fields end the bytes.
RECORD_ROWS = [
    ("0C000000010100", (0, 0, 0, -1, 0, -1, 0, 0)),
    ("0E00000001024100", (0, 0, 0, -1, 6, 1, 0, 0)),
]
RECORD_NAMES_100 = "C801000000010100"

# A kind of integer: how many bytes, and whether it is signed.
INTEGERS = {
    "int8": (1, True), "int16": (2, True), "int32": (4, True), "int64": (8, True),
    "uint32": (4, False), "uint64": (8, False),
}
WIDTHS = {"varint": 32, "varlong": 64}

# RFC 3720, section B.4: bytes and their checksum; and the usual check value, of the digits 1 to 9.
CHECKSUMS = [
    (bytes(32), 0x8A9136AA),
    (b"\xff" * 32, 0x62A8AB43),
    (bytes(range(32)), 0x46DD794E),
    (bytes(range(31, -1, -1)), 0x113FDB5C),
    (bytes.fromhex("01C00000 00000000 00000000 00000000 14000000 00000400"
                   "00000014 00000018 28000000 00000000 02000000 00000000"), 0xD9963A56),
    (b"123456789", 0xE3069283),
]
# Its polynomial, 1EDC6F41 with the power 32 in front, highest power first.
GENERATOR = 0x11EDC6F41
# Lengths on both sides of where code may change its ways.
LONG = [
    63, 64, 65, 207, 208, 209, 210, 211, 298, 299, 300, 301, 302, 418, 1023, 1024, 1025, 1232, 1233, 1234, 1235, 1433,
    1434, 2047, 2048, 2049, 2257, 2258, 3281, 3282, 4095, 4096,
]

# RFC 3629, section 4: the range of each octet, row by row.
TAIL = (0x80, 0xBF)
CHARACTERS = [
    [(0x00, 0x7F)],
    [(0xC2, 0xDF), TAIL],
    [(0xE0, 0xE0), (0xA0, 0xBF), TAIL],
    [(0xE1, 0xEC), TAIL, TAIL],
    [(0xED, 0xED), (0x80, 0x9F), TAIL],
    [(0xEE, 0xEF), TAIL, TAIL],
    [(0xF0, 0xF0), (0x90, 0xBF), TAIL, TAIL],
    [(0xF1, 0xF3), TAIL, TAIL, TAIL],
    [(0xF4, 0xF4), (0x80, 0x8F), TAIL, TAIL],
]
FAULTS = [
    # a tail where a character should begin
    "80", "BF", "8080", "80BF80",
    # two, three and four octets where fewer would do
    "C080", "C1BF", "E08080", "E09FBF", "F0808080", "F08FBFBF",
    # surrogates, alone and as a pair
    "EDA080", "EDBFBF", "EDA080EDB080", "EDAFBFEDBFBF",
    # above 10FFFF, in four, five and six octets
    "F4908080", "F5808080", "F7BFBFBF", "F888808080", "FBBFBFBFBF", "FC8480808080", "FDBFBFBFBFBF",
    # octets of no character
    "FE", "FF", "FEFF", "FFFE",
    # a character that is cut off
    "C2", "DF", "E0", "E0A0", "E180", "ED9F", "EFBF", "F0", "F090", "F09080", "F18080", "F48F", "F48FBF",
]
ASCII_AROUND = 17

# Document 01, "Reader's numbers".
(ACCEPTED, MORE_BYTES, LENGTH_TOO_SMALL, UNKNOWN_MAGIC, CHECKSUM_DIFFERS, UNKNOWN_CODEC, COMPRESSED, WRONG_COUNT,
 PAST_END, BEYOND_LIMITS, NEGATIVE_LENGTH, NOT_UTF8, UNKNOWN_CONTROL, BYTES_LEFT, NO_ROOM) = range(15)
# Document 01, "Writer's numbers".
WRONG_CODEC, WRONG_ROW, WRONG_KEY, TOO_LONG, SHORT_OUTPUT = range(20, 25)
# Document 02, C-24, of both.
BARE_MARKER = 41
GREATEST_PLACE = 2 ** 64 - 1
GREATEST_LENGTH = 2 ** 31 - 1

# A record with a key, a value and one header, part by part.
PARTS = {
    "attributes": "00", "timestamp": "8001", "offset": "02",
    "key_length": "04", "key": "A0A1", "value_length": "02", "value": "B0",
    "count": "02", "header_key_length": "04", "header_key": "C3A9", "header_value_length": "02", "header_value": "FF",
}
LENGTHS = {"key_length": -1, "value_length": -1, "count": 0, "header_key_length": 0, "header_value_length": 0}
NULL, EMPTY = "01", "00"
NO_HEADER = {"count": "00", **{part: "" for part in PARTS if part.startswith("header")}}
# How many numbers tables have where room is of no concern: three rows each, and a remainder.
ROOM = (30, 15)
# What the program puts into both tables beforehand: these numbers, one more from place to place.
RECORD_MARKS, HEADER_MARKS = (range(first, first + 64) for first in (1000000, 2000000))
GOOD_KEYS = [
    "41", "7F", "C280", "C3A9", "DFBF", "E0A080", "E282AC", "ED9FBF", "EE8080", "F0908080", "F48FBFBF",
    "41C3A9E282ACF09F9880",
]
BAD_KEYS = [
    # surrogates; overlong; above 10FFFF; cut short; a tail alone; an octet of no character
    "EDA080", "EDBFBF", "C080", "C1BF", "E09FBF", "F08FBFBF", "F4908080", "F5808080", "C3", "41E282", "F09F98",
    "80", "BF", "41C3A9A9", "FF",
]

# A text has fewer bytes than this.
MOST_TEXT = 524288

# Document 01, "Fixed fields": place, bytes and field, and what it has here where a case says nothing else.
FIXED = [
    (0, 8, "base_offset", 1), (8, 4, "batch_length", None), (12, 4, "leader_epoch", 2), (16, 1, "magic", 2),
    (17, 4, "crc", None), (21, 2, "attributes", 0), (23, 4, "last_offset_delta", 3), (27, 8, "first_timestamp", 4),
    (35, 8, "max_timestamp", 5), (43, 8, "producer_id", 6), (51, 2, "producer_epoch", 7), (53, 4, "base_sequence", 8),
    (57, 4, "count", 0),
]
UNCOUNTED, BEFORE_CRC, CHECKED, BODY = 12, 17, 21, 61
# Those handed out, in the order of an answer.
FIELDS = [
    (size, name) for _, size, name, _ in FIXED if name not in ("batch_length", "magic", "crc", "attributes", "count")
]
LOG_APPEND, TRANSACTIONAL, CONTROL = 8, 16, 32
ABORT, COMMIT = bytes(4), bytes([0, 0, 0, 1])
# The modes: no control batch at all, and markers in the key of a record.
BARE, KEYED = "bare", "keyed"
# A record's bytes and the number that they give, with enough before them and nothing behind.
RECORD_FAULTS = [
    ("", PAST_END), ("0C0000000101", PAST_END), ("0C0000000A", PAST_END), ("FFFFFFFF10", BEYOND_LIMITS),
    ("2000FFFFFFFFFFFFFFFFFF02", BEYOND_LIMITS), ("01", NEGATIVE_LENGTH), ("0C000000030100", NEGATIVE_LENGTH),
    ("0C000000010101", NEGATIVE_LENGTH), ("12000000010102028000", NOT_UTF8), ("12000000010102028001", NOT_UTF8),
    ("12000000010102024101", NEGATIVE_LENGTH), ("0E00000001010000", BYTES_LEFT), ("0C00000001010000", BYTES_LEFT),
]
# Bodies of control batches, and their numbers in bare and in keyed mode.
CONTROL_BODIES = [
    ("1400000008000000000100", UNKNOWN_CONTROL, ACCEPTED), ("1400000008000000010100", UNKNOWN_CONTROL, ACCEPTED),
    ("00000000", BARE_MARKER, BARE_MARKER), ("0C000000010100", UNKNOWN_CONTROL, UNKNOWN_CONTROL),
    ("12000000060000000100", UNKNOWN_CONTROL, UNKNOWN_CONTROL),
    ("1400000008000100000100", UNKNOWN_CONTROL, UNKNOWN_CONTROL),
    ("1400000008000000020100", UNKNOWN_CONTROL, UNKNOWN_CONTROL),
    ("160000000A00000001FF0100", UNKNOWN_CONTROL, ACCEPTED),
    ("2000000008000000010C00000000000000", UNKNOWN_CONTROL, ACCEPTED),
    ("0C00000001010000", UNKNOWN_CONTROL, BYTES_LEFT), ("1400000001010202FF0000", UNKNOWN_CONTROL, NOT_UTF8),
]
# The checksum of the first of them, where all fields are 0.
CONTROL_CHECKSUM = bytes.fromhex("ECE51FAE")
# Document 02, C-24: a commit that stands alone, and its checksum; and the checksum and the body of what it becomes.
WITHDRAWN = dict(base_offset=5, leader_epoch=3, attributes=0x8070, last_offset_delta=0, first_timestamp=1000,
                 max_timestamp=1000, producer_id=9, producer_epoch=1, base_sequence=-1)
WITHDRAWN_CHECKSUM = bytes.fromhex("4D8495B3")
CONVERTED_CHECKSUM, CONVERTED_BODY = bytes.fromhex("198B7A08"), bytes.fromhex("1400000008000000010100")
# The conversion makes a batch longer by so many bytes, at most.
CONVERTED_LONGER = 7
# What the program's large batches show, and how many rows of each table there are.
LARGE_SOURCE, LARGE_ROWS = 262144, (8192, 16384)
# Kinds, in the order of their numbers.
RECORDS_KIND, ABORT_KIND, COMMIT_KIND = range(3)
# A source, and a row that shows it: key "source", value "of bytes"; and a header row: key "source", value "bytes".
SOURCE = b"source of bytes"
ROW = dict(timestamp=0, offset=0, key=(0, 6), value=(7, 8), headers=(0, 0))
HEADER_ROW = dict(key=(0, 6), value=(10, 5))
# Stands for nothing in the program's answers.
UNNAMED = 3000000


def zigzag(n):
    """2n if n is not negative, and -2n - 1 otherwise."""
    return 2 * n if n >= 0 else -2 * n - 1


def varying(n, count=1):
    """Seven bits a byte, lowest first, the top bit set on all but the last; `count` bytes where fewer would do."""
    code, out = zigzag(n), []
    while code >= 128 or len(out) + 1 < count:
        out.append(128 + code % 128)
        code //= 128
    return bytes(out + [code])


def most_bytes(width):
    return -(-width // 7)


def limits(width):
    """Numbers on both sides of each limit: -edge to edge - 1 are those that take at most k bytes."""
    numbers = {-2, -1, 0, 1}
    for k in range(1, most_bytes(width) + 1):
        edge = 2 ** min(7 * k - 1, width - 1)
        for near in range(-2, 2):
            numbers |= {-edge + near, edge + near}
    return sorted(n for n in numbers if -2 ** (width - 1) <= n < 2 ** (width - 1))


class Text:
    """The lines of the file, group by group. A case that stands in its group already is left out."""

    def __init__(self, about):
        self.groups = [[about]]

    def heading(self, name):
        self.groups.append(["= " + name])

    def case(self, *words):
        line = " ".join((w.hex().upper() or "-") if isinstance(w, bytes) else str(w) for w in words)
        if line not in self.groups[-1]:
            self.groups[-1].append(line)

    def cases(self, bare, keyed):
        """A case in each mode: one for both, where they are the same."""
        if bare == keyed:
            self.case(*bare)
        else:
            self.case(BARE, *bare)
            self.case(KEYED, *keyed)

    def whole(self):
        whole = "".join(line + "\n" for lines in self.groups for line in lines)
        assert len(whole) < MOST_TEXT
        return whole


def document_rows(text):
    text.heading("document 01, rows")
    for digits, n in ROWS:
        data = bytes.fromhex(digits)
        for kind in WIDTHS:
            text.case(kind, data, 0, n, len(data))
            text.case("put", kind, n, data)
    digits, n = ROW_VARLONG
    data = bytes.fromhex(digits)
    text.case("varlong", data, 0, n, len(data))
    text.case("put", "varlong", n, data)
    digits, n = ROW_READ_ONLY
    data = bytes.fromhex(digits)
    for kind in WIDTHS:
        text.case(kind, data, 0, n, len(data))
    for digits in ROWS_REFUSED:
        text.case("varint", bytes.fromhex(digits), BEYOND_LIMITS)


def varying_limits(text, kind):
    width = WIDTHS[kind]
    most = most_bytes(width)
    text.heading(kind + " limits")
    for n in limits(width):
        data = varying(n)
        text.case(kind, data, 0, n, len(data))
        text.case(kind, data + b"\0", 0, n, len(data))
        text.case(kind, data[:-1], PAST_END)
    for n in (0, -1, 1, 63, -64, 64, -65):
        for count in range(len(varying(n)) + 1, most + 1):
            data = varying(n, count)
            text.case(kind, data, 0, n, count)
            text.case(kind, data[:-1], PAST_END)
    last = 2 ** (width - 7 * (most - 1)) - 1
    zeros, ones = b"\x80" * (most - 1), b"\xff" * (most - 1)
    text.case(kind, zeros + bytes([last]), 0, last * 2 ** (7 * (most - 1) - 1), most)
    text.case(kind, ones + bytes([last]), 0, -2 ** (width - 1), most)
    for above in (last + 1, 0x7f, 0x80, 0xff):
        text.case(kind, zeros + bytes([above]), BEYOND_LIMITS)
        text.case(kind, ones + bytes([above]), BEYOND_LIMITS)
    text.case(kind, b"\x80" * most + b"\0", BEYOND_LIMITS)
    for n in (0, -2 ** (width - 1), 2 ** (width - 1) - 1):
        data = varying(n)
        text.case(kind + "@3", b"\xff" * 3 + data, 0, n, 3 + len(data))
        for place in (len(data), len(data) + 1, GREATEST_PLACE):
            text.case("%s@%d" % (kind, place), data, PAST_END)


def varying_written(text, kind):
    text.heading(kind + " written")
    for n in limits(WIDTHS[kind]):
        text.case("put", kind, n, varying(n))


def different(size, first):
    """A number whose bytes, `first` and up, are all different, so that a wrong order shows."""
    return sum((first + i) * 256 ** (size - 1 - i) for i in range(size))


def integers(kind):
    """0, 1, -1, the extremes and their neighbours, and numbers whose bytes are all different."""
    size, signed = INTEGERS[kind]
    least, greatest = (-2 ** (8 * size - 1), 2 ** (8 * size - 1) - 1) if signed else (0, 2 ** (8 * size) - 1)
    numbers = {0, 1, -1, least, least + 1, greatest - 1, greatest}
    for first in (0x01, 0x71, 0xf1):
        numbers |= {different(size, first), -different(size, first)}
    return [(n, n.to_bytes(size, "big", signed=signed)) for n in sorted(numbers) if least <= n <= greatest]


def integers_read(text):
    text.heading("integers read")
    for kind, (size, _) in INTEGERS.items():
        for n, data in integers(kind):
            text.case(kind, data, 0, n, size)
            text.case(kind, data + b"\xa5\x5a", 0, n, size)
            text.case(kind + "@1", b"\xc3" + data, 0, n, size + 1)
        data = different(size, 0x01).to_bytes(size, "big")
        text.case(kind, data[:-1], PAST_END)
        text.case(kind, b"", PAST_END)
        for place in (1, size, size + 1, GREATEST_PLACE):
            text.case("%s@%d" % (kind, place), data, PAST_END)


def integers_written(text):
    text.heading("integers written")
    for kind in INTEGERS:
        for n, data in integers(kind):
            text.case("put", kind, n, data)


def lengths_and_spans(text):
    text.heading("lengths and spans")
    lengths, spans = ("length", "nulllength"), ("span", "nullspan")

    def refused(kinds, data, number):
        for kind in kinds:
            text.case(kind, data, number)

    for size, count in ((0, 1), (0, 2), (0, 5), (1, 1), (3, 1), (3, 2), (64, 2)):
        prefix, data = varying(size, count), bytes(range(0xa0, 0xa0 + size))
        for kind in lengths:
            text.case(kind, prefix, 0, size, count)
            text.case(kind + "@2", b"\xff\xff" + prefix, 0, size, count + 2)
        for kind in spans:
            text.case(kind, prefix + data, 0, count, size, count + size)
            text.case(kind, prefix + data + b"\xff", 0, count, size, count + size)
            text.case(kind + "@2", b"\xff\xff" + prefix + data, 0, count + 2, size, count + 2 + size)
        if size:
            refused(spans, prefix + data[:-1], PAST_END)
            refused(spans, prefix, PAST_END)
    for count in (1, 2, 5):
        for after in (b"", b"\xa0"):
            null = varying(-1, count) + after
            text.case("nulllength", null, 0, -1, count)
            text.case("nullspan", null, 0, 0, -1, count)
            refused(("length", "span"), null, NEGATIVE_LENGTH)
    for n in (-2, -3, -64, -65, -2 ** 31):
        refused(lengths + spans, varying(n), NEGATIVE_LENGTH)
        refused(lengths + spans, varying(n) + b"\xa0", NEGATIVE_LENGTH)
    greatest = 2 ** 31 - 1
    for kind in lengths:
        text.case(kind, varying(greatest), 0, greatest, 5)
    refused(spans, varying(greatest), PAST_END)
    refused(spans, varying(greatest) + b"\xa0", PAST_END)
    for cut in (b"", b"\x80", varying(greatest)[:-1]):
        refused(lengths + spans, cut, PAST_END)
    for beyond in ("FFFFFFFF10", "8080808080", "808080808000"):
        refused(lengths + spans, bytes.fromhex(beyond), BEYOND_LIMITS)
    for kind in lengths + spans:
        for place in (1, 2, GREATEST_PLACE):
            text.case("%s@%d" % (kind, place), varying(0), PAST_END)


def bytes_put(text):
    """Bytes that have room, and as many as have; from places before, at and after the output's end."""
    text.heading("bytes put")
    for data in (b"", b"\xa0", bytes(range(0xa0, 0xa8))):
        for room in (0, 1, 7, 8, 9, 16, 40):
            for at in (0, 1, 2, 7, 8, 9, 15, 16, 39, 40, 41, 2 ** 63, GREATEST_PLACE):
                end = min(at + len(data), room)
                text.case("copy", data, room, at, max(end - at, 0), end)


def reversed_bits(n, width):
    return int(format(n, "0%db" % width)[::-1], 2)


def crc32c(data):
    """The bits of each byte, lowest first, are the powers of a polynomial, highest first. 32 zeros are put behind them,
    the first 32 are complemented, and all is divided; what is left is complemented and read lowest bit first."""
    bits = 8 * len(data)
    rest = int.from_bytes(bytes(reversed_bits(b, 8) for b in data), "big") << 32 ^ 0xFFFFFFFF << bits
    for power in reversed(range(bits)):
        if rest >> power + 32:
            rest ^= GENERATOR << power
    return reversed_bits(rest ^ 0xFFFFFFFF, 32)


def run(length, seed):
    """Bytes by a rule: x, at first the seed, becomes (25173 x + 13849) modulo 65536 for each, which is x / 256."""
    x, out = seed, []
    for _ in range(length):
        x = (25173 * x + 13849) % 65536
        out.append(x // 256)
    return bytes(out)


def checksum_examples(text):
    text.heading("RFC 3720 B.4")
    for data, checksum in CHECKSUMS:
        assert crc32c(data) == checksum
        text.case("crc32c", data, checksum)


def checksum_lengths(text):
    text.heading("crc32c lengths")
    for length in range(41):
        data = run(length, length)
        text.case("crc32c", data, crc32c(data))
    for length in LONG:
        text.case("crc32c-run", length, length, crc32c(run(length, length)))


def by_rows(data):
    """Whether the bytes are characters by the rows, one after the other."""
    while data:
        fits = [row for row in CHARACTERS if len(row) <= len(data)
                and all(first <= octet <= last for (first, last), octet in zip(row, data))]
        if not fits:
            return False
        data = data[len(fits[0]):]
    return True


def by_python(data):
    try:
        data.decode("utf-8")
    except UnicodeDecodeError:
        return False
    return True


def utf8(text, data, valid):
    assert by_rows(data) == valid
    for before in range(ASCII_AROUND + 1):
        for after in range(ASCII_AROUND + 1):
            assert by_python(b"\x7f" * before + data + b"\x7f" * after) == valid
    text.case("utf8", data, int(valid))


def utf8_rows(text):
    text.heading("UTF-8 rows")
    ends = [bytes(octets) for row in CHARACTERS for octets in zip(*row)]
    utf8(text, b"".join(ends), True)
    for row in CHARACTERS:
        for character in map(bytes, zip(*row)):
            utf8(text, character, True)
            utf8(text, character + bytes([TAIL[0]]), False)
            for place in range(1, len(row)):
                utf8(text, character[:place], False)
                first, last = row[place]
                for octet in (first - 1, last + 1, 0x00, 0x7F, 0xC0, 0xFF):
                    utf8(text, character[:place] + bytes([octet]) + character[place + 1:], False)
    for octet in (0x80, 0xBF, 0xC0, 0xC1, 0xF5, 0xFF):
        for count in range(4):
            for tail in TAIL:
                utf8(text, bytes([octet] + [tail] * count), False)


def utf8_faults(text):
    text.heading("UTF-8 faults")
    utf8(text, b"", True)
    characters = "\u00e9\u20ac\U0001f600".encode()
    utf8(text, characters, True)
    for fault in map(bytes.fromhex, FAULTS):
        utf8(text, fault, False)
        utf8(text, characters + fault + characters, False)
    for length in (31, 32, 33, 64, 65):
        letters = b"a" * length
        utf8(text, letters, True)
        for place in (0, 1, 7, 8, 15, 16, 30, 31, 32, 63, 64):
            if place < length:
                utf8(text, letters[:place] + b"\x80" + letters[place + 1:], False)


class Refused(Exception):
    """Document 01's number."""


def octet(stream):
    """The next byte, behind its place."""
    for place, byte in stream:
        return place, byte
    raise Refused(PAST_END)


def number(stream, width):
    """A number of varying length, and the place after it."""
    octets, most = [], most_bytes(width)
    while not octets or octets[-1] >= 128:
        place, byte = octet(stream)
        octets.append(byte)
        if len(octets) == most and byte >= 2 ** (width - 7 * (most - 1)):
            raise Refused(BEYOND_LIMITS)
    code = sum(byte % 128 * 128 ** i for i, byte in enumerate(octets))
    return next(n for n in (code // 2, -(code + 1) // 2) if zigzag(n) == code), place + 1


def length(stream, least):
    n, after = number(stream, 32)
    if n < least:
        raise Refused(NEGATIVE_LENGTH)
    return n, after


def span(stream, least):
    """Start and length, null being 0 and -1; and the bytes."""
    n, start = length(stream, least)
    if n < 0:
        return (0, n), b""
    return (start, n), bytes(octet(stream)[1] for _ in range(n))


def header(stream):
    key, spelled = span(stream, 0)
    if not by_rows(spelled):
        raise Refused(NOT_UTF8)
    value, _ = span(stream, 0)
    return key + value


def record(stream):
    """The first six numbers of a row, and the rows of the headers. The fields take their bytes from those named and
    from the stream at once, and so end with the shorter. Afterwards none of those named may be left."""
    n, _ = length(stream, 0)
    named = iter(range(n))
    fields = (pair for _, pair in zip(named, stream))
    octet(fields)
    timestamp, _ = number(fields, 64)
    offset, _ = number(fields, 32)
    key, _ = span(fields, -1)
    value, _ = span(fields, -1)
    count, _ = length(fields, 0)
    headers = [header(fields) for _ in range(count)]
    for _ in named:
        raise Refused(BYTES_LEFT)
    return (timestamp, offset) + key + value, headers


def record_tables(data, at, count, first):
    """Record rows and header rows of all the bytes from a place on."""
    if at > len(data):
        raise Refused(PAST_END)
    stream = islice(enumerate(data), at, None)
    rows, header_rows = [], []
    for _ in range(count):
        row, headers = record(stream)
        rows.append(row + (first + len(header_rows), len(headers)))
        header_rows += headers
    for _ in stream:
        raise Refused(BYTES_LEFT)
    return rows, header_rows


def table_numbers(tables):
    """The numbers of all rows, table by table. None of them is one that the program puts there beforehand."""
    flat = [[n for row in rows for n in row] for rows in tables]
    assert not any(n in marks for numbers, marks in zip(flat, (RECORD_MARKS, HEADER_MARKS)) for n in numbers)
    return flat


def behind_bars(words, lists):
    """The words, with each list of numbers behind a bar."""
    bars = "".join("|" + " ".join(map(str, numbers)) for numbers in lists)
    return words[:-1] + [str(words[-1]) + bars]


def records(text, expected, data, count=1, at=0, first=0, room=ROOM):
    """A case whose number is expected by whoever puts it here."""
    found, told = ACCEPTED, ()
    try:
        tables = record_tables(data, at, count, first)
        needed = [len(rows) + skipped for rows, skipped in zip(tables, (0, first))]
        if any(rows > numbers // width for rows, numbers, width in zip(needed, room, (8, 4))):
            found = NO_ROOM
        told = (len(tables[0]), len(tables[1]), len(data))
    except Refused as refused:
        found, = refused.args
    assert found == expected, (data.hex(), found, expected)
    words = ["records@%d" % at if at else "records", data, count, first, *room, found, *told]
    text.case(*behind_bars(words, table_numbers(tables) if found == ACCEPTED else []))


def record_of(named=None, upto=None, **others):
    """A record by its parts, with others in place of some. It names its length, or another, and may be cut behind a
    part."""
    parts = {name: bytes.fromhex(others.get(name, digits)) for name, digits in PARTS.items()}
    body = b"".join(parts.values())
    if upto:
        names = list(parts)
        parts = {name: parts[name] for name in names[:names.index(upto) + 1]}
    return varying(len(body) if named is None else named) + b"".join(parts.values())


def pair(key, value=b""):
    return varying(len(key)) + key + varying(len(value)) + value


def with_headers(*headers, count=None):
    """A record of nulls with these headers."""
    body = bytes.fromhex("0000000101") + varying(len(headers) if count is None else count) + b"".join(headers)
    return varying(len(body)) + body


def records_examples(text):
    text.heading("records, examples")
    for digits, row in RECORD_ROWS:
        data = bytes.fromhex(digits)
        assert record_tables(data, 0, 1, 0) == ([row], [])
        records(text, ACCEPTED, data)
    data = bytes.fromhex(RECORD_NAMES_100)
    records(text, BYTES_LEFT, data)
    records(text, PAST_END, data[:-1])
    records(text, PAST_END, data[:-1] + varying(1))
    for key in (NULL, EMPTY):
        for value in (NULL, EMPTY):
            records(text, ACCEPTED, record_of(key_length=key, key="", value_length=value, value=""))
    for attributes in ("01", "FF"):
        records(text, ACCEPTED, record_of(attributes=attributes))
    records(text, ACCEPTED, bytes.fromhex("0CFF0000010100"))


def records_cut(text):
    """Fields that do not end before the bytes or the record do, and bytes that are left."""
    text.heading("records, cut")
    data = record_of()
    size = len(data) - 1
    records(text, ACCEPTED, data)
    for end in range(len(data)):
        records(text, PAST_END, data[:end])
    for named in range(size):
        records(text, PAST_END, record_of(named))
    for named in (size + 1, 100, GREATEST_LENGTH):
        records(text, BYTES_LEFT, record_of(named))
    for more in (b"\0", data):
        records(text, BYTES_LEFT, data + more)
        records(text, BYTES_LEFT, record_of(size + len(more)) + more)
    records(text, BYTES_LEFT, record_of(count="00"))
    # what a record leaves is met before the next record's fault, and the end that it names before a number's limits
    records(text, BYTES_LEFT, record_of(size + 1) + b"\0\xff", count=2)
    records(text, PAST_END, record_of(7, offset=ROWS_REFUSED[0]))
    records(text, BEYOND_LIMITS, record_of(8, offset=ROWS_REFUSED[0]))


def records_lengths(text):
    """Lengths that are negative, or more than there is. The fault is met before what follows is looked at."""
    text.heading("records, lengths")
    records(text, PAST_END, varying(0))
    records(text, NEGATIVE_LENGTH, record_of(-1))
    for n in (-1, -2, -2 ** 31):
        records(text, NEGATIVE_LENGTH, varying(n))
    for part, least in LENGTHS.items():
        records(text, NEGATIVE_LENGTH, record_of(**{part: varying(least - 1).hex()}))
        for n in (least - 1, -2 ** 31):
            records(text, NEGATIVE_LENGTH, record_of(upto=part, **{part: varying(n).hex()}))
        records(text, PAST_END, record_of(**{part: varying(GREATEST_LENGTH).hex()}))
    records(text, NEGATIVE_LENGTH, bytes.fromhex("100000000101020001"))


def records_numbers(text):
    """Numbers beyond their limits, longer than needed, least and greatest."""
    text.heading("records, numbers")
    for beyond in ROWS_REFUSED:
        records(text, BEYOND_LIMITS, bytes.fromhex(beyond))
        for part in ("offset", *LENGTHS):
            records(text, BEYOND_LIMITS, record_of(upto=part, **{part: beyond}))
    for beyond in ("FF" * 9 + "02", "80" * 10):
        records(text, BEYOND_LIMITS, record_of(timestamp=beyond))

    def longer(part, count):
        n, _ = number(enumerate(bytes.fromhex(PARTS[part])), 32)
        return {part: varying(n, count).hex()}

    body = record_of()[1:]
    records(text, ACCEPTED, varying(len(body), 2) + body)
    records(text, ACCEPTED, record_of(**longer("timestamp", 3)))
    longest = {"timestamp": varying(64, 10).hex()}
    for part in ("offset", *LENGTHS):
        records(text, ACCEPTED, record_of(**longer(part, 2)))
        longest.update(longer(part, 5))
    records(text, ACCEPTED, record_of(**longest))
    records(text, ACCEPTED, record_of(key_length="8100", key="", value_length="8180808000", value=""))
    for timestamp, offset in ((-2 ** 63, 2 ** 31 - 1), (2 ** 63 - 1, -2 ** 31)):
        records(text, ACCEPTED, record_of(timestamp=varying(timestamp).hex(), offset=varying(offset).hex()))


def records_headers(text):
    """Keys, and the order of faults: a later one stands in each case too."""
    text.heading("records, headers")
    for key in map(bytes.fromhex, GOOD_KEYS):
        records(text, ACCEPTED, with_headers(pair(key, b"\x80")))
    records(text, ACCEPTED, with_headers(pair(b""), pair(b"", b"\xff")))
    for key in map(bytes.fromhex, BAD_KEYS):
        records(text, NOT_UTF8, with_headers(pair(key)))
    bad, good, negative, past = b"\xff", b"\xc3\xa9", varying(-1), varying(9)
    for faults, expected in (
        (negative + bad + negative, NEGATIVE_LENGTH),
        (past + bad + negative, PAST_END),
        (varying(1) + bad + negative, NOT_UTF8),
        (varying(1) + bad + past, NOT_UTF8),
        (varying(1) + bad, NOT_UTF8),
        (varying(1) + good + b"\0", NOT_UTF8),
        (varying(2) + good + negative + pair(bad), NEGATIVE_LENGTH),
        (varying(2) + good + past + pair(bad), PAST_END),
        (pair(good) + varying(1) + bad, NOT_UTF8),
        (pair(good), PAST_END),
    ):
        records(text, expected, with_headers(faults, count=2))
    records(text, NOT_UTF8, with_headers(pair(bad)) + b"\0")
    records(text, BYTES_LEFT, with_headers(pair(bad), count=0))


def three_records():
    """With no header, two, and one."""
    others = dict(timestamp="03", key_length="02", key="A0", value_length="00", value="")
    return [bytes.fromhex(RECORD_ROWS[1][0]), with_headers(pair(b"a"), pair(b"", b"b")), record_of(**others)]


def records_several(text):
    text.heading("records, several")
    parts = three_records()
    data = b"".join(parts)
    for first, numbers in ((0, 15), (1, 19), (13, 64)):
        records(text, ACCEPTED, data, count=3, first=first, room=(30, numbers))
    records(text, ACCEPTED, b"".join(reversed(parts)), count=3)
    for count in (0, 1, 2):
        records(text, BYTES_LEFT, data, count=count)
    for count in (4, 2 ** 61, GREATEST_PLACE):
        records(text, PAST_END, data, count=count)
    records(text, ACCEPTED, data, count=2, at=len(parts[0]))
    records(text, ACCEPTED, data, count=1, at=len(parts[0] + parts[1]))
    records(text, ACCEPTED, b"\xff" * 3 + data, count=3, at=3)
    for count, at, expected in (
        (0, 0, BYTES_LEFT), (0, 1, BYTES_LEFT), (0, 2, ACCEPTED), (0, 3, PAST_END), (0, GREATEST_PLACE, PAST_END),
        (1, 2, PAST_END), (1, 3, PAST_END), (1, GREATEST_PLACE, PAST_END),
    ):
        records(text, expected, b"\xff\xff", count=count, at=at)
    records(text, ACCEPTED, b"", count=0)
    records(text, PAST_END, b"", count=GREATEST_PLACE)


def records_room(text):
    """Rows enough and one fewer, with a remainder; first header rows near and far; and faults, whatever the room."""
    text.heading("records, room")
    one = with_headers(pair(b"a", b"b"))
    for more in range(8):
        records(text, ACCEPTED, one, room=(8 + more, 4 + more % 4))
    for room in ((7, 8), (8, 7), (7, 7), (0, 8), (8, 0), (0, 0)):
        records(text, NO_ROOM, with_headers(pair(b""), pair(b"")), room=room)
    three = b"".join(three_records())
    records(text, ACCEPTED, three, count=3, room=(24, 12))
    for room in ((23, 12), (24, 11), (23, 11)):
        records(text, NO_ROOM, three, count=3, room=room)
    for first, numbers in ((1, 12), (1, 15), (2, 16)):
        records(text, NO_ROOM, three, count=3, first=first, room=(24, numbers))
    none = bytes.fromhex(RECORD_ROWS[0][0])
    for data, count, enough in ((none, 1, 8), (b"", 0, 0)):
        for first, numbers, expected in (
            (0, 0, ACCEPTED), (1, 0, NO_ROOM), (1, 3, NO_ROOM), (3, 12, ACCEPTED), (4, 12, NO_ROOM), (4, 15, NO_ROOM),
        ):
            records(text, expected, data, count=count, first=first, room=(enough, numbers))
        records(text, NO_ROOM, data, count=count, first=GREATEST_PLACE)
    for first in (2 ** 62, GREATEST_PLACE):
        records(text, NO_ROOM, one, first=first)
    records(text, NO_ROOM, three, count=3, first=2 ** 64 - 3)
    two = b"".join(three_records()[:2])
    for fault, expected in (
        (three[:-1], PAST_END), (two + bytes.fromhex(ROWS_REFUSED[0]), BEYOND_LIMITS),
        (two + varying(-1), NEGATIVE_LENGTH), (two + with_headers(pair(b"\xff")), NOT_UTF8),
        (three + b"\0", BYTES_LEFT),
    ):
        for room in ((0, 0), (24, 12)):
            records(text, expected, fault, count=3, room=room)
    records(text, BYTES_LEFT, three + b"\0", count=3, first=GREATEST_PLACE)


def integer(stream, size):
    return int.from_bytes(bytes(octet(stream)[1] for _ in range(size)), "big", signed=True)


def batch_parts(data, mode):
    """What an accepted batch at the start of the data is told to be, and both tables; in the order of document 01,
    "Reader's numbers"."""
    if len(data) < UNCOUNTED:
        raise Refused(MORE_BYTES, UNCOUNTED)
    stream = enumerate(data)
    fields = {"base_offset": integer(stream, 8)}
    whole = UNCOUNTED + integer(stream, 4)
    if whole < CHECKED:
        raise Refused(LENGTH_TOO_SMALL)
    if len(data) < BEFORE_CRC:
        raise Refused(MORE_BYTES, BEFORE_CRC)
    fields["leader_epoch"] = integer(stream, 4)
    if integer(stream, 1) != 2:
        raise Refused(UNKNOWN_MAGIC)
    if len(data) < whole:
        raise Refused(MORE_BYTES, whole)
    stream = islice(stream, whole - BEFORE_CRC)
    if integer(stream, 4) % 2 ** 32 != crc32c(data[CHECKED:whole]):
        raise Refused(CHECKSUM_DIFFERS)
    attributes = integer(stream, 2)
    if attributes % 8 > 4:
        raise Refused(UNKNOWN_CODEC)
    for size, name in FIELDS[2:]:
        fields[name] = integer(stream, size)
    kind, tables = batch_body(data[:whole], attributes, integer(stream, 4), stream, mode)
    told = (*fields.values(), attributes // LOG_APPEND % 2, attributes // TRANSACTIONAL % 2, kind)
    return told + (len(tables[0]), len(tables[1]), whole), tables


def batch_body(batch, attributes, count, stream, mode):
    """The kind, and both tables. The count has just been read."""
    if count < -1:
        raise Refused(WRONG_COUNT)
    if attributes % 8:
        raise Refused(COMPRESSED)
    if not attributes // CONTROL % 2:
        return 0, record_tables(batch, BODY, max(count, 0), 0)
    if count != 1:
        raise Refused(WRONG_COUNT)
    return control_kind(batch, stream, mode), ([], [])


def control_kind(batch, stream, mode):
    """Document 02, C-24: where document 01 has a marker that is 41, in either mode. Any other control batch is refused
    by document 01 in bare mode, and judged by C-16 in keyed mode."""
    try:
        marker_alone(stream)
    except Refused:
        if mode == BARE:
            raise
        return marker_in_key(batch)
    raise Refused(BARE_MARKER)


def marker_alone(stream):
    """Document 01, a control batch: version and type, which end the batch."""
    if integer(stream, 2) != 0:
        raise Refused(UNKNOWN_CONTROL)
    kind = {0: ABORT_KIND, 1: COMMIT_KIND}.get(integer(stream, 2))
    if not kind:
        raise Refused(UNKNOWN_CONTROL)
    for _ in stream:
        raise Refused(BYTES_LEFT)
    return kind


def marker_in_key(batch):
    """Kafka, message format, control batch: one record, which ends the batch, and whose key begins with the marker.
    All of it is judged as any record is before its key is looked at; whatever else it holds is of no concern."""
    ((_, _, start, size, *_),), _ = record_tables(batch, BODY, 1, 0)
    kind = {ABORT: ABORT_KIND, COMMIT: COMMIT_KIND}.get(batch[start:start + 4]) if size >= 4 else None
    if not kind:
        raise Refused(UNKNOWN_CONTROL)
    return kind


def batch_answer(data, room, mode):
    """The answer's numbers, those of the check, and both tables."""
    try:
        told, tables = batch_parts(data, mode)
    except Refused as refused:
        return refused.args, refused.args, ()
    check = (ACCEPTED, *told)
    needed = [len(rows) for rows in tables]
    if any(rows > numbers // width for rows, numbers, width in zip(needed, room, (8, 4))):
        return (NO_ROOM, *needed), check, ()
    return check, check, tables


def batch(text, expected, data, room=ROOM, start=None, keyed=None):
    """A case whose number is expected by whoever puts it here: of the data, or of each start that has so many bytes. In
    keyed mode it is the same where nothing else is said."""
    text.cases(batch_words(BARE, expected, data, room, start),
               batch_words(KEYED, expected if keyed is None else keyed, data, room, start))


def batch_words(mode, expected, data, room, start):
    read, check, tables = batch_answer(data, room, mode)
    assert read[0] == expected, (mode, data.hex(), read, expected)
    for end in range(start or len(data), len(data)):
        assert batch_answer(data[:end], room, mode) == (read, check, tables)
    for end in range(start or 0):
        needed = next(n for n in (UNCOUNTED, BEFORE_CRC, start) if end < n)
        assert batch_answer(data[:end], room, mode)[0] == (MORE_BYTES, needed)
    assert UNNAMED not in read + check
    words = [*(("cuts", data, start) if start else ("batch", data)), *room, *read]
    return behind_bars(words, [check] if expected == NO_ROOM else table_numbers(tables))


def batch_of(body=b"", upto=None, **others):
    """A batch by its fields, with others in place of some. Its length and its checksum are right unless they are named.
    The checked bytes may be cut."""
    values = {name: others.get(name, usual) for _, _, name, usual in FIXED}

    def put(names):
        return b"".join((values[name] % 256 ** size).to_bytes(size, "big") for _, size, name, _ in names)

    places = [place for place, _, _, _ in FIXED]
    assert places[1:] + [BODY] == [place + size for place, size, _, _ in FIXED]
    checked = (put(FIXED[places.index(CHECKED):]) + body)[:upto]
    if values["batch_length"] is None:
        values["batch_length"] = CHECKED - UNCOUNTED + len(checked)
    if values["crc"] is None:
        values["crc"] = crc32c(checked)
    return put(FIXED[:places.index(CHECKED)]) + checked


def of_records(*parts, **others):
    """A batch of records that names how many there are."""
    return batch_of(b"".join(parts), **{"count": len(parts), **others})


def marker(body=ABORT, attributes=CONTROL, **others):
    return batch_of(body, attributes=attributes, **{"count": 1, **others})


def key_record(key, **others):
    """The record of a control batch as it is written, with this key, or a null, and with others in place of some
    parts."""
    parts = {"attributes": "00", "timestamp": "00", "offset": "00", "value_length": NULL, "value": "", **NO_HEADER}
    spelled = {"key_length": NULL, "key": ""}
    if key is not None:
        spelled = {"key_length": varying(len(key)).hex(), "key": key.hex()}
    return record_of(**{**parts, **spelled, **others})


def valued(value):
    """The parts of a record that has this value."""
    return {"value_length": varying(len(value)).hex(), "value": value.hex()}


def flipped(data, place, bit=0):
    return data[:place] + bytes([data[place] ^ 1 << bit]) + data[place + 1:]


def batches_examples(text):
    """The batches that document 01 describes."""
    text.heading("batches, examples")
    batch(text, LENGTH_TOO_SMALL, batch_of(batch_length=8))
    batch(text, PAST_END, batch_of(upto=0))
    for count in (0, -1):
        data = batch_of(count=count)
        assert len(data) == 61 and data[8:12] == bytes([0, 0, 0, 49])
        batch(text, ACCEPTED, data)
    batch(text, BYTES_LEFT, of_records(bytes.fromhex(RECORD_NAMES_100)))
    for digits, _ in RECORD_ROWS:
        batch(text, ACCEPTED, of_records(bytes.fromhex(digits)))
    zeros = {name: 0 for _, name in FIELDS}
    first, second = batch_of(**zeros), of_records(bytes.fromhex(RECORD_ROWS[1][0]), **{**zeros, "base_offset": 7})
    assert (len(first), len(second)) == (61, 69)
    file = first + second + bytes(3)
    batch(text, ACCEPTED, file)
    batch(text, ACCEPTED, file[61:])
    batch(text, MORE_BYTES, file[130:])
    for body in (ABORT, COMMIT):
        data = marker(body)
        assert data[8:12] == bytes([0, 0, 0, 53])
        batch(text, BARE_MARKER, data)


def batches_lengths(text):
    """Both sides of each condition on lengths, and what is met before it."""
    text.heading("batches, lengths")
    data = of_records(record_of())
    for end in (0, 1, 11, 12, 16, 17, 20, 21, 60, 61, len(data) - 1):
        batch(text, MORE_BYTES, data[:end])
    batch(text, ACCEPTED, data, start=len(data))
    for named in (8, 7, 0, -1, -2 ** 31):
        batch(text, LENGTH_TOO_SMALL, batch_of(batch_length=named)[:12])
        batch(text, LENGTH_TOO_SMALL, batch_of(batch_length=named), start=12)
    batch(text, LENGTH_TOO_SMALL, batch_of(batch_length=8, magic=1), start=12)
    for named in (9, 49, 255, 256, different(4, 1), 2 ** 31 - 1):
        long = batch_of(batch_length=named)
        for end in (11, 12, 16, 17, 20):
            batch(text, MORE_BYTES, long[:end])
    batch(text, MORE_BYTES, batch_of(batch_length=2 ** 31 - 1))
    batch(text, MORE_BYTES, batch_of(batch_length=50))
    batch(text, CHECKSUM_DIFFERS, batch_of(batch_length=48))
    for magic in (0, 1, 3, 127, -1, -128):
        for named in (9, 49, 2 ** 31 - 1):
            batch(text, UNKNOWN_MAGIC, batch_of(magic=magic, batch_length=named)[:17])
        batch(text, MORE_BYTES, batch_of(magic=magic)[:16])
        batch(text, UNKNOWN_MAGIC, batch_of(magic=magic, crc=0, attributes=5), start=17)


def batches_cut(text):
    """The checked part ends early, its checksum right. What stands before is met first."""
    text.heading("batches, cut")
    for upto in range(BODY - CHECKED):
        batch(text, PAST_END, batch_of(upto=upto, count=1))
    for upto, expected in ((0, PAST_END), (1, PAST_END), (2, UNKNOWN_CODEC), (39, UNKNOWN_CODEC)):
        batch(text, expected, batch_of(upto=upto, attributes=5))
    for attributes in (1, CONTROL, CONTROL + 4):
        for upto in (2, 36, 39):
            batch(text, PAST_END, batch_of(upto=upto, attributes=attributes, count=-2))
    # what is cut off follows the batch, and would give another number
    for upto, others in ((1, {"attributes": 5}), (2, {"attributes": 1}), (36, {"count": -2}), (39, {"count": -2})):
        cut = batch_of(upto=upto, **others)
        batch(text, PAST_END, cut + batch_of(**others)[len(cut):], start=len(cut))


def batches_fields(text):
    """Bytes that all differ, extremes and signs, of each field alone and of all; and the attributes."""
    text.heading("batches, fields")

    def told(values):
        data = batch_of(**values)
        answer, _, _ = batch_answer(data, ROOM, BARE)
        assert all(n == values.get(name, n) for n, (_, name) in zip(answer[1:], FIELDS))
        batch(text, ACCEPTED, data)

    for size, name in FIELDS:
        told({name: different(size, 1)})
        told({name: -2 ** (8 * size - 1)})
    for sign in (1, -1):
        told({name: sign * different(size, 1 + 8 * rank) for rank, (size, name) in enumerate(FIELDS)})
        told({name: sign * (2 ** (8 * size - 1) - 1) for size, name in FIELDS})
        told({name: (sign - 1) // 2 for _, name in FIELDS})
    told({name: -2 ** (8 * size - 1) for size, name in FIELDS})
    for bits in range(4):
        attributes = bits * LOG_APPEND
        batch(text, ACCEPTED, batch_of(attributes=attributes))
        for body in (ABORT, COMMIT):
            batch(text, BARE_MARKER, marker(body, attributes + CONTROL))
    for bit in (6, 7, 8, 11, 15):
        batch(text, ACCEPTED, batch_of(attributes=1 << bit))
    for attributes in (0xFFC0, 0xFFD8):
        batch(text, ACCEPTED, batch_of(attributes=attributes))
        batch(text, BARE_MARKER, marker(COMMIT, attributes + CONTROL))
    for attributes, expected in ((0xFFC1, COMPRESSED), (0xFFFD, UNKNOWN_CODEC)):
        batch(text, expected, batch_of(attributes=attributes))


def sum_over_itself(data, start):
    """The checksum that would be right, were it taken from a place before it on, or none. But for a constant it is
    linear in the bits of the field, so that they follow by elimination."""

    def off(crc):
        return crc32c(data[start:BEFORE_CRC] + crc.to_bytes(4, "big") + data[CHECKED:]) ^ crc

    left, solution, basis = off(0), 0, []
    for bit in range(32):
        column, bits = off(1 << bit) ^ off(0), 1 << bit
        for reduced, combined in basis:
            if column ^ reduced < column:
                column, bits = column ^ reduced, bits ^ combined
        if column:
            basis.append((column, bits))
            basis.sort(reverse=True)
    for reduced, combined in basis:
        if left ^ reduced < left:
            left, solution = left ^ reduced, solution ^ combined
    return None if left else solution


def summed_from(start):
    """A batch whose checksum is right over the bytes from a place before it on."""
    for sequence in range(100):
        fields = dict(base_sequence=sequence)
        fields["crc"] = sum_over_itself(of_records(record_of(), **fields), start)
        if fields["crc"] is not None:
            data = of_records(record_of(), **fields)
            assert crc32c(data[start:]) == fields["crc"]
            return data


def batches_checksum(text):
    """Right over place 21 to the batch's end, and over nothing else."""
    text.heading("batches, checksum")
    data = of_records(record_of())
    for bit in (0, 7, 8, 16, 31):
        batch(text, CHECKSUM_DIFFERS, flipped(data, BEFORE_CRC + bit // 8, bit % 8))
    for place in (21, 22, 23, 27, 35, 43, 51, 53, 60, 61, len(data) - 1):
        batch(text, CHECKSUM_DIFFERS, flipped(data, place, place % 8))
    for place in (0, 3, 7, 12, 15):
        batch(text, ACCEPTED, flipped(data, place, place % 8))
    batch(text, ACCEPTED, data + b"\xff", start=len(data))
    batch(text, CHECKSUM_DIFFERS, flipped(data, 30) + bytes(1), start=len(data))
    right = data[BEFORE_CRC:CHECKED]
    other = zlib.crc32(data[CHECKED:]).to_bytes(4, "big")
    for wrong in (right[::-1], bytes(4), b"\xff" * 4, bytes(b ^ 0xFF for b in right), other):
        batch(text, CHECKSUM_DIFFERS, data[:BEFORE_CRC] + wrong + data[CHECKED:])
    for start in (0, UNCOUNTED, BEFORE_CRC):
        batch(text, CHECKSUM_DIFFERS, summed_from(start))
    for checked in (
        data[12:17] + data[21:], data[12:17] + bytes(4) + data[21:], bytes(4) + data[21:], data[21:-1], data[22:],
        data[21:61],
    ):
        batch(text, CHECKSUM_DIFFERS, of_records(record_of(), crc=crc32c(checked)))
    for tail in (b"\0", b"\xff\xff"):
        batch(text, CHECKSUM_DIFFERS, of_records(record_of(), crc=crc32c(data[21:] + tail)) + tail)


def batches_order(text):
    """Two faults or more: the first in reading order is given."""
    text.heading("batches, order")
    for codec in (5, 6, 7):
        batch(text, UNKNOWN_CODEC, batch_of(attributes=codec))
    batch(text, CHECKSUM_DIFFERS, batch_of(attributes=5, crc=0))
    batch(text, UNKNOWN_CODEC, batch_of(attributes=5, upto=2), start=23)
    batch(text, UNKNOWN_CODEC, batch_of(attributes=5, count=-2))
    batch(text, UNKNOWN_CODEC, marker(attributes=CONTROL + 5, count=3))
    for codec in (1, 2, 3, 4):
        batch(text, COMPRESSED, batch_of(attributes=codec))
        batch(text, WRONG_COUNT, batch_of(attributes=codec, count=-2))
    for count in (-1, 1, 3):
        batch(text, COMPRESSED, batch_of(b"\xff" * 6, attributes=1, count=count))
    batch(text, CHECKSUM_DIFFERS, batch_of(attributes=1, crc=0))
    for count, expected in ((3, COMPRESSED), (-1, COMPRESSED), (1, COMPRESSED), (-2, WRONG_COUNT)):
        batch(text, expected, marker(attributes=CONTROL + 1, count=count))
    for count in (-2, -3, -256, -2 ** 31):
        batch(text, WRONG_COUNT, batch_of(count=count))
        batch(text, WRONG_COUNT, batch_of(b"\xff", count=count))
    batch(text, WRONG_COUNT, batch_of(b"\xff", count=-2), start=62)


def batches_control(text):
    """A marker alone, its count 1, and all that is none."""
    text.heading("batches, control")
    for body in (ABORT, COMMIT):
        for room in ((0, 0), (7, 3), ROOM):
            batch(text, BARE_MARKER, marker(body), room=room)
        for more in (b"\0", b"\xff", body):
            batch(text, BYTES_LEFT, marker(body + more), keyed=PAST_END)
        for upto in range(4):
            batch(text, PAST_END, marker(body[:upto]))
    for count in (-1, 0, 2, 257, 2 ** 31 - 1, -2, -2 ** 31):
        batch(text, WRONG_COUNT, marker(count=count))
    batch(text, WRONG_COUNT, marker(b"", count=0))
    batch(text, WRONG_COUNT, marker(b"\0\1", count=2))
    # in keyed mode these are the lengths 0, -1, one that is cut off or -8192, 0 and 0
    for version in ("0001", "0100", "FFFF", "8000", "0002"):
        for more in ("", "0000"):
            keyed = NEGATIVE_LENGTH if version + more in ("0100", "01000000", "FFFF0000") else PAST_END
            batch(text, UNKNOWN_CONTROL, marker(bytes.fromhex(version + more)), keyed=keyed)
    batch(text, PAST_END, marker(b"\1"), keyed=NEGATIVE_LENGTH)
    for kind in ("0002", "0003", "0100", "0101", "8000", "8001", "FFFF"):
        batch(text, UNKNOWN_CONTROL, marker(bytes.fromhex("0000" + kind)), keyed=PAST_END)
    batch(text, UNKNOWN_CONTROL, marker(bytes.fromhex("0000000200")), keyed=PAST_END)
    # the marker as the key of a record
    batch(text, UNKNOWN_CONTROL, marker(record_of(key_length="08", key="00000001", **NO_HEADER)), keyed=ACCEPTED)
    batch(text, UNKNOWN_CONTROL, marker(bytes.fromhex(RECORD_ROWS[0][0])))


def batches_bare(text):
    """A marker alone, whatever its fields and whatever follows it. What else is wrong with it is met first."""
    text.heading("batches, bare markers")
    worked = marker(COMMIT, **WITHDRAWN)
    assert len(worked) == 65 and worked[BEFORE_CRC:CHECKED] == WITHDRAWN_CHECKSUM
    batch(text, BARE_MARKER, worked, start=65)
    batch(text, UNKNOWN_CONTROL, marker(bytes.fromhex("00010000"), **WITHDRAWN), keyed=PAST_END)
    for body, other in ((ABORT, COMMIT), (COMMIT, ABORT)):
        data = marker(body)
        for tail in (b"", b"\0", b"\xff" * 17, data, marker(key_record(other))):
            batch(text, BARE_MARKER, data + tail, start=65)
        for bit in range(16):
            batch(text, COMPRESSED if bit < 3 else BARE_MARKER, marker(body, CONTROL | 1 << bit))
        batch(text, BARE_MARKER, marker(body, 0xFFF8))
        for rank, (size, name) in enumerate(FIELDS):
            for n in (different(size, 1 + 8 * rank), -2 ** (8 * size - 1)):
                batch(text, BARE_MARKER, marker(body, **{name: n}))
        # one fault each: of lengths, magic, checksum, codec, count and body
        batch(text, LENGTH_TOO_SMALL, marker(body, batch_length=8))
        batch(text, MORE_BYTES, marker(body, batch_length=54))
        batch(text, UNKNOWN_MAGIC, marker(body, magic=1))
        for wrong in (marker(body, crc=9), flipped(data, 20), flipped(data, 64), marker(body, batch_length=52)):
            batch(text, CHECKSUM_DIFFERS, wrong)
        for codec, expected in ((1, COMPRESSED), (3, COMPRESSED), (5, UNKNOWN_CODEC), (7, UNKNOWN_CODEC)):
            batch(text, expected, marker(body, CONTROL + codec))
        for count in (-2, -1, 0, 2):
            batch(text, WRONG_COUNT, marker(body, count=count))
        batch(text, UNKNOWN_CONTROL, marker(b"\0\1" + body[2:]), keyed=PAST_END)
        batch(text, UNKNOWN_CONTROL, marker(body[:3] + b"\2"), keyed=PAST_END)
        batch(text, BYTES_LEFT, marker(body + b"\0"), keyed=PAST_END)
        batch(text, PAST_END, marker(body[:3]))
        # no control batch: a record of no bytes
        batch(text, PAST_END, marker(body, 0))


def in_keyed(text, expected, body, bare=UNKNOWN_CONTROL, attributes=CONTROL, room=ROOM, **others):
    """A control batch with this body, by what is expected of it in keyed mode. In bare mode the first two bytes of a
    record are no known version, or there are no two."""
    batch(text, bare if len(body) > 1 else PAST_END, marker(body, attributes, **others), room=room, keyed=expected)


def batches_keyed(text):
    """One record, whose key begins with the marker. Nothing else of it is looked at."""
    text.heading("batches, keyed control")
    for digits, bare, keyed in CONTROL_BODIES:
        batch(text, bare, marker(bytes.fromhex(digits)), keyed=keyed)
    zeros = {name: 0 for _, name in FIELDS}
    for key, (digits, _, _) in zip((ABORT, COMMIT), CONTROL_BODIES):
        written = bytes.fromhex(digits)
        data = marker(written)
        assert key_record(key) == written and len(data) == 72 and data[8:12] == bytes([0, 0, 0, 60])
        assert (marker(written, **zeros)[BEFORE_CRC:CHECKED] == CONTROL_CHECKSUM) == (key == ABORT)
        in_keyed(text, ACCEPTED, written, **zeros)
        in_keyed(text, ACCEPTED, written, **{name: different(size, 1 + 8 * rank)
                                             for rank, (size, name) in enumerate(FIELDS)})
        for room in ((0, 0), (7, 3), ROOM):
            in_keyed(text, ACCEPTED, written, room=room)
        # every start of the batch, and more behind it
        for tail in (b"", b"\xff" * 17, data):
            batch(text, UNKNOWN_CONTROL, data + tail, start=72, keyed=ACCEPTED)
        for bits in (1, 2, 3, 0xFFC0 // LOG_APPEND):
            in_keyed(text, ACCEPTED, written, attributes=CONTROL + bits * LOG_APPEND)
        # keys that go on; values, and headers, with rows for them and with none; deltas, attributes
        for more in (b"\xff", b"\0", bytes(range(0xA0, 0xB4))):
            in_keyed(text, ACCEPTED, key_record(key + more))
        for value in (b"", b"\xb0", bytes(6), bytes.fromhex("000000000005")):
            in_keyed(text, ACCEPTED, key_record(key, **valued(value)))
        for room in ((0, 0), (8, 3), ROOM):
            in_keyed(text, ACCEPTED, record_of(key_length="08", key=key.hex()), room=room)
        for part, n in (("timestamp", -2 ** 63), ("timestamp", 77), ("offset", 2 ** 31 - 1), ("offset", -1)):
            in_keyed(text, ACCEPTED, key_record(key, **{part: varying(n).hex()}))
        for attributes in ("01", "FF"):
            in_keyed(text, ACCEPTED, key_record(key, attributes=attributes))
        # numbers in more bytes than they need
        for part, n in (("timestamp", 0), ("offset", 0), ("key_length", 4), ("value_length", -1), ("count", 0)):
            in_keyed(text, ACCEPTED, key_record(key, **{part: varying(n, 3).hex()}))
        in_keyed(text, ACCEPTED, varying(10, 3) + written[1:])


def batches_keyed_unknown(text):
    """Keys that are null, short, or of an unknown version or type."""
    text.heading("batches, keyed control unknown")
    for room in ((0, 0), ROOM):
        in_keyed(text, UNKNOWN_CONTROL, key_record(None), room=room)
    for size in range(4):
        # what follows the key would end the marker: a null value is 01, an empty one 00
        for key, others in ((COMMIT, {}), (ABORT, {"value_length": EMPTY}), (ABORT, valued(COMMIT[size + 1:]))):
            in_keyed(text, UNKNOWN_CONTROL, key_record(key[:size], **others))
    for version in ("0001", "0100", "FFFF", "8000", "0002"):
        for kind in ("0000", "0001"):
            in_keyed(text, UNKNOWN_CONTROL, key_record(bytes.fromhex(version + kind)))
    for kind in ("0002", "0003", "0100", "0101", "8000", "8001", "FFFF"):
        in_keyed(text, UNKNOWN_CONTROL, key_record(bytes.fromhex("0000" + kind)))
    # the marker elsewhere: behind other bytes of the key, in the value, in a header
    for key in (b"\xa0" + COMMIT, b"\0\0\0\2" + COMMIT):
        in_keyed(text, UNKNOWN_CONTROL, key_record(key))
    in_keyed(text, UNKNOWN_CONTROL, key_record(None, **valued(COMMIT)))
    in_keyed(text, UNKNOWN_CONTROL, with_headers(pair(COMMIT, ABORT)))


def batches_keyed_faults(text):
    """Each fault of a record. The key is judged when all else is."""
    text.heading("batches, keyed control faults")
    for fault, expected in RECORD_FAULTS:
        in_keyed(text, expected, bytes.fromhex(fault))
    in_keyed(text, BYTES_LEFT, bytes.fromhex(RECORD_NAMES_100))
    for whole in (key_record(COMMIT), key_record(None)):
        body = whole[1:]
        for end in range(len(whole)):
            in_keyed(text, PAST_END, whole[:end])
        # a length of 0 is read as the beginning of an abort in bare mode
        for named in range(len(body)):
            in_keyed(text, PAST_END, varying(named) + body, bare=UNKNOWN_CONTROL if named else BYTES_LEFT)
        in_keyed(text, BYTES_LEFT, varying(len(body) + 1) + body)
        for more in (b"\0", b"\xff", whole):
            in_keyed(text, BYTES_LEFT, whole + more)
            in_keyed(text, BYTES_LEFT, varying(len(body) + len(more)) + body + more)
    for key in (None, ABORT[:3], b"\0\1\0\0", b"\0\0\0\2", COMMIT):
        for expected, others in (
            (BEYOND_LIMITS, {"timestamp": "FF" * 9 + "02"}), (BEYOND_LIMITS, {"offset": ROWS_REFUSED[0]}),
            (BEYOND_LIMITS, {"value_length": ROWS_REFUSED[0]}), (BEYOND_LIMITS, {"count": ROWS_REFUSED[1]}),
            (NEGATIVE_LENGTH, {"value_length": "03"}), (NEGATIVE_LENGTH, {"count": "01"}),
            (PAST_END, {"value_length": "12"}), (PAST_END, {"count": "02"}), (BYTES_LEFT, {"header_key": "00"}),
            (NOT_UTF8, {"count": "02", "header_key": "02FF00"}), (NOT_UTF8, {"count": "02", "header_key": "02FF01"}),
            (NEGATIVE_LENGTH, {"count": "02", "header_key": "0100"}),
            (NEGATIVE_LENGTH, {"count": "02", "header_key": "024101"}),
            (PAST_END, {"count": "02", "header_key": "024106"}),
        ):
            in_keyed(text, expected, key_record(key, **others))
        in_keyed(text, BYTES_LEFT, key_record(key) + b"\0")
    for digits, expected in (("03", NEGATIVE_LENGTH), (ROWS_REFUSED[0], BEYOND_LIMITS), ("0E", PAST_END),
                             (varying(GREATEST_LENGTH).hex(), PAST_END)):
        in_keyed(text, expected, key_record(COMMIT, key_length=digits))
    # what is met before the record, alike in both modes
    for body in (key_record(COMMIT), key_record(None)):
        for count in (-1, 0, 2, 257, 2 ** 31 - 1, -2, -2 ** 31):
            in_keyed(text, WRONG_COUNT, body, bare=WRONG_COUNT, count=count)
        in_keyed(text, WRONG_COUNT, body + body, bare=WRONG_COUNT, count=2)
        for codec, expected in ((1, COMPRESSED), (4, COMPRESSED), (5, UNKNOWN_CODEC)):
            in_keyed(text, expected, body, bare=expected, attributes=CONTROL + codec)
        in_keyed(text, CHECKSUM_DIFFERS, body, bare=CHECKSUM_DIFFERS, crc=9)


def batches_records(text):
    """Records and their faults; a batch that refuses them has the same answer whatever follows it."""
    text.heading("batches, records")
    none, one = bytes.fromhex(RECORD_ROWS[0][0]), record_of()
    parts = three_records()
    for several in ([none], [one], [none, none], [one, none], parts[:2], parts[1:], parts, parts[::-1]):
        batch(text, ACCEPTED, of_records(*several))
    for key in (NULL, EMPTY):
        for value in (NULL, EMPTY):
            batch(text, ACCEPTED, of_records(record_of(key_length=key, key="", value_length=value, value="")))
    batch(text, ACCEPTED, of_records(with_headers(pair(b""), pair("\u20ac".encode(), b"\xff"))))
    for timestamp, offset in ((-2 ** 63, 2 ** 31 - 1), (2 ** 63 - 1, -2 ** 31)):
        batch(text, ACCEPTED, of_records(record_of(timestamp=varying(timestamp).hex(), offset=varying(offset).hex())))
    for count, expected in ((0, BYTES_LEFT), (-1, BYTES_LEFT), (2, BYTES_LEFT), (4, PAST_END), (2 ** 31 - 1, PAST_END)):
        batch(text, expected, of_records(*parts, count=count))
    for count in (1, 2 ** 31 - 1):
        batch(text, PAST_END, batch_of(count=count))
    for count in (0, -1):
        batch(text, BYTES_LEFT, batch_of(b"\0", count=count))
    for fault, expected in RECORD_FAULTS:
        batch(text, expected, of_records(bytes.fromhex(fault)))
    data = of_records(one)
    for end in (61, 62, 63, 70, len(data) - 1):
        cut = batch_of(data[BODY:end], count=1)
        batch(text, PAST_END, cut + data[end:], start=len(cut))
    batch(text, BYTES_LEFT, of_records(bytes.fromhex(RECORD_NAMES_100)) + bytes(100), start=69)


def batches_room(text):
    """Rows enough and one fewer, with a remainder; and faults, whatever the room."""
    text.heading("batches, room")
    one = of_records(with_headers(pair(b"a", b"b")))
    for more in (0, 1, 3, 7):
        batch(text, ACCEPTED, one, room=(8 + more, 4 + more % 4))
    for room in ((7, 4), (8, 3), (7, 3), (0, 4), (8, 0), (0, 0)):
        batch(text, NO_ROOM, one, room=room)
    parts = three_records()
    three = of_records(*parts)
    for room in ((24, 12), (31, 12), (24, 15), (64, 64)):
        batch(text, ACCEPTED, three, room=room)
    for room in ((23, 12), (16, 64), (24, 11), (64, 8), (23, 11), (16, 8), (0, 0)):
        batch(text, NO_ROOM, three, room=room)
    batch(text, NO_ROOM, three + three, room=(23, 64), start=len(three))
    for room, expected in (((0, 0), NO_ROOM), ((7, 0), NO_ROOM), ((8, 0), ACCEPTED)):
        batch(text, expected, of_records(bytes.fromhex(RECORD_ROWS[1][0])), room=room)
    batch(text, ACCEPTED, batch_of(), room=(0, 0))
    for expected, fault in {number: fault for fault, number in RECORD_FAULTS}.items():
        batch(text, expected, of_records(*parts[:2], bytes.fromhex(fault)), room=(0, 0))
    batch(text, BYTES_LEFT, of_records(*parts, b"\0", count=3), room=(0, 0))
    batch(text, MORE_BYTES, three[:-1], room=(0, 0))
    batch(text, CHECKSUM_DIFFERS, flipped(three, 40), room=(0, 0))


def batches_followed(text):
    """Each start of a batch, and more behind it than the batch."""
    text.heading("batches, followed")
    records_batch, empty, commit = of_records(*three_records()), batch_of(), marker(COMMIT)
    for data, expected in ((records_batch, ACCEPTED), (empty, ACCEPTED), (commit, BARE_MARKER)):
        for tail in (bytes(3), b"\xff" * 17, b"\2", empty, commit):
            batch(text, expected, data + tail, start=len(data))
    for data, expected, keyed in (
        (batch_of(crc=1), CHECKSUM_DIFFERS, None), (batch_of(attributes=7), UNKNOWN_CODEC, None),
        (batch_of(attributes=3), COMPRESSED, None), (batch_of(count=-2), WRONG_COUNT, None),
        (batch_of(count=1), PAST_END, None), (marker(bytes(3)), PAST_END, None),
        (marker(b"\0\1"), UNKNOWN_CONTROL, PAST_END), (marker(bytes(5)), BYTES_LEFT, PAST_END),
        (batch_of(bytes(1)), BYTES_LEFT, None),
    ):
        batch(text, expected, data + ABORT, start=len(data), keyed=keyed)


def record_times(text):
    text.heading("record times")
    least, greatest = -2 ** 63, 2 ** 63 - 1
    assert 1000 + -1 == 999
    edges = (0, 1, -1, 1000, least, greatest, different(8, 1), -different(8, 0x71))
    for first in edges:
        for delta in edges:
            time = first + delta
            text.case("time", first, delta, *([time] if least <= time <= greatest else []))


def batch_sizes(text):
    text.heading("batch sizes")
    for length in (
        -2 ** 31, -2 ** 31 + 1, -13, -12, -11, -1, 0, 1, 8, 9, 48, 49, 53, 255, 256, different(4, 1), 2 ** 31 - 13,
        2 ** 31 - 12, 2 ** 31 - 1,
    ):
        text.case("total", length, UNCOUNTED + length)


def shown(source, start, size, least):
    """The bytes that a row names, or none."""
    if (start, size) == (0, -1) and least == -1:
        return None
    if start < 0 or size < 0 or start + size > len(source):
        raise Refused(WRONG_ROW)
    return source[start:start + size]


def nullable(data):
    return varying(-1) if data is None else varying(len(data)) + data


def whole_rows(numbers, width):
    return [numbers[width * i:width * (i + 1)] for i in range(len(numbers) // width)]


def written_header(source, row):
    key, value = shown(source, *row[:2], 0), shown(source, *row[2:], 0)
    if not by_rows(key):
        raise Refused(WRONG_KEY)
    return pair(key, value)


def written_records(source, count, records, headers, first=0):
    """The bytes of each record, by the numbers of both tables; in the order of document 01, "Writer's numbers"."""
    rows, header_rows = whole_rows(records, 8), whole_rows(headers, 4)
    if count > len(rows):
        raise Refused(WRONG_ROW)
    written = []
    for timestamp, offset, *spans, named, header_count in rows[:count]:
        key, value = shown(source, *spans[:2], -1), shown(source, *spans[2:], -1)
        if not -2 ** 31 <= offset < 2 ** 31 or named != first or not 0 <= header_count <= len(header_rows) - first:
            raise Refused(WRONG_ROW)
        after = first + header_count
        pairs = [written_header(source, row) for row in header_rows[first:after]]
        numbers = b"\0" + varying(timestamp) + varying(offset)
        body = numbers + nullable(key) + nullable(value) + varying(len(pairs)) + b"".join(pairs)
        written.append(varying(len(body)) + body)
        first = after
    return written


def written_batch(source, kind, count, records, headers, fields, mode):
    """The fields are in the order of an answer, with the timestamp type and the transactional flag behind them."""
    *values, log_append, transactional = fields
    values = dict(zip((name for _, name in FIELDS), values))
    attributes = log_append * LOG_APPEND + transactional * TRANSACTIONAL
    if kind:
        if mode == BARE:
            raise Refused(BARE_MARKER)
        return marker(key_record((ABORT, COMMIT)[kind - 1]), attributes + CONTROL, **values)
    return of_records(*written_records(source, count, records, headers), attributes=attributes, **values)


def is_canonical(data, mode):
    """Whether all the bytes are a batch, and what is written for it."""
    try:
        (*fields, kind, count, _, whole), tables = batch_parts(data, mode)
    except Refused:
        return False
    return whole == len(data) and written_batch(data, kind, count, *table_numbers(tables), fields, mode) == data


def contents(source, records, headers):
    """What rows show: deltas, bytes and nulls, and how many headers."""
    rows, header_rows = whole_rows(records, 8), whole_rows(headers, 4)
    return [
        [(row[:2], shown(source, *row[2:4], -1), shown(source, *row[4:6], -1), row[7]) for row in rows],
        [(shown(source, *row[:2], 0), shown(source, *row[2:], 0)) for row in header_rows],
    ]


def write(text, expected, rows=(), header_rows=(), count=None, source=SOURCE, codec=0, kind=RECORDS_KIND, more=((), ()),
          fields=(1, 2, 3, 4, 5, 6, 7, 8, 0, 0), bare=None):
    """A case whose number is expected by whoever puts it here. In bare mode it is the same where nothing else is said.
    Numbers may follow the rows of both tables."""
    count = len(rows) if count is None else count
    records = [n for row in rows for n in row] + list(more[0])
    headers = [n for row in header_rows for n in row] + list(more[1])
    text.cases(*(write_words(mode, number, records, headers, count, source, codec, kind, fields)
                 for mode, number in ((BARE, expected if bare is None else bare), (KEYED, expected))))


def write_marker(text, kind, *tables, **others):
    """A marker that is written in keyed mode, and in bare mode refused, whatever else is asked."""
    write(text, ACCEPTED, *tables, kind=kind, bare=BARE_MARKER, **others)


def write_words(mode, expected, records, headers, count, source, codec, kind, fields):
    found, data = ACCEPTED, b""
    try:
        if codec:
            raise Refused(WRONG_CODEC)
        data = written_batch(source, kind, count, records, headers, fields, mode)
        told, tables = batch_parts(data, mode)
        used = (0, 0) if kind else (8 * count, 4 * sum(row[7] for row in whole_rows(records, 8)[:count]))
        assert told[:11] == (*fields, kind) and told[13] == len(data) and is_canonical(data, mode)
        assert contents(data, *table_numbers(tables)) == contents(source, records[:used[0]], headers[:used[1]])
    except Refused as refused:
        found, = refused.args
    assert found == expected, (records, headers, found, expected)
    words = ["write", source, data, codec, kind, counted(count), *fields, found]
    return behind_bars(words, [records, headers])


def counted(n):
    """A number of the machine's, which a text names by a signed one."""
    return -1 if n == GREATEST_PLACE else n


def write_records(text, expected, rows=(), header_rows=(), first=0, count=None, at=0, source=SOURCE):
    """The same of records alone."""
    count = len(rows) if count is None else count
    tables = [[n for row in table for n in row] for table in (rows, header_rows)]
    found, data = ACCEPTED, b""
    try:
        data = b"".join(written_records(source, count, *tables, first))
    except Refused as refused:
        found, = refused.args
    assert found == expected, (rows, header_rows, found, expected)
    words = ["write-records", source, data, counted(first), counted(count), counted(at), found]
    text.case(*behind_bars(words, tables))


def row(**others):
    parts = {**ROW, **others}
    return [parts["timestamp"], parts["offset"], *parts["key"], *parts["value"], *parts["headers"]]


def header_row(**others):
    parts = {**HEADER_ROW, **others}
    return [*parts["key"], *parts["value"]]


def written_examples(text):
    """The batches that document 01 describes."""
    text.heading("written, examples")
    zeros = (0,) * 10
    write(text, ACCEPTED, source=b"", fields=zeros)
    null = (0, -1)
    write(text, ACCEPTED, [row(key=null, value=(0, 1))], source=b"A", fields=(7, *zeros[1:]))
    for digits, numbers in RECORD_ROWS:
        assert written_records(bytes.fromhex(digits), 1, list(numbers), []) == [bytes.fromhex(digits)]
        write(text, ACCEPTED, [numbers], source=bytes.fromhex(digits))
    for key in (null, (0, 0), (0, 6)):
        for value in (null, (15, 0), (7, 8)):
            write(text, ACCEPTED, [row(key=key, value=value)])
    for kind in (ABORT_KIND, COMMIT_KIND):
        write_marker(text, kind, source=b"", fields=zeros)


def written_fields(text):
    """Bytes that all differ, extremes and signs, of each field alone and of all; and the flags, of each kind."""
    text.heading("written, fields")

    def fields(values, flags=(0, 0)):
        write(text, ACCEPTED, [row()], fields=(*values, *flags))

    for rank, (size, _) in enumerate(FIELDS):
        for n in (different(size, 1), -different(size, 0x71), -2 ** (8 * size - 1), 2 ** (8 * size - 1) - 1):
            fields([n if rank == other else 0 for other in range(len(FIELDS))])
    for sign in (1, -1):
        fields([sign * different(size, 1 + 8 * rank) for rank, (size, _) in enumerate(FIELDS)])
    fields([-1 for _ in FIELDS], (1, 1))
    for log_append in (0, 1):
        for transactional in (0, 1):
            flagged = (1, 2, 3, 4, 5, 6, 7, 8, log_append, transactional)
            write(text, ACCEPTED, fields=flagged)
            for kind in (ABORT_KIND, COMMIT_KIND):
                write_marker(text, kind, fields=flagged)


def written_codec(text):
    """Judged before all else."""
    text.heading("written, codec")
    nonsense = [[-3] * 8], [[-5] * 4]
    for codec in (1, 2, 3, 4, 5, 7, 8, 128, 255):
        write(text, WRONG_CODEC, [row()], codec=codec)
    for codec in (1, 8, 255):
        for kind in (RECORDS_KIND, ABORT_KIND, COMMIT_KIND):
            write(text, WRONG_CODEC, *nonsense, count=2, codec=codec, kind=kind)
        write(text, WRONG_CODEC, codec=codec, source=b"")
        write(text, WRONG_CODEC, codec=codec, count=GREATEST_PLACE)
    write(text, WRONG_CODEC, [row(headers=(0, 1))], [header_row(key=(0, 1))], source=b"\xff" * 15, codec=1)


def written_counts(text):
    """As many records as rows and one more, with a remainder that is never a row; and rows beyond the count."""
    text.heading("written, counts")
    for rows in range(4):
        for more in (0, 1, 7):
            for count, expected in ((rows, ACCEPTED), (rows + 1, WRONG_ROW)):
                write(text, expected, [row()] * rows, count=count, more=((0,) * more, (-9,) * (more % 4)))
    for count in (2, 3, 255, 256, 2 ** 31 - 1, 2 ** 31, 2 ** 32, 2 ** 32 + 1, 2 ** 61, 2 ** 61 + 1, 2 ** 63 - 1,
                  GREATEST_PLACE):
        write(text, WRONG_ROW, [row()], count=count)
    for count in range(3):
        write(text, ACCEPTED, [row()] * count + [[-3] * 8], count=count)
    write(text, ACCEPTED, [row()] * 8)
    write(text, WRONG_ROW, [row()] * 8, count=9)


def written_spans(text):
    """Each place of a span: both ends of the source, nulls, and numbers that do not belong there."""
    text.heading("written, spans")
    size, most = len(SOURCE), 2 ** 63 - 1
    inside = [(0, 0), (0, 1), (0, size), (1, size - 1), (size - 1, 1), (size - 1, 0), (size, 0), (4, 7)]
    outside = [
        (0, size + 1), (1, size), (size, 1), (size + 1, 0), (size + 1, 1), (size - 1, 2), (-1, 0), (-1, 1), (-1, 2),
        (-1, size), (-size, size), (-2 ** 63, 0), (-2 ** 63, most), (-2 ** 31, 1), (2 ** 31, 0), (2 ** 32, 0),
        (2 ** 32, 1), (0, 2 ** 31 - 1), (0, 2 ** 31), (0, 2 ** 32), (0, 2 ** 32 + 1), (0, most), (1, most), (2, most),
        (most, 0), (most, 1), (most, 2), (most, size), (most, most), (2 ** 62, 2 ** 62), (most - 1, 2),
        (0, -2), (0, -3), (0, -size), (0, -2 ** 31), (0, -2 ** 32 - 1), (0, -2 ** 63), (1, -2), (size, -2),
        (1, -1), (size, -1), (-1, -1), (most, -1), (-2 ** 63, -1), (2 ** 32, -1), (-2 ** 63, -2 ** 63),
    ]

    def both(place, span, expected):
        if place in ("key", "value"):
            write(text, expected, [row(**{place: span})])
        else:
            write(text, expected, [row(headers=(0, 1))], [header_row(**{place.split()[1]: span})])

    for place in ("key", "value", "header key", "header value"):
        for span in inside:
            both(place, span, ACCEPTED)
        for span in outside:
            both(place, span, WRONG_ROW)
        both(place, (0, -1), ACCEPTED if place in ("key", "value") else WRONG_ROW)
    for place in ("key", "value"):
        for span, expected in (((0, 0), ACCEPTED), ((0, -1), ACCEPTED), ((1, 0), WRONG_ROW), ((0, 1), WRONG_ROW)):
            write(text, expected, [row(**{"key": (0, 0), "value": (0, 0), place: span})], source=b"")
    whole, parts = (0, size), [(i, j - i) for i in range(4) for j in range(i, 4)]
    write(text, ACCEPTED, [row(key=whole, value=whole, headers=(0, 2))], [header_row(key=whole, value=whole)] * 2)
    for key, value in zip(parts, reversed(parts)):
        write(text, ACCEPTED, [row(key=key, value=value, headers=(0, 1))], [header_row(key=value, value=key)])


def written_numbers(text):
    """Deltas: each length of a number, and both ends of 32 bits. Lengths on both sides of a longer number."""
    text.heading("written, numbers")
    nulls = dict(key=(0, -1), value=(0, -1))
    for n in limits(64):
        write_records(text, ACCEPTED, [row(timestamp=n, **nulls)], source=b"")
    for n in limits(32):
        write_records(text, ACCEPTED, [row(offset=n, **nulls)], source=b"")
    for n in (-2 ** 63, -2 ** 32, -2 ** 31, -65, -64, -1, 0, 63, 64, 2 ** 31 - 1, 2 ** 32, 2 ** 63 - 1):
        for m in (-2 ** 31, -1, 0, 2 ** 31 - 1):
            write_records(text, ACCEPTED, [row(timestamp=n, offset=m)])
    for n, m in ((-2 ** 63, 2 ** 31 - 1), (2 ** 63 - 1, -2 ** 31), (-1, -1), (2 ** 31, 63), (-2 ** 31 - 1, -64)):
        write(text, ACCEPTED, [row(timestamp=n, offset=m)])
        write(text, ACCEPTED, [row(timestamp=m, offset=m), row(timestamp=n, offset=m)])
    for n in (2 ** 31, 2 ** 31 + 1, 2 ** 32 - 1, 2 ** 32, 2 ** 32 + 1, 2 ** 62, 2 ** 63 - 1, -2 ** 31 - 1, -2 ** 31 - 2,
              -2 ** 32 + 1, -2 ** 32, -2 ** 32 - 1, -2 ** 62, -2 ** 63):
        write(text, WRONG_ROW, [row(offset=n)])
        write(text, WRONG_ROW, [row(), row(offset=n)])
    source = bytes(range(0x20, 0x50)) * 3
    for n in (63, 64, 128):
        for place in ("key", "value"):
            write(text, ACCEPTED, [row(**{**nulls, place: (1, n)})], source=source)
            write(text, ACCEPTED, [row(headers=(0, 1), **nulls)],
                  [header_row(**{"key": (0, 0), "value": (0, 0), place: (1, n)})], source=source)
    # the record's length
    for n in (57, 58):
        write(text, ACCEPTED, [row(key=(0, -1), value=(1, n))], source=source)


def written_headers(text):
    """First header rows and header counts: they run on, within the table."""
    text.heading("written, headers")
    most = 2 ** 63 - 1
    rows = [header_row(), header_row(key=(7, 2)), header_row(key=(0, 0), value=(0, 0))]
    for count in range(4):
        write(text, ACCEPTED, [row(headers=(0, count))], rows)
        write(text, ACCEPTED, [row(headers=(0, count))], rows[:count])
        for more in (0, 1, 3):
            write(text, WRONG_ROW, [row(headers=(0, count + 1))], rows[:count], more=((), (0,) * more))
    for count in (-1, -2, -3, -256, -2 ** 31, -2 ** 32, -2 ** 32 + 1, -2 ** 63, 4, 2 ** 31, 2 ** 32, 2 ** 32 + 1,
                  2 ** 61, 2 ** 62, most):
        write(text, WRONG_ROW, [row(headers=(0, count))], rows)
        write(text, WRONG_ROW, [row(headers=(0, 2)), row(headers=(2, count))], rows)
    for first in (1, 2, 3, 4, -1, -2 ** 63, 2 ** 32, 2 ** 62, most):
        for count in (0, 1, -1, -first if first > -2 ** 63 else 0):
            write(text, WRONG_ROW, [row(headers=(first, count))], rows)
    for first, second, expected in (
        ((0, 0), (0, 0), ACCEPTED), ((0, 0), (0, 3), ACCEPTED), ((0, 3), (3, 0), ACCEPTED), ((0, 1), (1, 2), ACCEPTED),
        ((0, 1), (1, 1), ACCEPTED), ((0, 0), (1, 0), WRONG_ROW), ((0, 0), (1, 1), WRONG_ROW),
        ((0, 1), (0, 1), WRONG_ROW), ((0, 1), (2, 1), WRONG_ROW), ((0, 1), (0, 0), WRONG_ROW),
        ((0, 1), (2, 0), WRONG_ROW), ((0, 3), (0, 0), WRONG_ROW), ((0, 3), (3, 1), WRONG_ROW),
        ((0, 3), (4, 0), WRONG_ROW), ((0, 3), (3, -1), WRONG_ROW), ((0, 3), (2, 1), WRONG_ROW),
        ((0, 2), (2, 2), WRONG_ROW), ((0, 2), (2, most), WRONG_ROW), ((0, 4), (4, -4), WRONG_ROW),
    ):
        write(text, expected, [row(headers=first), row(headers=second)], rows)
    write(text, ACCEPTED, [row()], [[-5] * 4])
    write(text, ACCEPTED, [row(headers=(0, 1))], [header_row(), [-5] * 4])


def written_keys(text):
    """A header's key is UTF-8, and nothing else has to be."""
    text.heading("written, keys")
    for key in map(bytes.fromhex, GOOD_KEYS):
        write(text, ACCEPTED, [row(key=(0, 0), value=(0, 0), headers=(0, 1))],
              [header_row(key=(1, len(key)), value=(0, 1))], source=b"\x80" + key + b"\x80")
    for key in map(bytes.fromhex, BAD_KEYS):
        write(text, WRONG_KEY, [row(key=(0, 0), value=(0, 0), headers=(0, 1))],
              [header_row(key=(1, len(key)), value=(0, 1))], source=b"a" + key + b"a")
        every = (0, len(key))
        write(text, ACCEPTED, [row(key=every, value=every, headers=(0, 1))], [header_row(key=(0, 0), value=every)],
              source=key)
    euro = "\u20ac".encode()
    for start, size, expected in ((0, 3, ACCEPTED), (0, 2, WRONG_KEY), (1, 2, WRONG_KEY), (1, 0, ACCEPTED)):
        write(text, expected, [row(key=(0, 0), value=(0, 0), headers=(0, 1))],
              [header_row(key=(start, size), value=(0, 0))], source=euro)


def written_order(text):
    """Two faults or more: rows in order, each record before its headers, a header row's numbers before its key."""
    text.heading("written, order")
    source = b"key\xff"
    null, bad, past = (0, -1), (3, 1), (4, 1)

    def record(headers=(0, 0), **others):
        return row(**{"key": null, "value": null, "headers": headers, **others})

    def header(key=(0, 3), value=(0, 0)):
        return [*key, *value]

    for rows, headers, expected in (
        # a row's numbers before its key, whichever span is wrong
        ([record((0, 1))], [header(bad, past)], WRONG_ROW), ([record((0, 1))], [header(bad, null)], WRONG_ROW),
        ([record((0, 1))], [header(bad, (0, -2))], WRONG_ROW), ([record((0, 1))], [header(bad)], WRONG_KEY),
        # an earlier header before a later one, and before a later record
        ([record((0, 2))], [header(bad), header(past)], WRONG_KEY),
        ([record((0, 2))], [header(past), header(bad)], WRONG_ROW),
        ([record((0, 2))], [header(), header(bad)], WRONG_KEY),
        ([record((0, 1)), record((1, 0), key=past)], [header(bad)], WRONG_KEY),
        ([record((0, 1)), record((0, 0))], [header(bad)], WRONG_KEY),
        ([record((0, 1)), record((1, 9))], [header(bad)], WRONG_KEY),
        ([record((0, 1)), record((1, 0), offset=2 ** 31)], [header(bad)], WRONG_KEY),
        ([record((0, 1)), record((1, 1))], [header(bad), header(past)], WRONG_KEY),
        ([record((0, 1)), record((1, 1))], [header(past), header(bad)], WRONG_ROW),
        # a record before its headers
        ([record((0, 1), key=past)], [header(bad)], WRONG_ROW),
        ([record((0, 1), value=past)], [header(bad)], WRONG_ROW),
        ([record((0, 1), offset=-2 ** 31 - 1)], [header(bad)], WRONG_ROW),
        ([record((0, 2))], [header(bad)], WRONG_ROW), ([record((1, 1))], [header(bad), header(bad)], WRONG_ROW),
        ([record((0, 0), key=past), record((0, 1))], [header(bad)], WRONG_ROW),
        # rows that no record has
        ([record((0, 1))], [header(), header(bad)], ACCEPTED), ([record()], [header(past)], ACCEPTED),
    ):
        write(text, expected, rows, headers, source=source)
        # too few rows are judged first
        write(text, WRONG_ROW, rows, headers, count=len(rows) + 1, source=source)


def written_markers(text):
    """A marker looks at no table, no source and no count, and in bare mode there is none."""
    text.heading("written, markers")
    for kind in (ABORT_KIND, COMMIT_KIND):
        for log_append in (0, 1):
            for transactional in (0, 1):
                fields = (-1, -2, -3, -4, -5, -6, -7, -8, log_append, transactional)
                write_marker(text, kind, [[-3] * 8], [[-5] * 4], count=0, fields=fields)
        write_marker(text, kind, [[2 ** 63 - 1] * 8], [[-2 ** 63] * 4], more=((1,) * 7, (1,) * 3))
        write_marker(text, kind, [row(headers=(0, 1))], [header_row(key=(0, 1))], source=b"\xff" * 15)
        for count in (1, 2, 2 ** 31, GREATEST_PLACE):
            write_marker(text, kind, count=count, source=b"")


def written_several(text):
    """Records one after the other, from the tables that the reader fills for them."""
    text.heading("written, several")
    parts = three_records()
    for several in (parts, parts[::-1], parts[:2], parts[1:], [parts[2]] * 4, [parts[0]] * 8, [parts[1], parts[2]] * 3):
        data = b"".join(several)
        rows, headers = record_tables(data, 0, len(several), 0)
        assert b"".join(written_records(data, len(several), *table_numbers((rows, headers)))) == data
        write(text, ACCEPTED, rows, headers, source=data)
        write(text, WRONG_ROW, rows, headers, count=len(rows) + 1, source=data)
        write(text, WRONG_ROW, rows, headers, source=data[:-2])
    # what is written is not what was read: a long number, attributes
    for others in ({"attributes": "7F"}, {"timestamp": "81808000"}, {"key_length": "8480808000"}, {"count": "8200"}):
        data = record_of(**others)
        write(text, ACCEPTED, *record_tables(data, 0, 1, 0), source=data)


def written_apart(text):
    """Records alone: places of the output, near its ends and far beyond them; and first header rows."""
    text.heading("written, records alone")
    for at in (0, 1, 7, 61, 99, 100, 101, 2 ** 31, 2 ** 62, 2 ** 63 - 1, GREATEST_PLACE):
        write_records(text, ACCEPTED, at=at)
        write_records(text, ACCEPTED, [row()], at=at)
        write_records(text, WRONG_ROW, [row(offset=2 ** 31)], at=at)
    headers = [header_row(key=(i, 1), value=(0, i)) for i in range(4)]
    for first in range(6):
        for count in range(5):
            write_records(text, ACCEPTED if first + count <= 4 else WRONG_ROW, [row(headers=(first, count))], headers,
                          first=first, at=3)
        for named in {0, 1, first - 1, first + 1} - {first}:
            write_records(text, WRONG_ROW, [row(headers=(named, 0))], headers, first=first)
        rows = [row(headers=(first, 1)), row(headers=(first + 1, 1))]
        write_records(text, ACCEPTED if first + 2 <= 4 else WRONG_ROW, rows, headers, first=first)
        write_records(text, WRONG_ROW, rows, headers, first=first, count=3)
        write_records(text, ACCEPTED, rows, headers, first=first, count=0)
    bad = header_row(key=(0, 1))
    for first, expected in ((0, WRONG_KEY), (1, ACCEPTED)):
        write_records(text, expected, [row(key=(0, 1), value=(0, 0), headers=(first, 1))],
                      [bad[:2] + [0, 0], header_row(key=(1, 1), value=(0, 1))], first=first, source=b"\xffa")
    for first in (2 ** 31, 2 ** 62, 2 ** 63 - 1, GREATEST_PLACE):
        for named in (0, 2 ** 31, 2 ** 62, 2 ** 63 - 1, -1):
            write_records(text, WRONG_ROW, [row(headers=(named, 1))], headers, first=first)
        write_records(text, ACCEPTED, first=first)
    for count in (1, 2 ** 61, GREATEST_PLACE):
        write_records(text, WRONG_ROW, count=count)


def large_size(records, headers, key, value):
    """The bytes of all records of a large case."""
    many, most = varying(LARGE_SOURCE), LARGE_SOURCE
    usual = 3 + 2 * (len(many) + most) + 1
    last = 5 + len(varying(headers))
    if headers:
        last += (headers - 1) * (1 + len(many) + most) + len(varying(key)) + key + len(varying(value)) + value
    return (records - 1) * (len(varying(usual)) + usual) + len(varying(last)) + last


def large(text, expected, records, headers, key=0, value=0):
    length = 49 + large_size(records, headers, key, value)
    if records > LARGE_ROWS[0] or headers > LARGE_ROWS[1] or max(key, value) > LARGE_SOURCE:
        found = WRONG_ROW
    elif headers and key:
        found = WRONG_KEY
    else:
        found = TOO_LONG if length > GREATEST_LENGTH else ACCEPTED
    assert found == expected, (records, headers, key, value, found)
    text.case("large", records, headers, key, value, found, 0 if found else UNCOUNTED + length)


def written_large(text):
    """Both sides of what batchLength holds, by many records, by many headers and by both; and far beyond it. Faults of
    rows are met before."""
    text.heading("written, large")
    whole, null, empty = (0, LARGE_SOURCE), (0, -1), (0, 0)
    records = row(key=whole, value=whole) + row(key=null, value=null, headers=(0, 2))
    headers = header_row(key=empty, value=whole) + header_row(key=empty, value=(0, 9))
    written = written_records(bytes(LARGE_SOURCE), 2, records, headers)
    assert sum(map(len, written)) == large_size(2, 2, 0, 9)
    for records, headers in ((4096, 2), (1, 8192), (2048, 4098)):
        left = GREATEST_LENGTH - 49 - large_size(records, headers, 0, 0)
        value = next(n for n in range(left, 0, -1) if 49 + large_size(records, headers, 0, n) == GREATEST_LENGTH)
        large(text, ACCEPTED, records, headers, value=value - 1)
        large(text, ACCEPTED, records, headers, value=value)
        large(text, TOO_LONG, records, headers, value=value + 1)
        large(text, TOO_LONG, records + 1, headers, value=value)
        large(text, WRONG_KEY, records + 1, headers, key=1, value=value)
        large(text, WRONG_ROW, records + 1, headers, value=LARGE_SOURCE + 1)
        large(text, WRONG_KEY, records, headers, key=1, value=value)
    for records, headers in ((8192, 0), (8192, 1), (8192, 16384), (1, 16384), (4096, 16384)):
        large(text, TOO_LONG, records, headers, value=LARGE_SOURCE)
    for records, headers in ((8193, 1), (8192, 16385), (1, 16385), (1, 2 ** 31), (2 ** 31, 1), (2 ** 32 + 1, 1)):
        large(text, WRONG_ROW, records, headers)
    large(text, ACCEPTED, 1, 1, value=LARGE_SOURCE)
    large(text, WRONG_ROW, 1, 1, value=LARGE_SOURCE + 1)


def canonical(text, data, expected=None, keyed=None):
    """So many bytes are expected to be canonical by whoever puts it here; all of them where nothing is said. In keyed
    mode it is the same where nothing else is said."""
    whole = len(data) if expected is None else expected
    text.cases(canonical_words(BARE, data, whole), canonical_words(KEYED, data, whole if keyed is None else keyed))


def canonical_words(mode, data, whole):
    assert [end for end in range(len(data) + 1) if is_canonical(data[:end], mode)] == ([whole] if whole else [])
    return ["canonical", data, whole]


def canonical_batches(text):
    """Batches as they are written, and all that they could be instead."""
    text.heading("canonical, batches")
    one = of_records(record_of())
    for data, modes in (
        (batch_of(), (1, 1)), (one, (1, 1)), (marker(ABORT), (0, 0)), (marker(COMMIT), (0, 0)),
        (marker(key_record(ABORT)), (0, 1)), (marker(key_record(COMMIT)), (0, 1)),
        (of_records(*three_records()), (1, 1)),
    ):
        whole = [is_one * len(data) for is_one in modes]
        canonical(text, data, *whole)
        for tail in (b"\0", b"\xff", data):
            canonical(text, data + tail, *whole)
        for place in (17, 20, 23, len(data) - 1):
            canonical(text, flipped(data, place), 0)
        canonical(text, flipped(data, 16), 0)
        for place in (3, 12):
            canonical(text, flipped(data, place), *whole)
    for bits in range(4):
        canonical(text, batch_of(attributes=bits * LOG_APPEND))
        canonical(text, marker(COMMIT, bits * LOG_APPEND + CONTROL), 0)
        canonical(text, marker(key_record(COMMIT), bits * LOG_APPEND + CONTROL), 0, keyed=72)
    for bit in range(6, 16):
        canonical(text, batch_of(attributes=1 << bit), 0)
        canonical(text, marker(ABORT, CONTROL + (1 << bit)), 0)
        canonical(text, marker(key_record(ABORT), CONTROL + (1 << bit)), 0)
        canonical(text, of_records(record_of(), attributes=TRANSACTIONAL + (1 << bit)), 0)
    canonical(text, batch_of(attributes=0xFFC0), 0)
    for codec in range(1, 8):
        canonical(text, batch_of(attributes=codec), 0)
        canonical(text, of_records(record_of(), attributes=codec), 0)
        canonical(text, marker(ABORT, CONTROL + codec), 0)
        canonical(text, marker(key_record(ABORT), CONTROL + codec), 0)
    for count in (-1, -2, 1, 256, -2 ** 31):
        canonical(text, batch_of(count=count), 0)
    for count in (-1, 0, 2, 257, 2 ** 31 - 1):
        canonical(text, marker(count=count), 0)
        canonical(text, marker(key_record(ABORT), count=count), 0)
        canonical(text, of_records(record_of(), count=count), 0)
    for body in ("0001", "00010000", "00000002", "0000000100", "000000"):
        canonical(text, marker(bytes.fromhex(body)), 0)
    for length in (-1, 8, 9, 48, 50):
        canonical(text, batch_of(batch_length=length), 0)
    for size, name in FIELDS:
        for n in (different(size, 1), -2 ** (8 * size - 1)):
            canonical(text, batch_of(**{name: n}))


def canonical_keyed(text):
    """A marker in the key of a record as it is written, and all that it could be instead."""
    text.heading("canonical, keyed markers")
    for key in (ABORT, COMMIT):
        written = key_record(key)
        for place, byte in enumerate(written):
            for other in (byte ^ 1, byte + 2, byte + 0x80):
                body = written[:place] + bytes([other]) + written[place + 1:]
                # the last byte of the key makes the other marker
                canonical(text, marker(body), 0, keyed=72 if (place, other) in ((8, 0), (8, 1)) else 0)
        for end in range(len(written)):
            canonical(text, marker(written[:end]), 0)
        for more in (b"\0", b"\xff", written):
            canonical(text, marker(written + more), 0)
        for value in (b"", b"\xb0", bytes.fromhex("000000000005")):
            canonical(text, marker(key_record(key, **valued(value))), 0)
        canonical(text, marker(key_record(key + b"\xff")), 0)
        canonical(text, marker(key_record(key, count="02", header_key="024100")), 0)
        for part, n in (("timestamp", 0), ("offset", 0), ("key_length", 4), ("value_length", -1), ("count", 0)):
            canonical(text, marker(key_record(key, **{part: varying(n, 2).hex()})), 0)
        canonical(text, marker(varying(10, 2) + written[1:]), 0)
        # the same bytes as a record of a batch that is no control batch
        canonical(text, of_records(written))


def canonical_records(text):
    """Records as they are written; each number longer than needed, attributes, and faults."""
    text.heading("canonical, records")
    null_key, none, parts = record_of(key_length=NULL, key=""), bytes.fromhex(RECORD_ROWS[0][0]), three_records()
    for record in (none, null_key, record_of(value_length=NULL, value=""), record_of(**NO_HEADER), *parts):
        canonical(text, of_records(record))
        canonical(text, of_records(record, none))
    for timestamp, offset in ((-2 ** 63, 2 ** 31 - 1), (2 ** 63 - 1, -2 ** 31)):
        canonical(text, of_records(record_of(timestamp=varying(timestamp).hex(), offset=varying(offset).hex())))

    def never(*wrong):
        for records in (wrong, (none, *wrong, none)):
            canonical(text, of_records(*records), 0)

    for attributes in ("01", "02", "40", "80", "FF"):
        never(record_of(attributes=attributes))
    body = record_of()[1:]
    for count in (2, 5):
        never(varying(len(body), count) + body)
    longest = {"timestamp": 10, "offset": 5, **{part: 5 for part in LENGTHS}}
    for part, most in longest.items():
        n, after = number(enumerate(bytes.fromhex(PARTS[part])), 64)
        for count in (after + 1, most):
            never(record_of(**{part: varying(n, count).hex()}))
    for part in ("key_length", "value_length"):
        for n in (-1, 0):
            for count in (2, 5):
                never(record_of(**{part: varying(n, count).hex(), part.split("_")[0]: ""}))
    for count in (2, 5):
        never(record_of(**{**NO_HEADER, "count": varying(0, count).hex()}))
        for key_count, value_count in ((count, 1), (1, count)):
            header = varying(0, key_count) + varying(0, value_count)
            never(with_headers(header))
            never(with_headers(pair(b"a", b"b"), header))
    # shorter here and longer there: as many bytes as are written for another
    never(record_of(timestamp="8000"))
    never(record_of(timestamp="8000", offset="8000"))
    for fault, _ in RECORD_FAULTS:
        canonical(text, of_records(bytes.fromhex(fault)), 0)
    canonical(text, of_records(bytes.fromhex(RECORD_NAMES_100)), 0)
    canonical(text, of_records(*parts, b"\0", count=3), 0)


def in_key(data):
    """A marker that stands alone put into the key of a record. All fields are kept but batchLength and the checksum."""
    checked = data[CHECKED:BODY] + key_record(data[BODY:BODY + 4])
    named = (CHECKED - UNCOUNTED + len(checked)).to_bytes(4, "big")
    return data[:8] + named + data[UNCOUNTED:BEFORE_CRC] + crc32c(checked).to_bytes(4, "big") + checked


def conversion_of(data):
    """Document 02, C-24: the number, the bytes taken, or needed, and those that are given."""
    try:
        (*_, whole), _ = batch_parts(data, KEYED)
    except Refused as refused:
        found, *needed = refused.args
        return (ACCEPTED, 65, in_key(data)) if found == BARE_MARKER else (found, sum(needed), b"")
    return ACCEPTED, whole, data[:whole]


def convert(text, expected, data, rooms=()):
    """A case whose number is expected by whoever puts it here, in an output that is always long enough, and in others;
    and what is given is given again for itself."""
    found, taken, given = conversion_of(data)
    assert found == expected, (data.hex(), found, expected)
    assert len(given) <= taken + CONVERTED_LONGER
    for room in (*rooms, (taken if given else len(data)) + CONVERTED_LONGER):
        answer = (SHORT_OUTPUT, 0, 0, b"") if room < len(given) else (found, taken, len(given), given)
        text.case("convert", data, room, *answer)
    if given not in (b"", data):
        assert conversion_of(given) == (ACCEPTED, len(given), given)
        convert(text, ACCEPTED, given)


def around(size):
    """Outputs with no room, and with less, just enough and more than there has to be."""
    return 0, 1, size - 1, size, size + 1, size + 100


def conversion(text):
    text.heading("conversion")
    converted_markers(text)
    converted_others(text)
    converted_refusals(text)


def converted_markers(text):
    """Markers that stand alone: every attribute bit and every field is kept, and what follows is not looked at."""
    worked = marker(COMMIT, **WITHDRAWN)
    assert in_key(worked) == (worked[:8] + b"\0\0\0\x3c" + worked[12:17] + CONVERTED_CHECKSUM + worked[21:61]
                              + CONVERTED_BODY) and worked[21:23] == b"\x80\x70"
    convert(text, ACCEPTED, worked, around(72))
    for end in range(len(worked)):
        convert(text, MORE_BYTES, worked[:end])
    for body, other in ((ABORT, COMMIT), (COMMIT, ABORT)):
        for bit in range(16):
            convert(text, COMPRESSED if bit < 3 else ACCEPTED, marker(body, CONTROL | 1 << bit), (71,))
        for attributes in (0xFFF8, 0xFFE0, CONTROL + LOG_APPEND + TRANSACTIONAL):
            convert(text, ACCEPTED, marker(body, attributes))
        for sign in (1, -1):
            convert(text, ACCEPTED, marker(body, **{name: sign * different(size, 1 + 8 * rank)
                                                    for rank, (size, name) in enumerate(FIELDS)}))
        for size, name in FIELDS:
            convert(text, ACCEPTED, marker(body, **{name: -2 ** (8 * size - 1)}))
        for tail in (b"\0", b"\xff" * 17, marker(other), marker(key_record(other)), of_records(record_of())):
            convert(text, ACCEPTED, marker(body) + tail)


def converted_others(text):
    """Batches that keyed mode accepts are given as they stand, canonical or not, whatever tables they would need."""
    empty, none = batch_of(), bytes.fromhex(RECORD_ROWS[0][0])
    brokers = key_record(ABORT, **valued(bytes.fromhex("000000000005")))
    batches = [
        empty, batch_of(count=-1, attributes=0xFFD8), of_records(record_of()), of_records(*three_records()),
        of_records(record_of(attributes="7F", timestamp="81808000")), of_records(*[none] * 40),
        of_records(with_headers(*[pair(b"k", b"v")] * 30)), marker(key_record(ABORT)), marker(key_record(COMMIT)),
        marker(brokers, CONTROL + TRANSACTIONAL), marker(key_record(COMMIT + b"\xa0"), 0xFFE0),
        marker(record_of(key_length="08", key=COMMIT.hex())),
    ]
    for data in batches:
        convert(text, ACCEPTED, data, around(len(data)))
        for tail in (b"\2", marker(ABORT)):
            convert(text, ACCEPTED, data + tail, (len(data),))
    # a batch of records with the bytes of a marker that stands alone in it
    convert(text, ACCEPTED, of_records(record_of(**valued(marker(COMMIT)))))
    for whole in (marker(key_record(COMMIT)), of_records(record_of())):
        for end in (0, 11, 12, 16, 17, 20, 60, 61, 64, 65, len(whole) - 1):
            convert(text, MORE_BYTES, whole[:end])


def converted_refusals(text):
    """Each number of keyed mode, of control batches and of others, also with more behind the batch."""
    unknown = [marker(key_record(key)) for key in (None, ABORT[:3], b"\0\1\0\0", b"\0\0\0\2", b"\xa0" + COMMIT)]
    refused = [
        *((LENGTH_TOO_SMALL, marker(COMMIT, batch_length=named)) for named in (8, -1)),
        *((UNKNOWN_MAGIC, marker(COMMIT, magic=magic)) for magic in (1, 3)),
        (CHECKSUM_DIFFERS, marker(COMMIT, crc=9)), (CHECKSUM_DIFFERS, flipped(marker(COMMIT), 64)),
        (CHECKSUM_DIFFERS, flipped(marker(key_record(COMMIT)), 20)), (CHECKSUM_DIFFERS, flipped(batch_of(), 22)),
        *((UNKNOWN_CODEC, marker(ABORT, CONTROL + codec)) for codec in (5, 6, 7)),
        *((COMPRESSED, marker(ABORT, CONTROL + codec)) for codec in (1, 2, 3, 4)),
        *((WRONG_COUNT, marker(body, count=count)) for body in (COMMIT, key_record(COMMIT)) for count in (-2, 0, 2)),
        # four bytes that are no marker, and a marker with a byte more or less, or of a batch of records
        (PAST_END, marker(bytes.fromhex("00010000"), **WITHDRAWN)),
        *((PAST_END, marker(bytes.fromhex(body))) for body in ("00010000", "00000002", "0000000100", "000000", "")),
        (NEGATIVE_LENGTH, marker(bytes.fromhex("01000000"))), (PAST_END, marker(COMMIT, 0)),
        *((UNKNOWN_CONTROL, data) for data in unknown),
        (BYTES_LEFT, marker(key_record(COMMIT) + b"\0")), (BYTES_LEFT, batch_of(b"\0")),
        *((expected, make(bytes.fromhex(fault))) for fault, expected in RECORD_FAULTS for make in (of_records, marker)),
    ]
    assert {number for number, _ in refused} == set(range(2, 14))
    for expected, data in refused:
        convert(text, expected, data, (0,))
        convert(text, expected, data + marker(COMMIT))


def vectors(text):
    document_rows(text)
    for kind in WIDTHS:
        varying_limits(text, kind)
    for kind in WIDTHS:
        varying_written(text, kind)
    integers_read(text)
    integers_written(text)
    lengths_and_spans(text)
    bytes_put(text)
    checksum_examples(text)
    checksum_lengths(text)
    utf8_rows(text)
    utf8_faults(text)
    records_examples(text)
    records_cut(text)
    records_lengths(text)
    records_numbers(text)
    records_headers(text)
    records_several(text)
    records_room(text)
    batch_sizes(text)


def batch_vectors(text):
    batches_examples(text)
    batches_lengths(text)
    batches_cut(text)
    batches_fields(text)
    batches_checksum(text)
    batches_order(text)
    batches_control(text)
    batches_bare(text)
    batches_keyed(text)
    batches_keyed_unknown(text)
    batches_keyed_faults(text)
    batches_records(text)
    batches_room(text)
    batches_followed(text)
    record_times(text)
    written_examples(text)
    written_fields(text)
    written_codec(text)
    written_counts(text)
    written_spans(text)
    written_numbers(text)
    written_headers(text)
    written_keys(text)
    written_order(text)
    written_markers(text)
    written_several(text)
    written_apart(text)
    written_large(text)
    canonical_batches(text)
    canonical_keyed(text)
    canonical_records(text)


def entry_vectors(text):
    conversion(text)


def main():
    name, = sys.argv[1:]
    about, fill = {
        "vectors": (ABOUT, vectors), "batch_vectors": (ABOUT_BATCHES, batch_vectors),
        "entry_vectors": (ABOUT_ENTRIES, entry_vectors),
    }[name]
    text = Text(about)
    fill(text)
    print(text.whole(), end="")


main()
