#!/usr/bin/env python3
"""Prints the worked batches of crates/examples, and those of keyed mode, which only crates/worked computes with:

    tools/worked.py > crates/examples/specs/Examples.antt
    tools/worked.py keyed > crates/worked/specs/Keyed.antt

Their bytes are taken from samples/ or put together here. What is expected of them is worked out here, by Python's
arithmetic, from the tables of document 01 and of bindings/c/oddrafisk.h, or stands beside them. Nothing of the code
under test is used."""
from collections import namedtuple
import pathlib
import struct
import sys

ABOUT = """\
-- Worked batches, written by tools/worked.py: bytes, and all that is to be read in them and written for them. The values
-- come from the sentences and tables of document 01 and from bindings/c/oddrafisk.h, by Python's arithmetic, and from no
-- other definition: these are plain data alone.
use Prim.Native.Char.{code}
use Rattle.std.specs.Prelude.{ℕ, zero, suc, ◌+◌, ◌-◌, ◌*◌, Bool, true, false, List, [], ◌∷◌, ◌++◌, ltb, ℤ, pos, negsuc}
use Prim.Native.String.{String, [] as noText, ◌∷◌ as ◌before◌}
use Rattle.std.proofs.Math.Option.{Option, none, some}

-- ---- how bytes and numbers are spelled here

-- the codes of a text's characters
unfoldable pub text : String → List ℕ
text noText = []
text (c before rest) = code c ∷ text rest

-- those of some lines, one after the other
unfoldable pub lines : List String → List ℕ
lines [] = []
lines (line ∷ rest) = text line ++ lines rest

-- a hexadecimal digit, and a space, which says nothing
abbrev digit : ℕ → (space decimal : Bool) → List ℕ
digit c true _ = []
digit c false true = (c - 48) ∷ []
digit c false false = (c - 55) ∷ []

unfoldable pub digits : String → List ℕ
digits noText = []
digits (c before rest) = digit (code c) (ltb (code c) 48) (ltb (code c) 58) ++ digits rest

-- a byte for each two digits
unfoldable pub paired : List ℕ → List ℕ
paired [] = []
paired (a ∷ []) = []
paired (a ∷ b ∷ rest) = (16 * a + b) ∷ paired rest

-- those of some lines, one after the other
unfoldable pub hex : List String → List ℕ
hex [] = []
hex (line ∷ rest) = paired (digits line) ++ hex rest

abbrev pub minus : ℕ → ℤ
minus zero = pos 0
minus (suc k) = negsuc k

-- ---- what is said of a batch

pub record PlainHeader : Type 0 where
  pub key : List ℕ
  pub value : List ℕ

-- `none` is null
pub record PlainRecord : Type 0 where
  pub timestamp_delta : ℤ
  pub offset_delta : ℤ
  pub key : Option (List ℕ)
  pub value : Option (List ℕ)
  pub headers : List PlainHeader

pub data Holds : Type 0 where
  an_abort : Holds
  a_commit : Holds
  the_records : List PlainRecord → Holds

pub record Example : Type 0 where
  -- all bytes of the batch
  pub bytes : List ℕ
  -- document 01, Fixed fields
  pub base_offset : ℤ
  pub batch_length : ℕ
  pub partition_leader_epoch : ℤ
  pub crc : ℕ
  pub attributes : ℕ
  pub last_offset_delta : ℤ
  pub first_timestamp : ℤ
  pub max_timestamp : ℤ
  pub producer_id : ℤ
  pub producer_epoch : ℤ
  pub base_sequence : ℤ
  pub count : ℤ
  -- what bits 3 and 4 of the attributes say
  pub log_append : Bool
  pub transactional : Bool
  -- what follows the fixed fields
  pub holds : Holds
  -- document 01, Tables: the rows that are filled, eight numbers a record and four a header
  pub record_rows : List ℤ
  pub header_rows : List ℤ
  -- document 01, Record time: of each record
  pub times : List (Option ℤ)
  -- what the writer gives for the batch: these very bytes, where they are canonical; where a marker stands alone, what
  -- it gave before C-24
  pub written : List ℕ
  -- bindings/c/oddrafisk.h: the sixteen entries
  pub entries : List ℤ
  -- document 01, The listing: its line; where a marker stands alone there is none
  pub line : List ℕ

-- bytes that are no batch, how many records they name where one of these is wrong, document 01's number, and where that
-- is 1 how many bytes are needed; all else is 0
pub record Refusal : Type 0 where
  pub bytes : List ℕ
  pub count : ℕ
  pub number : ℕ
  pub needed : ℕ

-- rows that no batch has, for so many records, and document 01's number
pub record RowRefusal : Type 0 where
  pub source : List ℕ
  pub record_rows : List ℤ
  pub header_rows : List ℤ
  pub count : ℕ
  pub number : ℕ

-- a file, and its whole listing
pub record Listed : Type 0 where
  pub file : List ℕ
  pub listing : List ℕ
"""

ABOUT_KEYED = """\
-- Worked control batches as brokers write them, written by tools/worked.py keyed: the marker stands in the key of a
-- record. The values come from the tables of document 01, from Kafka's page and from bindings/c/oddrafisk.h, by
-- Python's arithmetic, and from no other definition.
use Rattle.std.specs.Prelude.{ℕ, true, false, List, [], ◌∷◌, pos}
use Rattle.examples.specs.Examples.{text, hex, minus, an_abort, a_commit, Example}

-- a stored batch, and what it is converted to
pub record Stored : Type 0 where
  pub bytes : List ℕ
  pub converted : List ℕ
"""

SAMPLES = pathlib.Path(__file__).resolve().parent.parent / "samples"

# Document 01, "Fixed fields", in their order.
FIXED = struct.Struct(">qiibIHiqqqhii")
NAMES = """base_offset batch_length partition_leader_epoch magic crc attributes last_offset_delta first_timestamp
max_timestamp producer_id producer_epoch base_sequence count""".split()
# Those that are handed out and in.
FIELDS = [name for name in NAMES if name not in ("batch_length", "magic", "crc", "attributes", "count")]
UNSIGNED = "batch_length", "crc", "attributes"
UNCOUNTED, CRC, CHECKED, BODY = 12, 17, 21, 61
LOG_APPEND, TRANSACTIONAL, CONTROL, HIGHER = 8, 16, 32, 0xFFC0
ABORT, COMMIT = bytes.fromhex("00000000"), bytes.fromhex("00000001")
MARKERS = {ABORT: "abort", COMMIT: "commit"}
LEAST, LARGEST = -2 ** 63, 2 ** 63 - 1
# Document 01, "The listing".
LONGEST, TOO_LONG, HEADING = 65536, "file too long\n", "base bytes kind records headers\n"
# bindings/c/oddrafisk.h, kinds.
KINDS = {"records": 0, "abort": 1, "commit": 2}

Record = namedtuple("Record", "timestamp_delta offset_delta key value headers")
Batch = namedtuple("Batch", "fixed marker records record_rows header_rows lines")

# Numbers whose bytes are all different, so that a wrong order or place shows.
UNLIKE = dict(
    base_offset=0x0102030405060708, partition_leader_epoch=0x11121314, last_offset_delta=0x21222324,
    first_timestamp=0x3132333435363738, max_timestamp=0x4142434445464748, producer_id=0x5152535455565758,
    producer_epoch=0x6162, base_sequence=0x71727374,
)
UNLIKE_RECORDS = [
    Record(-1000000007, 70000, b"key", b"value", [(b"h", b"header"), ("\u00e9".encode(), b"four")]),
    Record(300, -2, b"another", b"\0\xff at last", [(b"no value", b""), (b"eleven keys", b"nine here")]),
]
NEGATIVE = {name: -1 - place for place, name in enumerate(FIELDS)}
LATE = {**UNLIKE, "first_timestamp": LARGEST}
# C-24's worked batch.
HIGH = dict(
    base_offset=5, partition_leader_epoch=3, last_offset_delta=0, first_timestamp=1000, max_timestamp=1000,
    producer_id=9, producer_epoch=1, base_sequence=-1,
)
LATE_RECORDS = [Record(1, 0, None, b"", []), Record(-1, 1, b"", None, [(b"", b"k")])]

# Document 01: a record of the smallest kind, whose fields are changed below.
NO_FIELDS = "00 00 00 01 01 00"
# The records of a batch, how many they are, and document 01's number: what the record breaks.
RECORD_REFUSALS = [
    ("0C 00 00 00 01 01", 1, 8, "the body ends before the number of headers"),
    ("0C 00 00 00 06 6B 00 0C " + NO_FIELDS, 2, 8, "the key runs past its record, and not past the body"),
    ("0C " + NO_FIELDS, 2, 8, "there is one record of two"),
    ("FFFFFFFF10 " + NO_FIELDS, 1, 9, "the fifth byte of the record's length is 16"),
    ("20 00 FFFFFFFFFFFFFFFFFF02 00 01 01 00", 1, 9, "the tenth byte of the timestamp's delta is 2"),
    ("01 " + NO_FIELDS, 1, 10, "the record's length is -1"),
    ("0C 00 00 00 03 01 00", 1, 10, "the key's length is -2"),
    ("0C 00 00 00 01 01 01", 1, 10, "the number of headers is -1"),
    ("12 00 00 00 01 01 02 02 41 01", 1, 10, "the length of a header's value is -1"),
    ("12 00 00 00 01 01 02 02 80 00", 1, 11, "a header's key is no UTF-8"),
    ("12 00 00 00 01 01 02 02 80 01", 1, 11, "a header's key is no UTF-8, and then its value's length is -1"),
    ("C801 " + NO_FIELDS, 1, 13, "the record names length 100, and its six bytes of fields end the body"),
    ("0E " + NO_FIELDS + " 00", 1, 13, "a byte is left in the record"),
    ("0C " + NO_FIELDS + " 00", 1, 13, "a byte is left after the last record"),
]
MARKER_REFUSALS = [
    ("0000 00", 8, "the marker ends in its type"),
    ("0001 0000", 12, "the version is 1"),
    ("0001 00", 12, "the version is 1, and the marker ends in its type"),
    ("0000 0002", 12, "the type is 2"),
    ("0000 0001 00", 13, "a byte is left after the marker"),
    ("20 00 00 00 08 00000000 0C 000000000005 00", 12, "sarama 1.22.1: version and type stand in a record's key"),
]

# sarama 1.22.1: an abort marker as brokers write it.
SARAMA = bytes.fromhex("""
    0000000000000000 00000042 00000000 02 37473112
    0030 00000000 0000018BCFE56800 0000018BCFE56801 0000000000002329 0000 FFFFFFFF 00000001
    20 00 00 00 08 00000000 0C 000000000005 00
""")

SOURCE = b"\xffsource of bytes"
# A record's row, by the numbers that differ from these: key "source", value "of bytes", no headers.
ROW = dict(timestamp=-5, offset=6, key=1, key_length=6, value=8, value_length=8, first=0, headers=0)
# A header's row: key "source", value "bytes".
HEADER = dict(key=1, key_length=6, value=11, value_length=5)
# The changed rows of the records and of their headers, how many records are asked for, and document 01's number.
ROW_REFUSALS = [
    ([dict(key=1, key_length=-1)], [], 1, 21, "a key that is null with start 1"),
    ([dict(value=16, value_length=-1)], [], 1, 21, "a value that is null with start 16"),
    ([dict(key=-1)], [], 1, 21, "a start below 0"),
    ([dict(key=0, key_length=-2)], [], 1, 21, "a length of -2"),
    ([dict(value_length=9)], [], 1, 21, "a value that ends past the source"),
    ([dict(offset=2 ** 31)], [], 1, 21, "an offset that leaves 32 bits"),
    ([dict(offset=-2 ** 31 - 1)], [], 1, 21, "an offset that leaves 32 bits"),
    ([dict(headers=-1)], [], 1, 21, "a number of headers below 0"),
    ([dict(headers=2)], [{}], 1, 21, "headers past their table"),
    ([dict(first=1, headers=1)], [{}, {}], 1, 21, "headers that do not run on"),
    ([dict(headers=1), dict(first=0)], [{}], 2, 21, "headers that do not run on"),
    ([dict(headers=1)], [dict(value=0, value_length=-1)], 1, 21, "a header's value that is null"),
    ([dict(headers=1)], [dict(key=0, value=12)], 1, 21, "a header's value that ends past the source, its key no UTF-8"),
    ([{}], [], 2, 21, "more records than rows"),
    ([dict(headers=1)], [dict(key=0)], 1, 22, "a header's key that is no UTF-8"),
    ([dict(headers=1), dict(key=-1)], [dict(key=0)], 2, 22, "the same, before a row that is wrong"),
]


# ---- bytes

def crc32c(data):
    """RFC 3720: the polynomial 1EDC6F41, lowest bit first."""
    register = 0xFFFFFFFF
    for byte in data:
        register ^= byte
        for _ in range(8):
            register = register >> 1 ^ 0x82F63B78 * (register & 1)
    return register ^ 0xFFFFFFFF


def varying(n, count=1):
    """Seven bits a byte, lowest first, the top bit set on all but the last; `count` bytes where fewer would do."""
    code, out = 2 * n if n >= 0 else -2 * n - 1, []
    while code >= 128 or len(out) + 1 < count:
        out.append(128 + code % 128)
        code //= 128
    return bytes(out + [code])


def sized(data, count=1):
    return varying(-1, count) if data is None else varying(len(data), count) + data


def record_bytes(record, attributes=0, count=1):
    """The record with its numbers in at least `count` bytes each."""
    fields = bytes([attributes]) + varying(record.timestamp_delta, count) + varying(record.offset_delta, count)
    fields += sized(record.key, count) + sized(record.value, count) + varying(len(record.headers), count)
    return sized(fields + b"".join(sized(part, count) for header in record.headers for part in header), count)


def marker_record(marker):
    return record_bytes(Record(0, 0, marker, None, []))


def batch_bytes(fields, body, count, attributes=0, **changed):
    """The fixed fields and the body; batch_length, magic and crc are right where nothing else is said."""
    values = {"magic": 2, "crc": 0, "batch_length": BODY + len(body) - UNCOUNTED, **fields}
    values.update({"count": count, "attributes": attributes, **changed})
    data = bytearray(FIXED.pack(*(values[name] for name in NAMES)) + body)
    data[CRC:CHECKED] = struct.pack(">I", crc32c(data[CHECKED:]))
    return bytes(data)


def samples(name):
    data = (SAMPLES / name).read_bytes()
    while data:
        size = UNCOUNTED + struct.unpack_from(">i", data, UNCOUNTED - 4)[0]
        yield data[:size]
        data = data[size:]


# ---- reading them

def cut(data, ends):
    """The digits, with a space at each of the ends."""
    return " ".join(data[start:end].hex().upper() for start, end in zip([0, *ends], [*ends, len(data)]))


class Reader:
    """Reads records one after the other, and keeps their rows and the digits of each."""

    def __init__(self, data):
        self.data, self.at, self.ends = data, BODY, []
        self.records, self.record_rows, self.header_rows, self.lines = [], [], [], []

    def part(self, size):
        start = self.at
        self.at += size
        if size:
            self.ends.append(self.at)
        return self.data[start:self.at]

    def number(self):
        size = next(k for k in range(1, 11) if self.data[self.at + k - 1] < 128)
        code = sum((byte % 128) << 7 * place for place, byte in enumerate(self.part(size)))
        return code // 2 if code % 2 == 0 else -(code + 1) // 2

    def span(self):
        """What stands there, and its start and length."""
        size = self.number()
        return (None, (0, -1)) if size == -1 else (self.part(size), (self.at - size, size))

    def record(self):
        start, first, self.ends = self.at, len(self.header_rows), []
        end = self.number() + self.at
        self.part(1)
        timestamp, offset = self.number(), self.number()
        (key, key_row), (value, value_row) = self.span(), self.span()
        headers = [(self.span(), self.span()) for _ in range(self.number())]
        assert self.at == end
        self.records.append(Record(timestamp, offset, key, value, [(k, v) for (k, _), (v, _) in headers]))
        self.record_rows.append((timestamp, offset, *key_row, *value_row, first, len(headers)))
        self.header_rows.extend((*k, *v) for (_, k), (_, v) in headers)
        self.lines.append(cut(self.data[start:end], [place - start for place in self.ends if place < end]))


def decoded(data, keyed=False):
    fixed = dict(zip(NAMES, FIXED.unpack_from(data)))
    assert fixed["magic"] == 2 and UNCOUNTED + fixed["batch_length"] == len(data)
    assert fixed["crc"] == crc32c(data[CHECKED:]) and fixed["attributes"] % 8 == 0
    is_control = fixed["attributes"] & CONTROL
    if is_control and not keyed:
        return Batch(fixed, MARKERS[data[BODY:]], [], [], [], [cut(data[BODY:], [2])])
    reader = Reader(data)
    for _ in range(max(fixed["count"], 0)):
        reader.record()
    assert reader.at == len(data)
    if is_control:
        only, = reader.records
        return Batch(fixed, MARKERS[only.key[:4]], [], [], [], reader.lines)
    return Batch(fixed, None, reader.records, reader.record_rows, reader.header_rows, reader.lines)


def rewritten(batch, keyed=False):
    """What the writer gives: the shortest numbers, and nothing where nothing is said."""
    fields = {name: batch.fixed[name] for name in FIELDS}
    attributes = batch.fixed["attributes"] % 64
    if batch.marker:
        body = next(data for data in MARKERS if MARKERS[data] == batch.marker)
        return batch_bytes(fields, marker_record(body) if keyed else body, 1, attributes)
    return batch_bytes(fields, b"".join(map(record_bytes, batch.records)), len(batch.records), attributes)


def entries(batch, size):
    """bindings/c/oddrafisk.h: four at a time."""
    fields, bits = [batch.fixed[name] for name in FIELDS], batch.fixed["attributes"]
    counts = [KINDS[batch.marker or "records"], len(batch.records), len(batch.header_rows), size]
    numbers = [*fields, int(bool(bits & LOG_APPEND)), int(bool(bits & TRANSACTIONAL)), *counts, 0, 0]
    return [numbers[place:place + 4] for place in range(0, len(numbers), 4)]


def line(batch, size):
    return "%d %d %s %d %d\n" % (
        batch.fixed["base_offset"], size, batch.marker or "records", len(batch.records), len(batch.header_rows))


# ---- text

def several(items, indent):
    return ("\n" + " " * indent + "∷ ").join([*items, "[]"])


def in_record(items):
    """A list in a record, one item a line."""
    return "\n          " + several(items, 10) if items else "[]"


def of_fields(values):
    """A record, one field a line."""
    lines = ["      %s =%s%s;\n" % (name, " " * (value[0] != "\n"), value) for name, value in values.items()]
    return "record {\n%s    }" % "".join(lines)


def defined(name, kind, value, about=None, public="pub "):
    between = "\n    " if "\n" in value else " "
    above = "-- %s\n" % about if about else ""
    return "%sabbrev %s%s : %s\n%s =%s%s\n" % (above, public, name, kind, name, between, value)


def private(name, kind, value, about=None):
    return defined(name, kind, value, about, "")


def number(n):
    return "pos %d" % n if n >= 0 else "minus %d" % -n


def row(numbers):
    return " ∷ ".join(map(number, numbers))


def quoted(text):
    return '"%s"' % text.replace("\n", "\\n")


def hexed(lines, indent=4):
    lines = [quoted(line) for line in lines if line]
    return "hex (%s)" % (several(lines, indent) if len(lines) > 1 else " ∷ ".join([*lines, "[]"]))


def octets(data):
    if data and all(32 <= byte < 127 and byte not in b'"\\' for byte in data):
        return "text " + quoted(data.decode())
    return hexed([data.hex().upper()]) if data else "[]"


def nullable(data):
    return "none" if data is None else "some (%s)" % octets(data) if data else "some []"


def fixed_lines(data):
    """The fixed fields, those of the checksum on a line of their own."""
    return [cut(data[:CHECKED], [8, 12, 16, 17]).strip(), cut(data[CHECKED:BODY], [2, 6, 14, 22, 30, 32, 36]).strip()]


def all_lines(data):
    return [*fixed_lines(data), data[BODY:].hex().upper()]


def plain_record(record):
    header = "record { key = %s; value = %s }"
    return of_fields({
        "timestamp_delta": number(record.timestamp_delta),
        "offset_delta": number(record.offset_delta),
        "key": nullable(record.key),
        "value": nullable(record.value),
        "headers": in_record([header % (octets(key), octets(value)) for key, value in record.headers]),
    })


def example(name, data, about, keyed=False):
    """The bytes under the name, what they hold, and the example."""
    batch = decoded(data, keyed)
    given, bits = rewritten(batch, keyed), batch.fixed["attributes"]
    times = [batch.fixed["first_timestamp"] + record.timestamp_delta for record in batch.records]
    yield private(name, "List ℕ", hexed(fixed_lines(data) + batch.lines), about)
    if not batch.marker:
        yield private(name + "_records", "List PlainRecord", several(map(plain_record, batch.records), 4))
    yield defined(name + "_example", "Example", of_fields({
        "bytes": name,
        **{field: number(n) for field, n in batch.fixed.items() if field != "magic"},
        **{field: str(batch.fixed[field]) for field in UNSIGNED},
        "log_append": str(bool(bits & LOG_APPEND)).lower(),
        "transactional": str(bool(bits & TRANSACTIONAL)).lower(),
        "holds": {"abort": "an_abort", "commit": "a_commit"}.get(batch.marker, "the_records %s_records" % name),
        "record_rows": in_record([row(r) for r in batch.record_rows]),
        "header_rows": in_record([row(r) for r in batch.header_rows]),
        "times": " ∷ ".join(["some (%s)" % number(t) if LEAST <= t <= LARGEST else "none" for t in times] + ["[]"]),
        "written": name if given == data else hexed(fixed_lines(given) + decoded(given, keyed).lines, 10),
        "entries": in_record([row(four) for four in entries(batch, len(data))]),
        "line": "[]" if batch.marker and not keyed else "text " + quoted(line(batch, len(data))),
    }))


def table(name, kind, items, about):
    """Items, each under a comment of its own."""
    (item, comment), *rest = items
    text = "-- %s\n    %s\n" % (comment, item)
    text += "".join("    -- %s\n    ∷ %s\n" % (comment, item) for item, comment in rest)
    return defined(name, "List " + kind, text + "    ∷ []", about)


def refusal(data, count, number, needed=0):
    digits = hexed(all_lines(data), 10)
    return of_fields({"bytes": digits, "count": str(count), "number": str(number), "needed": str(needed)})


def batch_refusals(data):
    """Those before the records or the marker; `data` is a batch with no fault."""
    shortest = bytearray(batch_bytes(UNLIKE, b"", 0, batch_length=9)[:CHECKED])
    shortest[CRC:] = struct.pack(">I", crc32c(b""))
    cases = [
        (data[:11], 1, "fewer than 12 bytes"),
        (data[:16], 1, "fewer than 17"),
        (data[:-1], 1, "one fewer than batchLength asks for"),
        (batch_bytes(UNLIKE, b"", 0, batch_length=8), 2, "batchLength is 8"),
        (batch_bytes(UNLIKE, b"", 0, batch_length=-1), 2, "batchLength is -1"),
        (batch_bytes(UNLIKE, b"", 0, magic=1), 3, "magic is 1"),
        (data[:-1] + bytes([data[-1] ^ 1]), 4, "a bit of the last byte is another"),
        (batch_bytes(UNLIKE, b"", 0, 5), 5, "codec 5"),
        (batch_bytes(UNLIKE, b"", 0, 4), 6, "codec 4"),
        (batch_bytes(UNLIKE, b"", -2), 7, "count -2"),
        (batch_bytes(UNLIKE, ABORT, 2, CONTROL), 7, "a control batch of count 2"),
        (bytes(shortest), 8, "batchLength is 9, and the checksum is right"),
    ]
    needed = {11: 12, 16: 17, len(data) - 1: len(data)}
    for refused, number, about in cases:
        yield refusal(refused, 0, number, needed[len(refused)] if number == 1 else 0), about


def record_refusals():
    for digits, count, number, about in RECORD_REFUSALS:
        yield refusal(batch_bytes(UNLIKE, bytes.fromhex(digits), count), count, number), about


def marker_refusals():
    for digits, number, about in MARKER_REFUSALS:
        yield refusal(batch_bytes(UNLIKE, bytes.fromhex(digits), 1, CONTROL), 0, number), about


def row_refusals():
    for records, headers, count, number, about in ROW_REFUSALS:
        yield of_fields({
            "source": "source",
            "record_rows": in_record([row({**ROW, **changed}.values()) for changed in records]),
            "header_rows": in_record([row({**HEADER, **changed}.values()) for changed in headers]),
            "count": str(count),
            "number": str(number),
        }), about


def listed(batches, after, end):
    """A file of batches with some bytes after them, and its listing up to the last line. Markers are keyed."""
    file = [*batches, hexed(all_lines(after), 10)] if after else [*batches]
    text = [HEADING, *(line(decoded(data, keyed=True), len(data)) for data in batches.values()), end]
    return of_fields({
        "file": " ++ (".join(file) + ")" * (len(file) - 1),
        "listing": "lines (%s)" % several(map(quoted, text), 10),
    })


def record_examples():
    kcat, librdkafka = list(samples("kcat.log")), list(samples("librdkafka.log"))
    builder = list(samples("python-kafka-builder.log"))
    unlike = batch_bytes(UNLIKE, b"".join(map(record_bytes, UNLIKE_RECORDS)), 2, LOG_APPEND)
    loose = b"".join(record_bytes(record, 0x7F, 2) for record in LATE_RECORDS)
    loose = batch_bytes(LATE, loose, 2, TRANSACTIONAL + HIGHER)
    assert decoded(unlike).records == UNLIKE_RECORDS and decoded(loose).records == LATE_RECORDS
    return {
        "kcat": (kcat[1], "samples/kcat.log, the second batch: keys, values and headers."),
        "absent": (librdkafka[1], "samples/librdkafka.log, the second batch: null and empty keys and values."),
        "earlier": (librdkafka[4], "samples/librdkafka.log, the fifth batch: a negative delta."),
        "transaction": (builder[3], "samples/python-kafka-builder.log, the fourth batch: transactional, create time."),
        "unlike": (unlike, "Every number and every length is another: not transactional, log append time."),
        "loose": (loose, "Numbers in more bytes than they need, bits that say nothing, a record that has no time: not "
                         "canonical."),
        "bare": (batch_bytes(NEGATIVE, b"", -1, LOG_APPEND + HIGHER), "Count -1 and negative fields: not canonical."),
    }


def marker_examples():
    return {
        "committed": (batch_bytes(UNLIKE, COMMIT, 1, CONTROL + TRANSACTIONAL), "A commit marker of a transaction, create time."),
        "aborted": (batch_bytes(NEGATIVE, ABORT, 1, CONTROL + LOG_APPEND), "An abort marker, negative fields, log append time."),
    }


def keyed_examples():
    commit = batch_bytes(UNLIKE, marker_record(COMMIT), 1, CONTROL + TRANSACTIONAL)
    assert len(commit) == 72
    return {
        "keyed": (commit, "A commit marker of a transaction as it is written, create time."),
        "brokers": (SARAMA, "An abort marker with a value of six bytes, of sarama 1.22.1: not canonical."),
    }


def conversions():
    """Document 02, C-24: all fixed fields are kept but length and checksum. A keyed batch is copied."""
    def stored(data, given, about):
        return of_fields({"bytes": hexed(all_lines(data), 10), "converted": hexed(all_lines(given), 10)}), about

    def rekeyed(data):
        body = marker_record(data[BODY:])
        checked = data[CHECKED:BODY] + body
        counted = data[UNCOUNTED:CRC] + struct.pack(">I", crc32c(checked)) + checked
        return data[:8] + struct.pack(">i", len(counted)) + counted

    high = batch_bytes(HIGH, COMMIT, 1, 0x8070)
    assert rekeyed(high)[CRC:CHECKED].hex() == "198b7a08" and high[CRC:CHECKED].hex() == "4d8495b3"
    markers = marker_examples()
    keyed = keyed_examples()["keyed"][0]
    return [
        stored(markers["committed"][0], rekeyed(markers["committed"][0]), "a commit"),
        stored(markers["aborted"][0], rekeyed(markers["aborted"][0]), "an abort"),
        stored(high, rekeyed(high), "attribute bits above 5, as they stand"),
        stored(keyed, keyed, "a keyed marker"),
    ]


def keyed_parts():
    batches = keyed_examples()
    yield ABOUT_KEYED
    for name, (data, about) in batches.items():
        yield from example(name, data, about, keyed=True)
    yield defined("keyed_examples", "List Example", " ∷ ".join([*(batch + "_example" for batch in batches), "[]"]))
    about = "stored control batches whose marker stands alone, and a keyed one"
    yield table("conversions", "Stored", conversions(), about)


def listings(batches):
    committed = batch_bytes(UNLIKE, marker_record(COMMIT), 1, CONTROL + TRANSACTIONAL)
    aborted = batch_bytes(NEGATIVE, marker_record(ABORT), 1, CONTROL + LOG_APPEND)
    some = {
        "unlike": batches["unlike"][0], hexed(all_lines(committed), 10): committed,
        "bare": batches["bare"][0], hexed(all_lines(aborted), 10): aborted,
    }
    size = sum(map(len, some.values()))
    one = {"kcat": batches["kcat"][0]}
    wrong = batch_bytes(UNLIKE, b"", 0, magic=1)
    return [
        (listed(some, bytes(3), "stop 1 at %d\n" % size), "three bytes stand after the last batch"),
        (listed(one, b"", "end at %d\n" % len(one["kcat"])), "none do"),
        (listed(one, wrong, "stop 3 at %d\n" % len(one["kcat"])), "what is no batch does"),
        (listed(one, batches["committed"][0], "stop 41 at %d\n" % len(one["kcat"])), "a marker that stands alone does"),
    ]


def parts():
    records, markers = record_examples(), marker_examples()
    yield ABOUT
    yield "-- ---- worked batches\n"
    for name, (data, about) in {**records, **markers}.items():
        yield from example(name, data, about)
    for name, batches in ("record_examples", records), ("marker_examples", markers):
        yield defined(name, "List Example", " ∷ ".join([*(batch + "_example" for batch in batches), "[]"]))
    yield defined("examples", "List Example", "record_examples ++ marker_examples")
    headed = [batch + "_example" for batch in records if decoded(records[batch][0]).header_rows]
    yield defined("headed_examples", "List Example", " ∷ ".join([*headed, "[]"]), "those whose records have headers")
    yield "-- ---- refusals\n"
    yield table("batch_refusals", "Refusal", batch_refusals(records["kcat"][0]), "before the records or the marker")
    yield table("record_refusals", "Refusal", record_refusals(), "in records")
    yield table("marker_refusals", "Refusal", marker_refusals(), "in a marker")
    yield defined("refusals", "List Refusal", "batch_refusals ++ (record_refusals ++ marker_refusals)")
    yield private("source", "List ℕ", octets(SOURCE))
    yield table("row_refusals", "RowRefusal", row_refusals(), "in rows")
    yield "-- ---- listings\n"
    yield defined("longest", "ℕ", str(LONGEST), "the longest file that is listed, and what is said of a longer one")
    yield defined("too_long_text", "List ℕ", "text " + quoted(TOO_LONG))
    yield defined("heading_text", "List ℕ", "text " + quoted(HEADING), "what is said first of any other")
    yield table("listings", "Listed", listings({**records, **markers}), "files")


# The usual check value, of the digits 1 to 9.
assert crc32c(b"123456789") == 0xE3069283
made = {(): parts, ("keyed",): keyed_parts}[tuple(sys.argv[1:])]
print("\n".join(made()), end="")
