#!/usr/bin/env python3
"""Prints the inputs that driver.c runs on each processor, always the same ones:

    compare/processors/inputs.py > FILE

The logs of samples/; the cases of crates/batch_vectors; every beginning of some batches, every change of one byte of
four of them, as it is and with the checksum set right; random batches to write; random bytes; times at every limit.
What is expected does not stand here: the processors are held to each other, and the library to document 01 elsewhere.
"""
import pathlib
import random
import struct

TOP = pathlib.Path(__file__).resolve().parent.parent.parent
FIXED_PART = 61
CRC_AT, CHECKED_FROM = 17, 21
LEAST, GREATEST = -2 ** 63, 2 ** 63 - 1
LEAST_32, GREATEST_32 = -2 ** 31, 2 ** 31 - 1
RANDOM_BATCHES = 6000
SEED = 20
# One batch of pinning.log with a header, and a marker: few bytes, every kind of field.
CHANGED_BATCHES = (3, 5)
# A commit as brokers write it: version and type in the key of a record, and a value of six bytes.
KEYED_MARKER = bytes.fromhex(
    "0000000000000009 00000042 00000003 02 00000000 0030 00000000 0000018bcfe56800 0000018bcfe56801"
    "0000000000002329 0004 ffffffff 00000001 20 00 00 00 08 00000001 0c 000000000005 00")
# A commit in the withdrawn form: version and type alone. Its attributes have bits that no writer gives.
BARE_MARKER = bytes.fromhex(
    "0000000000000005 00000035 00000003 02 4d8495b3 8070 00000000 00000000000003e8 00000000000003e8"
    "0000000000000009 0001 ffffffff 00000001 00000001")
CRC_TABLE = []
for byte in range(256):
    for _ in range(8):
        byte = byte >> 1 ^ (0x82F63B78 if byte & 1 else 0)
    CRC_TABLE.append(byte)


def crc32c(data):
    crc = 0xFFFFFFFF
    for byte in data:
        crc = crc >> 8 ^ CRC_TABLE[(crc ^ byte) & 255]
    return crc ^ 0xFFFFFFFF


def log(data):
    print("log", data.hex().upper())


def request(codec, entries, records, headers, source):
    lists = ((codec, *entries), records, headers)
    print("write", "|".join(" ".join(map(str, numbers)) for numbers in lists) + "|" + source.hex().upper())


def time(*numbers):
    print("time", *numbers)


# ---- from the repository


def batches_of(data):
    """The batches of a log that is known to be good."""
    while data:
        length = 12 + struct.unpack(">i", data[8:12])[0]
        yield data[:length]
        data = data[length:]


def samples():
    return sorted(TOP.glob("samples/*.log"))


def unhexed(text):
    return b"" if text == "-" else bytes.fromhex(text)


def vector(line):
    """A case of crates/batch_vectors, whose first lines say what its words are. Here each is run in both modes."""
    for mode in "bare ", "keyed ":
        line = line.removeprefix(mode)
    kind, *words = line.split(" ")
    if kind in ("batch", "cuts", "canonical"):
        log(unhexed(words[0]))
    elif kind == "time":
        for timestamp_type in range(-1, 3):
            time(timestamp_type, words[0], 0, words[1])
    elif kind == "write":
        numbers, *rows = line.split("|")
        source, _, codec, batch_kind, count, *fields = numbers.split(" ")[1:]
        entries = (*fields[:10], batch_kind, count, 0, 0, 0, 0)
        request(codec, entries, *(part.split() for part in rows), unhexed(source))


def vectors():
    for line in (TOP / "crates/batch_vectors/stdin").read_text().splitlines():
        vector(line)


# ---- damage


def repaired(data):
    crc = crc32c(data[CHECKED_FROM:])
    return data[:CRC_AT] + crc.to_bytes(4, "big") + data[CHECKED_FROM:]


def beginnings(batch):
    for length in range(len(batch)):
        log(batch[:length])


def shortened(batch):
    """Batches that end early by their own length, so that the end is no lack of bytes."""
    for length in range(CHECKED_FROM, len(batch)):
        log(repaired(batch[:8] + (length - 12).to_bytes(4, "big") + batch[12:length]))


def changes(batch):
    for place in range(len(batch)):
        for more in range(1, 256):
            changed = batch[:place] + bytes([(batch[place] + more) % 256]) + batch[place + 1:]
            log(changed)
            if place >= CHECKED_FROM:
                log(repaired(changed))


def long_numbers(batch):
    """Bytes that go on are put over the fields, so that numbers of varying length pass their limits."""
    for place in range(FIXED_PART, len(batch)):
        for count in range(2, 11):
            for byte in 0x80, 0xFF:
                changed = batch[:place] + bytes([byte] * count) + batch[place + count:]
                log(repaired(changed[:len(batch)]))


def damage():
    batches = list(batches_of((TOP / "samples/pinning.log").read_bytes()))
    markers = repaired(KEYED_MARKER), BARE_MARKER
    for batch in *batches, *markers:
        beginnings(batch)
        shortened(batch)
        long_numbers(batch)
    for batch in *(batches[chosen] for chosen in CHANGED_BATCHES), *markers:
        log(batch)
        changes(batch)


# ---- random


class Chance:
    """Random choices that are the same with every Python: random() alone is promised to be."""

    def __init__(self, seed):
        self.source = random.Random(seed)

    def below(self, n):
        return int(self.source.random() * n)

    def between(self, least, greatest):
        return least + self.below(greatest - least + 1)

    def near(self, least, greatest):
        """Small, or of any size, or at a limit."""
        way = self.below(4)
        if way == 0:
            return self.between(-3, 3)
        if way == 1:
            return (least, least + 1, greatest - 1, greatest)[self.below(4)]
        size = self.below(greatest.bit_length() + 1)
        return max(least, min(greatest, self.between(-2 ** size, 2 ** size)))

    def bytes(self, count):
        return bytes(self.below(256) for _ in range(count))

    def text(self, count):
        return "".join("aZ09 é€𐍈"[self.below(8)] for _ in range(count)).encode()

    def length(self):
        return self.below((1, 3, 70, 70, 300)[self.below(5)])


class Request:
    """A batch to write, its source being filled as rows are added."""

    def __init__(self, chance):
        self.chance = chance
        self.source, self.records, self.headers = b"", [], []
        self.entries = [
            chance.near(LEAST, GREATEST), *(chance.near(LEAST_32, GREATEST_32) for _ in range(2)),
            *(chance.near(LEAST, GREATEST) for _ in range(3)), chance.near(-2 ** 15, 2 ** 15 - 1),
            chance.near(LEAST_32, GREATEST_32), chance.below(2), chance.below(2)]

    def span(self, data):
        if data is None:
            return 0, -1
        self.source += data
        return len(self.source) - len(data), len(data)

    def nullable(self):
        return self.span(self.chance.bytes(self.chance.length()) if self.chance.below(4) else None)

    def record(self):
        first, count = len(self.headers) // 4, self.chance.below(4) if self.chance.below(3) == 0 else 0
        for _ in range(count):
            self.headers += *self.span(self.chance.text(self.chance.below(6))), *self.span(
                self.chance.bytes(self.chance.length()))
        deltas = self.chance.near(LEAST, GREATEST), self.chance.near(LEAST_32, GREATEST_32)
        self.records += *deltas, *self.nullable(), *self.nullable(), first, count

    def damaged(self):
        """One number is set to another."""
        numbers = (self.entries, self.records, self.headers)[self.chance.below(3)]
        if numbers:
            numbers[self.chance.below(len(numbers))] = self.chance.near(LEAST, GREATEST)

    def show(self):
        request(self.chance.below(40) // 39, self.entries, self.records, self.headers, self.source)


def random_batches():
    chance = Chance(SEED)
    for _ in range(RANDOM_BATCHES):
        made = Request(chance)
        kind = max(0, chance.between(-20, 2))
        count = 0 if kind else chance.below(6)
        for _ in range(count):
            made.record()
        made.entries += kind, count, 0, 0, 0, 0
        if chance.below(5) == 0:
            made.damaged()
        made.show()


def longest_batches():
    """Sizes on both sides of the greatest batchLength: records that all show the same bytes."""
    source = bytes(2 ** 16)
    fixed, of_each = FIXED_PART - 12, 1 + 1 + 1 + 1 + 3 + 1 + 2 ** 16 + 3
    count = (GREATEST_32 - fixed) // of_each
    left = GREATEST_32 - fixed - count * of_each
    for last in range(left - 12, left + 3):
        rows = (0, 0, 0, -1, 0, 2 ** 16, 0, 0) * count + (0, 0, 0, -1, 0, last, 0, 0)
        request(0, [0] * 11 + [count + 1, 0, 0, 0, 0], rows, (), source)


def random_bytes():
    chance = Chance(SEED + 1)
    for length in range(1500):
        log(chance.bytes(length))


def times():
    limits = (LEAST, LEAST + 1, -1, 0, 1, GREATEST - 1, GREATEST)
    for timestamp_type in (LEAST, -1, 0, 1, 2, GREATEST):
        for first in limits:
            for greatest in limits:
                for delta in limits:
                    time(timestamp_type, first, greatest, delta)


def main():
    for sample in samples():
        log(sample.read_bytes())
    vectors()
    damage()
    random_batches()
    longest_batches()
    random_bytes()
    times()


main()
