"""Batches to be made by producers: keys and values that are null, empty and long, headers, many records, times that go
back, and random ones. No time is 0, which librdkafka takes for the present."""
import random

from batches import Batch, CREATE_TIME, Record, RECORDS

NOW = 1_700_000_000_000
SEED = 7
SPANS = (None, b"", b"k", bytes(range(256)))
HEADERS = ([("trace", b"1")], [("", b"")], [("é€𐍈", b"\x00\xff")], [("h%d" % i, b"v" * i) for i in range(130)])


def batch(records, producer=(-1, -1, -1), transactional=0):
    times = [record.time for record in records]
    return Batch(0, 0, records[-1].offset, times[0], max(times), *producer, CREATE_TIME, transactional, RECORDS,
                 records)


def marker(kind, offset, producer=(7, 1)):
    """What ends the transaction of that producer. It has no number of its own among a producer's records."""
    return Batch(offset, 3, 0, NOW + 5, NOW + 5, *producer, -1, CREATE_TIME, 1, kind, [])


def plain(count):
    """Records as a pinning log has them."""
    return [Record(i, NOW + 3 * i, b"cookie-%017d" % i, b"backend-%08d" % i, []) for i in range(count)]


def every_span():
    pairs = [(key, value) for key in SPANS for value in SPANS]
    return [Record(i, NOW, key, value, []) for i, (key, value) in enumerate(pairs)]


def with_headers():
    return [Record(i, NOW + i, b"k", b"v", headers) for i, headers in enumerate(HEADERS)]


def times_back():
    times = (NOW, NOW - 1, 1, NOW + 2 ** 40, 2)
    return [Record(i, time, None, b"", []) for i, time in enumerate(times)]


def any_bytes(source, most):
    return bytes(source.randrange(256) for _ in range(source.randrange(most)))


def any_record(source, offset):
    key, value = (any_bytes(source, 80) if source.randrange(4) else None for _ in range(2))
    headers = [("name-%d" % source.randrange(9), any_bytes(source, 20)) for _ in range(source.randrange(-4, 4))]
    return Record(offset, NOW + source.randrange(-10 ** 6, 10 ** 9), key, value, headers)


def any_records(source):
    return [any_record(source, offset) for offset in range(source.randrange(1, 25))]


def fixed():
    yield batch([Record(0, 1, None, b"A", [])])
    yield batch(plain(1))
    yield batch(plain(1000))
    yield batch(every_span())
    yield batch(with_headers())
    yield batch(times_back())
    yield batch([Record(0, NOW, b"large", bytes(300_000), [])])
    yield batch(plain(3), producer=(2 ** 62, 2 ** 15 - 1, 2 ** 31 - 1))
    yield batch(plain(3), producer=(7, 1, 40), transactional=1)

def with_gaps():
    """As a compacted log has them; a producer that is told no offsets makes none."""
    return batch([Record(offset, NOW, None, None, []) for offset in (0, 5, 2 ** 31 - 1)])


def random_batches(count):
    source = random.Random(SEED)
    for _ in range(count):
        yield batch(any_records(source))


def all_batches():
    return [*fixed(), *random_batches(200)]
