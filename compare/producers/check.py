#!/usr/bin/python3
"""Holds Oddrafisk to real producers and consumers: compare/producers/run calls it with the programs that it has built.

    check.py DRIVER [RUST]

Prints who has read what. Fails, and shows the first line that differs, where one does not read what is due."""
import contextlib
import pathlib
import sys
from collections import namedtuple

from kafka.record.legacy_records import LegacyRecordBatchBuilder

import batches
import cases
import librdkafka
import ours
import python_kafka

TOP = pathlib.Path(__file__).resolve().parent.parent.parent
sys.path.append(str(TOP / "tools"))
from verdict import end

MORE_BYTES, UNKNOWN_MAGIC, COMPRESSED, NEGATIVE_LENGTH, UNKNOWN_MARKER, BARE_MARKER = 1, 3, 6, 10, 12, 41
# An abort and a commit by sarama 1.22.1, in the form that brokers write: version and type stand in the key of a record,
# whose value has six bytes.
BROKERS_MARKERS = bytes.fromhex(
    "0000000000000000 00000042 00000000 02 37473112 0030 00000000 0000018bcfe56800 0000018bcfe56801"
    "0000000000002329 0000 ffffffff 00000001 20 00 00 00 08 00000000 0c 000000000005 00"
    "0000000000000001 00000042 00000000 02 c379e75a 0030 00000000 0000018bcfe56800 0000018bcfe56801"
    "0000000000002329 0000 ffffffff 00000001 20 00 00 00 08 00000001 0c 000000000005 00")
BROKERS_LINES = [
    "read 0 0 0 0 1700000000000 1700000000001 9001 0 -1 0 1 1 0 0 78 0 0",
    "read 0 1 0 0 1700000000000 1700000000001 9001 0 -1 0 1 2 0 0 78 0 0",
]
# A commit and an abort in the withdrawn form, version and type alone, and their lines.
BARE_MARKERS = bytes.fromhex(
    "000000000000bc60 00000035 00000006 02 4ead2cdb 0030 00000000 000001932edfa903 000001932edfa903"
    "0000000000000fac 0003 ffffffff 00000001 00000001"
    "000000000000bc63 00000035 00000006 02 84c1ea3d 0030 00000000 000001932edffa19 000001932edffa19"
    "0000000000000fac 0003 ffffffff 00000001 00000000")
BARE_LINES = [
    "read 0 48224 6 0 1731658230019 1731658230019 4012 3 -1 0 1 2 0 0 65 0 0",
    "read 0 48227 6 0 1731658250777 1731658250777 4012 3 -1 0 1 1 0 0 65 0 0",
]
# What python3-kafka does not tell of samples/pinning.log, worked out from its bytes and kept by the base offset: the
# times of the records of a batch whose broker has set the time. Document 01 takes the producer's: the first timestamp
# is 1731658460100, the deltas are 0, 210 and 480.
PRODUCERS_TIMES = {48231: (1731658460100, 1731658460310, 1731658460580)}
# A log, and the lines that are due of its batches and records.
Log = namedtuple("Log", "data lines")


class Ended(Exception):
    """A test has failed, so that the rest of its set cannot be tried."""


class Tests:
    def __init__(self):
        self.passed = self.failed = 0

    @contextlib.contextmanager
    def named(self, name):
        try:
            yield
        except Exception as fault:
            self.failed += 1
            print("FAILED: %s: %s: %s" % (name, type(fault).__name__, fault))
            raise Ended
        self.passed += 1


def hold(got, due):
    """Fails where two lists, or two texts, are not the same."""
    got, due = (text.split("\n") if isinstance(text, str) else list(text) for text in (got, due))
    if got == due:
        return
    at = next((i for i, (a, b) in enumerate(zip(got, due)) if a != b), min(len(got), len(due)))
    raise ValueError("item %d of %d is\n%.300s\nand, of %d, should be\n%.300s" % (
        at, len(got), got[at:at + 1], len(due), due[at:at + 1]))


def hold_some(*counted):
    if not all(counted):
        raise ValueError("there is nothing to read")


class Readers:
    def __init__(self, tests, driver, rust=None):
        self.tests, self.library, self.listing = tests, ours.Library(driver), ours.Listing()
        self.rust = rust and ours.Rust(rust)

    def read_all(self, name, logs, others=""):
        """Each log is read by all as it is due, and is canonical."""
        records = sum(line.startswith("record ") for log in logs for line in log.lines)
        count = sum(len(log.lines) for log in logs) - records
        listed = [log for log in logs if len(log.data) <= ours.LIST_MOST]
        with self.tests.named(name + ", read by the library"):
            hold_some(count, records, listed)
            for log in logs:
                hold(self.library.read(log.data).lines, log.lines)
        with self.tests.named(name + ", canonical"):
            self.hold_canonical(logs)
        with self.tests.named(name + ", read by list"):
            for log in listed:
                self.hold_listed(log)
        if self.rust:
            others += ", the Rust"
            with self.tests.named(name + ", read by the Rust"):
                for log in map(without_markers, logs):
                    hold(self.rust.read(log.data), log.lines)
        print("%s: %d batches, %d records in %d logs, read alike by the library%s, and by list (%d logs); all are"
              " canonical" % (name, count, records, len(logs), others, len(listed)))

    def hold_canonical(self, logs):
        """The library says so of every batch, writes what it has read with the same bytes, and has nothing to convert
        in it."""
        for log in logs:
            read = self.library.read(log.data)
            hold([read.canonical], [sum(line.startswith("read ") for line in log.lines)])
            hold([read.written, read.converted], [log.data] * 2)

    def hold_listed(self, log):
        hold(self.listing.read(log.data), self.listing.expected(log.lines, len(log.data)))


def without_markers(log):
    """The log without its control batches, whose form the Rust does not know."""
    data = b"".join(data for data in batches.split(log.data) if not batches.is_control(data))
    return Log(data, [line for line in log.lines if line.startswith("record ") or line.split()[12] == "0"])


def packed(parts):
    """Logs of these batches with their lines, each as long as `list` takes, where a batch is no longer than that."""
    logs = []
    for data, lines in parts:
        if logs and len(logs[-1].data) + len(data) <= ours.LIST_MOST:
            logs[-1] = Log(logs[-1].data + data, logs[-1].lines + lines)
        else:
            logs.append(Log(data, lines))
    return logs


def asked(made):
    """The logs of batches that were asked for."""
    return packed((data, batches.lines(batch, len(data))) for batch, data in made)


def read_alike(data):
    """The lines of a batch that nobody here has asked for: as python3-kafka reads it, and what it does not tell."""
    batch = python_kafka.read_batch(data)
    if batch.timestamp_type != batches.CREATE_TIME:
        times = zip(batch.records, PRODUCERS_TIMES[batch.base_offset], strict=True)
        batch = batch._replace(records=[record._replace(time=time) for record, time in times])
    return batches.lines(batch, len(data))


def samples(readers):
    name, logs = "samples", []
    with readers.tests.named(name + ", read by python3-kafka"):
        for path in sorted(TOP.glob("samples/*.log")):
            data = path.read_bytes()
            logs.append(Log(data, [line for batch in batches.split(data) for line in read_alike(batch)]))
    readers.read_all(name, logs, ", python3-kafka")


def by_python_kafka(readers, name, making):
    """The batches that are made, each with its bytes, once python3-kafka has read them."""
    with readers.tests.named(name + ", read by python3-kafka"):
        made = list(making)
        for batch, data in made:
            hold(python_kafka.read(data), [(batch, len(data))])
    return made


def from_python_kafka(readers):
    name = "made by python3-kafka"
    chosen = [*cases.all_batches(), cases.with_gaps()]
    made = by_python_kafka(readers, name, ((batch, python_kafka.made(batch)) for batch in chosen))
    readers.read_all(name, asked(made), ", python3-kafka")
    with readers.tests.named("written as python3-kafka writes it"):
        for batch, data in made:
            hold([readers.library.write(batch)], [data])
    print("written by the library: the same bytes as python3-kafka's, %d batches" % len(made))


def from_librdkafka(readers, name, idempotent):
    runs = [batch.records for batch in cases.all_batches()]
    with readers.tests.named(name + ", read by python3-kafka as sent"):
        cluster = librdkafka.Cluster(**{"enable.idempotence": idempotent})
        for run in runs:
            cluster.produce(run)
        log = cluster.fetch()
        found = [batch for batch, _ in python_kafka.read(log)]
        hold([record for batch in found for record in batch.records], librdkafka.numbered(runs))
        hold([batch.producer_id != -1 for batch in found], [idempotent] * len(found))
    readers.read_all(name, packed((data, read_alike(data)) for data in batches.split(log)), ", python3-kafka")


def written_batches():
    """All cases, away from offset 0 and with a leader epoch; and one whose broker has set the time."""
    for batch in [*cases.all_batches(), cases.with_gaps(), cases.batch(cases.plain(1))._replace(timestamp_type=1)]:
        base = 2 ** 40
        records = [record._replace(offset=base + record.offset) for record in batch.records]
        yield batch._replace(base_offset=base, partition_leader_epoch=5, records=records)


def from_library(readers):
    name = "written by the library"
    write = readers.library.write
    written = by_python_kafka(readers, name, ((batch, write(batch)) for batch in written_batches()))
    readers.read_all(name, asked(written), ", python3-kafka")


def by_librdkafka(readers):
    written = cases.all_batches()
    due = librdkafka.numbered(batch.records for batch in written)
    with readers.tests.named("written by the library, read by librdkafka"):
        hold_some(due)
        cluster = librdkafka.Cluster()
        for batch in written:
            cluster.put(readers.library.write(batch))
        hold(cluster.consume(len(due)), due)
    print("written by the library: %d batches, %d records, read by librdkafka's consumer, with the same records" % (
        len(written), len(due)))


def brokers_markers(readers):
    """Markers as brokers write them are read, and kept in converting. They are not canonical: the library writes no
    value."""
    name = "sarama's markers"
    markers = list(batches.split(BROKERS_MARKERS))
    with readers.tests.named(name + ", read by python3-kafka"):
        read = [python_kafka.read_marker(data) for data in markers]
        hold([line for batch, _ in read for line in batches.lines(batch, 78)], BROKERS_LINES)
    with readers.tests.named(name + ", read by the library"):
        written = b"".join(readers.library.write(batch) for batch, _ in read)
        due = ours.Reading(BROKERS_LINES, 0, written, BROKERS_MARKERS, MORE_BYTES)
        hold(readers.library.read(BROKERS_MARKERS), due)
    with readers.tests.named(name + ", read by list"):
        readers.hold_listed(Log(BROKERS_MARKERS, BROKERS_LINES))
    print("%s: %d, read alike by the library, python3-kafka, and by list; none is canonical" % (name, len(markers)))


def bare_markers(readers):
    """Markers in the withdrawn form, which the Rust reads, are refused in both modes. What is converted of them is read
    by python3-kafka with the same fields, and is all that the library writes for these."""
    name = "bare markers"
    markers = list(batches.split(BARE_MARKERS))
    if readers.rust:
        with readers.tests.named(name + ", read by the Rust"):
            hold(readers.rust.read(BARE_MARKERS), BARE_LINES)
    with readers.tests.named(name + ", refused by the library"):
        read = [readers.library.read(data, mode) for data in markers for mode in (ours.BARE, ours.KEYED)]
        hold([reading._replace(converted=b"") for reading in read],
             [ours.Reading([], 0, b"", b"", BARE_MARKER)] * len(read))
    with readers.tests.named(name + ", converted, read by python3-kafka"):
        converted = [reading.converted for reading in read[1::2]]
        hold([reading.converted for reading in read[::2]], converted)
        lines = [line.replace(" 65 0 0", " 72 0 0") for line in BARE_LINES]
        hold([line for data in converted for line in batches.lines(python_kafka.read_batch(data), len(data))], lines)
    with readers.tests.named(name + ", converted, read by the library, canonical"):
        log = Log(b"".join(converted), lines)
        hold(readers.library.read(log.data), ours.Reading(lines, len(markers), log.data, log.data, MORE_BYTES))
    with readers.tests.named(name + ", converted, read by list"):
        readers.hold_listed(log)
    print("%s: %d, refused by the library, and once converted read alike by it, python3-kafka, and by list; all are"
          " canonical" % (name, len(markers)))


def keyed_markers(readers):
    """What the library writes is one record to python3-kafka, with the four bytes as its key."""
    name = "markers written by the library"
    chosen = [cases.marker(kind, 2 ** 40 + kind) for kind in (batches.ABORT, batches.COMMIT)]
    with readers.tests.named(name + ", read by python3-kafka"):
        written = [readers.library.write(batch) for batch in chosen]
        for batch, data in zip(chosen, written, strict=True):
            key = {kind: key for key, kind in python_kafka.KINDS.items()}[batch.kind]
            record = batches.Record(batch.base_offset, batch.first_timestamp, key, None, [])
            hold(python_kafka.read_marker(data), (batch, record))
    with readers.tests.named(name + ", read by the library, canonical"):
        log, lines = b"".join(written), [line for batch in chosen for line in batches.lines(batch, 72)]
        hold(readers.library.read(log), ours.Reading(lines, len(chosen), log, log, MORE_BYTES))
    with readers.tests.named(name + ", read by list"):
        readers.hold_listed(Log(log, lines))
    print("%s: %d, read alike by the library, python3-kafka, and by list: control batches of one record" % (
        name, len(chosen)))


def transactions(readers):
    """Transactions, each ended by a marker, with further records after the last of them. The cluster
    names no transaction that was aborted, so the consumer reads the records of that one, too."""
    records = cases.batch(cases.plain(3), producer=(7, 1, 40), transactional=1)
    commit, abort = (cases.marker(kind, 0) for kind in (batches.COMMIT, batches.ABORT))
    put = [records, commit, records._replace(base_sequence=43), commit, records._replace(base_sequence=46), abort,
           cases.batch(cases.plain(2))]
    due, log, lines = [], b"", []
    with readers.tests.named("markers between transactions, passed over by librdkafka"):
        cluster = librdkafka.Cluster()
        at = 0
        for batch in put:
            data = readers.library.write(batch)
            cluster.put(data)
            # The cluster gives each batch its offset, which the checksum leaves out.
            log += at.to_bytes(8, "big") + data[8:]
            moved = [record._replace(offset=at + record.offset) for record in batch.records]
            due += moved
            lines += batches.lines(batch._replace(base_offset=at, records=moved), len(data))
            at += max(1, len(moved))
        hold(cluster.consume(len(due)), due)
    with readers.tests.named("markers between transactions, read by the library"):
        hold([cluster.fetch()], [log])
        hold(readers.library.read(log), ours.Reading(lines, len(put), log, log, MORE_BYTES))
    with readers.tests.named("markers between transactions, read by list"):
        readers.hold_listed(Log(log, lines))
    print("markers between transactions: librdkafka's consumer passes over %d and reads %d records; the library and"
          " list read all %d batches" % (len(put) - sum(1 for b in put if b.records), len(due), len(put)))


def refused(readers):
    """What real producers make, too, and document 01 leaves out."""
    record, = cases.plain(1)
    without_value = record._replace(headers=[("h", None)])
    old = LegacyRecordBatchBuilder(magic=1, compression_type=0, batch_size=2 ** 16)
    old.append(0, timestamp=record.time, key=record.key, value=record.value)
    made = {
        "python3-kafka's null header value": (python_kafka.made(cases.batch([without_value])), NEGATIVE_LENGTH),
        "its gzip": (python_kafka.made(cases.batch(cases.plain(100)), python_kafka.GZIP), COMPRESSED),
        "its magic 1": (bytes(old.build()), UNKNOWN_MAGIC),
    }
    for name, (data, number) in made.items():
        with readers.tests.named("refused, " + name):
            hold(readers.library.read(data), ours.Reading([], 0, b"", b"", number))
    for kind, data in zip(("abort", "commit"), batches.split(BROKERS_MARKERS), strict=True):
        name = "sarama's %s in bare mode" % kind
        made[name] = data, UNKNOWN_MARKER
        with readers.tests.named("refused, " + name):
            hold(readers.library.read(data, ours.BARE), ours.Reading([], 0, b"", data, UNKNOWN_MARKER))
    print("refused: " + ", ".join("%s by %d" % (n, k) for n, (_, k) in made.items()))


def main():
    tests = Tests()
    readers = Readers(tests, *sys.argv[1:])
    for tried, *words in (
        (samples,),
        (from_python_kafka,),
        (from_librdkafka, "made by librdkafka", False),
        (from_librdkafka, "made by librdkafka, idempotent", True),
        (from_library,),
        (by_librdkafka,),
        (brokers_markers,),
        (bare_markers,),
        (keyed_markers,),
        (transactions,),
        (refused,),
    ):
        with contextlib.suppress(Ended):
            tried(readers, *words)
    end(tests.passed, tests.failed)


main()
