"""Batches made and read by python3-kafka."""
from kafka.record.default_records import DefaultRecordBatch, DefaultRecordBatchBuilder
from kafka.record.memory_records import MemoryRecords

from batches import ABORT, Batch, COMMIT, Record, RECORDS, split

MAGIC = 2
NO_CODEC, GZIP = 0, 1
# Version and type, by Kafka's definition of a control record's key.
KINDS = {b"\0\0\0\0": ABORT, b"\0\0\0\1": COMMIT}


def made(batch, codec=NO_CODEC):
    builder = DefaultRecordBatchBuilder(
        magic=MAGIC, compression_type=codec, is_transactional=batch.is_transactional, producer_id=batch.producer_id,
        producer_epoch=batch.producer_epoch, base_sequence=batch.base_sequence, batch_size=2 ** 24)
    for record in batch.records:
        if builder.append(record.offset, record.time, record.key, record.value, record.headers) is None:
            raise ValueError("python3-kafka takes no more records")
    return bytes(builder.build())


def read_batch(data):
    """The batch with these bytes. A control batch has no records: its record says of what kind it is."""
    found = checked(data)
    return read_marker(data)[0] if found.is_control_batch else batch_of(data, found, RECORDS, records_of(found))


def read_marker(data):
    """The control batch with these bytes, as its record's key says, and that record."""
    found = checked(data)
    if not found.is_control_batch:
        raise ValueError("python3-kafka finds no control batch")
    record, = records_of(found)
    return batch_of(data, found, KINDS[record.key], []), record


def checked(data):
    found = MemoryRecords(data).next_batch()
    if not found.validate_crc():
        raise ValueError("python3-kafka finds a wrong checksum")
    return found


def records_of(found):
    return [Record(record.offset, record.timestamp, record.key, record.value, record.headers) for record in found]


def batch_of(data, found, kind, records):
    base, _, epoch, _, _, _, last, first, greatest, *producer, _ = DefaultRecordBatch.HEADER_STRUCT.unpack_from(data)
    transactional = int(found.is_transactional)
    return Batch(base, epoch, last, first, greatest, *producer, found.timestamp_type, transactional, kind, records)


def read(log):
    """The batches of a log, each with its size."""
    return [(read_batch(data), len(data)) for data in split(log)]
