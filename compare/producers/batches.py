"""Batches and records as all sides name them, and the lines by which readers are held to each other."""
import struct
from collections import namedtuple

# The fields are named and ordered as the entries of bindings/c/oddrafisk.h.
Batch = namedtuple("Batch", "base_offset partition_leader_epoch last_offset_delta first_timestamp max_timestamp"
                            " producer_id producer_epoch base_sequence timestamp_type is_transactional kind records")
Record = namedtuple("Record", "offset time key value headers")
CREATE_TIME = 0
RECORDS, ABORT, COMMIT = range(3)
BATCH_LENGTH_AT, BEFORE_LENGTH = 8, 12
LOW_ATTRIBUTES_AT, CONTROL = 22, 32


def split(log):
    """The batches of a log, each with its bytes."""
    while log:
        length = BEFORE_LENGTH + struct.unpack_from(">i", log, BATCH_LENGTH_AT)[0]
        yield log[:length]
        log = log[length:]


def is_control(data):
    """Whether the batch with these bytes has the control bit."""
    return data[LOW_ATTRIBUTES_AT] & CONTROL != 0


def span(data):
    return "null" if data is None else "x" + data.hex().upper()


def record_line(base_offset, record):
    spans = [record.key, record.value]
    for key, value in record.headers:
        spans += key.encode(), value
    return " ".join(["record", str(record.offset - base_offset), str(record.time), *map(span, spans)])


def lines(batch, size):
    """What compare/processors/driver.c prints of a batch that is accepted, and of its records."""
    headers = sum(len(record.headers) for record in batch.records)
    entries = (*batch[:-1], len(batch.records), headers, size, 0, 0)
    return [" ".join(["read 0", *map(str, entries)])] + [
        record_line(batch.base_offset, record) for record in batch.records]
