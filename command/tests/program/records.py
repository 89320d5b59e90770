#!/usr/bin/env python3
"""Compares what `oddrafisk dump --json` writes with the logs, which are read here after document 01:

    oddrafisk dump --json [--fields] FILE... | records.py [--fields] FILE...

Each line has to be an object of strict JSON, and the one that is due. Prints how many lines there were."""
import json
import os
import struct
import sys

FIXED = struct.Struct(">qiiBIHiqqqhii")
FIELDS = ("base_offset", "partition_leader_epoch", "last_offset_delta", "first_timestamp", "max_timestamp",
          "producer_id", "producer_epoch", "base_sequence")
assert FIXED.size == 61


class Body:
    """The bytes after the fixed fields; the logs here are all right, so nothing is judged."""

    def __init__(self, data):
        self.data = data
        self.at = 0

    def take(self, n):
        self.at += n
        return self.data[self.at - n:self.at]

    def varint(self):
        code = shift = 0
        while True:
            byte = self.take(1)[0]
            code |= (byte & 127) << shift
            shift += 7
            if byte < 128:
                return -(code + 1) // 2 if code & 1 else code // 2

    def sized(self):
        n = self.varint()
        return None if n == -1 else self.take(n)


def shown(data):
    if data is None:
        return None
    try:
        return data.decode("utf-8")
    except UnicodeDecodeError:
        return {"hex": data.hex().upper()}


def in_64_bits(n):
    return n if -2 ** 63 <= n < 2 ** 63 else None


def read_record(body, base, first):
    body.varint()
    body.take(1)
    time, offset = first + body.varint(), base + body.varint()
    key, value = body.sized(), body.sized()
    headers = [(body.sized(), body.sized()) for _ in range(body.varint())]
    return {"offset": in_64_bits(offset), "time": in_64_bits(time), "key": shown(key), "value": shown(value),
            "headers": [{"key": shown(k), "value": shown(v)} for k, v in headers]}


def read_marker(body):
    """The type that the key of a marker's record has after its version."""
    body.varint()
    body.take(1)
    body.varint()
    body.varint()
    return struct.unpack_from(">hh", body.sized())[1]


def read_batch(data, place):
    """The fields of the batch that starts there, by name, and its records."""
    base, size, epoch, _, _, attributes, last, first, greatest, producer, *rest, count = FIXED.unpack_from(data, place)
    body = Body(data[place + FIXED.size:place + 12 + size])
    fields = dict(zip(FIELDS, (base, epoch, last, first, greatest, producer, *rest)))
    records = []
    kind = "records"
    if attributes & 32:
        kind = ("abort", "commit")[read_marker(body)]
    else:
        records = [read_record(body, base, first) for _ in range(count)]
    fields.update(place=place, timestamp_type=("CreateTime", "LogAppendTime")[attributes >> 3 & 1],
                  is_transactional=bool(attributes & 16), kind=kind, records=len(records),
                  headers=sum(len(record["headers"]) for record in records), bytes=12 + size)
    return fields, records


def due_of(name, extra, with_fields):
    with open(name, "rb") as log:
        data = log.read()
    place = 0
    while place < len(data):
        fields, records = read_batch(data, place)
        if with_fields:
            yield {**extra, "batch": fields}
        for record in records:
            yield {**extra, **record}
        place += fields["bytes"]


def once(pairs):
    assert len({key for key, _ in pairs}) == len(pairs), "a name comes twice"
    return dict(pairs)


def forbid(text):
    raise ValueError("%s is no strict JSON here" % text)


def main():
    names = sys.argv[1:]
    with_fields = names[:1] == ["--fields"]
    names = names[with_fields:]
    due = []
    for name in names:
        extra = {"file": shown(os.fsencode(name))} if len(names) > 1 else {}
        due += due_of(name, extra, with_fields)
    text = sys.stdin.buffer.read().decode("utf-8")
    lines = text.splitlines()
    assert text == "".join(line + "\n" for line in lines), "a line is one for every program"
    for line, wanted in zip(lines, due):
        got = json.loads(line, object_pairs_hook=once, parse_constant=forbid, parse_float=forbid)
        assert got == wanted, "%s\nis due, and not\n%s" % (wanted, got)
    assert len(lines) == len(due), "%d lines are due, and not %d" % (len(due), len(lines))
    print(len(lines))


main()
