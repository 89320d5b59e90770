"""Batches made and read by librdkafka, through the cluster that it has for tests, on 127.0.0.1. What its producer has
sent is fetched from there as bytes, and bytes are put there for its consumer; python3-kafka encodes these requests."""
import socket

from confluent_kafka import Consumer, Producer, TIMESTAMP_CREATE_TIME, TopicPartition
from kafka.protocol.fetch import FetchRequest
from kafka.protocol.parser import KafkaProtocol
from kafka.protocol.produce import ProduceRequest

from batches import Record, split

TOPIC, PARTITION = "compare", 0
MOST = 2 ** 24
SECONDS = 30


class Cluster:
    """The cluster lives as long as its producer."""

    def __init__(self, **settings):
        self.producer = Producer({"test.mock.num.brokers": 1, "log_level": 0, "linger.ms": 50, **settings})
        broker, = self.producer.list_topics(TOPIC, timeout=SECONDS).brokers.values()
        self.address = (broker.host, broker.port)
        self.connection = socket.create_connection(self.address, SECONDS)
        self.protocol = KafkaProtocol(client_id="compare", api_version=(0, 11))

    def ask(self, request):
        self.protocol.send_request(request)
        self.connection.sendall(self.protocol.send_bytes())
        while True:
            received = self.connection.recv(65536)
            if not received:
                raise ConnectionError("librdkafka's cluster has closed the connection")
            for _, response in self.protocol.receive_bytes(received):
                return response

    def produce(self, records):
        """Sends them as one run."""
        failed = []
        for record in records:
            self.producer.produce(TOPIC, key=record.key, value=record.value, partition=PARTITION, timestamp=record.time,
                                  headers=record.headers,
                                  on_delivery=lambda error, _: failed.append(error) if error else None)
        if self.producer.flush(SECONDS) or failed:
            raise ValueError("librdkafka has not delivered all: %s" % failed)

    def fetch(self):
        """All that the partition has, batch by batch, since the cluster gives one at a time."""
        log, at, end = b"", 0, 1
        while at < end:
            request = FetchRequest[4](-1, 1000 * SECONDS, 1, MOST, 0, [(TOPIC, [(PARTITION, at, MOST)])])
            (_, ((_, error, end, *_, data),)), = self.ask(request).topics
            if error or not data:
                raise ValueError("librdkafka's cluster gives nothing at %d of %d, error %d" % (at, end, error))
            log += data
            for batch in split(data):
                at = int.from_bytes(batch[:8], "big") + int.from_bytes(batch[23:27], "big") + 1
        return log

    def put(self, batch):
        """Sends the bytes of a batch to the partition."""
        request = ProduceRequest[3](None, 1, 1000 * SECONDS, [(TOPIC, [(PARTITION, batch)])])
        (_, ((_, error, *_),)), = self.ask(request).topics
        if error:
            raise ValueError("librdkafka's cluster does not take the batch, error %d" % error)

    def consume(self, count):
        consumer = Consumer({"bootstrap.servers": "%s:%d" % self.address, "group.id": "compare", "log_level": 0,
                             "check.crcs": True, "auto.offset.reset": "error", "isolation.level": "read_committed"})
        consumer.assign([TopicPartition(TOPIC, PARTITION, 0)])
        records = []
        while len(records) < count:
            message = consumer.poll(SECONDS)
            if message is None or message.error():
                raise ValueError("librdkafka has read %d of %d records: %s" % (
                    len(records), count, message and message.error()))
            records.append(record_of(message))
        consumer.close()
        return records


def numbered(runs):
    """The records of the runs as a partition has them: their offsets go on from 0."""
    records = [record for run in runs for record in run]
    return [record._replace(offset=offset) for offset, record in enumerate(records)]


def record_of(message):
    kind, time = message.timestamp()
    if kind != TIMESTAMP_CREATE_TIME:
        raise ValueError("librdkafka reads a time of another kind")
    return Record(message.offset(), time, message.key(), message.value(), message.headers() or [])
