#!/usr/bin/python3
"""Sends a batch to the partitions, and keeps their answers in a file of SQLite, each once. docs/PARTITIONS.md has the format.

    partitions.py send NAME BATCH [STOP] < LINES     breaks off once STOP lines are confirmed; again with all lines, it sends the rest
    partitions.py receive FILE SECONDS               ends after so long without an answer; again, it goes on where it was

DESK_BROKERS is that of desk send. A lost connection ends it: run it again. A batch that broke off before the number of partitions
changed isn't to be sent again: send what has no answer as another one.
"""
import collections
import hashlib
import json
import os
import sqlite3
import sys
import time
import uuid

import pika

BROKERS = os.environ.get("DESK_BROKERS", "amqp://127.0.0.1").split(",")
REQUESTS, ANSWERS = "desk.2.requests", "desk.2.answers"  # the exchanges
PATIENCE = 60  # seconds until a message has to come that is due
AFTER_ALL = 1 << 32  # greater than each place in a message


def connect():
    """Connects to the first broker that can be reached."""
    return pika.BlockingConnection([pika.URLParameters(broker) for broker in BROKERS])


class Partition(collections.namedtuple("Partition", "epoch count number")):
    """The one with this number, of so many since a change of how many there are."""

    def name(self, kind):
        return f"{kind}.{self.number}.of.{self.count}" + (f".{self.epoch}" if self.epoch else "")


def number_of(key, count):
    return int.from_bytes(hashlib.sha256(key.encode()).digest()[:8], "big") % count


class Reader:
    """Reads a stream from an offset on, or from "first", "last" or "next"."""

    def __init__(self, connection, stream, begin):
        self.connection, self.channel, self.arrived = connection, connection.channel(), collections.deque()
        self.channel.basic_qos(prefetch_count=200)  # a stream needs this, and acknowledgements
        self.channel.basic_consume(stream, lambda *message: self.arrived.append(message), arguments={"x-stream-offset": begin})

    def next(self, seconds=PATIENCE):
        """The offset, the routing key, the headers and the body of the next message; None if none came in time."""
        late = time.monotonic() + seconds
        self.connection.process_data_events(time_limit=0)
        while not self.arrived and time.monotonic() < late:
            self.connection.process_data_events(time_limit=0.1)
        if not self.arrived:
            return None
        _, method, properties, body = self.arrived.popleft()
        self.channel.basic_ack(method.delivery_tag)
        return properties.headers["x-stream-offset"], method.routing_key, properties.headers, body


class Scale:
    """How many partitions there are, and were."""

    def __init__(self, connection):
        self.reader, self.counts, self.is_open = Reader(connection, "desk.2.scale", "first"), [], False
        while not self.counts:
            self.take(self.reader.next() or sys.exit("nothing says how many partitions there are"))

    def read(self, mark=None):
        """Reads what is there, or all up to a message with this mark."""
        while message := self.reader.next(PATIENCE if mark else 0):
            if mark and message[2].get("mark") == mark:
                return
            self.take(message)

    def take(self, message):
        """Takes in a record, if it counts."""
        _, key, headers, _ = message
        kind, epoch, count = (headers.get(name) for name in ("kind", "epoch", "partitions"))
        if key != "scale":
            return
        if kind == "declared" and not self.counts or kind == "begin" and self.counts and not self.is_open and epoch == len(self.counts):
            self.is_open = kind == "begin"
            self.counts.append(count)
        elif kind == "done" and epoch == len(self.counts) - 1:
            self.is_open = False

    def all(self, epoch):
        return [Partition(epoch, self.counts[epoch], number) for number in range(self.counts[epoch])]


class Sender:
    """A process that sends under a name. It ends the one before."""

    def __init__(self, connection, name):
        self.connection, self.name, self.epoch = connection, name, 0
        self.channel = connection.channel()
        self.channel.confirm_delivery()  # from now on a message is in its stream when basic_publish returns
        self.scale = Scale(connection)
        self.scale.read()
        self.partitions = self.scale.all(len(self.scale.counts) - 1)
        self.names = Reader(connection, "desk.2.senders", "last")
        self.epoch = self.read_names(self.claim("senders")) + 1

    def publish(self, key, **headers):
        body = headers.pop("body", b"")
        whole = {"sender": self.name, "named": True, "epoch": self.epoch, "batch": "", "number": 0, "models": 0, **headers}
        properties = pika.BasicProperties(headers=whole, delivery_mode=2, timestamp=int(time.time()))
        self.channel.basic_publish(REQUESTS, key, body, properties, mandatory=True)

    def claim(self, key, **headers):
        """Claims the name, and gives the token by which the claim is known."""
        token = uuid.uuid4().hex
        self.publish(key, kind="claim", token=token, **headers)
        return token

    def read_names(self, token):
        """Reads the claims of names up to the message with this token, and gives its offset."""
        while message := self.names.next():
            offset, _, headers, _ = message
            if headers.get("token") == token:
                return offset
            if self.epoch and headers.get("kind") == "claim" and headers.get("sender") == self.name and offset >= self.epoch:
                sys.exit(f"another process sends as {self.name}")
        sys.exit("the claims of names can't be read")

    def send(self, lines, batch, stop=None):
        """Sends the lines of a batch, each in a message of its own. The partition drops those that it took before."""
        lines_of, models_of = collections.Counter(), collections.Counter()  # of each partition
        for partition in self.partitions:
            self.claim(partition.name("lines"), batch=batch)
        for line in lines[:stop]:
            value = json.loads(line)
            is_model = "model" in value
            for partition in self.partitions if is_model else [self.partitions[number_of(value["key"], len(self.partitions))]]:
                self.publish(partition.name("models" if is_model else "lines"), kind="lines", batch=batch, body=line,
                             number=lines_of[partition], models=models_of[partition])
                lines_of[partition] += 1
                models_of[partition] += is_model
        self.check()
        if stop is None:
            for partition in self.partitions:
                self.publish(partition.name("lines"), kind="end", batch=batch, number=lines_of[partition], models=models_of[partition])

    def check(self):
        """Makes sure that no newer process had claimed the name, and that there are as many partitions: then all that was sent counts."""
        mark = uuid.uuid4().hex
        self.channel.basic_publish(REQUESTS, "looks", b"", pika.BasicProperties(headers={"mark": mark}), mandatory=True)
        self.scale.read(mark)
        if len(self.scale.counts) - 1 > self.partitions[0].epoch:
            sys.exit(f"there are {self.scale.counts[-1]} partitions now: send what has no answer as another batch")
        token = uuid.uuid4().hex
        self.channel.basic_publish(REQUESTS, "senders", b"", pika.BasicProperties(headers={"token": token}), mandatory=True)
        self.read_names(token)


class Receiver:
    """Keeps answers, and in the same transaction how far they go."""

    def __init__(self, connection, path):
        self.file = sqlite3.connect(path)
        self.file.execute("create table if not exists answers (epoch, partition, offset, place, key, id, answer)")
        self.file.execute("create table if not exists places (epoch, partition, stream, offset, place, closed, "
                          "primary key (epoch, partition))")
        self.connection, self.scale, self.epoch, self.readers = connection, Scale(connection), -1, {}
        self.places, self.closed = {}, set()
        for epoch, partition, stream, offset, place, closed in self.file.execute("select * from places"):
            self.places[epoch, partition] = stream, (offset, place)
            self.closed |= {(epoch, partition)} if closed else set()

    def begin(self):
        """Reads the partitions of the next epoch, once those of the one before are closed: so the answers to a key come in order."""
        self.scale.read()
        while self.epoch < len(self.scale.counts) - 1 and all(of[:1] + of[2:] in self.closed for of in self.readers):
            self.epoch += 1
            self.readers = {of: Reader(self.connection, "desk.2." + of.name("answers"), self.place(of)[0] + 1)
                            for of in self.scale.all(self.epoch)}

    def place(self, of):
        """The offset of the last message, and how far the answers go."""
        return self.places.get((of.epoch, of.number), (-1, (-1, 0)))

    def receive(self, seconds):
        """Receives until no answer came for so long. What is at hand has one transaction."""
        late = time.monotonic() + seconds
        while time.monotonic() < late:
            self.begin()
            for partition, reader in self.readers.items():
                message = reader.next(0.05)
                with self.file:
                    while message:
                        late = time.monotonic() + seconds if self.take(partition, *message) else late
                        message = reader.next(0)

    def take(self, partition, stream, key, headers, body):
        """Takes a message in. It counts if it begins where the answers so far end, or before that, and goes further."""
        before, upto = self.place(partition)
        after = headers.get("after-offset", -1), headers.get("after-index", 0)
        kind = headers.get("kind") if key == partition.name("answers") else None
        if kind in ("answers", "snapshot") and stream > before + 1 and after > upto:
            sys.exit(f"{partition}: retention has cut answers after {upto}")
        answers = []
        if kind == "answers" and after <= upto:
            answers = [(place, value) for place, value in map(placed, body.splitlines()) if place > upto]
        if answers or kind == "snapshot":
            upto = max(upto, (headers.get("offset", -1), headers.get("index", 0)))
        for (offset, place), value in answers:
            self.file.execute("insert into answers values (?, ?, ?, ?, ?, ?, ?)", (
                partition.epoch, partition.number, offset, place, value.get("key"), json.dumps(value.get("id")),
                json.dumps(value.get("answer", value))))
        at = partition.epoch, partition.number
        self.closed |= {at} if kind == "snapshot" and "closed-epoch" in headers else set()
        self.file.execute("insert or replace into places values (?, ?, ?, ?, ?, ?)", (*at, stream, *upto, at in self.closed))
        self.places[at] = stream, upto
        return len(answers)


def placed(line):
    """A line of the answers with its place."""
    value = json.loads(line)
    return ((value["lost"]["to"], AFTER_ALL) if "lost" in value else (value["offset"], value["place"])), value


def main():
    command, *words = sys.argv[1:]
    if command == "send":
        lines = [line for line in sys.stdin.buffer.read().splitlines() if line.strip()]
        Sender(connect(), words[0]).send(lines, words[1], *map(int, words[2:]))
    else:
        Receiver(connect(), words[0]).receive(float(words[1]))


main()
