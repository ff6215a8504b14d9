"""Compares all streams with what is due to them by one `desk serve` for each partition, also where the number of partitions changed."""
import collections
import dataclasses
import hashlib
import json
import math
import re
import subprocess
from typing import Any, Iterator

from desk_test import CLIENTS, NO_LINES, ROOT, Cluster, Place, Record

REQUEST = re.compile(rb'\{"key": ("[^"]*"), ("service": .*, "inputs": \{.*\}), "id": (.*)\}', re.DOTALL)
NUMBER = re.compile(rb'^(\{(?:"client":"n\d\d",)?"line":)(\d+)')
TICKET = re.compile(rb'("ticket":)(\d+)\}$')
Lines = list[tuple[Place, bytes]]


@dataclasses.dataclass
class State:
    """What is known before the first line of a partition, and after its last one."""
    lines: int = 0  # that were answered, models too
    models: int = 0
    model: bytes = b""  # the last of them
    tickets: dict[bytes, int] = dataclasses.field(default_factory=dict)  # the next one of each client
    epochs: dict[str, int] = dataclasses.field(default_factory=dict)  # the newest process of each name

    @staticmethod
    def merged(sources: "list[State]") -> "State":
        """What a partition begins with whose keys were those of these. The sender sends a model again that not all have taken."""
        fewest = min(sources, key=lambda state: state.models)
        found = State(max(state.lines for state in sources), fewest.models, fewest.model)
        for state in sources:
            for client, ticket in state.tickets.items():
                found.tickets[client] = max(ticket, found.tickets.get(client, 0))
            for name, epoch in state.epochs.items():
                found.epochs[name] = max(epoch, found.epochs.get(name, 0))
        return found


def lines_of(records: list[Record], epochs: dict[str, int]) -> Iterator[tuple[Place, bytes]]:
    """The lines of a log that count: each line of a batch once, of a name those of its newest process, of the sender x those alone
    that are lines, and none after the log is closed."""
    due: dict[tuple[str, str], int] = {}
    for offset, headers, body in records:
        if headers.get("kind") == "close":
            return
        sender, batch = headers.get("sender"), (headers.get("sender"), headers.get("batch"))
        if "epoch" not in headers or headers["epoch"] < epochs.get(sender, 0):
            continue
        epochs[sender] = headers["epoch"]
        if headers["kind"] == "end":
            due[batch] = 1 << 60
        for index, raw in enumerate(body.split(b"\n") if headers["kind"] == "lines" else []):
            number = headers["number"] + index
            if number >= due.get(batch, number):
                due[batch] = number + 1
                if (sender != "x" or number >= NO_LINES) and (REQUEST.fullmatch(raw) or raw.startswith(b'{"model": ')):
                    yield (offset, index), raw


def served(lines: Lines, model: bytes, poison: dict[bytes, str]) -> Iterator[tuple[Place, bytes, bytes]]:
    """Each line's place, what its answer begins with, and its answer by one desk serve over all lines, with this model before them."""
    text = [model] if model else []
    waiting: dict[bytes, collections.deque[tuple[Place, bytes, str]]] = collections.defaultdict(collections.deque)
    for place, raw in lines:
        found = REQUEST.fullmatch(raw)
        if not found:
            text.append(raw)
            waiting[b""].append((place, b"", ""))
            continue
        key, rest, identity = found.groups()
        client, reason = b"n%02d" % (hashlib.sha256(json.loads(key).encode()).digest()[8] % CLIENTS), poison.get(identity, "")
        if reason in ("deadline", "died"):  # another refusal stands for it, which takes no ticket either
            rest = b'"service":"none","inputs":{}'
        text.append(b'{"client":"%s",%s}' % (client, rest))
        waiting[client].append((place, b'"key":%s,"id":%s,' % (key, identity), reason))
    output = subprocess.run([str(ROOT / "dist" / "desk"), "serve", "--clients", str(CLIENTS)], input=b"\n".join(text),
                            stdout=subprocess.PIPE, check=True).stdout
    numbers = {place: number for number, (place, _) in enumerate(lines, 2 if model else 1)}
    for line in output.splitlines()[1 if model else 0:]:
        client = line[11:14] if line.startswith(b'{"client":"') else b""
        place, request, reason = waiting[client].popleft()
        if reason in ("deadline", "died"):
            line = line.replace(b'"service"', b'"%s"' % reason.encode())
        elif reason:
            line = b'{"client":"%s","line":%d,"refused":"%s",%s' % (client, numbers[place], reason.encode(), line[line.rindex(b'"ticket"'):])
        yield place, request, line


def expected(records: list[Record], poison: dict[bytes, str], before: State) -> tuple[dict[Place, bytes], State]:
    """What the answers' stream is due to have for each line of a log, and what is known after them. The lines with the poison's ids
    are refused for its reasons. Tickets and numbers of lines go on after those of before."""
    after = State(before.lines, before.models, before.model, dict(before.tickets), dict(before.epochs))
    lines = list(lines_of(records, after.epochs))
    due: dict[Place, bytes] = {}
    shift = before.lines - (1 if before.model else 0)
    for place, request, line in served(lines, before.model, poison):
        line = NUMBER.sub(lambda found: found[1] + b"%d" % (int(found[2]) + shift), line)
        if found := TICKET.search(line):
            client = line[11:14]
            ticket = int(found[2]) + before.tickets.get(client, 0)
            line = line[:found.start(2)] + b"%d}" % ticket
            after.tickets[client] = ticket + 1
        due[place] = b'{"offset":%d,"place":%d,%s"answer":%s}' % (*place, request, line)
    models = [raw for _, raw in lines if not REQUEST.fullmatch(raw)]
    after.lines, after.models = before.lines + len(lines), before.models + len(models)
    after.model = models[-1] if models else before.model
    return due, after


def answers_of(records: list[Record]) -> Iterator[bytes]:
    """The answers that count: those of each message that goes on where the ones before it end."""
    upto: Place = (-1, 0)
    for _, headers, body in records:
        place = (headers.get("offset", -1), headers.get("index", 0))
        if headers.get("kind") == "snapshot":
            upto = max(upto, place)
        elif headers.get("kind") == "answers" and (headers.get("after-offset", -1), headers.get("after-index", 0)) <= upto < place:
            for line in body.splitlines():
                value = json.loads(line)
                if (value["offset"], value["place"]) > upto:
                    yield line
            upto = place


class Comparison:
    """Compares, and counts."""

    def __init__(self, cluster: Cluster, poison: dict[bytes, str], received: bytes) -> None:
        self.cluster, self.poison = cluster, poison
        self.counts: collections.Counter[Any] = collections.Counter()  # the ids as JSON, each with how often it was answered
        self.last: dict[str, int] = {}
        self.same = self.snapshots = self.twice = 0
        self.received = collections.Counter(received.splitlines())
        assert not self.received or max(self.received.values()) == 1, self.received.most_common(3)
        in_order(received)

    def run(self) -> None:
        before: list[State] = []
        for epoch, number in enumerate(self.cluster.numbers):
            states = []
            for partition in range(number):
                common = math.gcd(len(before), number)
                sources = [before[source] for source in range(partition % common, len(before), common)] if before else [State()]
                states.append(self.partition(partition, epoch, State.merged(sources)))
            before = states
        assert not self.received, f"received, and not due: {len(self.received)}"

    def partition(self, partition: int, epoch: int, before: State) -> State:
        due, after = expected(self.cluster.records("lines", partition, epoch), self.poison, before)
        answers = self.cluster.records("answers", partition, epoch)
        self.snapshots += sum(headers.get("kind") == "snapshot" for _, headers, _ in answers)
        self.twice += sum(body.count(b"\n") for _, headers, body in answers if headers.get("kind") == "answers") - len(due)
        head = b'{"partition":%d,' % partition + (b'"epoch":%d,' % epoch if epoch else b"")
        for line in answers_of(answers):
            value = json.loads(line)
            wanted = due.pop((value["offset"], value["place"]))
            assert wanted == line, (partition, epoch, wanted, line)
            assert self.received.pop(head + line[1:], 0) == 1, f"not received: {line!r}"
            self.same += 1
            if "id" in value:
                self.counts[json.dumps(value["id"])] += 1
            if isinstance(value.get("id"), int) and value["id"] >= 0:
                assert self.last.get(value["key"], -2) < value["id"], f"out of order: {line!r}"
                self.last[value["key"]] = value["id"]
        assert not due, f"without an answer in partition {partition} of epoch {epoch}: {len(due)}"
        return after


def in_order(received: bytes) -> None:
    """What was received is in the order of each key, whatever partition the answers are from."""
    last: dict[str, int] = {}
    for line in received.splitlines():
        value = json.loads(line)
        if isinstance(value.get("id"), int) and value["id"] >= 0:
            assert last.get(value["key"], -2) < value["id"], f"received out of order: {line!r}"
            last[value["key"]] = value["id"]


def compare(cluster: Cluster, poison: dict[bytes, str], received: bytes) -> tuple[collections.Counter[Any], int]:
    """Compares all streams, and what was received, with what is due. The ids as JSON, each with how often it was answered."""
    comparison = Comparison(cluster, poison, received)
    comparison.run()
    print(f"{comparison.same} answers are those of one desk serve for each partition's lines, byte for byte, each once; those of "
          f"each of {len(comparison.last)} keys are in order; {comparison.snapshots} snapshots; {comparison.twice} answers stand twice "
          "in the streams", flush=True)
    return comparison.counts, comparison.same
