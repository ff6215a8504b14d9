"""The cases of changes of the number of partitions."""
import contextlib
import json
import pathlib
import random
import signal
import subprocess
import threading
import time
from typing import Any, Callable

from desk_losses import PARTITIONS, keys_of
from desk_test import Cluster, model, program, request

RESCALED = 2000  # requests of each sender while the number of partitions changes


class Rescales:
    """A part of the cases, of which the other has these."""
    cluster: Cluster
    raw: "list[bytes]"
    served: "list[subprocess.Popen[bytes]]"
    say: Callable[[str], None]
    start: "Callable[..., subprocess.Popen[bytes]]"
    status: int
    send: Callable[..., str]
    check: "Callable[[dict[str, int]], None]"
    received: Callable[[str], int]
    exactly: Callable[[str, int], None]
    receive: Callable[[], None]
    wait: Callable[[Callable[[], bool], str], None]
    let_go: "Callable[[pathlib.Path | None], str]"

    def rescaled(self) -> None:
        """The number of partitions changes, and changes back, while requests come and everybody is killed, a broker too: senders of before are
        told, and each request is answered once, in the order of its key."""
        for to in (2, PARTITIONS):
            self.rescale(to)
        self.receive()
        place = self.cluster.folder / f"rescale-{PARTITIONS}.place"
        self.wait(lambda: all(f"desk.2.{name}: " in self.let_go(place) for name in ("answers.0.of.4", "lines.1.of.2.1", "answers.3.of.4.2")),
                  "old files of each number of partitions are gone")
        epochs = {json.loads(line).get("epoch", 0) for line in self.raw}
        assert epochs == {0, 1, 2}, epochs
        import pika
        channel = self.cluster.channel()
        channel.confirm_delivery()
        with contextlib.suppress(pika.exceptions.UnroutableError):
            channel.basic_publish(*self.cluster.route("requests", "lines", 0, 0), b"", mandatory=True)
            raise AssertionError("a line can be sent to a log that is closed")
        channel.connection.close()

    def rescale(self, to: int) -> None:
        """Changes the number of partitions once."""
        name, keys = f"rescale {to}", [key for partition in range(PARTITIONS) for key in keys_of(partition, 5)]
        inputs = [[model(10 + number)] + [request(keys[at % 20], "s", at, f"{name} {number} {at}") for at in range(RESCALED)]
                  for number in range(3)]
        batches = [Batch(self, f"{name} {number}", lines) for number, lines in enumerate(inputs)]
        kept = Kept(self, self.cluster.folder / name.replace(" ", "-"))
        for batch in batches:
            batch.start()
        self.wait(lambda: kept.count() > 100, "answers before the change")
        kills = 0
        while self.change(to, random.random() if kills < 5 else 600) is None or kills < 5:
            kills += 1
            self.cluster.kill_partition()
            random.choice([*batches, kept]).kill()
            if kills == 2:
                self.cluster.kill_broker(random.randrange(1, 4))
        self.cluster.numbers.append(to)
        self.cluster.come_back()
        for batch in batches:
            batch.join()
            assert not batch.faults, batch.faults
        due = {f"{name} {number} {at}": at * 3 + 10 + number for number in range(3) for at in range(RESCALED)}
        self.wait(lambda: kept.count(f"{name} ") >= len(due), "the answers to all")
        kept.end()
        found = kept.answers(f"{name} ")
        wrong = {id: found.get(id) for id, result in due.items() if found.get(id) != [result]}
        assert not wrong and len(found) == len(due), dict(list(wrong.items())[:5])
        told = [said for batch in batches for said in batch.said if f"there are {to} partitions now" in said]
        assert told, [batch.said for batch in batches]
        self.say(f"{to} partitions, after {kills} kills: {len(due)} requests are answered once and in order; "
                 f"{len(told)} senders of before ended with the new number")

    def repaired_earlier(self) -> None:
        """The log of a partition is lost after the number of partitions has changed, and before all of it is answered: it is repaired, and
        so the new ones can begin."""
        epoch, lost = len(self.cluster.numbers) - 1, PARTITIONS - 1
        name = f"{lost} of epoch {epoch}" if epoch else str(lost)
        keys = [key for partition in range(PARTITIONS) for key in keys_of(partition, 5)]
        self.send([model(60)] + [request(key, "s", 1, f"before {key}") for key in keys])
        self.check({f"before {key}": 63 for key in keys})
        self.cluster.kill_all()
        self.send([request(key, "s", 2, f"open {key}") for key in keys])
        assert self.change(2, 600) == 0
        self.cluster.run("ctl", "1", "delete_queue", self.cluster.queue("lines", lost))
        assert "it has not begun" in self.repairing("1", status=1)
        assert f"partition {name} is repaired" in self.repairing(str(lost), "--epoch", str(epoch))
        self.cluster.numbers.append(2)
        self.cluster.start_all()
        self.send([request(key, "s", 3, f"after {key}") for key in keys])
        self.exactly("after ", len(keys))
        self.check({f"after {key}": 69 for key in keys} | {f"open {key}": 66 for key in keys[:-5]})
        assert self.received("open ") == len(keys) - 5 and self.status == 1
        gaps = [line for line in self.raw if b'"lost":' in line and json.loads(line)["partition"] == lost and json.loads(line).get("epoch", 0) == epoch]
        assert len(gaps) == 1, gaps
        assert "nothing is to be repaired" in self.repairing("0", "--epoch", str(epoch), status=1)
        self.say(f"a log that was lost after a change: {gaps[0].decode()} stands for it, and the new partitions have begun")

    def repairing(self, *words: str, status: int = 0) -> str:
        """What the command says."""
        done = subprocess.run(program("partition", "repair", *words), env=self.cluster.environment, stderr=subprocess.PIPE, timeout=300)
        assert done.returncode == status, done
        return done.stderr.decode()

    def change(self, to: int, seconds: float) -> "int | None":
        """Changes the number of partitions, or is killed before it is done."""
        process = subprocess.Popen(program("partition", "rescale", str(to)), stderr=self.cluster.log, env=self.cluster.environment)
        try:
            status = process.wait(seconds + 0.05)
            assert status == 0, status
            return status
        except subprocess.TimeoutExpired:
            process.kill()
            process.wait()
            return None


class Batch(threading.Thread):
    """Sends a batch line by line, and again as a whole whenever its sender ends otherwise than well."""

    def __init__(self, run: Rescales, name: str, lines: list[str]) -> None:
        super().__init__(daemon=True)
        self.test, self.name, self.lines, self.said, self.faults = run, name, lines, [], []
        self.process: "subprocess.Popen[bytes] | None" = None

    def run(self) -> None:
        while True:
            self.process = process = self.test.start("--sender", self.name, "--batch", self.name)
            self.test.served.append(process)
            assert process.stdin and process.stderr
            with contextlib.suppress(BrokenPipeError):
                for line in self.lines:
                    process.stdin.write((line + "\n").encode())
                    process.stdin.flush()
                    time.sleep(0.005)
                process.stdin.close()
            said = process.stderr.read().decode()
            status = process.wait()
            self.said.append(said)
            if status == 0:
                return
            if status not in (1, -signal.SIGKILL) or status == 1 and "partitions now" not in said and "were not sent" not in said:
                self.faults.append((status, said))
                return

    def kill(self) -> None:
        if self.process:
            self.process.kill()


class Kept:
    """A receiver with a place, which is started again when it is killed."""

    def __init__(self, run: Rescales, path: pathlib.Path) -> None:
        self.test, self.path = run, path
        self.start()

    def start(self) -> None:
        words = program("receive", "--output", str(self.path), "--place", str(self.path) + ".place")
        self.process = subprocess.Popen(words, stderr=self.test.cluster.log, env=self.test.cluster.environment)
        self.test.served.append(self.process)

    def kill(self) -> None:
        self.process.kill()
        self.process.wait()
        self.start()

    def end(self) -> None:
        self.process.terminate()
        assert self.process.wait(60) == 0

    def count(self, prefix: str = "") -> int:
        """How many answers are there."""
        text = self.path.read_bytes() if self.path.exists() else b""
        return text.count(b'"id":"' + prefix.encode())

    def answers(self, prefix: str) -> "dict[str, list[Any]]":
        """Those to ids with this prefix. They are in the order of their keys."""
        found: dict[str, list[Any]] = {}
        last: "dict[tuple[str, str], int]" = {}
        for line in self.path.read_bytes().splitlines():
            answer = json.loads(line)
            if str(answer.get("id", "")).startswith(prefix):
                batch, at = answer["id"].rsplit(" ", 1)
                assert last.get((batch, answer["key"]), -1) < int(at), line
                last[batch, answer["key"]] = int(at)
                found.setdefault(answer["id"], []).append(answer["answer"].get("result", answer["answer"]))
        return found
