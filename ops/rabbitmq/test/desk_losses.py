"""The cases of what retention cuts before it is received, of copies that hang, and of old files that are let go."""
import json
import pathlib
import re
import signal
import subprocess
import time
from typing import Callable

import desk_test
from desk_test import Cluster, model, program, request

PARTITIONS = 4
SEGMENT = 65_536  # bytes of a file of a stream
STANDS, STILL, MISSED = 4, 8, 200  # so many times, for so many seconds and for so many answers a receiver stands still
SLACK = 90  # seconds by which files are older than they have to be, when they are let go


def keys_of(partition: int, count: int) -> list[str]:
    """Keys of a partition."""
    return [key for key in map(str, range(1000)) if desk_test.partition_of(key, PARTITIONS) == partition][:count]


class Losses:
    """A part of the cases, of which the other has these."""
    cluster: Cluster
    say: Callable[[str], None]
    send: Callable[..., str]
    wait: Callable[[Callable[[], bool], str], None]
    received: Callable[[str], int]
    of_owner: "Callable[..., list[float] | None]"

    def overtaken(self) -> None:
        """Retention cuts answers that a receiver is about to read, since it stands still again and again: it says so, and goes on."""
        partition, folder = 1, self.cluster.folder
        output, place = folder / "overtaken", folder / "overtaken-place"
        self.send([model(55)])
        words = program("receive", "--from", "next", "--output", str(output), "--place", str(place))
        receiver = subprocess.Popen(words, env=self.cluster.environment)
        self.wait(lambda: place.exists() and all(at["stream"] >= 0 for at in json.loads(place.read_text())["partitions"]), "where it begins")
        self.cluster.keep({"stream-max-segment-size-bytes": SEGMENT, "max-length-bytes": 100 * SEGMENT}, "answers")
        for turn in range(STANDS):
            receiver.send_signal(signal.SIGSTOP)
            self.large(f"overtaken {turn}", MISSED, partition)
            time.sleep(STILL)
            receiver.send_signal(signal.SIGCONT)
            time.sleep(1)
        self.cluster.keep({"stream-max-segment-size-bytes": SEGMENT})
        self.send([request(keys_of(partition, 1)[0], "s", 1, "the last")])
        self.wait(lambda: b'"id":"the last"' in output.read_bytes(), "the last answer")
        receiver.terminate()
        assert receiver.wait(60) == 1
        lines = [json.loads(line) for line in output.read_bytes().splitlines()]
        lost = [line["lost"] for line in lines if "lost" in line]
        found = [line["id"] for line in lines if str(line.get("id")).startswith("overtaken")]
        due = [f"overtaken {turn} {at}" for turn in range(STANDS) for at in range(MISSED)]
        assert found == [name for name in due if name in set(found)] and len(found) < len(due), found
        assert lost and all(gap["answers"] for gap in lost), lost
        self.say(f"of {len(due)} answers a receiver got {len(found)} in their order, and says for the others: {lost}")

    def stuck(self) -> None:
        """The copies of answers hang at the broker of a receiver, so that it sends nothing more: another broker does."""
        self.send([model(58)])
        output, place, port = self.cluster.folder / "stuck", self.cluster.folder / "stuck-place", self.cluster.port
        ways = {port + 84: 2, port + 85: 3}  # to the other brokers, which it can't reach at first
        brokers = ",".join(f"amqp://127.0.0.1:{at}" for at in (port + 1, *ways))
        receiver = subprocess.Popen(program("receive", "--from", "next", "--output", str(output), "--place", str(place)),
                                    env={**self.cluster.environment, "DESK_BROKERS": brokers})
        self.wait(lambda: place.exists() and all(at["stream"] >= 0 for at in json.loads(place.read_text())["partitions"]), "where it begins")
        for at, number in ways.items():
            desk_test.Proxy(at, port + number).start()
        copies = [partition for partition in range(PARTITIONS) if self.leader(partition) != 1]
        assert copies, "the broker of the receiver leads all"
        begun = time.monotonic()
        for partition in copies:
            self.copy(partition, 1, "suspend")
        due = {partition: [f"stuck {partition} {at}" for at in range(25)] for partition in copies}
        self.send([request(keys_of(partition, 1)[0], "s", 1, name) for partition in copies for name in due[partition]])
        self.wait(lambda: output.read_bytes().count(b'"id":"stuck ') == 25 * len(copies), "the answers")
        took = time.monotonic() - begun
        receiver.terminate()
        assert receiver.wait(60) == 0
        for partition in copies:
            self.copy(partition, 1, "resume")
        lines = [json.loads(line) for line in output.read_bytes().splitlines()]
        for partition in copies:
            assert [line["id"] for line in lines if "id" in line and line["partition"] == partition] == due[partition]
        self.say(f"copies of the answers of {len(copies)} partitions hung at the receiver's broker: it left that broker, and had "
                 f"{25 * len(copies)} answers after {took:.0f} s")

    def leader(self, partition: int) -> int:
        """The number of the broker that leads a partition's answers."""
        said = self.control(1, "list_queues", "name", "leader")
        return int(re.findall(rf"{re.escape(self.cluster.queue('answers', partition))}\s+desk(\d)@", said)[0])

    def copy(self, partition: int, number: int, call: str) -> None:
        """Lets the copy of a partition's answers hang at a broker, or go on."""
        queue = self.cluster.queue("answers", partition)
        self.control(number, "eval", f'{{ok, Q}} = rabbit_amqqueue:lookup(rabbit_misc:r(<<"/">>, queue, <<"{queue}">>)), #{{name := Name}} = '
                     f"amqqueue:get_type_state(Q), {{ok, Copy}} = rabbit_stream_coordinator:local_pid(Name), ok = sys:{call}(Copy).")

    def control(self, number: int, *words: str) -> str:
        control = [str(desk_test.HERE / "cluster"), "ctl", str(number), "--quiet", *words]
        return subprocess.run(control, env=self.cluster.environment, stdout=subprocess.PIPE, check=True, text=True).stdout

    def retain(self) -> None:
        """Old files are let go, but none that the last two snapshots need, lines without an answer, or a receiver."""
        partition, place, output = 0, self.cluster.folder / "retained-place", self.cluster.folder / "retained"
        words = program("receive", "--from", "next", "--idle", "5s", "--place", str(place), "--output", str(output))

        def count(name: str) -> int:
            """How many answers of this name the receiver has, whose place it is."""
            subprocess.run(words, env=self.cluster.environment, check=True, timeout=600)
            return sum(str(json.loads(line).get("id")).startswith(name) for line in output.read_bytes().splitlines())

        assert count("early") == 0
        self.send([model(95)])
        self.large("early", 300)
        self.wait(lambda: count("early") == 300, "the early answers")
        early, received = self.last_line(partition), json.loads(place.read_text())["partitions"][partition]["stream"]
        time.sleep(SLACK)  # what is needed has to be so much younger
        self.large("late", 300)
        self.wait(lambda: self.received("late") == 300, "the late answers")
        answers = self.first("answers", partition)
        self.wait(lambda: "no place of a receiver" in self.let_go() and self.first("lines", partition) > early, "the early files are gone")
        assert self.first("answers", partition) == answers
        self.wait(lambda: self.let_go(place) != "", "what is old and received is gone")
        lines, answers = self.first("lines", partition), self.first("answers", partition)
        snapshots = [headers["offset"] for _, headers, _ in self.cluster.records("answers", partition) if headers.get("kind") == "snapshot"]
        assert early < lines <= snapshots[-2] and answers <= received, (early, lines, snapshots, answers, received)
        self.cluster.kill_all()
        self.large("waiting", 100)
        self.killed(place)
        self.wait(lambda: self.let_go(place) != "", "what is old is gone while lines wait")
        assert self.policies() == 1  # that of the test
        self.cluster.start_all()
        self.wait(lambda: count("waiting") >= 100, "the answers of what waited")
        assert (count("early"), count("late"), count("waiting")) == (300, 300, 100)
        self.wait(lambda: self.of_owner(partition, "lost_gaps_total") == [0], "an owner without a gap")
        time.sleep(SLACK)
        self.wait(lambda: self.let_go(place) != "" and self.first("answers", partition) > received, "the answers that were received are gone")
        kept, place_now = self.cluster.records("answers", partition), json.loads(place.read_text())["partitions"][partition]["stream"]
        assert kept[0][0] <= place_now and sum(headers.get("kind") == "snapshot" for _, headers, _ in kept) >= 2, (kept[0][0], place_now)
        assert (count("early"), count("late"), count("waiting")) == (300, 300, 100)
        self.say(f"the lines before {lines} were let go, where the last early one was {early}, and the answers before {answers}, where a "
                 f"receiver had those up to {received}, and then those before {kept[0][0]}, where it had those up to {place_now}; it received "
                 "each of 700")

    def large(self, name: str, count: int, partition: int = 0) -> None:
        """Sends requests of which each has a file of its own."""
        keys, text = keys_of(partition, 5), "x" * SEGMENT
        self.send([request(keys[at % 5], "echo", f"{at} {text}", f"{name} {at}") for at in range(count)])

    def letting_go(self, place: "pathlib.Path | None") -> "subprocess.Popen[bytes]":
        environment = {**self.cluster.environment, "DESK_CTL": f"{desk_test.HERE / 'cluster'} ctl 1"}
        words = [str(desk_test.HERE / "retain"), *(["--place", str(place)] if place else []), "--slack", str(SLACK)]
        return subprocess.Popen(words, env=environment, stdout=subprocess.PIPE, stderr=self.cluster.log)

    def let_go(self, place: "pathlib.Path | None" = None) -> str:
        """Lets old files go, and gives what is said, or nothing where rabbitmqctl can't reach a broker, as on a machine that has much
        else to do."""
        process = self.letting_go(place)
        said = process.communicate(timeout=1800)[0].decode()
        self.cluster.log.write(said.encode())
        return said if process.returncode == 0 else ""

    def killed(self, place: pathlib.Path) -> None:
        """Kills what lets files go while its policies are set: they are cleared all the same."""
        process = self.letting_go(place)
        self.wait(lambda: self.policies() > 1 or process.poll() is not None, "the policies are set")
        process.kill()
        process.wait()
        self.wait(lambda: self.policies() == 1, "the policies are cleared")

    def policies(self) -> int:
        """How many policies there are."""
        return self.control(1, "list_policies", "--no-table-headers").count("\n")

    def last_line(self, partition: int) -> int:
        """The offset of the last message of a log that has lines."""
        return max(offset for offset, headers, _ in self.cluster.records("lines", partition) if headers.get("kind") == "lines")

    def first(self, kind: str, partition: int) -> int:
        return int(self.cluster.records(kind, partition)[0][0])
