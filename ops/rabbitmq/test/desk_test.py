"""What the tests of the partitions share: a cluster on loopback, its processes, the messages in its streams as another
library reads them, and what is due to them by one `desk serve`."""
import contextlib
import hashlib
import json
import os
import pathlib
import random
import re
import shutil
import signal
import socket
import subprocess
import tempfile
import threading
import time
import urllib.request
import uuid
from typing import Any

HERE = pathlib.Path(__file__).resolve().parent.parent
ROOT = HERE.parents[1]
PACKAGES = ["rabbitmq-server", "python3-pika"]
PROGRAM = ""
CLIENTS = 64
BROKERS = (1, 2, 3)
BACK = 300  # seconds after which a broker that starts is taken to hang
LOST = 20  # seconds after which a broker is taken to have lost its stream coordinator, or the others
NO_LINES = 7  # so many messages of the sender x are no lines
Record = tuple[int, dict[str, Any], bytes]  # offset, headers, body
Place = tuple[int, int]


def install() -> None:
    """Installs what is missing from Debian, and builds the gateway's program, unless DESK_PROGRAM is one."""
    there = os.path.exists("/usr/lib/rabbitmq/bin/rabbitmq-server") and not subprocess.run(
        ["/usr/bin/python3", "-c", "import pika"], stderr=subprocess.DEVNULL).returncode
    if not there:
        subprocess.run(["apt-get", "update"], check=True)
        subprocess.run(["apt-get", "install", "-y", *PACKAGES], check=True, env={**os.environ, "DEBIAN_FRONTEND": "noninteractive"})
    if "DESK_PROGRAM" not in os.environ:
        subprocess.run([str(ROOT / "tools" / "gateway")], check=True)


def program(*words: str) -> list[str]:
    """The gateway's program, as it was when the cluster was made: it may be built again meanwhile."""
    return [PROGRAM, *words]


def model(addend: int) -> str:
    """A model with services of which one takes long, one has a long answer, and one answers what it is given."""
    decisions = [{"name": "d", "needs": ["a"], "expr": f"a * 3 + {addend}"},
                 {"name": "same", "needs": ["a"], "expr": "a"},
                 {"name": "many", "needs": ["a"], "expr": {"list": ["a"] * 9000}},
                 {"name": "slow", "needs": ["many"], "expr": {"list": ["many = many"] * 2000}}]
    services = [{"name": name, "outputs": [output], "encapsulated": inner, "inputDecisions": [], "inputData": ["a"]}
                for name, output, inner in (("s", "d", []), ("echo", "same", []), ("long", "many", []),
                                            ("slow", "slow", ["many"]))]
    return json.dumps({"model": {"inputs": ["a"], "decisions": decisions, "services": services}})


def request(key: str, service: str, value: object, identity: object) -> str:
    return json.dumps({"key": key, "service": service, "inputs": {"a": value}, "id": identity})


def partition_of(key: str, partitions: int) -> int:
    return int.from_bytes(hashlib.sha256(key.encode()).digest()[:8], "big") % partitions


class Proxy(threading.Thread):
    """Hands bytes on between a program and a broker, until its connections are cut."""

    def __init__(self, port: int, target: int, address: str = "127.0.0.1") -> None:
        super().__init__(daemon=True)
        self.listener = socket.create_server((address, port))
        self.target = target
        self.open: list[socket.socket] = []

    def run(self) -> None:
        while True:
            near, _ = self.listener.accept()
            try:
                far = socket.create_connection(("127.0.0.1", self.target))
            except OSError:
                near.close()
                continue
            self.open += [near, far]
            for one, other in ((near, far), (far, near)):
                threading.Thread(target=self.pump, args=(one, other), daemon=True).start()

    @staticmethod
    def pump(one: socket.socket, other: socket.socket) -> None:
        try:
            while piece := one.recv(65536):
                other.sendall(piece)
        except OSError:
            pass
        with contextlib.suppress(OSError):
            other.shutdown(socket.SHUT_RDWR)

    def cut(self) -> None:
        ends, self.open = self.open, []
        for end in ends:
            with contextlib.suppress(OSError):  # it may have ended before
                end.shutdown(socket.SHUT_RDWR)
            end.close()


class Cluster:
    """Three brokers, and processes of partitions."""

    def __init__(self, partitions: int, port: int, seconds: int, words: list[str]) -> None:
        self.port, self.words, self.host = port, words, ""
        self.numbers = [partitions]  # how many partitions there were, one number after the other
        self.folder = pathlib.Path(tempfile.mkdtemp(prefix="desk-test-"))
        self.environment = {**os.environ, "DESK_FOLDER": str(self.folder), "DESK_PORT": str(port),
                            "DESK_SECONDS": str(seconds), "DESK_PARTITIONS": str(partitions),
                            "DESK_ENGINE": str(ROOT / "dist" / "desk"),
                            "DESK_BROKERS": ",".join(f"amqp://127.0.0.1:{port + number}" for number in (1, 2, 3))}
        global PROGRAM
        PROGRAM = shutil.copy(os.environ.get("DESK_PROGRAM", ROOT / "gateway" / "out" / "desk-gateway"), self.folder)
        self.processes: list[subprocess.Popen[bytes]] = []
        self.ports: dict[int, int] = {}  # of each process, where its metrics are
        self.stopped: "subprocess.Popen[bytes] | None" = None
        self.log = open(self.folder / "partitions.log", "ab")

    @property
    def partitions(self) -> int:
        return self.numbers[-1]

    @partitions.setter
    def partitions(self, number: int) -> None:
        self.numbers = [number]

    def at(self, port: int) -> dict[str, str]:
        """The environment of a program that knows one address alone."""
        return {**self.environment, "DESK_BROKERS": f"amqp://127.0.0.1:{port}"}

    def run(self, *words: str, within: float = 3700) -> None:
        subprocess.run([str(HERE / "cluster"), *words], check=True, timeout=within, env=self.environment,
                       stdout=subprocess.DEVNULL)

    def declare(self) -> None:
        """Makes the exchanges and queues."""
        subprocess.run(program("partition", "--declare"), check=True, timeout=600, stderr=self.log, env=self.environment)

    def start(self) -> "subprocess.Popen[bytes]":
        used = {self.ports[process.pid] for process in [*self.processes, *([self.stopped] if self.stopped else [])]}
        port = next(port for port in range(self.port + 20, self.port + 80) if port not in used)
        words = program("partition", "--metrics", f"127.0.0.1:{port}", *self.words)
        process = subprocess.Popen(self.inside(port - self.port, words), stdin=subprocess.DEVNULL, stderr=self.log, env=self.environment)
        self.processes.append(process)
        self.ports[process.pid] = port
        return process

    def inside(self, _: int, words: list[str]) -> list[str]:
        """How a program is started at a place with this number."""
        return words

    def metrics(self, process: "subprocess.Popen[bytes]") -> dict[str, float]:
        """What a process tells Prometheus, without what the names have in common. It has to be ready."""
        address = f"http://127.0.0.1:{self.ports[process.pid]}"
        assert urllib.request.urlopen(f"{address}/readyz", timeout=10).status == 200
        text = urllib.request.urlopen(f"{address}/metrics", timeout=10).read().decode()
        return {name: float(value) for name, value in re.findall(r"^desk_partition_(\S+) (\S+)$", text, re.MULTILINE)}

    def most_memory(self, partition: int) -> int:
        """How many bytes of memory the process of a partition had at most, without its engine."""
        status = pathlib.Path(f"/proc/{self.owner(partition)}/status").read_text()
        found = re.search(r"^VmHWM:\s+(\d+) kB$", status, re.MULTILINE)
        assert found
        return int(found[1]) * 1024

    def told(self) -> str:
        return (self.folder / "partitions.log").read_text()

    def owners(self) -> list[tuple[str, str]]:
        """Which partition was owned by which process, one after the other. One of a later number of partitions is as 3 of epoch 1."""
        return re.findall(r"\bpartition (\d+(?: of epoch \d+)?): owned by process (\d+)$", self.told(), re.MULTILINE)

    def owner(self, partition: int) -> int:
        """The process that owned one of the newest partitions last, or -1."""
        epoch = len(self.numbers) - 1
        name = f"{partition} of epoch {epoch}" if epoch else str(partition)
        return next((int(process) for other, process in reversed(self.owners()) if other == name), -1)

    def kill_partition(self) -> None:
        process = self.processes.pop(random.randrange(len(self.processes)))
        process.kill()
        process.wait()
        self.start()

    def kill_all(self) -> None:
        """Kills all processes of partitions."""
        for process in self.processes:
            process.kill()
            process.wait()
        self.stopped_count, self.processes = len(self.processes), []

    def start_all(self) -> None:
        """Starts as many as there were."""
        for _ in range(self.stopped_count):
            self.start()

    def kill_owner(self, partition: int) -> None:
        """Kills the process of a partition, and starts another one."""
        begun = time.monotonic()
        while not (found := [process for process in self.processes if process.pid == self.owner(partition)]):
            assert time.monotonic() < begun + 300, f"nobody owns partition {partition}"
            time.sleep(0.1)
        process = found[0]
        self.processes.remove(process)
        process.kill()
        process.wait()
        self.start()

    def kill_engine(self, partition: int) -> None:
        """Kills the engine of a partition, as the system does where memory is short."""
        for children in pathlib.Path(f"/proc/{self.owner(partition)}/task").glob("*/children"):
            with contextlib.suppress(OSError):  # one of them may have ended
                for child in children.read_text().split():
                    os.kill(int(child), signal.SIGKILL)

    def stop_partition(self) -> None:
        living = {str(process.pid): process for process in self.processes}
        self.stopped = next(living[process] for _, process in reversed(self.owners()) if process in living)
        self.processes.remove(self.stopped)
        self.stopped.send_signal(signal.SIGSTOP)
        self.start()  # it takes that partition when the brokers have missed the stopped one

    def wake_partition(self) -> None:
        """Lets the stopped process go on, when its partition has another owner."""
        assert self.stopped
        partition = [partition for partition, process in self.owners() if int(process) == self.stopped.pid][-1]
        begun = time.monotonic()
        while time.monotonic() < begun + 90:
            if [process for other, process in self.owners() if other == partition][-1] != str(self.stopped.pid):
                break
            time.sleep(0.1)
        self.stopped.send_signal(signal.SIGCONT)
        self.processes.append(self.stopped)
        self.stopped = None

    def kill_broker(self, number: int) -> None:
        os.kill(int((self.folder / f"broker{number}.pid").read_text()), signal.SIGKILL)

    def kill_brokers(self) -> None:
        for number in BROKERS:
            self.kill_broker(number)

    def come_back(self) -> None:
        """Starts the brokers that don't run. One that hangs while it starts is killed and started again, as by its supervisor: after
        a cut of the network Erlang's module global may wait for ever. So is one that has lost its stream coordinator."""
        within = BACK
        while True:
            try:
                self.run("brokers", within=within)
                return self.mend()
            except subprocess.TimeoutExpired:
                hanging = [number for number in BROKERS if not self.listens(number)]
                print(f"brokers {hanging} are not there after {within} s, and are started again", flush=True)
                for number in hanging:
                    self.end_broker(number)
                within *= 2

    def end_broker(self, number: int) -> None:
        with contextlib.suppress(OSError):  # it may have ended
            self.kill_broker(number)
        time.sleep(1)  # until it is gone

    def mend(self) -> None:
        """Lets RabbitMQ go on with streams of which it lost an update, as after a full disk, and starts brokers again that have lost
        their stream coordinator or the others, where another one has not."""
        lost = [number for number in BROKERS if not self.mended(number)]
        if 0 < len(lost) < len(BROKERS):
            print(f"brokers {lost} have lost their stream coordinator or the others, and are started again", flush=True)
            for number in lost:
                self.end_broker(number)
            self.run("brokers", within=BACK)

    def mended(self, number: int) -> bool:
        """Whether a broker has a stream coordinator and most of the others, for which it gets a while. One that can't be asked is
        taken to have both."""
        control = {**self.environment, "DESK_CTL": f"{HERE / 'cluster'} ctl {number}"}
        begun = time.monotonic()
        while True:
            try:
                done = subprocess.run([str(HERE / "mend")], env=control, stdout=subprocess.PIPE, stderr=subprocess.DEVNULL, text=True,
                                      check=False, timeout=120)
            except subprocess.TimeoutExpired:
                return True
            if done.returncode == 0 and done.stdout.strip() != "[]":
                print(f"the brokers are told to go on with {done.stdout.strip()}", flush=True)
            if done.returncode != 3:
                return True
            if time.monotonic() > begun + LOST:
                return False
            time.sleep(1)

    def address(self, _: int) -> str:
        """Where a broker listens."""
        return "127.0.0.1"

    def listens(self, number: int) -> bool:
        with contextlib.suppress(OSError), socket.create_connection((self.address(number), self.port + number), 10):
            return True
        return False

    def keep(self, policy: dict[str, int], kinds: str = "lines|answers") -> None:
        """Sets what the brokers keep of the streams."""
        self.run("ctl", "1", "set_policy", "-p", self.host or "/", "desk", rf"^desk\.2\.({kinds})\.", json.dumps(policy),
                 "--apply-to", "queues")

    def end(self, passed: bool) -> None:
        for process in [*self.processes, *([self.stopped] if self.stopped else [])]:
            process.kill()
            process.wait()
        self.run("stop")
        print("passed" if passed else f"failed; see {self.folder}", flush=True)
        if passed:
            shutil.rmtree(self.folder)

    def channel(self) -> Any:
        import pika
        for number in BROKERS:
            with contextlib.suppress(pika.exceptions.AMQPError):
                return pika.BlockingConnection(pika.URLParameters(f"amqp://127.0.0.1:{self.port + number}/{self.host}")).channel()
        raise OSError("no broker can be reached")

    def queue(self, kind: str, partition: int, epoch: int = -1) -> str:
        """The queue of a partition, one of the newest where nothing else is said."""
        return f"desk.2.{kind}.{self.name(partition, epoch)}"

    def route(self, exchange: str, topic: str, partition: int, epoch: int = -1) -> tuple[str, str]:
        return f"desk.2.{exchange}", f"{topic}.{self.name(partition, epoch)}"

    def name(self, partition: int, epoch: int) -> str:
        epoch = epoch if epoch >= 0 else len(self.numbers) - 1
        return f"{partition}.of.{self.numbers[epoch]}" + (f".{epoch}" if epoch else "")

    def publish(self, partition: int, messages: list[tuple[dict[str, Any], bytes]]) -> None:
        """Publishes messages of lines, once the partition is there. Of fewer partitions it is another one."""
        import pika
        while True:
            channel = self.channel()
            try:
                channel.confirm_delivery()
                for headers, body in messages:
                    channel.basic_publish(*self.route("requests", "lines", partition % self.partitions), body,
                                          pika.BasicProperties(headers=headers), mandatory=True)
                return
            except (pika.exceptions.AMQPError, pika.exceptions.UnroutableError):
                time.sleep(1)  # the first of them are dropped where it is done again
            finally:
                if channel.connection.is_open:
                    channel.connection.close()

    def records(self, kind: str, partition: int, epoch: int = -1) -> list[Record]:
        """All messages of a stream, up to a mark that is published now."""
        import pika
        channel, queue, mark, found = self.channel(), self.queue(kind, partition, epoch), str(uuid.uuid4()), []
        channel.confirm_delivery()
        exchange = "requests" if kind == "lines" else "answers"
        channel.basic_publish(*self.route(exchange, "marks", partition, epoch), b"", pika.BasicProperties(headers={"mark": mark}),
                              mandatory=True)
        channel.basic_qos(prefetch_count=100)
        for method, properties, body in channel.consume(queue, arguments={"x-stream-offset": "first"}):
            channel.basic_ack(method.delivery_tag)
            headers = properties.headers
            found.append((headers.pop("x-stream-offset"), headers, body))
            if headers.get("mark") == mark:
                break
        with contextlib.suppress(pika.exceptions.AMQPError):  # what came after the mark can't be given back to a stream
            channel.connection.close()
        return found
