"""A cluster whose brokers have a network namespace and a small disk each, so that their network can be cut, each pair and each
way, and their disks can be full. Each program has a namespace and a folder of its own too, and reaches each broker through a
proxy, which can be slow."""
import contextlib
import os
import pathlib
import random
import signal
import socket
import subprocess
import threading
import time

from desk_test import BROKERS, Cluster, Proxy

NETWORK = "10.78.0"
BRIDGE = f"{NETWORK}.100"  # where programs find the proxies
NOBODY = "02:00:00:00:00:99"  # an address in that network


class SlowProxy(Proxy):
    """Hands bytes on to an address, and as late as it is told."""

    def __init__(self, port: int, address: str, late: "list[float]") -> None:
        super().__init__(port, port, "0.0.0.0")  # programs reach it over the bridge
        self.address, self.late = address, late

    def run(self) -> None:
        while True:
            near, _ = self.listener.accept()
            threading.Thread(target=self.join_to, args=(near,), daemon=True).start()

    def join_to(self, near: socket.socket) -> None:
        try:
            far = socket.create_connection((self.address, self.target), 5)
            far.settimeout(None)
        except OSError:
            near.close()
            return
        self.open += [near, far]
        for one, other in ((near, far), (far, near)):
            threading.Thread(target=self.pump_late, args=(one, other), daemon=True).start()

    def pump_late(self, one: socket.socket, other: socket.socket) -> None:
        try:
            while piece := one.recv(65536):
                if self.late[0]:
                    time.sleep(self.late[0])
                other.sendall(piece)
        except OSError:
            pass
        for end in (one, other):
            with contextlib.suppress(OSError):
                end.shutdown(socket.SHUT_RDWR)


class NetCluster(Cluster):
    def __init__(self, partitions: int, port: int, seconds: int, words: list[str]) -> None:
        super().__init__(partitions, port, seconds, words)
        self.environment.update(DESK_NETWORK=NETWORK, DESK_DISK="1500m", DESK_ERLANG="-kernel net_ticktime 15")
        self.environment["DESK_BROKERS"] = self.environment["DESK_BROKERS"].replace("127.0.0.1", BRIDGE)
        self.late = [0.0]  # seconds of delay, of each piece and way
        self.places: set[int] = set()  # the numbers of the namespaces of programs
        for number in BROKERS:
            SlowProxy(port + number, f"{NETWORK}.{number}", self.late).start()

    def address(self, number: int) -> str:
        return f"{NETWORK}.{number}"

    def at(self, port: int) -> dict[str, str]:
        return {**self.environment, "DESK_BROKERS": f"amqp://{BRIDGE}:{port}"}

    def inside(self, number: int, words: list[str]) -> list[str]:
        """Starts a program in the namespace with this number, which is its address in the network, and in a folder of its own."""
        name, folder = f"deskp{number}", self.folder / f"place{number}"
        if number not in self.places:
            self.places.add(number)
            folder.mkdir()
            for left in ("netns", "link"):  # by a run that was killed
                subprocess.run(["ip", left, "delete", name], stderr=subprocess.DEVNULL, check=False)
            for line in (f"netns add {name}", f"link add {name} type veth peer name eth0 netns {name}", f"link set {name} master deskbridge up",
                         f"-n {name} link set lo up", f"-n {name} link set eth0 up", f"-n {name} address add {NETWORK}.{number}/24 dev eth0"):
                subprocess.run(["ip", *line.split()], check=True)
        return ["ip", "netns", "exec", name, "env", "-C", str(folder), f"TMPDIR={folder}", *words]

    def cut_program(self, seconds: float) -> None:
        """A program's network is away for a while."""
        name = f"deskp{random.choice(sorted(self.places))}"
        subprocess.run(["ip", "link", "set", name, "down"], check=True)
        time.sleep(seconds)
        subprocess.run(["ip", "link", "set", name, "up"], check=True)

    def end(self, passed: bool) -> None:
        super().end(passed)
        for number in self.places:
            subprocess.run(["ip", "netns", "delete", f"deskp{number}"], check=False)

    @staticmethod
    def neighbour(one: int, what: str, other: int, *words: str) -> None:
        """Changes where the one broker believes the other to be in their network."""
        subprocess.run(["ip", "-n", f"desk{one}", "neigh", what, f"{NETWORK}.{other}", "dev", "eth0", *words], check=True)

    def cut(self, one: int, other: int, both: bool, seconds: float) -> None:
        """What the one broker sends the other gets lost for a while, or what each sends the other: it goes to nobody."""
        ways = [(one, other), (other, one)] if both else [(one, other)]
        for near, far in ways:
            self.neighbour(near, "replace", far, "lladdr", NOBODY, "nud", "permanent")
        time.sleep(seconds)
        for near, far in ways:
            self.neighbour(near, "del", far)

    def pid(self, number: int) -> int:
        return int((self.folder / f"broker{number}.pid").read_text())

    def still(self, number: int, seconds: float) -> None:
        """A broker stands still for a while."""
        os.kill(self.pid(number), signal.SIGSTOP)
        time.sleep(seconds)
        os.kill(self.pid(number), signal.SIGCONT)

    def disk(self, number: int) -> pathlib.Path:
        return self.folder / f"desk{number}@desk{number}"

    def full(self, number: int, seconds: float) -> None:
        """A broker's disk is full for a while."""
        filler = self.disk(number) / "filler"
        with contextlib.suppress(OSError), open(filler, "wb") as file:
            while True:
                file.write(bytes(1 << 20))
                file.flush()
        time.sleep(seconds)
        filler.unlink()

    def alarm(self, number: int, seconds: float) -> None:
        """A broker says that it has no memory left, and takes nothing."""
        self.run("ctl", str(number), "set_vm_memory_high_watermark", "absolute", "1")
        time.sleep(seconds)
        self.run("ctl", str(number), "set_vm_memory_high_watermark", "0.4")

    def slow(self, seconds: float) -> None:
        """All programs reach the brokers late, for a while."""
        self.late[0] = random.uniform(0.05, 0.4)
        time.sleep(seconds)
        self.late[0] = 0.0
