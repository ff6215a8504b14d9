"""A machine that is booted from a folder with a Debian."""

from __future__ import annotations

import os
import subprocess
import tempfile
import time
from pathlib import Path

from debian import Unavailable, needs


class Machine:
    """A Debian that systemd-nspawn boots; what is written there is gone at its end."""

    def __init__(self, root: Path, shared: dict[Path, str]) -> None:
        needs("systemd-nspawn", "nsenter")
        self.log = tempfile.TemporaryFile("w+")
        binds = [f"--bind-ro={here}:{there}" for here, there in shared.items()]
        self.process = subprocess.Popen(
            ["systemd-nspawn", "-q", "-D", root, "--volatile=overlay", "--register=no", "--keep-unit", "--boot", "--private-network",
             f"--machine=colkuzai-{os.getpid()}", "--console=pipe", *binds],
            stdin=subprocess.DEVNULL, stdout=self.log, stderr=self.log, start_new_session=True)
        try:
            self.leader = 0
            self._wait_for_boot()
        except BaseException:
            self.end()
            raise

    def _leader(self) -> int:
        """The process in there that is number 1."""
        children = Path(f"/proc/{self.process.pid}/task/{self.process.pid}/children")
        while self.process.poll() is None:
            found = children.read_text().split()
            if found:
                return int(found[0])
            time.sleep(0.05)
        raise Unavailable(f"systemd-nspawn can't boot here: {self._said()}")

    def _wait_for_boot(self) -> None:
        """systemctl fails until the manager listens, and then waits itself."""
        until = time.monotonic() + 120
        while time.monotonic() < until and self.process.poll() is None:
            # The first child makes the one that stays.
            self.leader = self._leader()
            if self.run("systemctl", "is-system-running", "--wait").stdout.strip() in ("running", "degraded"):
                return
            time.sleep(0.1)
        raise Unavailable(f"systemd does not come up in systemd-nspawn here: {self._said()}")

    def _said(self) -> str:
        self.log.seek(0)
        return self.log.read()[-300:].strip()

    def run(self, *words: str, given: str | None = None, timeout: int = 120) -> subprocess.CompletedProcess:
        """Runs a program in there, as root."""
        return subprocess.run(["nsenter", "-t", str(self.leader), "-a", "--", *words], input=given, capture_output=True, text=True,
                              timeout=timeout)

    def path(self, there: str) -> Path:
        """Where a file of the machine is seen from here."""
        return Path(f"/proc/{self.leader}/root{there}")

    def end(self) -> None:
        self.process.terminate()
        try:
            self.process.wait(60)
        except subprocess.TimeoutExpired:
            self.process.kill()
            self.process.wait()
