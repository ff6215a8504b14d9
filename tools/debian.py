"""Folders with a Debian of their own, which debootstrap makes once, and rooms that begin from them."""

from __future__ import annotations

import contextlib
import os
import shutil
import subprocess
import tempfile
from collections.abc import Iterator
from pathlib import Path

SUITE = "bookworm"
MIRROR = "http://deb.debian.org/debian"
CACHE = Path(os.environ.get("XDG_CACHE_HOME") or Path.home() / ".cache") / "colkuzai"


class Unavailable(Exception):
    """What is missing here for such a test."""


def needs(*programs: str) -> None:
    """Raises where this process is not root, or one of these programs is missing."""
    if os.geteuid() != 0:
        raise Unavailable("only root makes a Debian and boots it")
    for name in programs:
        if shutil.which(name) is None:
            raise Unavailable(f"{name} is not installed")


def made(name: str, include: str = "") -> Path:
    """The folder of a minimal Debian with these packages; made the first time, in about a minute."""
    folder = CACHE / name
    if folder.exists():
        return folder
    needs("debootstrap")
    CACHE.mkdir(parents=True, exist_ok=True)
    with tempfile.TemporaryDirectory(dir=CACHE) as room, in_memory() as memory:
        words = ["debootstrap", "--variant=minbase", *([f"--include={include}"] if include else []), SUITE, f"{memory}/root", MIRROR]
        ran = subprocess.run(words, stdout=subprocess.PIPE, stderr=subprocess.STDOUT, text=True)
        if ran.returncode:
            raise Unavailable(f"debootstrap made no Debian: {ran.stdout[-300:].strip()}")
        subprocess.run(["rm", "-rf", *Path(f"{memory}/root/var/cache/apt/archives").glob("*.deb")], check=True)
        subprocess.run(["cp", "-a", f"{memory}/root", room], check=True)
        with contextlib.suppress(OSError):
            # Another run may have been first.
            os.rename(f"{room}/root", folder)
    return folder


@contextlib.contextmanager
def in_memory() -> Iterator[Path]:
    """A folder in memory: dpkg waits for the disk after each file."""
    with tempfile.TemporaryDirectory() as folder:
        subprocess.run(["mount", "-t", "tmpfs", "-o", "mode=755", "none", folder], check=True)
        try:
            yield Path(folder)
        finally:
            subprocess.run(["umount", folder], check=True)


@contextlib.contextmanager
def room(root: Path) -> Iterator[Path]:
    """A folder that looks like a Debian, whose files may be changed."""
    needs("mount")
    with in_memory() as memory:
        top, work, folder = (memory / it for it in ("top", "work", "root"))
        for it in (top, work, folder):
            it.mkdir()
        overlay = f"lowerdir={root},upperdir={top},workdir={work}"
        if subprocess.run(["mount", "-t", "overlay", "overlay", "-o", overlay, folder]).returncode:
            raise Unavailable("an overlay of folders can't be mounted here")
        try:
            subprocess.run(["mount", "-t", "proc", "proc", folder / "proc"], check=True)
            yield folder
        finally:
            subprocess.run(["umount", "--recursive", folder], check=True)
