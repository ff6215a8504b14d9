"""Lays gateway/vendor from the folders of Debian's packages, so that go, gopls and other tools work there offline.

Some of Debian's folders have no go.mod, so go.mod can't point at them by `replace`. A vendor folder needs none: it has the
files of each package and modules.txt, which says what module a package belongs to. The modules are those of go.mod.
"""

from __future__ import annotations

import fcntl
import hashlib
import os
import re
import shutil
import subprocess
import tempfile
from pathlib import Path

GOCODE = Path("/usr/share/gocode")
GATEWAY = Path(__file__).resolve().parent.parent / "gateway"
VENDOR = GATEWAY / "vendor"


class Missing(Exception):
    """A package that Debian's folders or go.mod lack."""


def required() -> dict[str, str]:
    """The modules of go.mod with their versions."""
    found = re.findall(r"^(?:require )?\t?([\w./-]+\.[\w./-]+) (v\S+)", (GATEWAY / "go.mod").read_text(), re.MULTILINE)
    return dict(found)


def state() -> str:
    """A sum over what the folder is made from: go.mod, what is imported, and the packages that are installed."""
    imports = set[str]()
    for file in GATEWAY.rglob("*.go"):
        if VENDOR not in file.parents:
            imports.update(re.findall(r'^\t(?:[\w.]+ )?"([\w-]+\.[^"]+/[^"]+)"$', file.read_text(), re.MULTILINE))
    show = ["dpkg-query", "-W", "-f", "${Package} ${Version}\n", "golang-*-dev"]
    installed = subprocess.run(show, capture_output=True, text=True).stdout
    whole = "\n".join([(GATEWAY / "go.mod").read_text(), *sorted(imports), installed, Path(__file__).read_text()])
    return hashlib.sha256(whole.encode()).hexdigest()


def packages() -> dict[str, Path]:
    """Each package that the program or a test of it needs, by the path of its import, with Debian's folder."""
    form = ("{{if not .Standard}}{{.ImportPath}}\t{{.Dir}}{{range $path, $package := .ImportMap}}"
            "\n>{{$path}}\t{{$package}}{{end}}{{end}}")
    with tempfile.TemporaryDirectory() as room:
        (Path(room) / "src").mkdir()
        (Path(room) / "src" / "gateway").symlink_to(GATEWAY)
        here = str(Path(room) / "src" / "gateway")
        environment = os.environ | {"GO111MODULE": "off", "GOPATH": f"{room}:{GOCODE}", "GOFLAGS": "", "PWD": here}
        listed = subprocess.run(["go", "list", "-deps", "-test", "-f", form, "./..."], cwd=here, env=environment, text=True,
                                capture_output=True)
    if listed.returncode:
        raise Missing(listed.stderr.strip())
    folders, mapped = dict[str, Path](), dict[str, str]()
    for line in listed.stdout.splitlines():
        path, _, of = line.partition("\t")
        if " " in line or not of:
            continue
        if path.startswith(">"):
            mapped[path[1:]] = of
        elif path != "gateway" and not path.startswith("gateway/"):
            folders[path] = Path(of)
    others = {path: folders[of] for path, of in mapped.items() if of in folders and path != of}
    return {path: folder for path, folder in folders.items() if path not in mapped.values()} | others


def module_of(path: str, modules: dict[str, str]) -> str:
    fits = [it for it in modules if path == it or path.startswith(it + "/")]
    if not fits:
        raise Missing(f"go.mod requires no module with the package {path}")
    return max(fits, key=len)


def language(module: str) -> str:
    """The version of Go that a module is written in."""
    for name in (module, re.sub(r"/v\d+$", "", module)):
        file = GOCODE / "src" / name / "go.mod"
        if file.exists():
            return re.findall(r"^go (\S+)$", file.read_text(), re.MULTILINE)[0]
    return "1.16"


def lay(into: Path) -> None:
    modules, found = required(), packages()
    listed = dict[str, list[str]]((it, []) for it in modules)
    for path, folder in sorted(found.items()):
        listed[module_of(path, modules)].append(path)
        (into / path).mkdir(parents=True)
        for file in folder.iterdir():
            if file.is_file() and file.suffix in (".go", ".s", ".h") and not file.name.endswith("_test.go"):
                shutil.copyfile(file, into / path / file.name)
    with open(into / "modules.txt", "w") as to:
        for module, paths in sorted(listed.items()):
            to.write(f"# {module} {modules[module]}\n## explicit; go {language(module)}\n")
            to.writelines(f"{path}\n" for path in paths)


def renew() -> None:
    """Lays the folder anew where it isn't of this state. Two that do it at once wait for each other."""
    (GATEWAY / "out").mkdir(exist_ok=True)
    with open(GATEWAY / "out" / ".vendor", "a+") as stamp:
        fcntl.flock(stamp, fcntl.LOCK_EX)
        stamp.seek(0)
        due = state()
        if stamp.read() == due and VENDOR.exists():
            return
        shutil.rmtree(VENDOR, ignore_errors=True)
        with tempfile.TemporaryDirectory(dir=GATEWAY / "out") as room:
            lay(Path(room))
            Path(room).chmod(0o755)
            shutil.copytree(room, VENDOR)
        stamp.truncate(0)
        stamp.write(due)


if __name__ == "__main__":
    try:
        renew()
    except Missing as why:
        raise SystemExit(f"gateway: {why}") from None
