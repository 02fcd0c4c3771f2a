"""Clean roots in which packages are tested: a Debian with a network of its own, or a folder in which dpkg only unpacks files."""

import hashlib
import os
import re
import shutil
import signal
import stat
import subprocess
import time
from collections.abc import Iterator, Mapping
from pathlib import Path
from typing import NamedTuple

import pytest

from harness.needs import missing
from harness.program import TOP

DEB = TOP / "deploy/packaging/deb.sh"
# What a Debian needs besides its essential packages.
INCLUDED = "nginx-light,openssl,curl,systemd,iproute2,python3"
# dpkg's own files, and those of a running system.
PRUNED = ("var/lib/dpkg", "var/log/dpkg.log", "run")
# nginx's folders.
NGINX = ("etc/nginx", "var/log/nginx", "var/lib/nginx")
SECONDS = 1200
# Shells and Python use these file systems.
MOUNTS = 'mount -t proc proc "$0/proc" && mount -t sysfs -o ro sysfs "$0/sys" && mount -t tmpfs tmpfs "$0/dev/shm"'
BOOT = """[Service]
Type=oneshot
ExecStart=/bin/bash /tests/{script} /tests/reported
StandardOutput=file:/tests/said
StandardError=file:/tests/said
ExecStopPost=systemctl --no-block poweroff
"""


class Said(NamedTuple):
    """The exit status of a command, and what it writes."""

    status: int
    output: str
    errors: str


def run(*command: str | Path, environment: Mapping[str, str] | None = None, folder: Path | None = None) -> Said:
    done = subprocess.run(
        command,
        cwd=folder,
        env={**os.environ, "LC_ALL": "C.UTF-8", **(environment or {})},
        stdin=subprocess.DEVNULL,
        capture_output=True,
        text=True,
        errors="replace",
        timeout=SECONDS,
    )
    return Said(done.returncode, done.stdout, done.stderr)


def is_quiet(said: Said) -> bool:
    """Returns whether a command has succeeded without an error's text."""
    return said.status == 0 and said.errors == ""


Files = dict[str, tuple[object, ...]]


def snapshot(root: Path) -> Files:
    """Returns each file of a root, except what is pruned, with its kind and mode, its owner, and its link or checksum."""
    return {name: _kind(root / name) for name in _names(root)}


def _names(root: Path) -> Iterator[str]:
    for folder, folders, files in os.walk(root):
        place = Path(folder).relative_to(root)
        folders[:] = [name for name in folders if str(place / name) not in PRUNED]
        yield from (str(place / name) for name in (*folders, *files) if str(place / name) not in PRUNED)


def _kind(path: Path) -> tuple[object, ...]:
    found = path.lstat()
    if stat.S_ISLNK(found.st_mode):
        return "link", os.readlink(path)
    data = hashlib.sha256(path.read_bytes()).hexdigest() if stat.S_ISREG(found.st_mode) else ""
    return found.st_mode, found.st_uid, found.st_gid, data


def changes(before: Files, root: Path) -> list[str]:
    """Returns the names of what isn't as before."""
    after = snapshot(root)
    return sorted(name for name in before.keys() | after.keys() if before.get(name) != after.get(name))


class Packages(NamedTuple):
    """A folder with both packages of a version, and what deb.sh has said."""

    folder: Path
    version: str
    said: Said

    @classmethod
    def built(cls, program: str, folder: Path) -> "Packages":
        said = run(DEB, program, folder)
        return cls(folder, run(program, "--version").errors.split()[-1], said)

    def paths(self) -> list[Path]:
        """Returns that of the program, and that of Python."""
        names = (f"extractd_{self.version}-1_amd64.deb", f"python3-tigerline_{self.version}-1_all.deb")
        return [self.folder / name for name in names]


class Installed:
    """A Debian with the packages, and its files before."""

    def __init__(self, debian: "Debian", packages: Packages, kept: Path) -> None:
        self.debian, self.version, self.kept = debian, packages.version, kept
        package, python = packages.paths()
        debian.copy({package: "packages/extractd.deb", python: "packages/tigerline.deb"})
        for name in NGINX:
            (kept / name).parent.mkdir(parents=True, exist_ok=True)
            run("cp", "-a", debian.folder / name, kept / name)
        self.before = snapshot(debian.folder)
        self.said = self.install()

    def install(self) -> Said:
        return self.debian.inside("dpkg", "--install", "/packages/extractd.deb", "/packages/tigerline.deb")

    def purge(self) -> Said:
        return self.debian.inside("dpkg", "--purge", "extractd", "python3-tigerline")

    def tidy(self) -> None:
        """Removes the counties, and makes nginx's files what they were."""
        shutil.rmtree(self.debian.folder / "srv/tiger", ignore_errors=True)
        for name in NGINX:
            shutil.rmtree(self.debian.folder / name)
            run("cp", "-a", self.kept / name, self.debian.folder / name)

    def left(self) -> list[str]:
        """Returns the names of what isn't as it was before."""
        self.tidy()
        return changes(self.before, self.debian.folder)


class Unpacked:
    """A folder in which dpkg unpacks packages without a Debian."""

    def __init__(self, folder: Path) -> None:
        self.folder = folder
        files = folder / "var/lib/dpkg"
        for name in ("info", "updates", "triggers"):
            (files / name).mkdir(parents=True)
        (files / "status").touch()
        (files / "available").touch()
        (folder / "usr/local").mkdir(parents=True)

    def dpkg(self, *arguments: str | Path) -> Said:
        """Runs dpkg, which looks for its helpers in /usr/sbin."""
        forced = ("--log=/dev/null", "--force-not-root", "--force-depends", "--force-script-chrootless")
        path = {"PATH": f"{os.environ['PATH']}:/usr/sbin:/sbin"}
        return run("dpkg", f"--root={self.folder}", *forced, *arguments, environment=path)


class Debian:
    """A clean Debian in a folder, with a network of its own, until it is closed. MIRROR names another mirror than debootstrap's."""

    def __init__(self, folder: Path) -> None:
        if os.getuid() != 0 or list(missing(("debootstrap", "nsenter"))):
            pytest.skip("no root, debootstrap or nsenter for a clean Debian")
        self.folder = folder
        mirror = [os.environ["MIRROR"]] if "MIRROR" in os.environ else []
        said = run("debootstrap", "--variant=minbase", f"--include={INCLUDED}", "bookworm", folder, *mirror)
        if said.status != 0:
            shutil.rmtree(folder, ignore_errors=True)
            pytest.skip(f"no mirror for a clean Debian: {(said.output + said.errors)[-300:]}")
        self.holder = subprocess.Popen(["unshare", "--net", "sleep", str(6 * SECONDS)])
        self.network = f"--net=/proc/{self.holder.pid}/ns/net"
        self.await_network()
        self.inside("ip", "link", "set", "lo", "up")

    def await_network(self) -> None:
        end = time.monotonic() + SECONDS
        while os.readlink(f"/proc/{self.holder.pid}/ns/net") == os.readlink("/proc/self/ns/net"):
            assert self.holder.poll() is None and time.monotonic() < end
            time.sleep(0.02)

    def command(self, *words: str) -> list[str]:
        """Returns a command in the root and its network."""
        return ["nsenter", self.network, "chroot", str(self.folder), *words]

    def inside(self, *words: str) -> Said:
        return run(*self.command(*words))

    def mount_command(self, *words: str) -> list[str]:
        """Returns a command in the root and this machine's network, with the file systems that shells and Python use."""
        script = f'{MOUNTS} && exec chroot "$0" "$@"'
        return ["unshare", "--mount", "sh", "-c", script, str(self.folder), *words]

    def mounted(self, *words: str, environment: Mapping[str, str]) -> Said:
        """Runs such a command in the root's own network."""
        return run("nsenter", self.network, *self.mount_command(*words), environment=environment)

    def add_packages(self) -> None:
        """Installs what the tests need, so that the pages can be tested inside. The root's own network has no mirror."""
        shutil.copy("/etc/resolv.conf", self.folder / "etc/resolv.conf")
        names = (TOP / "tests/packages.txt").read_text().split()
        script = 'apt-get update && DEBIAN_FRONTEND=noninteractive exec apt-get install -y --no-install-recommends "$@"'
        said = run(*self.mount_command("sh", "-c", script, "-", *names))
        assert said.status == 0, said.errors

    def text(self, *words: str) -> str:
        """Returns all that a command inside writes."""
        said = self.inside(*words)
        return (said.output + said.errors).rstrip("\n")

    def copy(self, files: Mapping[Path, str]) -> None:
        """Copies files and folders to these places inside."""
        for file, place in files.items():
            (self.folder / place).parent.mkdir(parents=True, exist_ok=True)
            if file.is_dir():
                ignored = shutil.ignore_patterns("__pycache__", ".mypy_cache", ".hypothesis")
                shutil.copytree(file, self.folder / place, dirs_exist_ok=True, ignore=ignored)
            else:
                shutil.copy(file, self.folder / place)

    def assert_page(self, prefix: str, page: str) -> None:
        """Tests a page that is installed below a prefix. Its commands use much of Debian, which is here only if everything is required."""
        if not os.environ.get("REQUIRE_ALL"):
            pytest.skip("the commands of installed pages, without REQUIRE_ALL")
        installed = self.folder / prefix[1:] / "share/doc/extractd"
        files = {TOP / name: f"tmp/clone/{name}" for name in ("conftest.py", "pyproject.toml", "examples", "tests")}
        self.copy({**files, installed: "tmp/clone/installed"})
        # docs/python.md says so to whoever has run install.sh.
        module = {"PYTHONPATH": f"{prefix}/lib/python3/dist-packages", "PYTHONDONTWRITEBYTECODE": "1"}
        path = {"PATH": f"{prefix}/bin:/usr/sbin:/usr/bin:/sbin:/bin", "TMPDIR": "/tmp", **module}
        # These tests aren't a part of the others that run side by side.
        script = "unset EXTRACTD PYTEST_XDIST_WORKER && cd /tmp/clone && exec python3 -m pytest -q --pages installed"
        said = self.mounted("sh", "-c", f"{script} installed/{page}", environment=path)
        shutil.rmtree(self.folder / "tmp/clone")
        assert re.search(r"^[1-9][0-9]* passed, 0 failed$", said.output, re.MULTILINE), said.output + said.errors

    def boot(self, script: Path) -> dict[str, str]:
        """Boots with systemd as the first process, which runs a script of `report NAME VALUE` and powers off. Returns the values."""
        units = self.folder / "etc/systemd/system"
        self.copy({script: f"tests/{script.name}", script.parent / "report.sh": "tests/report.sh"})
        (units / "boot-test.service").write_text(BOOT.format(script=script.name))
        (units / "multi-user.target.wants").mkdir(exist_ok=True)
        (units / "multi-user.target.wants/boot-test.service").symlink_to("../boot-test.service")
        (self.folder / "etc/machine-id").write_text("")
        options = ("--quiet", "--boot", "--register=no", "--keep-unit", "--private-network")
        said = run("systemd-nspawn", f"--directory={self.folder}", *options)
        reported = self.folder / "tests/reported"
        if not reported.exists():
            pytest.skip(f"no systemd as the first process (nspawn: {(said.output + said.errors).strip()[-200:]})")
        words = reported.read_text().split("\0")
        return dict(zip(words[::2], words[1::2]))

    def close(self) -> None:
        self.holder.send_signal(signal.SIGKILL)
        self.holder.wait()
        shutil.rmtree(self.folder)
