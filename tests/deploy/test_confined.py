"""The packaged server in a clean Debian, within its unit's limits.

The server runs without capabilities, on a read-only system. nginx with its site runs in front of it, at the real ports of a network of their own. The server
makes no system call that the unit forbids.
"""

import re
import shutil
import subprocess
import time
from collections.abc import Iterator
from pathlib import Path
from typing import NamedTuple

import pytest
from harness.root import Debian, Installed, run

pytestmark = [
    pytest.mark.release,
    pytest.mark.needs("dpkg-shlibdeps", "strip"),
    pytest.mark.xdist_group("debian"),
]

SECONDS = 300
DOCUMENTS = "usr/share/doc/extractd"
UNIT = "usr/lib/systemd/system/extractd.service"


def rows(text: str) -> list[list[str]]:
    return [row.split(" | ") for row in text.strip().splitlines()]


def settings(debian: Debian, name: str) -> list[str]:
    return re.findall(f"^{name}=(.*)$", (debian.folder / UNIT).read_text(), re.MULTILINE)


def arguments_of(debian: Debian) -> list[str]:
    """Returns the unit's command. systemd replaces variables, and splits those without braces at blanks."""
    values = dict(word.split("=", 1) for word in settings(debian, "Environment")[0].split())
    words = settings(debian, "ExecStart")[0].split()
    return [part for word in words for part in values_of(word, values)]


def values_of(word: str, values: dict[str, str]) -> list[str]:
    if word.startswith("${"):
        return [values[word.strip("${}")]]
    return values[word[1:]].split() if word.startswith("$") else [word]


def confined(debian: Debian, trace: Path) -> list[str]:
    """Returns a command that runs the unit's as an unprivileged user, within its limits on a read-only system, and traces its system calls."""
    size = run("numfmt", "--from=iec", settings(debian, "LimitAS")[0]).output.strip()
    limits = [f"--nofile={settings(debian, 'LimitNOFILE')[0]}", f"--core={settings(debian, 'LimitCORE')[0]}"]
    limits += [f"--nproc={settings(debian, 'TasksMax')[0]}", f"--as={size}"]
    rights = "--reuid 61234 --regid 61234 --clear-groups --no-new-privs --bounding-set=-all --inh-caps=-all".split()
    script = 'mount --bind "$0" "$0" && mount -o remount,bind,ro "$0" && cd / && exec "$@"'
    spaces = ["unshare", "--mount", "--ipc", "--uts", "sh", "-c", script, str(debian.folder)]
    strace = ["strace", "-D", "-f", "-qq", "-o", str(trace)] if shutil.which("strace") else []
    command = ["nsenter", debian.network, *spaces, *strace, "chroot", str(debian.folder)]
    return [*command, "prlimit", *limits, "--", "setpriv", *rights, "--", *arguments_of(debian)]


class Confined(NamedTuple):
    debian: Debian
    process: subprocess.Popen[str]
    trace: Path

    def ask(self, *arguments: str) -> str:
        return self.debian.inside("curl", "-k", "-s", "-m", str(SECONDS), *arguments).output

    def close(self) -> None:
        """Stops it, and waits for strace, which keeps its output open."""
        self.process.terminate()
        self.process.wait()
        if self.process.stdout and not self.process.stdout.closed:
            self.process.stdout.read()
            self.process.stdout.close()


@pytest.fixture(scope="module")
def server(installed: Installed, tmp_path_factory: pytest.TempPathFactory) -> Iterator[Confined]:
    """Yields the server at port 8080, over the counties in the unit's folder."""
    debian = installed.debian
    for file in (debian.folder / DOCUMENTS / "examples").glob("TGR01001.*"):
        debian.copy({file: f"srv/tiger/{file.name}"})
    trace = tmp_path_factory.mktemp("trace") / "trace"
    process = subprocess.Popen(
        confined(debian, trace), stdin=subprocess.DEVNULL, stdout=subprocess.PIPE, stderr=subprocess.STDOUT, text=True
    )
    assert process.stdout
    server = Confined(debian, process, trace)
    try:
        assert process.stdout.readline() == "listening 127.0.0.1:8080\n"
        yield server
    finally:
        server.close()


@pytest.fixture(scope="module")
def url(server: Confined, installed: Installed) -> Iterator[str]:
    """Yields that of nginx with only the packaged site and a certificate."""
    debian, folder = installed.debian, installed.debian.folder / "etc/nginx"
    (folder / "sites-enabled/default").unlink()
    debian.copy({debian.folder / DOCUMENTS / "deploy/server/site.conf": "etc/nginx/conf.d/extractd.conf"})
    certificate = "openssl req -x509 -newkey rsa:2048 -nodes -days 1 -subj /CN=extractd"
    files = "-keyout /etc/nginx/extractd.key -out /etc/nginx/extractd.crt"
    assert debian.inside(*certificate.split(), *files.split()).status == 0
    with subprocess.Popen(
        debian.command("nginx", "-g", "daemon off;"), stdout=subprocess.PIPE, stderr=subprocess.STDOUT, text=True
    ) as nginx:
        try:
            await_file(debian.folder / "run/nginx.pid", f"{nginx.pid}\n")
            yield "https://127.0.0.1"
        finally:
            nginx.terminate()
            assert nginx.communicate()[0] == ""


def await_file(file: Path, text: str) -> None:
    end = time.monotonic() + SECONDS
    while not file.exists() or file.read_text() != text:
        assert time.monotonic() < end
        time.sleep(0.02)


# A row is a name, the reply or the command that writes it, and curl's arguments. Job ids continue.
DIRECT = """
verdict | accepted | --data-binary @EXAMPLES/programs/all.bpf URL/verify
rows | $ extractd run --program EXAMPLES/programs/not_water.bpf --data EXAMPLES 01001 | --data-binary @EXAMPLES/programs/not_water.bpf URL/extract
house number | $ extractd geocode --data EXAMPLES --number 1785 --name persimmon 01001 | URL/geocode?number=1785&name=persimmon
job | 1 | --data-binary @EXAMPLES/programs/all.bpf URL/jobs
removed job | dropped | -X DELETE URL/jobs/1
"""
BY_NGINX = """
verdict | accepted | --data-binary @EXAMPLES/programs/all.bpf URL/verify
rows | $ extractd run --program EXAMPLES/programs/all.bpf --data EXAMPLES 01001 | --data-binary @EXAMPLES/programs/all.bpf URL/extract
body in chunks | accepted | -H Transfer-Encoding:chunked --data-binary @EXAMPLES/programs/all.bpf URL/verify
no route | not found | URL/none
"""


def assert_reply(server: Confined, url: str, reply: str, arguments: str) -> None:
    places = {"EXAMPLES": f"/{DOCUMENTS}/examples", "URL": url}
    for word, place in places.items():
        reply, arguments = reply.replace(word, place), arguments.replace(word, place)
    expected = server.debian.inside(*reply[2:].split()).output if reply.startswith("$ ") else f"{reply}\n"
    assert expected
    assert server.ask(*arguments.split()) == expected


@pytest.mark.parametrize("name, reply, arguments", rows(DIRECT), ids=[row[0] for row in rows(DIRECT)])
def test_reply(name: str, reply: str, arguments: str, server: Confined) -> None:
    assert_reply(server, "http://127.0.0.1:8080", reply, arguments)


@pytest.mark.parametrize("name, reply, arguments", rows(BY_NGINX), ids=[row[0] for row in rows(BY_NGINX)])
def test_reply_by_nginx(name: str, reply: str, arguments: str, server: Confined, url: str) -> None:
    assert_reply(server, url, reply, arguments)


def calls_of(debian: Debian, groups: list[str]) -> set[str]:
    """Returns the system calls of systemd's groups."""
    lines = debian.text("systemd-analyze", "--no-pager", "syscall-filter", *groups).splitlines()
    names = {line.strip() for line in lines if re.match("    [^#]", line)}
    inner = sorted(name for name in names if name.startswith("@"))
    return {name for name in names if not name.startswith("@")} | (calls_of(debian, inner) if inner else set())


@pytest.mark.needs("strace")
def test_system_calls(server: Confined) -> None:
    """The server made none that the unit's filter forbids. The filter is a line of allowed groups and one of forbidden groups."""
    server.close()
    allowed, forbidden = (line.removeprefix("~").split() for line in settings(server.debian, "SystemCallFilter"))
    permitted = calls_of(server.debian, allowed) - calls_of(server.debian, forbidden)
    trace = server.trace.read_text(errors="replace").partition('execve("/usr/bin/extractd"')[2]
    made = set(re.findall(r"^[0-9]* *([a-z0-9_]*)\(", trace, re.MULTILINE))
    assert made & {"accept", "accept4"}
    assert made - permitted == set()
