"""deploy/server/swap.sh: servers that take over from each other while three clients send requests to nginx."""

import os
import subprocess
import threading
from collections.abc import Iterator
from pathlib import Path
from typing import NamedTuple

import pytest
from harness.bodies import EXAMPLES, output_of
from harness.curl import Reply, ask, command_of
from harness.nginx import Nginx
from harness.program import TOP
from harness.server import Server

pytestmark = [pytest.mark.needs("curl", "nginx", "openssl"), pytest.mark.xdist_group("swap")]

SECONDS = 300
# How many requests each client sends at least.
REQUESTS = 100
CLIENTS = {
    "health": "URL/health",
    "geocode": "URL/geocode?number=1785&name=persimmon",
    "verify": "--data-binary @all.bpf URL/verify",
}


class Said(NamedTuple):
    """The exit status of a command, and all that it writes."""

    status: int
    text: str


class Site:
    """nginx, and the server that it uses."""

    def __init__(self) -> None:
        self.server = Server(EXAMPLES)
        self.nginx = Nginx(self.server.port)

    def swap(self, *ports: int | str, **settings: str) -> Said:
        """Runs swap.sh for this nginx."""
        ours = {"NGINX": " ".join(self.nginx.command()), "SITE": "site.conf", "PID_FILE": "nginx.pid"}
        done = subprocess.run(
            [TOP / "deploy/server/swap.sh", *map(str, ports)],
            cwd=self.nginx.folder,
            env={**os.environ, "HOME": str(self.nginx.folder), **ours, **settings},
            stdin=subprocess.DEVNULL,
            stdout=subprocess.PIPE,
            stderr=subprocess.STDOUT,
            text=True,
            timeout=SECONDS,
        )
        return Said(done.returncode, done.stdout)

    def take_over(self, folder: Path) -> None:
        """Starts a server over the county in a folder, lets nginx use it, and stops the one before."""
        before, self.server = self.server, Server(folder)
        assert self.swap(before.port, self.server.port) == (0, "")
        before.close()
        words = EXAMPLES / "programs/all.bpf"
        rows = output_of("run", "--program", words, "--data", folder, "01001")
        assert ask("--data-binary", f"@{words}", f"{self.nginx.url}/extract") == Reply("200", rows)

    def text(self) -> str:
        return (self.nginx.folder / "site.conf").read_text()

    def close(self) -> None:
        self.nginx.close()
        self.server.close()


class Sender(threading.Thread):
    """A client that sends requests, each over a connection of its own, until it is stopped. `failed` has what isn't of status 200."""

    def __init__(self, arguments: str, folder: Path) -> None:
        super().__init__(daemon=True)
        self.command = command_of("-f", "-o", "/dev/null", *arguments.split(" "))
        self.folder = folder
        self.stopped = threading.Event()
        self.sent = 0
        self.failed: list[tuple[int, str]] = []

    def run(self) -> None:
        while not self.stopped.is_set():
            done = subprocess.run(self.command, cwd=self.folder, stdin=subprocess.DEVNULL, capture_output=True)
            self.sent += 1
            if (done.returncode, done.stderr) != (0, b"200"):
                self.failed.append((done.returncode, done.stderr.decode()))

    def stop(self) -> None:
        self.stopped.set()
        self.join()


@pytest.fixture(scope="module")
def site(extractd: str) -> Iterator[Site]:
    site = Site()
    yield site
    site.close()


@pytest.fixture(scope="module")
def senders(site: Site, inputs: Path) -> dict[str, Sender]:
    """Returns clients that have sent requests while servers with other data took over, twice or more."""
    senders = {name: Sender(words.replace("URL", site.nginx.url), inputs) for name, words in CLIENTS.items()}
    for sender in senders.values():
        sender.start()
    try:
        swap_until_sent(site, senders)
    finally:
        list(map(Sender.stop, senders.values()))
    return senders


def swap_until_sent(site: Site, senders: dict[str, Sender]) -> None:
    while any(sender.sent < REQUESTS for sender in senders.values()):
        site.take_over(EXAMPLES / "one")
        site.take_over(EXAMPLES)


@pytest.mark.parametrize("client", CLIENTS)
def test_no_request_fails(client: str, senders: dict[str, Sender]) -> None:
    assert senders[client].failed == [], f"of {senders[client].sent} requests"
    assert senders[client].sent >= REQUESTS


@pytest.mark.parametrize("folder", ["examples/one", "examples"])
def test_rows_of_the_server_that_took_over(folder: str, site: Site) -> None:
    site.take_over(TOP / folder)


def test_port_without_upstream(site: Site) -> None:
    """The port in a comment isn't that of an upstream."""
    before = site.text()
    assert "server 127.0.0.1:8081 " in before
    assert site.swap(8081, site.server.port) == (1, "swap.sh: site.conf: no upstream has port 8081\n")
    assert site.text() == before


def test_refused_site(site: Site) -> None:
    """The site stays as it was."""
    before, ports = site.text(), (site.server.port, site.server.port)
    assert site.swap(*ports, NGINX="false") == (1, "swap.sh: nginx doesn't accept the changed site: \n")
    assert site.text() == before


def test_no_server_to_take_over(site: Site) -> None:
    before = site.text()
    assert site.swap(site.server.port, 1) == (1, "swap.sh: no server answers at port 1\n")
    assert site.text() == before


@pytest.mark.parametrize("ports", [(), ("8080",), ("8080", "8081", "8082"), ("8080", "a"), ("", "8081")], ids=str)
def test_usage(ports: tuple[str, ...], site: Site) -> None:
    assert site.swap(*ports) == (2, "usage: swap.sh FROM TO\n")
