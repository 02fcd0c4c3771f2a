"""Where `serve` listens, and what it logs: the line that says so, and a request there."""

import re
import socket
import time
from pathlib import Path

import pytest
from harness import cases
from harness.cases import Case
from harness.program import TOP
from harness.server import Server

EXAMPLES = TOP / "examples"
SECONDS = 60
REQUEST = b"GET /health HTTP/1.1\r\nHost: a\r\n\r\n"
# The host that the server names, where a client finds it, and the options.
HOSTS = """
127.0.0.1|127.0.0.1|
127.0.0.1|127.0.0.1|--public
127.1.2.3|127.1.2.3|--host 127.1.2.3
0.0.0.0|127.0.0.1|--public --host 0.0.0.0
[::1]|::1|--host ::1
[::]|::1|--host :: --public
"""
DATE = r"\[[0-9]{2}/[A-Z][a-z]{2}/[0-9]{4}:[0-9]{2}:[0-9]{2}:[0-9]{2} \+0000\]"
LOG = rf'- - - {DATE} "start" - - - -\n127\.0\.0\.1 - - {DATE} "GET /health HTTP/1\.1" 200 3 33 [0-9]+\n'


def health_at(address: str, port: int) -> str:
    """Returns the last line of the reply to a request."""
    with socket.create_connection((address, port), SECONDS) as connection:
        connection.sendall(REQUEST)
        reply = b"".join(iter(lambda: connection.recv(65536), b""))
    return reply.decode().splitlines()[-1]


def can_listen(host: str) -> bool:
    """Returns whether the machine has a host's address. It may have no IPv6."""
    family = socket.AF_INET6 if ":" in host else socket.AF_INET
    try:
        with socket.socket(family) as listener:
            listener.bind((host.strip("[]"), 0))
    except OSError:
        return False
    return True


@pytest.mark.parametrize("row", HOSTS.strip().splitlines())
def test_any_port(extractd: str, row: str) -> None:
    """A server at a free port says that it listens at the host, and answers there."""
    host, client, options = row.split("|")
    if not can_listen(host):
        command = f"extractd serve --any-port --data $county {options} 01001"
        cases.check(Case(command, 3, "0", f"error: {host}:0: *"))
        return
    with Server(EXAMPLES, *options.split()) as server:
        assert server.host == host and server.port > 0
        assert health_at(client, server.port) == "ok"


def test_taken_port(extractd: str) -> None:
    """The port that a server has can't be taken by another one."""
    with Server(EXAMPLES) as server:
        command = f"extractd serve --data $county --port {server.port} 01001"
        cases.check(Case(command, 3, "0", f"error: 127.0.0.1:{server.port}: *"))


@pytest.mark.skipif(not Path("/proc/net/tcp").exists(), reason="no /proc/net/tcp")
def test_listens_here_alone(extractd: str) -> None:
    with Server(EXAMPLES / "one") as server:
        assert server.addresses() == {f"0100007F:{server.port:04X}"}


def test_log(extractd: str) -> None:
    with Server(EXAMPLES, "--log") as server:
        assert health_at("127.0.0.1", server.port) == "ok"
        deadline = time.monotonic() + SECONDS
        # The line of a request may follow its reply.
        while server.said().count("\n") < 2 and time.monotonic() < deadline:
            time.sleep(0.01)
    assert re.fullmatch(LOG, server.said())


def test_no_log(extractd: str) -> None:
    """Without --log nothing is written about a request, not even when the next one is answered."""
    with Server(EXAMPLES) as server:
        assert [health_at("127.0.0.1", server.port) for _ in range(2)] == ["ok", "ok"]
    assert server.said() == ""
