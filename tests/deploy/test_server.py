"""The server itself: where it listens, and a client that is refused while it sends."""

import socket
import subprocess
import time
from pathlib import Path

import pytest
from harness.server import Server

pytestmark = pytest.mark.xdist_group("server")

# Longer than any wait of a busy machine, in seconds.
SECONDS = 120


def connects(address: str, port: int) -> bool:
    """Returns whether something listens at an address of this machine."""
    try:
        socket.create_connection((address, port), SECONDS).close()
    except OSError:
        return False
    return True


def test_rows_of_the_example_county(inputs: Path) -> None:
    assert (inputs / "rows").stat().st_size == 92_400


def test_listens_at_loopback(server: Server) -> None:
    assert connects("127.0.0.1", server.port)


def test_listens_at_no_other_loopback(server: Server) -> None:
    assert not connects("127.0.0.2", server.port)


def test_listens_nowhere_else(server: Server) -> None:
    assert server.addresses() == {f"0100007F:{server.port:04X}"}


@pytest.mark.needs("hostname")
def test_listens_at_no_address_of_the_machine(server: Server) -> None:
    said = subprocess.run(["hostname", "-I"], check=True, capture_output=True, text=True).stdout
    assert [address for address in said.split() if ":" not in address and connects(address, server.port)] == []


def test_refused_client(server: Server) -> None:
    """A body that is too long is refused after its head. The client goes on sending for a second, and then reads the reply."""
    with socket.create_connection(("127.0.0.1", server.port), SECONDS) as client:
        client.sendall(b"POST /verify HTTP/1.1\r\nContent-Length: 2000000\r\n\r\n")
        for _ in range(4):
            client.sendall(bytes(50_000))
            time.sleep(0.3)
        assert client.recv(65536).startswith(b"HTTP/1.1 413 ")
