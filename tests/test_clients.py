"""The server's limits of time, as docs/http.md has them, with clients that are silent, slow, or don't read.

A server serves one client at a time: the first client holds it, and the reply to a second one, which has connected meanwhile, shows when the first was cut
off. Only the time that a client waits is compared with a limit, so these tests may run beside each other.
"""

import re
import signal
import socket
import threading
import time
from collections.abc import Callable, Iterator
from concurrent.futures import ThreadPoolExecutor
from pathlib import Path
from typing import NamedTuple

import pytest
from harness.program import TOP
from harness.server import Server
from make_county import SEED, Dice, county, write

# The limits of docs/http.md, in seconds.
IDLE, REQUEST, REPLY, LINGER = 10, 30, 30, 5
MEBIBYTE = 1 << 20
# How much sooner or later than its limit a client may be cut off.
SOONER, LATER = 0.5, 4
# How long anything else may take before a test gives up.
DEADLINE = 120
# The large county has parts of 400 segments, and a row has 231 bytes.
PART, ROW = 400, 231
WORDS = (TOP / "examples/programs/all.bpf").read_bytes()

pytestmark = pytest.mark.usefixtures("extractd")


class Large(NamedTuple):
    """A server over a county whose rows don't fit into the buffer of a connection."""

    server: Server
    segments: int


@pytest.fixture
def server(extractd: str) -> Iterator[Server]:
    with Server(TOP / "examples") as started:
        yield started


@pytest.fixture
def large(extractd: str, tmp_path: Path) -> Iterator[Large]:
    most_buffered = int(Path("/proc/sys/net/ipv4/tcp_wmem").read_text().split()[2])
    parts = most_buffered * 11 // 10 // (PART * ROW) + 1
    segments = [segment for part in range(parts) for chain in county(Dice(SEED + part)) for segment in chain]
    write(tmp_path, (segments,))
    with Server(tmp_path) as started:
        yield Large(started, len(segments))


def connect(server: Server, buffer: int | None = None) -> socket.socket:
    """Connects, with a buffer of this many bytes for what is received."""
    client = socket.socket()
    client.settimeout(DEADLINE)
    if buffer is not None:
        client.setsockopt(socket.SOL_SOCKET, socket.SO_RCVBUF, buffer)
    client.connect(("127.0.0.1", server.port))
    return client


def request(route: str, body: bytes, length: int | None = None) -> bytes:
    head = f"POST /{route} HTTP/1.1\r\nContent-Length: {len(body) if length is None else length}\r\n\r\n"
    return head.encode("ascii") + body


def read_reply(client: socket.socket) -> bytes:
    """Reads up to the end of the connection."""
    return b"".join(iter(lambda: client.recv(65536), b""))


def check_status(reply: bytes, status: int) -> None:
    assert reply.startswith(f"HTTP/1.1 {status} ".encode("ascii")), reply[:100]


def check_rows(reply: bytes, segments: int) -> None:
    """The reply must be complete, with a row for each segment."""
    head, _, body = reply.partition(b"\r\n\r\n")
    check_status(head, 200)
    length = re.search(rb"Content-Length: (\d+)", head)
    assert length is not None
    assert (int(length[1]), body.count(b"\n")) == (len(body), segments)


# ---- Waits


class Lateness(threading.Thread):
    """Measures by how much longer than it should a process of this machine sleeps meanwhile, in seconds. A busy machine is late, and so is a server there."""

    STEP = 0.1

    def __init__(self) -> None:
        super().__init__(daemon=True)
        self.seconds = 0.0
        self.ended = threading.Event()

    def run(self) -> None:
        before = time.monotonic()
        while not self.ended.wait(self.STEP):
            now = time.monotonic()
            self.seconds += max(0.0, now - before - self.STEP)
            before = now

    def __enter__(self) -> "Lateness":
        self.start()
        return self

    def __exit__(self, *_: object) -> None:
        self.ended.set()
        self.join()


def check_wait(server: Server, start: float, limit: float) -> None:
    """The second client must get its reply when the first one's time is over."""
    with Lateness() as late, connect(server) as second:
        second.sendall(request("verify", WORDS))
        reply = read_reply(second)
        waited = time.monotonic() - start
    assert reply.endswith(b"\r\n\r\naccepted\n"), reply[:100]
    assert limit - SOONER <= waited <= limit + LATER + late.seconds


def keep_sending(client: socket.socket, data: bytes, period: float) -> None:
    """Sends a byte per period until there are no more, or until the connection is closed."""
    try:
        for byte in data:
            client.sendall(bytes([byte]))
            time.sleep(period)
    except OSError:
        pass


def test_silent_client(server: Server) -> None:
    with connect(server):
        check_wait(server, time.monotonic(), IDLE)


def test_client_that_falls_silent(server: Server) -> None:
    """Its body lacks a byte."""
    with connect(server) as first:
        first.sendall(request("verify", WORDS, len(WORDS) + 1))
        check_wait(server, time.monotonic(), IDLE)


def test_slow_client(server: Server) -> None:
    """A byte every four seconds is never ten seconds of silence."""
    with connect(server) as first, ThreadPoolExecutor() as pool:
        start = time.monotonic()
        pool.submit(keep_sending, first, request("verify", WORDS)[: (REQUEST + LATER) // 4 + 1], 4)
        check_wait(server, start, REQUEST)


def test_client_that_reads_nothing(large: Large) -> None:
    """Each mebibyte of the reply adds a second."""
    with connect(large.server, buffer=65536) as first:
        first.sendall(request("extract", WORDS))
        check_wait(large.server, time.monotonic(), REPLY + large.segments * ROW // MEBIBYTE)


def check_lingering(server: Server, first_request: bytes, status: int) -> None:
    """A client goes on sending after its reply. What it sends is read for a while, so that it gets the reply."""
    with connect(server) as first, ThreadPoolExecutor() as pool:
        first.sendall(first_request)
        start = time.monotonic()
        sending = pool.submit(keep_sending, first, bytes(4 * (LINGER + LATER)), 0.25)
        check_status(first.recv(65536), status)
        check_wait(server, start, LINGER)
        sending.result()


def test_client_that_goes_on_sending(server: Server) -> None:
    """Its body is refused after the head."""
    check_lingering(server, request("verify", b"", 2 * MEBIBYTE), 413)


def test_client_that_sends_too_much(server: Server) -> None:
    """When the reply is written, it has sent more than the server reads at once."""
    check_lingering(server, request("verify", WORDS) + bytes(20_000), 200)


# ---- Interruptions


def wait_until(holds: Callable[[], bool]) -> None:
    until = time.monotonic() + DEADLINE
    while not holds():
        assert time.monotonic() < until, "the server never gets there"
        time.sleep(0.01)


def state(server: Server) -> str:
    """Returns what Linux says of the process, such as S if it sleeps and T if it is stopped."""
    return Path(f"/proc/{server.process.pid}/stat").read_text().rpartition(")")[2].split()[0]


def queued(server: Server, client: socket.socket) -> tuple[int, int]:
    """Returns how many bytes the server has written and the client hasn't received, and how many it hasn't read."""
    ends = f":{server.port:04X}", f":{client.getsockname()[1]:04X}"
    rows = (line.split() for line in Path("/proc/net/tcp").read_text().splitlines()[1:])
    queues = next(row[4] for row in rows if row[1].endswith(ends[0]) and row[2].endswith(ends[1]))
    written, _, received = queues.partition(":")
    return int(written, 16), int(received, 16)


def interrupt(server: Server) -> None:
    """Stops and continues the server. A call that waits for a socket with a time limit then ends early, by EINTR."""
    server.process.send_signal(signal.SIGSTOP)
    wait_until(lambda: state(server) == "T")
    server.process.send_signal(signal.SIGCONT)
    wait_until(lambda: state(server) == "S")


def test_interrupted_read(server: Server) -> None:
    data = request("verify", WORDS)
    with connect(server) as client:
        client.sendall(data[:-1])
        wait_until(lambda: queued(server, client)[1] == 0 and state(server) == "S")
        interrupt(server)
        client.sendall(data[-1:])
        check_status(read_reply(client), 200)


def test_interrupted_write(large: Large) -> None:
    """Interruptions end writes that have written a part, and at last one that has written nothing."""
    with connect(large.server, buffer=65536) as client:
        client.sendall(request("extract", WORDS))
        wait_until(lambda: queued(large.server, client)[0] > 0 and state(large.server) == "S")
        for _ in range(4):
            interrupt(large.server)
        check_rows(read_reply(client), large.segments)
