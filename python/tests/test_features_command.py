"""The command `tigerline serve`: start, stop, messages, and HTTP with bad clients."""

import json
import os
import signal
import socket
import subprocess
import sys
import threading
import time
import urllib.request
from collections.abc import Callable, Iterator, Sequence
from contextlib import ExitStack, closing
from pathlib import Path
from typing import Any

import jinja2
import markupsafe
import pytest
from counties import CODE, EXAMPLES, TOP, copy_county, program_of
from test_interrupts import processes_with
from tigerline.layout import NAMES

ITEMS = f"/collections/{CODE}/items"
# A command that outlasts each test, and that no other run of the tests uses. It ends, so that no test can wait forever.
HANGING = f"sleep 60.{os.getpid()}"
# Shortens one of the server's times for a test. The other one is longer than any test.
SHORT_IDLE = "from tigerline.service import server as s; s.IDLE_SECONDS = 1; s.SENDING_SECONDS = 600; "
SHORT_SENDING = "from tigerline.service import server as s; s.IDLE_SECONDS = 600; s.SENDING_SECONDS = 2; "
RUN = "import sys; from tigerline.commands import main; sys.exit(main(['serve', *sys.argv[1:]]))"

# What docs/features.md promises of memory, and a wait that is long only on a busy machine.
MEMORY = 128 << 20
LONGEST_WAIT = 3
# What lets a page of another origin send any header.
PREFLIGHT = {
    "Allow: GET, HEAD, OPTIONS",
    "Access-Control-Allow-Origin: *",
    "Access-Control-Allow-Methods: GET, HEAD, OPTIONS",
    "Access-Control-Allow-Headers: *",
    "Access-Control-Max-Age: 86400",
}

pytestmark = pytest.mark.usefixtures("scratch")


def wait_until(condition: Callable[[], object], seconds: float = 30) -> None:
    deadline = time.monotonic() + seconds
    while not condition():
        assert time.monotonic() < deadline
        time.sleep(0.02)


class Running:
    """A running service."""

    def __init__(self, arguments: Sequence[object], before: str = "") -> None:
        pytest.importorskip("waitress", reason="no waitress")
        command = [sys.executable, "-c", before + RUN, "--port", "0", *map(str, arguments)]
        environment = {**os.environ, "PYTHONPATH": str(TOP / "python")}
        self.process = subprocess.Popen(
            command, env=environment, stdout=subprocess.PIPE, stderr=subprocess.PIPE, text=True, start_new_session=True
        )
        assert self.process.stdout is not None
        line = self.process.stdout.readline()
        assert line.startswith("listening http://"), self.process.communicate()
        self.url = line.split()[1]
        self.port = int(self.url.rpartition(":")[2])

    def stop(self, number: int = signal.SIGTERM) -> tuple[int, str]:
        """Ends the service, and returns its status and its standard error."""
        self.process.send_signal(number)
        said = self.process.communicate(timeout=30)[1]
        return self.process.returncode, said

    def get(self, target: str) -> Any:
        with urllib.request.urlopen(self.url + target, timeout=60) as reply:
            return json.load(reply)

    def peak_memory(self) -> int:
        """Returns the most memory that the service has had, in bytes."""
        status = Path(f"/proc/{self.process.pid}/status").read_text()
        return int(status.partition("VmHWM:")[2].split()[0]) << 10

    def open_files(self) -> int:
        """Returns the number of files and connections that the service has open."""
        return len(os.listdir(f"/proc/{self.process.pid}/fd"))

    def connect(self) -> socket.socket:
        return socket.create_connection(("127.0.0.1", self.port), timeout=60)


@pytest.fixture
def start(extractd: str) -> Iterator[Callable[..., Running]]:
    """Starts services. Each must end by SIGTERM with status 0 and without a message, and leave no process."""
    running: list[Running] = []

    def started(*arguments: object, before: str = "") -> Running:
        running.append(Running(arguments, before))
        return running[-1]

    yield started
    for service in running:
        if service.process.poll() is None:
            assert service.stop() == (0, "")


@pytest.fixture
def service(start: Callable[..., Running]) -> Running:
    return start("--data", EXAMPLES, "--counties", CODE)


@pytest.fixture
def large(tmp_path: Path) -> str:
    """Returns a program that writes 20,000 features of 700 bytes, as `extractd` does."""
    names = ("RT", "VERSION", "TLID", *NAMES[3:])
    with open(tmp_path / "features", "w") as file:
        for number in range(20_000):
            values = dict.fromkeys(names) | {"RT": "1", "TLID": number, "FENAME": "Main", "FRLONG": -86.5}
            properties: dict[str, object] = {"score": 0, **values}
            line = {"type": "LineString", "coordinates": [[-86.5, 32.5], [-86.4, 32.4]]}
            feature = {"type": "Feature", "properties": properties, "geometry": line}
            file.write(json.dumps(feature, separators=(",", ":")) + "\n")
    return program_of(tmp_path / "large", f"exec cat {tmp_path}/features")


def request(target: str, *headers: str, method: str = "GET", version: str = "HTTP/1.1") -> bytes:
    return "\r\n".join((f"{method} {target} {version}", "Host: localhost", *headers, "", "")).encode()


def read_reply(connection: socket.socket) -> bytes:
    """Reads a reply by its Content-Length, and nothing of the next one."""
    head = b""
    while not head.endswith(b"\r\n\r\n"):
        byte = connection.recv(1)
        if not byte:
            return head
        head += byte
    body, length = b"", int(head.lower().split(b"content-length: ")[1].split(b"\r\n")[0])
    while len(body) < length:
        part = connection.recv(min(65_536, length - len(body)))
        assert part
        body += part
    return head + body


def read_reply_of(service: Running, target: str) -> bytes:
    with closing(service.connect()) as connection:
        connection.sendall(request(target))
        return read_reply(connection)


def is_whole(connection: socket.socket) -> bool:
    """Returns whether the rest of a reply can be read."""
    try:
        return len(read_reply(connection)) > 0
    except (OSError, AssertionError):
        return False


def status_of(reply: bytes) -> int:
    return int(reply.split(b" ", 2)[1]) if reply else 0


class TestCommand:
    """Start and stop."""

    @pytest.mark.parametrize(
        ("arguments", "status", "text"),
        [
            ("", 2, "required: --data, --port"),
            ("--data {data} --port 70000", 2, "'70000' is no number from 0 to 65535"),
            ("--data {data} --port 0 --page 0", 2, "'0' is no number from 1"),
            ("--data {data} --port 0 --url example.org", 2, "is no address"),
            ("--data {data} --port 0 --counties XX", 2, "is no county"),
            ("--data {data} --port 0 --counties 99", 3, "has no TGR99???.RT1"),
            ("--data {data}/nothing --port 0", 3, "nothing"),
            ("--data {data} --port 0 --extractd {data}/nothing", 3, "there is no program"),
            ("--data {data} --port 0 --host 192.0.2.1", 3, "192.0.2.1"),
            ("--data {data} --port {used}", 3, "in use"),
        ],
    )
    def test_errors(self, extractd: str, arguments: str, status: int, text: str) -> None:
        with socket.create_server(("127.0.0.1", 0)) as other:
            given = arguments.format(data=EXAMPLES, used=other.getsockname()[1]).split()
            environment = {**os.environ, "PYTHONPATH": str(TOP / "python")}
            done = subprocess.run(
                [sys.executable, "-m", "tigerline", "serve", *given],
                env=environment,
                capture_output=True,
                text=True,
                timeout=60,
            )
        assert done.returncode == status and text in done.stderr.splitlines()[-1] and done.stdout == ""
        assert "Traceback" not in done.stderr

    def test_missing_server(self, extractd: str) -> None:
        code = f"import sys; sys.modules['waitress'] = None; {RUN}"
        command = [sys.executable, "-c", code, "--data", str(EXAMPLES), "--port", "0"]
        environment = {**os.environ, "PYTHONPATH": str(TOP / "python")}
        done = subprocess.run(command, env=environment, capture_output=True, text=True, timeout=60)
        assert done.returncode == 3 and "apt install python3-waitress" in done.stderr and done.stdout == ""

    def test_other_packages(self, extractd: str, tmp_path: Path) -> None:
        """The application needs Jinja2, of which markupsafe is a part, and otherwise the standard library alone."""
        for package in (jinja2, markupsafe):
            (tmp_path / package.__name__).symlink_to(Path(str(package.__file__)).parent)
        code = (
            f"import sys; sys.path[:0] = [{str(TOP / 'python')!r}, {str(tmp_path)!r}]; "
            "from tigerline.service.application import application; "
            f"application({str(EXAMPLES)!r}, {CODE!r})({{'REQUEST_METHOD': 'GET', 'PATH_INFO': {ITEMS!r}, "
            "'wsgi.url_scheme': 'http', 'HTTP_HOST': 'a'}, lambda *a: print(a[0]))"
        )
        command = [sys.executable, "-S", "-W", "error", "-c", code]
        assert subprocess.run(command, stdout=subprocess.PIPE, text=True, check=True, timeout=60).stdout == "200 OK\n"

    @pytest.mark.parametrize("number", [signal.SIGINT, signal.SIGTERM, signal.SIGHUP])
    def test_stop_during_a_selection(self, start: Callable[..., Running], tmp_path: Path, number: int) -> None:
        program = program_of(tmp_path / "hanging", f"{HANGING}; true")
        service = start("--data", EXAMPLES, "--counties", CODE, "--extractd", program)
        with closing(service.connect()) as connection:
            connection.sendall(request(ITEMS))
            wait_until(lambda: processes_with(HANGING))
            started = time.monotonic()
            assert service.stop(number) == (0, "") and time.monotonic() - started < 10
        assert not processes_with(program) and not processes_with(HANGING)

    @pytest.mark.parametrize("number", [signal.SIGHUP, signal.SIGINT])
    def test_ignored_signal(self, start: Callable[..., Running], number: int) -> None:
        """One that is ignored at the start, as by nohup or in the background of a script, doesn't end the service."""
        ignoring = f"import signal; signal.signal({number:d}, signal.SIG_IGN); "
        service = start("--data", EXAMPLES, "--counties", CODE, before=ignoring)
        service.process.send_signal(number)
        for _ in range(3):  # The server would end before it waits for the next of them.
            assert service.get("/conformance")

    def test_missing_types_are_said_once(self, start: Callable[..., Running], tmp_path: Path) -> None:
        service = start("--data", copy_county(tmp_path, "1"))
        for limit in (1, 2):
            service.get(f"{ITEMS}?limit={limit}&filter=TLID%3E{limit}")
        status, said = service.stop()
        assert status == 0 and said.startswith("warning: ") and said.count("\n") == 1


class TestHttp:
    """Requests and replies."""

    def test_many_requests(self, service: Running) -> None:
        """No reply is delayed until the client has acknowledged a part of it, for up to 40 ms."""
        service.get(ITEMS)
        started = time.monotonic()
        with closing(service.connect()) as connection:
            for _ in range(100):
                connection.sendall(request(f"{ITEMS}?limit=10"))
                assert status_of(read_reply(connection)) == 200
        assert time.monotonic() - started < 3  # 40 ms each would be 4 s

    def test_two_requests_in_one_write(self, service: Running) -> None:
        with closing(service.connect()) as connection:
            connection.sendall(request("/conformance") + request("/nothing", "Connection: close"))
            replies = b""
            while part := connection.recv(65_536):
                replies += part
        assert replies.count(b"HTTP/1.1 200 OK") == 1 and replies.count(b"HTTP/1.1 404 Not Found") == 1

    @pytest.mark.parametrize(
        ("sent", "status"),
        [
            (b"\r\n\r\nGET / HTTP/1.1\r\nHost: localhost\r\n\r\n", 200),
            (b"GET /\r\n\r\n", 200),
            (b"GET / HTTP/2.0\r\n\r\n", 200),
            (b"PRI * HTTP/2.0\r\n\r\nSM\r\n\r\n", 405),
            (b"GET / HTTP/1.1\r\n\r\n", 400),
            (b"GET / HTTP/1.0\r\n\r\n", 200),
            (b"GET http://localhost/conformance HTTP/1.1\r\nHost: localhost\r\n\r\n", 200),
            (b"GET /x://y/collections HTTP/1.1\r\nHost: localhost\r\n\r\n", 404),
            (b"GET /%63onformance HTTP/1.1\r\nHost: localhost\r\n\r\n", 200),
            (b"GET /%2563onformance HTTP/1.1\r\nHost: localhost\r\n\r\n", 404),
            (b"GET / HTTP/1.1\r\nHost: localhost\r\nA b: c\r\n\r\n", 400),
            (b"GET  / HTTP/1.1\r\nHost: localhost\r\n\r\n", 405),
            (b"GET / HTTP/1.1\r\nHost : localhost\r\n\r\n", 400),
            (b"GET / HTTP/1.1\r\nHost: localhost\r\n folded\r\n\r\n", 400),
            (b"GET / HTTP/1.1\r\nHost: local\0host\r\n\r\n", 400),
            (b"GET / HTTP/1.1\r\nHost: a\r\nHost: b\r\n\r\n", 400),
            (b"GET /\xff\xfe HTTP/1.1\r\nHost: localhost\r\n\r\n", 400),
            (b"GET /%ff%00 HTTP/1.1\r\nHost: localhost\r\n\r\n", 404),
            (b"POST / HTTP/1.1\r\nHost: localhost\r\nContent-Length: 5\r\n\r\nhello", 405),
            (b"POST / HTTP/1.1\r\nHost: localhost\r\nTransfer-Encoding: chunked\r\n\r\n0\r\n\r\n", 405),
            (b"POST / HTTP/1.1\r\nHost: localhost\r\nContent-Length: 65536\r\n\r\n", 413),
            (b"GET /" + b"x" * 70_000 + b" HTTP/1.1\r\nHost: localhost\r\n\r\n", 431),
            (b"GET / HTTP/1.1\r\nHost: localhost\r\n" + b"A: b\r\n" * 12_000 + b"\r\n", 431),
            (b"\x16\x03\x01\x02\x00\x01\x00\r\n\r\n", 405),
        ],
    )
    def test_heads(self, service: Running, sent: bytes, status: int) -> None:
        with closing(service.connect()) as connection:
            connection.sendall(sent)
            assert status_of(read_reply(connection)) == status
        assert service.get("/conformance")

    def test_head_has_no_body(self, service: Running) -> None:
        with closing(service.connect()) as connection:
            connection.sendall(request(ITEMS, "Connection: close", method="HEAD"))
            reply = b""
            while part := connection.recv(65_536):
                reply += part
        assert reply.endswith(b"\r\n\r\n") and int(reply.split(b"Content-Length: ")[1].split(b"\r\n")[0]) > 10_000

    def test_body_is_no_request(self, service: Running) -> None:
        """What follows a body is the next request, and the body isn't one."""
        hidden = request("/api")
        bodies = [
            (f"Content-Length: {len(hidden)}", hidden),
            ("Transfer-Encoding: chunked", b"%x\r\n%b\r\n0\r\n\r\n" % (len(hidden), hidden)),
        ]
        for header, body in bodies:
            with closing(service.connect()) as connection:
                connection.sendall(request("/", header, method="POST") + body + request("/conformance"))
                assert status_of(read_reply(connection)) == 405
                assert b"conformsTo" in read_reply(connection)

    def test_only_this_machine(self, service: Running) -> None:
        """By default no other address of the machine is listened at."""
        with pytest.raises(ConnectionRefusedError):
            socket.create_connection(("127.0.0.2", service.port), timeout=10).close()

    @pytest.mark.parametrize("target", ["/", "/nothing", f"{ITEMS}?limit=1"])
    def test_headers(self, service: Running, target: str) -> None:
        head = read_reply_of(service, target).partition(b"\r\n\r\n")[0]
        for line in (b"X-Content-Type-Options: nosniff", b"Access-Control-Allow-Origin: *", b"Vary: Accept-Encoding"):
            assert line in head.splitlines()

    def test_preflight(self, service: Running) -> None:
        """A page of another origin may request all that is served, with any header."""
        with closing(service.connect()) as connection:
            for _ in range(2):
                asked = ("Access-Control-Request-Method: GET", "Access-Control-Request-Headers: x-any")
                connection.sendall(request(ITEMS, "Origin: http://example.org", *asked, method="OPTIONS"))
                head = read_reply(connection).decode().splitlines()
                assert head[0] == "HTTP/1.1 200 OK"
                assert PREFLIGHT <= {*head}

    def test_host_becomes_the_address(self, service: Running) -> None:
        with closing(service.connect()) as connection:
            connection.sendall(b"GET / HTTP/1.1\r\nHost: example.org:81\r\n\r\n")
            assert b'"href":"http://example.org:81/collections"' in read_reply(connection)


class TestBadClients:
    """Slow, many and gone clients don't delay others."""

    def test_thousand_connections(self, service: Running) -> None:
        """Above 500 connections the oldest idle one is closed, so a new client is always served."""
        service.get(f"{ITEMS}?limit=1")
        with ExitStack() as stack:
            connections = [stack.enter_context(closing(service.connect())) for _ in range(1000)]
            for connection in connections[::2]:
                connection.sendall(b"GET / HTTP/1.1\r\n")
            started = time.monotonic()
            assert service.get(f"{ITEMS}?limit=10")["numberReturned"] == 10
            assert time.monotonic() - started < 2
            connections[-1].sendall(request("/"))
            assert status_of(read_reply(connections[-1])) == 200
            connections[0].settimeout(5)
            with pytest.raises(OSError):
                while connections[0].recv(100) or connections[0].send(b"x"):
                    pass

    def test_busy_connections_are_kept(self, start: Callable[..., Running], tmp_path: Path) -> None:
        """If all connections wait for a selection, another client is answered when one of them has ended."""
        program = program_of(tmp_path / "hanging", f"{HANGING}; true")
        service = start(
            "--data", EXAMPLES, "--counties", CODE, "--extractd", program, "--connections", 3, "--seconds", 2
        )
        with ExitStack() as stack:
            busy = [stack.enter_context(closing(service.connect())) for _ in range(3)]
            for number, connection in enumerate(busy):
                connection.sendall(request(f"{ITEMS}/{number}"))
            time.sleep(0.5)
            other = stack.enter_context(closing(service.connect()))
            other.sendall(request("/"))
            assert {status_of(read_reply(connection)) for connection in busy} == {503}
            assert status_of(read_reply(other)) == 200

    def test_slow_head(self, start: Callable[..., Running]) -> None:
        """A client has a limited time for a complete head, however often it sends a byte."""
        service = start("--data", EXAMPLES, "--counties", CODE, before=SHORT_IDLE)
        with closing(service.connect()) as slow:
            started = time.monotonic()
            with pytest.raises(OSError):
                for byte in request("/") * 10:
                    slow.sendall(bytes([byte]))
                    assert service.get("/conformance")
                    time.sleep(0.1)
            assert 0.9 < time.monotonic() - started < 8

    def test_idle_connection(self, start: Callable[..., Running]) -> None:
        """A connection without a request is closed, also after a reply."""
        service = start("--data", EXAMPLES, "--counties", CODE, before=SHORT_IDLE)
        with ExitStack() as stack:
            idle = [stack.enter_context(closing(service.connect())) for _ in range(2)]
            idle[0].sendall(request("/conformance"))
            assert status_of(read_reply(idle[0])) == 200
            for connection in idle:
                connection.settimeout(30)
                assert connection.recv(1) == b""

    def test_unread_replies(self, start: Callable[..., Running], large: str) -> None:
        """Clients that don't read cost little, others are served, and all of it ends at once."""
        service = start("--data", EXAMPLES, "--counties", CODE, "--extractd", large)
        service.get(f"{ITEMS}?limit=1")
        with ExitStack() as stack:
            for more in ("", "Accept-Encoding: gzip") * 100:
                connection = stack.enter_context(closing(service.connect()))
                connection.sendall(request(f"{ITEMS}?limit=10000", *filter(None, [more])))
            for _ in range(20):
                started = time.monotonic()
                assert service.get("/conformance") and time.monotonic() - started < LONGEST_WAIT
            assert service.peak_memory() < MEMORY
            started = time.monotonic()
            assert service.stop() == (0, "") and time.monotonic() - started < 5

    def test_pipelining(self, start: Callable[..., Running], large: str) -> None:
        """Clients that send many requests at once and don't read hold no thread, and each reply is complete."""
        service = start("--data", EXAMPLES, "--counties", CODE, "--extractd", large)
        expected = len(read_reply_of(service, f"{ITEMS}?limit=10000"))
        with ExitStack() as stack:
            clients = [stack.enter_context(closing(service.connect())) for _ in range(60)]
            for connection in clients:
                connection.sendall(request(f"{ITEMS}?limit=10000") * 20)
            started = time.monotonic()
            assert service.get("/conformance") and time.monotonic() - started < LONGEST_WAIT
            for _ in range(20):
                assert len(read_reply(clients[7])) == expected
            assert service.peak_memory() < MEMORY

    def test_slow_reader(self, start: Callable[..., Running], large: str) -> None:
        """A client that takes nothing of its reply loses its connection, and one that reads slowly gets all of it."""
        service = start("--data", EXAMPLES, "--counties", CODE, "--extractd", large, before=SHORT_SENDING)
        service.get(f"{ITEMS}?limit=1")
        time.sleep(0.5)
        before = service.open_files()
        with closing(service.connect()) as unread, closing(service.connect()) as slow:
            for connection in (unread, slow):
                connection.sendall(request(f"{ITEMS}?limit=10000", "Connection: close"))
            read = 0
            while part := slow.recv(1 << 20):
                read += len(part)
                time.sleep(0.5)
            assert read > 6_000_000
            wait_until(lambda: service.open_files() == before)
            assert not is_whole(unread)

    def test_client_that_leaves(self, start: Callable[..., Running], tmp_path: Path) -> None:
        """Its selection is killed, without a message."""
        program = program_of(tmp_path / "hanging", f"{HANGING}; true")
        service = start("--data", EXAMPLES, "--counties", CODE, "--extractd", program)
        for end in (socket.SHUT_RDWR, None):
            connection = service.connect()
            connection.sendall(request(ITEMS))
            wait_until(lambda: processes_with(HANGING))
            if end is not None:
                connection.shutdown(end)
            connection.close()
            wait_until(lambda: not processes_with(HANGING), seconds=10)
        assert service.get("/conformance")

    def test_client_that_leaves_midway(self, service: Running) -> None:
        for count in (1, 10, 1000):
            for _ in range(20):
                with closing(service.connect()) as connection:
                    connection.sendall(request(ITEMS))
                    connection.setsockopt(socket.SOL_SOCKET, socket.SO_LINGER, b"\1\0\0\0\0\0\0\0")
                    connection.recv(count)
        assert service.get(f"{ITEMS}?limit=1")

    def test_clients_that_leave_at_once(self, start: Callable[..., Running], large: str) -> None:
        service = start("--data", EXAMPLES, "--counties", CODE, "--extractd", large)
        service.get(f"{ITEMS}?limit=1")
        for _ in range(100):
            with closing(service.connect()) as connection:
                connection.sendall(request(f"{ITEMS}?limit=10000"))
        started = time.monotonic()
        assert service.get("/conformance") and time.monotonic() - started < LONGEST_WAIT
        assert service.peak_memory() < MEMORY

    def test_many_filters_at_once(self, service: Running) -> None:
        """Of 40 clients, each with a filter, each gets its rows or a request to try again later; none waits forever."""
        found: list[int] = []

        def client(number: int) -> None:
            with closing(service.connect()) as connection:
                connection.sendall(request(f"{ITEMS}?limit=1&filter=TLID%3E{number}", "Connection: close"))
                found.append(status_of(read_reply(connection)))

        threads = [threading.Thread(target=client, args=(number,)) for number in range(40)]
        for thread in threads:
            thread.start()
        started = time.monotonic()
        assert service.get("/conformance") and time.monotonic() - started < 5
        for thread in threads:
            thread.join(60)
        assert len(found) == 40 and set(found) <= {200, 503} and found.count(200) >= 20
