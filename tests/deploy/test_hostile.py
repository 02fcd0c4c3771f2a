"""Two clients of nginx, of which one is hostile, and a server whose extracts take a second or more.

The hostile client has an address of its own, 127.0.0.2.
"""

import os
import resource
import shutil
import subprocess
import time
from collections import Counter
from collections.abc import Callable, Iterator
from contextlib import contextmanager, suppress
from http.client import HTTPSConnection
from pathlib import Path
from typing import NamedTuple

import pytest
from harness.bodies import EXAMPLES, output_of
from harness.curl import Reply, ask, command_of
from harness.nginx import OTHER, Nginx
from harness.server import Server

pytestmark = [pytest.mark.needs("curl", "nginx", "openssl"), pytest.mark.xdist_group("hostile")]

SECONDS = 120
ACCEPTED = Reply("200", b"accepted\n")
# Not more words than nginx allows for /extract. The county grows until its segments cost this many seconds of the processor.
COSTLY_WORDS, COSTLY_SECONDS = 6_400, 1.5
# curl's status if a reply takes longer than it waits.
LATE = 28
# What the hostile client sends at once, and what nginx lets through.
SENT, ALLOWED = 12, 8


class County(NamedTuple):
    """A folder with a county, with a program that takes long, costly.bpf, and with one that doesn't. Both select all segments."""

    folder: Path
    rows: bytes

    def segments(self) -> int:
        return self.rows.count(b"\n")


@pytest.fixture(scope="module")
def county(inputs: Path, tmp_path_factory: pytest.TempPathFactory) -> County:
    folder = tmp_path_factory.mktemp("large")
    shutil.copy(inputs / "all.bpf", folder)
    for kind in "1456":
        shutil.copy(EXAMPLES / f"TGR01001.RT{kind}", folder)
    (folder / "costly.s").write_text("mov r0, 0\n" + "add r0, 1\n" * COSTLY_WORDS + "mov r0, 1\nexit\n")
    (folder / "costly.bpf").write_bytes(output_of("asm", "--source", folder / "costly.s"))
    return enlarged(folder)


def enlarged(folder: Path) -> County:
    """Repeats the county's segments until they are costly."""
    segments = folder / "TGR01001.RT1"
    for _ in range(10):
        before = resource.getrusage(resource.RUSAGE_CHILDREN).ru_utime
        rows = output_of("run", "--program", folder / "costly.bpf", "--data", folder, "01001")
        if resource.getrusage(resource.RUSAGE_CHILDREN).ru_utime - before >= COSTLY_SECONDS:
            break
        segments.write_bytes(segments.read_bytes() * 2)
    return County(folder, rows)


@pytest.fixture(scope="module")
def server(county: County) -> Iterator[Server]:
    """Yields a server over the large county."""
    with Server(county.folder) as server:
        yield server


def seconds_of(request: Callable[[], Reply]) -> tuple[float, Reply]:
    start = time.monotonic()
    reply = request()
    return time.monotonic() - start, reply


def await_true(condition: Callable[[], bool]) -> None:
    end = time.monotonic() + SECONDS
    while not condition():
        assert time.monotonic() < end
        time.sleep(0.02)


def processor_seconds(server: Server) -> float:
    """Returns how long the server has run."""
    fields = Path(f"/proc/{server.process.pid}/stat").read_text().rpartition(")")[2].split()
    return (int(fields[11]) + int(fields[12])) / os.sysconf("SC_CLK_TCK")


def await_idle(proxy: Nginx, county: County) -> None:
    """Waits until nginx counts no extract."""
    await_true(lambda: ask("--data-binary", "@all.bpf", f"{proxy.url}/extract", folder=county.folder).status == "200")


@contextmanager
def crowd(proxy: Nginx) -> Iterator[list[subprocess.Popen[bytes]]]:
    """Has the hostile client send requests with endless bodies, and waits until some are refused."""
    command = command_of("--interface", OTHER, "-o", "/dev/null", "-X", "POST", "-T", "-", f"{proxy.url}/extract")
    clients = [subprocess.Popen(command, stdin=subprocess.PIPE, stderr=subprocess.PIPE) for _ in range(SENT)]
    try:
        for client in clients:
            send_word(client)
        await_true(lambda: len(ended(clients)) >= SENT - ALLOWED)
        yield clients
    finally:
        stop(clients)


def stop(clients: list[subprocess.Popen[bytes]]) -> None:
    for client in clients:
        client.kill()
        client.communicate()


def send_word(client: subprocess.Popen[bytes]) -> None:
    """Sends the beginning of a body. A client that is already refused takes none."""
    assert client.stdin
    with suppress(BrokenPipeError):
        client.stdin.write(bytes(8))
        client.stdin.flush()


def ended(clients: list[subprocess.Popen[bytes]]) -> list[subprocess.Popen[bytes]]:
    return [client for client in clients if client.poll() is not None]


def statuses_of(clients: list[subprocess.Popen[bytes]]) -> list[str]:
    return [client.stderr.read().decode() for client in ended(clients) if client.stderr]


def test_extract_while_others_are_slow(county: County, proxy: Nginx) -> None:
    """nginx lets 8 requests of a client through, and none of them takes the place of /extract."""
    await_idle(proxy, county)
    with crowd(proxy) as clients:
        reply = ask("--data-binary", "@all.bpf", f"{proxy.url}/extract", folder=county.folder)
        statuses = statuses_of(clients)
    assert reply == Reply("200", county.rows)
    assert statuses.count("503") == SENT - ALLOWED, statuses


def test_extracts_whose_client_has_left(county: County, proxy: Nginx) -> None:
    """The server still makes them, so another client may have to wait for one of them, but not for all."""
    await_idle(proxy, county)
    costly = ("--data-binary", "@costly.bpf", f"{proxy.url}/extract")
    one, reply = seconds_of(lambda: ask(*costly, folder=county.folder))
    assert reply == Reply("200", county.rows)
    leaves = command_of("--interface", OTHER, "-m", f"{one / 5:.3f}", "-o", "/dev/null", *costly)
    left = [subprocess.run(leaves, cwd=county.folder, stderr=subprocess.DEVNULL).returncode for _ in range(8)]
    verify = ("--data-binary", "@all.bpf", f"{proxy.url}/verify")
    waited, reply = seconds_of(lambda: ask(*verify, folder=county.folder))
    assert reply == ACCEPTED
    assert LATE in left
    assert waited < 4 * one, f"it took {waited} s, and one extract takes {one} s"


def test_two_extracts_at_once(county: County, server: Server, proxy: Nginx) -> None:
    """The server makes the first one. Meanwhile the other is refused."""
    await_idle(proxy, county)
    before = processor_seconds(server)
    costly = ("--interface", OTHER, "--data-binary", "@costly.bpf", f"{proxy.url}/extract")
    with subprocess.Popen(
        command_of(*costly), cwd=county.folder, stdout=subprocess.PIPE, stderr=subprocess.PIPE
    ) as first:
        await_true(lambda: processor_seconds(server) >= before + COSTLY_SECONDS / 30)
        second = ask(*costly, folder=county.folder)
        body, status = first.communicate()
    assert second == Reply("503", b"another extract is under way\n")
    assert Reply(status.decode(), body) == Reply("200", county.rows)


def test_extract_when_others_are_done(county: County, proxy: Nginx) -> None:
    await_idle(proxy, county)
    assert ask("--data-binary", "@all.bpf", f"{proxy.url}/extract", folder=county.folder) == Reply("200", county.rows)


def exchange(connection: HTTPSConnection, method: str, path: str, body: bytes | None = None) -> tuple[int, bytes]:
    """Sends a request, and returns the reply's status and body."""
    connection.request(method, path, body)
    reply = connection.getresponse()
    return reply.status, reply.read()


def statuses_of_jobs(proxy: Nginx, program: bytes) -> Counter[int]:
    """Has the hostile client open 40 jobs, and remove them at once."""
    statuses: Counter[int] = Counter()
    connection = proxy.connect(OTHER)
    for _ in range(40):
        status, body = exchange(connection, "POST", "/jobs", program)
        statuses[status] += 1
        if status == 200:
            assert exchange(connection, "DELETE", f"/jobs/{int(body)}") == (200, b"dropped\n")
    connection.close()
    return statuses


def finish(connection: HTTPSConnection, path: str, segments: int) -> None:
    """Sends requests until a job has gone over all segments. A turn of 256 follows each."""
    whole = b"%d %d\n" % (segments, segments)
    for _ in range(segments // 256 + 2):
        exchange(connection, "GET", "/jobs/0")
    assert exchange(connection, "GET", path)[1].startswith(whole)


def test_jobs_in_a_loop(county: County, proxy: Nginx) -> None:
    """nginx stops a client who opens jobs after some 20, and another client's job finishes."""
    program = (county.folder / "all.bpf").read_bytes()
    connection = proxy.connect()
    status, body = exchange(connection, "POST", "/jobs", program)
    assert status == 200
    statuses = statuses_of_jobs(proxy, program)
    assert statuses[200] >= 20 and statuses[503] >= 15 and statuses.keys() == {200, 503}, statuses
    path, segments = f"/jobs/{int(body)}", county.segments()
    finish(connection, path, segments)
    assert exchange(connection, "GET", path) == (200, b"%d %d\n" % (segments, segments) + county.rows)
    assert exchange(connection, "DELETE", path) == (200, b"dropped\n")
    connection.close()


def test_log(county: County, proxy: Nginx) -> None:
    """Each request has a line, with its client and without its query."""
    with crowd(proxy):
        assert ask(f"{proxy.url}/geocode?number=751&name=main").status == "200"
    await_true(lambda: " 127.0.0.2 - POST /extract 503 " in proxy.logged())
    await_true(lambda: " 127.0.0.1 - GET /geocode 200 " in proxy.logged())
    assert "name=" not in proxy.logged()
