"""How a built program's server goes on without memory, descriptors or clients.

A refused or incomplete request must change nothing, and the next request must get the correct reply.
"""

import http.client
import resource
import socket
from collections.abc import Iterator, Mapping
from contextlib import suppress
from functools import cache, partial
from pathlib import Path

import pytest
from exhaustion.observed import ROW, Ended, content
from exhaustion.spaces import narrowed
from harness.server import NotListening, Server

SECONDS = 60
MEBIBYTE = 1 << 20
# What a client sends before it leaves: parts of requests, a whole one, and those with a reply of 4.6 MB.
POST = b"POST /jobs HTTP/1.1\r\nContent-Length: 16\r\n\r\n"
WORDS = bytes.fromhex("b700000001000000 9500000000000000")
INCOMPLETE = {
    "nothing": b"",
    "a byte": b"P",
    "a line": b"POST /jobs HTTP/1.1\r\n",
    "two lines": POST.removesuffix(b"\r\n"),
    "a head": POST,
    "16 of 17 bytes": POST.replace(b"16", b"17") + WORDS,
    "a line of DELETE": b"DELETE /jobs/1 HTTP/1.1\r\n",
}
# What the server of these clients has: jobs of few rows and of all.
JOBS = {1: "house.rows", 2: "large.rows"}
LONG = {"a job": b"GET /jobs/2 HTTP/1.1\r\n\r\n", "an extract": POST.replace(b"jobs", b"extract") + WORDS}


def ask(server: Server, request: str, body: bytes | None = None) -> tuple[int, bytes]:
    """Returns the status and the body of the reply to `METHOD PATH`. A reply that is shorter than its Content-Length fails."""
    method, path = request.split()
    connection = http.client.HTTPConnection(server.host, server.port, timeout=SECONDS)
    try:
        # The server reads no further than it needs.
        with suppress(BrokenPipeError, ConnectionResetError):
            connection.request(method, path, body)
        reply = connection.getresponse()
        return reply.status, reply.read()
    finally:
        connection.close()


def says(server: Server, request: str, status: int, expected: str | bytes, body: bytes | None = None) -> None:
    """Checks the reply to a request. A text is a line."""
    expected = expected if isinstance(expected, bytes) else f"{expected}\n".encode()
    found = ask(server, request, body)
    if found != (status, expected):
        pytest.fail(f"{request} should be {status}, {expected[:80]!r}, and is {found[0]}, {found[1][:80]!r}")


def turns(server: Server, count: int) -> None:
    """Makes connections. A turn of the jobs follows each."""
    for _ in range(count):
        ask(server, "GET /jobs/0")


def check_well(server: Server, county: str, jobs: Mapping[int, str] = {}) -> None:
    """Checks that the server over a county still returns a verdict, hits, and jobs that have gone over all segments, with the rows in these files."""
    says(server, "POST /verify", 200, "accepted", content("all.bpf"))
    says(server, "GET /geocode?number=1785&name=persimmon", 200, content(f"{county}.hits"))
    total = len(content(f"{county}.rows")) // ROW
    for job, rows in jobs.items():
        says(server, f"GET /jobs/{job}", 200, f"{total} {total}\n".encode() + content(rows))


def progress_of(server: Server, county: str, job: int) -> int:
    """Returns how far a job is that selects every segment. Its rows so far must be there."""
    status, body = ask(server, f"GET /jobs/{job}")
    head, _, rows = body.partition(b"\n")
    assert status == 200, f"job {job}: {status}, {body[:80]!r}"
    progress = int(head.split()[0])
    if rows != content(f"{county}.rows")[: progress * ROW]:
        pytest.fail(f"job {job} should have the rows of {progress} segments, and has {len(rows)} bytes")
    return progress


def listens(county: str, limit: int) -> bool:
    """Returns whether the server listens in so many KiB. Fails unless it is refused memory otherwise."""
    try:
        with Server(Path(county), under=f"limited v {limit}"):
            return True
    except NotListening as ended:
        if (ended.status, ended.said, ended.errors) != (4, "", "refused memory\n"):
            pytest.fail(f"serve over {county} in {limit} KiB should be refused or listen, and gives {ended}")
        return False


@cache
def least_of(county: str) -> int:
    return narrowed(partial(listens, county), 16)


@pytest.mark.parametrize("county", ("small", "large"))
def test_space(county: str) -> None:
    """There is a space below which the server is refused memory, and it listens in ample ones."""
    least = least_of(county)
    assert listens(county, 2 * least) and listens(county, 4 * least)


def server_in(county: str, room: int) -> Server:
    """Returns a server in the smallest space in which it listens and so many KiB more.

    The search for the smallest space stops at 16 KiB, and the allocator takes memory in pieces of up to 132 KiB, which differ from run to run. So a request
    either needs much less than the room or exceeds it by more than half a mebibyte, which gives the same reply on both sides of that slack.
    """
    return Server(Path(county), under=f"limited v {least_of(county) + room}")


def test_large_bodies() -> None:
    """A body of a mebibyte comes, with room for a quarter of one."""
    with server_in("small", 256) as server:
        for route in ("verify", "jobs", "extract", "assemble"):
            says(server, f"POST /{route}", 503, "refused memory", bytes(MEBIBYTE))
            check_well(server, "small")
        says(server, "POST /jobs", 200, "1", content("all.bpf"))


def opened_jobs(server: Server) -> int:
    """Opens jobs of long programs until one is refused. Returns their number."""
    for jobs in range(64):
        reply = ask(server, "POST /jobs", content("long.bpf"))
        if reply != (200, f"{jobs + 1}\n".encode()):
            break
    assert reply == (503, b"refused memory\n") and jobs > 4, f"{jobs} jobs of long programs, and then: {reply}"
    return jobs


def drop_jobs(server: Server, jobs: range) -> None:
    assert jobs
    for job in jobs:
        says(server, f"DELETE /jobs/{job}", 200, "dropped")


def test_many_jobs() -> None:
    """Jobs of long programs over 400 segments are opened until one is refused.

    Each takes some 200 KiB, so about twenty of them fit. The space left then is anything up to what a job needs. So until half of the jobs are dropped,
    requests need either no memory or three mebibytes.
    """
    with server_in("small", 4096) as server:
        jobs = opened_jobs(server)
        says(server, "POST /jobs", 503, "refused memory", content("longest.bpf"))
        assert [progress_of(server, "small", job) for job in range(1, jobs + 1)]
        half = jobs // 2
        drop_jobs(server, range(1, half + 1))
        check_well(server, "small")
        # The refused jobs have used no id.
        says(server, "POST /jobs", 200, f"{jobs + 1}", content("long.bpf"))
        says(server, f"GET /jobs/{half}", 404, "not found")
        says(server, f"GET /jobs/{jobs + 2}", 404, "not found")
        assert [progress_of(server, "small", job) for job in range(half + 1, jobs + 2)]
        drop_jobs(server, range(half + 1, jobs + 2))
        says(server, "POST /jobs", 200, f"{jobs + 2}", content("all.bpf"))
        turns(server, 2)
        check_well(server, "small", {jobs + 2: "small.rows"})


def test_long_extracts() -> None:
    """The rows of 20,000 segments, 4.6 MB, don't fit, with room for two and a half mebibytes.

    A list of rows doubles its capacity, so it grows to one or two mebibytes, depending on whether the old one is still in memory. Then at least 300 KiB are
    missing for the next step and free for small requests.
    """
    with server_in("large", 2560) as server:
        says(server, "POST /extract", 503, "refused memory", content("all.bpf"))
        check_well(server, "large")
        says(server, "POST /extract", 200, content("house.rows"), content("house.bpf"))
        # A job goes on until its rows no longer fit, and then keeps its complete rows.
        says(server, "POST /jobs", 200, "1", content("all.bpf"))
        turns(server, 90)
        stood = progress_of(server, "large", 1)
        turns(server, 10)
        assert 0 < stood == progress_of(server, "large", 1) < 20000
        says(server, "POST /extract", 503, "refused memory", content("all.bpf"))
        check_well(server, "large")
        says(server, "DELETE /jobs/1", 200, "dropped")
        says(server, "POST /jobs", 200, "2", content("house.bpf"))
        turns(server, 80)
        check_well(server, "large", {2: "house.rows"})


def posted(server: Server) -> int:
    """Returns the id of a new job, which is dropped."""
    status, body = ask(server, "POST /jobs", content("all.bpf"))
    assert status == 200
    says(server, f"DELETE /jobs/{int(body)}", 200, "dropped")
    return int(body)


@pytest.fixture(scope="module")
def server(inputs: Path) -> Iterator[Server]:
    """Yields a server over the large county, with the jobs after their last turn."""
    with Server(inputs / "large") as server:
        for job, program in ((1, "house.bpf"), (2, "all.bpf")):
            says(server, "POST /jobs", 200, str(job), (inputs / program).read_bytes())
            turns(server, 80)
        yield server


def leave(server: Server, sent: bytes, size: int = 0) -> bytes:
    """A client sends this and leaves. Returns the first bytes of the reply."""
    with socket.create_connection((server.host, server.port), SECONDS) as client, client.makefile("rb") as reply:
        client.sendall(sent)
        return reply.read(size)


@pytest.mark.xdist_group("a server with jobs")
@pytest.mark.parametrize("sent", INCOMPLETE.values(), ids=INCOMPLETE)
def test_incomplete_request(server: Server, sent: bytes) -> None:
    before = posted(server)
    leave(server, sent)
    check_well(server, "large", JOBS)
    # No job was opened.
    assert posted(server) == before + 1


@pytest.mark.xdist_group("a server with jobs")
def test_complete_request(server: Server) -> None:
    """A complete request is processed even if its client leaves before the reply."""
    job = posted(server) + 1
    leave(server, POST + WORDS)
    assert posted(server) == job + 1
    progress_of(server, "large", job)
    leave(server, f"DELETE /jobs/{job} HTTP/1.1\r\n\r\n".encode())
    says(server, f"GET /jobs/{job}", 404, "not found")
    check_well(server, "large", JOBS)


@pytest.mark.xdist_group("a server with jobs")
@pytest.mark.parametrize("sent", LONG.values(), ids=LONG)
def test_long_reply(server: Server, sent: bytes) -> None:
    """A client leaves within its reply. 4.6 MB exceed the socket buffers, so the server is still writing."""
    assert leave(server, sent, 15) == b"HTTP/1.1 200 OK"
    check_well(server, "large", JOBS)
    says(server, "POST /extract", 200, content("large.rows"), content("all.bpf"))


def test_descriptors() -> None:
    """There are enough descriptors for the files and one client, and then none for a client."""
    with Server(Path("small"), under="limited n 7") as server:
        check_well(server, "small")
        resource.prlimit(server.process.pid, resource.RLIMIT_NOFILE, (5, 5))
        check_well(server, "small")
        resource.prlimit(server.process.pid, resource.RLIMIT_NOFILE, (4, 4))
        # The waiting call has already taken its descriptor: it still gets a client, and the next call fails.
        with suppress(ConnectionError):
            says(server, "GET /jobs/0", 404, "not found")
        status = server.process.wait(SECONDS)
        assert server.process.stdout is not None
        ended = Ended(status, server.said(), server.process.stdout.read())
        text = "error: no connection can be taken: Too many open files (os error 24)"
        ended.check(3, text, b"", "serve with 4 descriptors")
