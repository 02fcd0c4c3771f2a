#!/usr/bin/env python3
"""Measures how long one client of the server waits while another one makes trouble: python3 waits.py

Prints a table of the longest waits, without a proxy and through deploy/server/site.conf, as docs/operating.md has it. The waiting client alternates
between GET /health and POST /verify. The other one has an address of its own, 127.0.0.2. Each row has a server and an nginx of its own. It takes ten minutes.

test_waits.py measures less, and checks the waits through the site.
"""
# Needs Python 3.11 with pytest, extractd on the search path, nginx and openssl, and Linux.

import http.client
import multiprocessing
import resource
import socket
import ssl
import tempfile
import time
from collections.abc import Callable
from contextlib import suppress
from pathlib import Path
from typing import NamedTuple

from harness.bodies import EXAMPLES
from harness.nginx import OTHER, Nginx
from harness.server import Server

SMALL_PROGRAM = (EXAMPLES / "programs" / "all.bpf").read_bytes()
HOSTILE = (OTHER, 0)
# Words of the longest program, and of the longest that the site lets through to /extract and /jobs.
LONGEST, LONGEST_OF_SITE = 65_536, 8_192
# Without memory for more than this, a job that selects all segments doesn't finish.
SPARE = 1 << 20


class Size(NamedTuple):
    """The county's segments, how long each row is measured, and when the waiting client gives up, in seconds."""

    segments: int
    duration: float
    patience: float


FULL = Size(20_000, 20, 60)


class Target(NamedTuple):
    """Where requests go: a server itself, or nginx."""

    port: int
    by_site: bool

    def connect(self, source: tuple[str, int] | None, patience: float) -> http.client.HTTPConnection:
        if not self.by_site:
            return http.client.HTTPConnection("127.0.0.1", self.port, patience, source)
        context = ssl.create_default_context()
        context.check_hostname = False
        context.verify_mode = ssl.CERT_NONE
        return http.client.HTTPSConnection(
            "127.0.0.1", self.port, timeout=patience, source_address=source, context=context
        )

    def ask(
        self, method: str, path: str, body: bytes | None, source: tuple[str, int] | None, patience: float
    ) -> tuple[int, bytes]:
        """Sends a request over a connection of its own, and returns the reply's status and body."""
        connection = self.connect(source, patience)
        try:
            connection.request(method, path, body)
            reply = connection.getresponse()
            return reply.status, reply.read()
        finally:
            connection.close()

    def longest_program(self) -> bytes:
        return costly(LONGEST_OF_SITE if self.by_site else LONGEST)


def costly(words: int) -> bytes:
    """Returns a program of this length that executes all its instructions and selects every segment."""
    add, one, leave = (
        bytes([7, 0, 0, 0, 1, 0, 0, 0]),
        bytes([0xB7, 0, 0, 0, 1, 0, 0, 0]),
        bytes([0x95, 0, 0, 0, 0, 0, 0, 0]),
    )
    return bytes([0xB7]) + bytes(7) + add * (words - 3) + one + leave


# ---- What the other client does, again and again, until its process is ended


def nothing(_: Target) -> None:
    time.sleep(600)


def costly_extracts(target: Target) -> None:
    program = target.longest_program()
    while True:
        target.ask("POST", "/extract", program, HOSTILE, 600)


def left_extracts(target: Target) -> None:
    """Leaves before the reply."""
    program = target.longest_program()
    while True:
        with suppress(TimeoutError):
            target.ask("POST", "/extract", program, HOSTILE, 0.2)


def costly_jobs(target: Target) -> None:
    """A turn of one of them follows each connection."""
    program = target.longest_program()
    for _ in range(10):
        target.ask("POST", "/jobs", program, HOSTILE, 600)
    nothing(target)


def dropped_jobs(target: Target) -> None:
    program = target.longest_program()
    while True:
        status, body = target.ask("POST", "/jobs", program, HOSTILE, 600)
        if status == 200:
            target.ask("DELETE", f"/jobs/{int(body)}", None, HOSTILE, 600)


def large_job(target: Target) -> None:
    """Memory runs out in its turns."""
    target.ask("POST", "/jobs", SMALL_PROGRAM, HOSTILE, 600)
    nothing(target)


def many_requests(target: Target) -> None:
    """A hundred at once. Each program takes as long to verify as any."""
    program = costly(LONGEST)
    while True:
        connections = [target.connect(HOSTILE, 600) for _ in range(100)]
        for connection in connections:
            with suppress(OSError, http.client.HTTPException):
                connection.request("POST", "/verify", program)
        for connection in connections:
            with suppress(OSError, http.client.HTTPException):
                connection.getresponse().read()
            connection.close()


def silent_connections(target: Target) -> None:
    connections = [socket.create_connection(("127.0.0.1", target.port), 600, HOSTILE) for _ in range(100)]
    nothing(target)
    del connections


class Row(NamedTuple):
    name: str
    trouble: Callable[[Target], None]
    # Whether memory is scarce.
    lacks_memory: bool = False


ROWS = (
    Row("does nothing", nothing),
    Row("runs costly programs by `/extract`", costly_extracts),
    Row("leaves before the reply of `/extract`, again and again", left_extracts),
    Row("opens ten costly jobs", costly_jobs),
    Row("opens and removes costly jobs in a loop", dropped_jobs),
    Row("opens a job for which there isn't enough memory", large_job, True),
    Row("sends 100 requests at once, again and again", many_requests),
    Row("opens 100 connections and says nothing", silent_connections),
)


# ---- The measurement


def write_county(folder: Path, segments: int) -> None:
    """Writes a county with copies of the example county's segments."""
    for name in ("TGR01001.RT4", "TGR01001.RT5", "TGR01001.RT6"):
        (folder / name).write_bytes((EXAMPLES / name).read_bytes())
    lines = (EXAMPLES / "TGR01001.RT1").read_bytes().splitlines(keepends=True)
    (folder / "TGR01001.RT1").write_bytes(b"".join(lines * (segments // len(lines))))


class Waits(NamedTuple):
    """How often the waiting client asked, its longest wait in seconds, the requests that got no answer, and whether the trouble lasted."""

    asked: int
    longest: float
    failed: int
    lasted: bool


def measure(target: Target, trouble: Callable[[Target], None], size: Size) -> Waits:
    """Asks until the time is over, while a process makes trouble."""
    other = multiprocessing.Process(target=trouble, args=(target,), daemon=True)
    other.start()
    time.sleep(min(1, size.duration / 3))
    asked, longest, failed, end = 0, 0.0, 0, time.monotonic() + size.duration
    try:
        while time.monotonic() < end:
            start = time.monotonic()
            failed += not is_answered(target, asked % 2 == 0, size.patience)
            asked, longest = asked + 1, max(longest, time.monotonic() - start)
        return Waits(asked, longest, failed, other.is_alive())
    finally:
        other.kill()
        other.join()


def is_answered(target: Target, asks_health: bool, patience: float) -> bool:
    try:
        if asks_health:
            return target.ask("GET", "/health", None, None, patience) == (200, b"ok\n")
        return target.ask("POST", "/verify", SMALL_PROGRAM, None, patience) == (200, b"accepted\n")
    except (OSError, http.client.HTTPException):
        return False


def waits_of(row: Row, by_site: bool, folder: Path, size: Size) -> Waits:
    """Returns the waits for a new server over the county in a folder."""
    with Server(folder) as server:
        if row.lacks_memory:
            pages = int(Path(f"/proc/{server.process.pid}/statm").read_text().split()[0])
            limit = pages * resource.getpagesize() + SPARE
            resource.prlimit(server.process.pid, resource.RLIMIT_AS, (limit, limit))
        if not by_site:
            return measure(Target(server.port, by_site), row.trouble, size)
        with Nginx(server.port) as nginx:
            return measure(Target(nginx.port, by_site), row.trouble, size)


def shown(waits: Waits, size: Size) -> str:
    text = f"{waits.longest:.3f} s" if waits.longest < size.patience else f"over {size.patience:.0f} s"
    return f"{text}, {waits.failed} of {waits.asked} failed" if waits.failed else text


def print_table(folder: Path, size: Size) -> None:
    print(f"{size.segments} segments, {size.duration} seconds a cell\n")
    print("| Another client | Without a proxy | Through the site |\n|---|--:|--:|", flush=True)
    for row in ROWS:
        without, by_site = (waits_of(row, site, folder, size) for site in (False, True))
        print(f"| {row.name} | {shown(without, size)} | {shown(by_site, size)} |", flush=True)


def main() -> None:
    with tempfile.TemporaryDirectory() as scratch:
        write_county(Path(scratch), FULL.segments)
        print_table(Path(scratch), FULL)


if __name__ == "__main__":
    main()
