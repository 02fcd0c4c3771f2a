"""Serves a WSGI application by waitress, with the limits that none of its settings gives.

waitress reads a reply from a file as its client takes it, so silent clients hold neither a thread nor memory. asyncio is
a hundred times slower with silent clients, and uvicorn doesn't stop.
"""

import logging
import signal
import socket
import sys
import time
from collections.abc import Callable
from contextlib import suppress
from operator import attrgetter
from types import FrameType
from typing import Any

from waitress import wasyncore
from waitress.adjustments import Adjustments
from waitress.channel import HTTPChannel
from waitress.server import TcpWSGIServer
from waitress.task import ThreadedTaskDispatcher

from ..interrupts import STOPPING
from .application import Service
from .selections import Limits

IDLE_SECONDS = 30
SENDING_SECONDS = 60
LONGEST_HEAD = 65_536
LARGEST_BODY = 65_536
STOPPING_SECONDS = 3
SPARE_THREADS = 8
BACKLOG = 1024
ACCEPTED_AT_ONCE = 16
# The system keeps at most about twice as many bytes of a reply that a client doesn't read.
SEND_BUFFER = 65_536


class Connection(HTTPChannel):
    """A connection that knows when its client began to send a request."""

    began = 0.0

    def received(self, data: bytes) -> bool:
        if self.request is None:
            self.began = time.time()
        return super().received(data)

    @property
    def waits_since(self) -> float:
        """The time since which the server has waited for the client: for a request, or until it takes a reply."""
        return self.last_activity if self.request is None else self.began

    def leave(self) -> None:
        """Closes the connection when it is next looked at, even if its client takes nothing."""
        self.will_close = True
        assert self.socket is not None
        with suppress(OSError):
            self.socket.shutdown(socket.SHUT_RDWR)


class Server(TcpWSGIServer):
    """A server that closes connections that wait too long, and at the limit those that have waited longest."""

    channel_class = Connection  # type: ignore[assignment]
    active_channels: dict[int, Connection]  # type: ignore[assignment]
    effective_host: str
    effective_port: str
    most = 0
    has_stopped = False

    def maintenance(self, now: float) -> None:
        """Is called before each wait for clients."""
        if self.has_stopped:
            raise SystemExit
        waiting = sorted((c for c in self.active_channels.values() if not c.requests), key=attrgetter("waits_since"))
        # The latest ones have only just come.
        too_many = min(len(self.active_channels) - self.most, len(waiting) - ACCEPTED_AT_ONCE)
        for place, channel in enumerate(waiting):
            seconds = SENDING_SECONDS if channel.total_outbufs_len else IDLE_SECONDS
            if place < too_many or channel.waits_since < now - seconds:
                channel.leave()

    def handle_accept(self) -> None:
        for _ in range(ACCEPTED_AT_ONCE):
            super().handle_accept()

    def stop(self, number: int, frame: FrameType | None) -> None:
        """Ends the server, as a handler of signals."""
        self.has_stopped = True
        self.pull_trigger()


def serve(application: Service, host: str, port: int, limits: Limits, say: Callable[[str], object]) -> None:
    """Serves until SIGINT, SIGTERM or SIGHUP, and then ends all connections and processes."""
    logging.getLogger("waitress").setLevel(logging.ERROR)
    settings, threads = _settings(host, port, limits), ThreadedTaskDispatcher()
    channels: dict[int, Any] = {}
    threads.set_thread_count(settings.threads)
    try:
        servers = [
            Server(application, channels, dispatcher=threads, adj=settings, sockinfo=address)
            for address in settings.listen
        ]
    except OSError as error:
        raise OSError(error.errno, error.strerror, f"{host}:{port}") from None
    for number in STOPPING:
        if signal.getsignal(number) is not signal.SIG_IGN:  # nohup ignores SIGHUP.
            signal.signal(number, servers[0].stop)
    for server in servers:
        server.most = limits.connections // len(servers)
        name = server.effective_host
        say(f"listening http://{f'[{name}]' if ':' in name else name}:{server.effective_port}")
    try:
        wasyncore.loop(settings.asyncore_loop_timeout, use_poll=True, map=channels)
    except SystemExit:
        pass
    finally:
        application.close()
        threads.shutdown(timeout=STOPPING_SECONDS)


def _settings(host: str, port: int, limits: Limits) -> Adjustments:
    settings = Adjustments(
        host=host,
        port=port,
        server_name=host,
        threads=limits.processes + limits.waiting + SPARE_THREADS,
        backlog=BACKLOG,
        cleanup_interval=0,
        max_request_header_size=LONGEST_HEAD,
        max_request_body_size=LARGEST_BODY,
        outbuf_high_watermark=sys.maxsize,  # No thread waits for a client.
        asyncore_use_poll=True,
        # Otherwise a client that leaves isn't noticed while its request is answered.
        channel_request_lookahead=1,
        log_socket_errors=False,
        ident=None,
    )
    # Each server has a trigger, which counts as a connection as the server does. Beyond this limit clients wait.
    settings.connection_limit = limits.connections + ACCEPTED_AT_ONCE + 2 * len(settings.listen)
    settings.socket_options = [
        *settings.socket_options,
        (socket.SOL_SOCKET, socket.SO_SNDBUF, SEND_BUFFER),
    ]
    return settings
