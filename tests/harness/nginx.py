"""nginx with deploy/server/site.conf in front of a server, at a free port."""

import os
import shutil
import socket
import ssl
import subprocess
import tempfile
import time
from collections.abc import Mapping
from contextlib import suppress
from http.client import HTTPSConnection
from pathlib import Path
from types import TracebackType

import pytest

from harness.program import TOP

SERVER = TOP / "deploy/server"
# How often it is started, in case another process takes its port, and how long one start may take, in seconds.
STARTS, SECONDS = 20, 60
# The address of a client besides 127.0.0.1.
OTHER = "127.0.0.2"


class Nginx:
    """nginx in front of the server at a port of this machine, until it is closed. `changes` replaces texts of the site."""

    def __init__(self, port: int, changes: Mapping[str, str] | None = None) -> None:
        self.temporary = tempfile.TemporaryDirectory(prefix="nginx.")
        self.folder = Path(self.temporary.name)
        # The worker isn't root, even if the tests are.
        self.folder.chmod(0o755)
        make_certificate(self.folder)
        shutil.copy(SERVER / "nginx.conf", self.folder)
        for _ in range(STARTS):
            self.port = free_port()
            self.write_site(port, changes or {})
            self.start()
            if self.is_listening():
                return
            self.stop()
        self.close()
        pytest.fail(f"nginx doesn't start: {self.said()}")

    @property
    def url(self) -> str:
        return f"https://127.0.0.1:{self.port}"

    def write_site(self, port: int, changes: Mapping[str, str]) -> None:
        site = (SERVER / "site.conf").read_text()
        ours = {
            "127.0.0.1:8080": f"127.0.0.1:{port}",
            "listen 443 ": f"listen 127.0.0.1:{self.port} ",
            "/var/log/nginx/": "",
        }
        for text, other in {**ours, **changes}.items():
            assert text in site
            site = site.replace(text, other)
        (self.folder / "site.conf").write_text(site)

    def command(self, *options: str) -> list[str]:
        return ["nginx", "-e", "stderr", "-p", str(self.folder), "-c", "nginx.conf", *options]

    def start(self) -> None:
        with (self.folder / "stderr").open("wb") as errors:
            self.process = subprocess.Popen(
                self.command("-g", "daemon off;"), stdin=subprocess.DEVNULL, stdout=errors, stderr=errors
            )

    def is_listening(self) -> bool:
        """Waits until it listens, and returns whether it does. Only then it writes the number of its process."""
        end = time.monotonic() + SECONDS
        while self.process.poll() is None and time.monotonic() < end:
            with suppress(FileNotFoundError):
                if (self.folder / "nginx.pid").read_text() == f"{self.process.pid}\n":
                    return True
            time.sleep(0.02)
        return False

    def check(self) -> str:
        """Returns what nginx says about the configuration."""
        done = subprocess.run(self.command("-t", "-q"), stdin=subprocess.DEVNULL, capture_output=True, text=True)
        return f"{done.stdout}{done.stderr}" if done.returncode == 0 else f"status {done.returncode}: {done.stderr}"

    def said(self) -> str:
        """Returns what it has written to standard error."""
        return (self.folder / "stderr").read_text(errors="replace")

    def logged(self) -> str:
        """Returns the log of requests."""
        return (self.folder / "extractd.log").read_text()

    def connect(self, address: str = "127.0.0.1") -> HTTPSConnection:
        """Returns a connection from an address of this machine, which is open for several requests."""
        context = ssl.create_default_context()
        context.check_hostname = False
        context.verify_mode = ssl.CERT_NONE
        return HTTPSConnection("127.0.0.1", self.port, timeout=SECONDS, source_address=(address, 0), context=context)

    def stop(self) -> None:
        self.process.terminate()
        self.process.wait()

    def close(self) -> None:
        self.stop()
        self.temporary.cleanup()

    def __enter__(self) -> "Nginx":
        return self

    def __exit__(
        self, kind: type[BaseException] | None, error: BaseException | None, trace: TracebackType | None
    ) -> None:
        self.close()


def free_port() -> int:
    with socket.create_server(("127.0.0.1", 0)) as listener:
        return int(listener.getsockname()[1])


def make_certificate(folder: Path) -> None:
    """Makes extractd.crt, which is valid for a day, and extractd.key."""
    command = ["openssl", "req", "-x509", "-newkey", "ec", "-pkeyopt", "ec_paramgen_curve:prime256v1", "-nodes"]
    command += ["-days", "1", "-subj", "/CN=localhost", "-addext", "subjectAltName=DNS:localhost,IP:127.0.0.1"]
    command += ["-keyout", str(folder / "extractd.key"), "-out", str(folder / "extractd.crt")]
    subprocess.run(command, check=True, capture_output=True, env={**os.environ, "HOME": str(folder)})
