"""Servers of the built program, each at a free port."""

import os
import re
import subprocess
import tempfile
from contextlib import suppress
from pathlib import Path
from types import TracebackType

SECONDS = 60


class NotListening(Exception):
    """A server has ended before it listened, with a status and with this on standard output and on standard error."""

    def __init__(self, status: int, said: str, errors: str) -> None:
        super().__init__(f"no server listens: status {status}, {said!r} and {errors!r}")
        self.status, self.said, self.errors = status, said, errors


class Server:
    """A server over counties of a folder, until it is closed. `under` is a command that runs it, such as `limited v 4000`."""

    def __init__(self, folder: Path, *options: str, counties: tuple[str, ...] = ("01001",), under: str = "") -> None:
        self.errors = tempfile.TemporaryFile()
        served = ["serve", "--data", str(folder), "--any-port", *options, *counties]
        command = [*under.split(), "extractd", *served]
        self.process = subprocess.Popen(command, stdin=subprocess.DEVNULL, stdout=subprocess.PIPE, stderr=self.errors)
        assert self.process.stdout is not None
        # A read waits for the end of the line, or that of the server.
        said = self.process.stdout.readline().decode()
        listening = re.fullmatch(r"listening (.+):(\d+)\n", said)
        if listening is None:
            # Its output ends a moment before it does.
            with suppress(subprocess.TimeoutExpired):
                self.process.wait(0 if said else SECONDS)
            self.close()
            raise NotListening(self.process.returncode, said, self.said())
        self.host, self.port = listening[1], int(listening[2])

    @property
    def url(self) -> str:
        return f"http://{self.host}:{self.port}"

    def said(self) -> str:
        """Returns what it has written to standard error."""
        # The server writes at the file's offset, which must stay.
        number = self.errors.fileno()
        return os.pread(number, os.fstat(number).st_size, 0).decode(errors="replace")

    def addresses(self) -> set[str]:
        """Returns where it listens, as Linux writes it: in hexadecimal, an address's last byte first. Another process may have its port at another address."""
        sockets = self._sockets()
        rows = (line.split() for table in self._tables() for line in table.read_text().splitlines()[1:])
        # The first cells of a row are its number, its address, that of the other end and its state. The tenth is the socket.
        return {row[1] for row in rows if row[3] == "0A" and row[9] in sockets}

    def _tables(self) -> list[Path]:
        """Returns the tables of sockets. A machine may have no IPv6."""
        network = Path("/proc", str(self.process.pid), "net")
        return [table for table in (network / "tcp", network / "tcp6") if table.exists()]

    def _sockets(self) -> set[str]:
        """Returns the numbers of its sockets. Meanwhile it may have no clients, which open and close them."""
        links = (os.readlink(file) for file in Path("/proc", str(self.process.pid), "fd").iterdir())
        return {link.removeprefix("socket:[").removesuffix("]") for link in links if link.startswith("socket:[")}

    def close(self) -> None:
        self.process.kill()
        self.process.wait()
        assert self.process.stdout is not None
        self.process.stdout.close()

    def __enter__(self) -> "Server":
        return self

    def __exit__(
        self, kind: type[BaseException] | None, error: BaseException | None, trace: TracebackType | None
    ) -> None:
        self.close()
