"""examples/job.py with a server, directly and through nginx."""

import subprocess
from collections.abc import Iterator
from pathlib import Path
from typing import NamedTuple

import pytest
from harness.curl import Reply, ask
from harness.nginx import Nginx
from harness.program import TOP
from harness.server import Server

pytestmark = pytest.mark.needs("curl")

SECONDS = 300
BY_NGINX = [pytest.mark.needs("nginx", "openssl"), pytest.mark.xdist_group("job.py by nginx")]
WAYS = [
    pytest.param("plain", marks=pytest.mark.xdist_group("job.py")),
    pytest.param("insecure", marks=BY_NGINX),
    pytest.param("ca", marks=BY_NGINX),
]


class Done(NamedTuple):
    """What a script has done."""

    status: int
    output: bytes
    errors: str


class Client(NamedTuple):
    """job.py with the options for a server."""

    options: list[str]
    inputs: Path

    def start(self, *arguments: str) -> subprocess.Popen[bytes]:
        return subprocess.Popen(
            ["python3", str(TOP / "examples/job.py"), *self.options, *arguments],
            cwd=self.inputs,
            stdin=subprocess.DEVNULL,
            stdout=subprocess.PIPE,
            stderr=subprocess.PIPE,
        )

    def run(self, *arguments: str) -> Done:
        with self.start(*arguments) as process:
            output, errors = process.communicate(timeout=SECONDS)
        return Done(process.returncode, output, errors.decode())

    def rows(self) -> bytes:
        return (self.inputs / "rows").read_bytes()


@pytest.fixture(params=WAYS)
def client(request: pytest.FixtureRequest, server: Server, inputs: Path) -> Iterator[Client]:
    """Yields job.py for a way to the server. No job may be left."""
    if request.param == "plain":
        options = ["--server", server.url]
    else:
        proxy: Nginx = request.getfixturevalue("proxy")
        trust = ["--insecure"] if request.param == "insecure" else ["--ca", str(proxy.folder / "extractd.crt")]
        options = ["--server", proxy.url, *trust]
    yield Client(options, inputs)
    assert jobs_left(server, inputs) == []


def jobs_left(server: Server, inputs: Path) -> list[int]:
    """Returns the ids of all jobs that weren't removed. They come before that of a new one."""
    status, body = ask("--data-binary", "@all.bpf", f"{server.url}/jobs", folder=inputs)
    assert status == "200"
    assert ask("-X", "DELETE", f"{server.url}/jobs/{int(body)}") == Reply("200", b"dropped\n")
    gone = Reply("404", b"not found\n")
    return [number for number in range(1, int(body)) if ask(f"{server.url}/jobs/{number}") != gone]


def test_rows(client: Client) -> None:
    assert client.run("all.bpf") == Done(0, client.rows(), "")


def test_rows_into_a_file(client: Client, tmp_path: Path) -> None:
    assert client.run("--output", str(tmp_path / "rows"), "all.bpf") == Done(0, b"", "")
    assert (tmp_path / "rows").read_bytes() == client.rows()


def test_refused_program(client: Client, tmp_path: Path) -> None:
    done = client.run("--output", str(tmp_path / "rows"), "bare.bpf")
    assert done == Done(1, b"", "refused 40 place 0 ReadsNothing(0)\n")
    assert not (tmp_path / "rows").exists()


def test_rows_into_a_pipe(client: Client) -> None:
    """The reader closes the pipe after a row."""
    with client.start("all.bpf") as process:
        assert process.stdout and process.stderr
        row = process.stdout.readline()
        process.stdout.close()
        said = process.stderr.read()
    assert row == client.rows().splitlines(keepends=True)[0], said


@pytest.mark.needs("nginx", "openssl")
@pytest.mark.xdist_group("job.py by nginx")
def test_unknown_certificate(proxy: Nginx, inputs: Path) -> None:
    """Nobody vouches for nginx's certificate."""
    done = Client(["--server", proxy.url], inputs).run("all.bpf")
    assert (done.status, done.output) == (3, b"")
