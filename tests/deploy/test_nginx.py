"""nginx with deploy/server/site.conf in front of a server: bodies, heads, slow clients, users, and no server."""

import subprocess
from collections.abc import Iterator
from concurrent.futures import ThreadPoolExecutor
from pathlib import Path

import pytest
from harness.curl import Reply, ask
from harness.nginx import OTHER, Nginx
from harness.server import Server

pytestmark = [pytest.mark.needs("curl", "nginx", "openssl"), pytest.mark.xdist_group("nginx")]

ACCEPTED = Reply("200", b"accepted\n")
# Nothing listens at this port.
NO_PORT = 1


@pytest.fixture(scope="module")
def users(server: Server) -> Iterator[Nginx]:
    """Yields nginx that asks for a user, as two lines of site.conf do if they are enabled."""
    with Nginx(server.port, {"# auth_basic": "auth_basic"}) as nginx:
        command = ["openssl", "passwd", "-6", "a secret"]
        secret = subprocess.run(command, check=True, capture_output=True, text=True).stdout
        (nginx.folder / "extractd.users").write_text(f"alice:{secret}")
        yield nginx


@pytest.fixture(scope="module")
def down() -> Iterator[Nginx]:
    """Yields nginx without a server."""
    with Nginx(NO_PORT) as nginx:
        yield nginx


@pytest.mark.parametrize("configuration", ["proxy", "users", "down"])
def test_configuration(configuration: str, request: pytest.FixtureRequest) -> None:
    """nginx has no complaint."""
    nginx: Nginx = request.getfixturevalue(configuration)
    assert nginx.check() == ""
    assert nginx.said() == ""


def test_body_in_chunks(proxy: Nginx, inputs: Path) -> None:
    """The body gets a length."""
    chunked = ("-H", "Transfer-Encoding: chunked")
    assert ask(*chunked, "--data-binary", "@all.bpf", f"{proxy.url}/verify", folder=inputs) == ACCEPTED


def test_many_header_lines(proxy: Nginx, inputs: Path) -> None:
    """They are left out: the server would refuse so long a head."""
    lines = [word for line in range(1, 71) for word in ("-H", f"X-Line-{line}: {line:0100}")]
    assert ask(*lines, "--data-binary", "@all.bpf", f"{proxy.url}/verify", folder=inputs) == ACCEPTED


def test_slow_client(proxy: Nginx, inputs: Path) -> None:
    """A client sends the first half of its body. Until it sends the rest, another one is served."""
    words = (inputs / "all.bpf").read_bytes()
    slow = proxy.connect()
    slow.putrequest("POST", "/verify")
    slow.putheader("Transfer-Encoding", "chunked")
    slow.endheaders()
    slow.send(chunk(words[:8]))
    other = ask("--data-binary", "@all.bpf", f"{proxy.url}/verify", folder=inputs)
    slow.send(chunk(words[8:]) + chunk(b""))
    reply = slow.getresponse()
    assert other == ACCEPTED
    assert (reply.status, reply.read()) == (200, b"accepted\n")
    slow.close()


def chunk(data: bytes) -> bytes:
    return b"%x\r\n%b\r\n" % (len(data), data)


def test_eight_clients(proxy: Nginx, inputs: Path) -> None:
    """They all ask at once."""
    arguments = ("--data-binary", "@not_water.bpf", f"{proxy.url}/disassemble")
    with ThreadPoolExecutor(8) as clients:
        replies = list(clients.map(lambda _: ask(*arguments, folder=inputs), range(8)))
    assert replies == [Reply("200", (inputs / "not_water.dis").read_bytes())] * 8


def test_metrics_are_for_this_machine(proxy: Nginx) -> None:
    status, body = ask(f"{proxy.url}/metrics")
    assert status == "200"
    assert sum(line.startswith(b"extractd_jobs{") for line in body.splitlines()) == 2


def test_metrics_are_for_no_other_machine(proxy: Nginx) -> None:
    assert ask("--interface", OTHER, f"{proxy.url}/metrics").status == "403"


USERS = """
nobody | 401 | URL/jobs/0
wrong password | 401 | -u alice:another URL/jobs/0
right password | 200 | -u alice:a+secret --data-binary @all.bpf URL/verify
"""
USER_ROWS = [pytest.param(*row.split(" | ")[1:], id=row.split(" | ")[0]) for row in USERS.strip().splitlines()]


@pytest.mark.parametrize("status, arguments", USER_ROWS)
def test_user(status: str, arguments: str, users: Nginx, inputs: Path) -> None:
    """`+` is a blank in the arguments."""
    words = [word.replace("+", " ") for word in arguments.replace("URL", users.url).split(" ")]
    reply = ask(*words, folder=inputs)
    assert reply.status == status
    assert (reply == ACCEPTED) == (status == "200")


DOWN = """
jobs | URL/jobs/0
extract | --data-binary @all.bpf URL/extract
"""
DOWN_ROWS = [pytest.param(row.split(" | ")[1], id=row.split(" | ")[0]) for row in DOWN.strip().splitlines()]


@pytest.mark.parametrize("arguments", DOWN_ROWS)
def test_no_server(arguments: str, down: Nginx, inputs: Path) -> None:
    assert ask(*arguments.replace("URL", down.url).split(" "), folder=inputs) == Reply("502", b"no server\n")


@pytest.mark.parametrize("route", ["extract", "select", "compile", "explain", "jobs", "filter-jobs"])
def test_more_words_than_nginx_lets_through(route: str, proxy: Nginx, inputs: Path) -> None:
    reply = ask("--data-binary", "@wordy", f"{proxy.url}/{route}", folder=inputs)
    assert reply == Reply("413", b"too large\n")
