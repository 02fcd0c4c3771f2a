"""Each route and each status, directly and through nginx."""

import re
import shlex
from collections.abc import Iterator
from pathlib import Path

import pytest
from harness.curl import Reply, ask
from harness.nginx import Nginx
from harness.server import Server

pytestmark = pytest.mark.needs("curl")

# A row is a name, the reply's status and body, and curl's arguments. A body that begins with @ is a file's, another one a line.
ROWS = """
verify | 200 | accepted | --data-binary @all.bpf URL/verify
verify refuses | 422 | refused 40 place 0 ReadsNothing(0) | --data-binary @bare.bpf URL/verify
verify of nothing | 422 | refused 10 Empty | --data-binary '' URL/verify
assemble | 200 | @not_water.bpf | --data-binary @not_water.s URL/assemble
assemble refuses | 422 | refused 21 line 1 UnknownMnemonic | --data-binary 'frob r0' URL/assemble
assemble of no text | 400 | bad request | --data-binary @no_text URL/assemble
disassemble | 200 | @not_water.dis | --data-binary @not_water.bpf URL/disassemble
disassemble refuses | 422 | refused 11 NotWhole | --data-binary 1234567 URL/disassemble
extract | 200 | @rows | --data-binary @all.bpf URL/extract
extract refuses | 422 | refused 40 place 0 ReadsNothing(0) | --data-binary @bare.bpf URL/extract
geocode | 200 | @hits | URL/geocode?number=751&name=main
geocode by ZIP Code | 200 | @hits.zip | URL/geocode?number=751&name=ma%69n&zip=36067
geocode finds nothing | 200 | @nothing | URL/geocode?number=751&name=Maine
geocode without a name | 400 | bad request | URL/geocode?number=751
health | 200 | ok | URL/health
no route | 404 | not found | URL/%76erify
another method | 405 | method not allowed | URL/verify
no length | 411 | length required | -X POST URL/verify
a body too long | 413 | too large | -H Expect: --data-binary @long URL/verify
the longest body | 422 | refused 12 TooLong | -H Expect: --data-binary @longest URL/verify
a refused job | 422 | refused 40 place 0 ReadsNothing(0) | --data-binary @bare.bpf URL/jobs
no job | 404 | not found | URL/jobs/0
no job of this name | 404 | not found | URL/jobs/x
"""
CASES = [pytest.param(*row.split(" | ")[1:], id=row.split(" | ")[0]) for row in ROWS.strip().splitlines()]
WAYS = [
    pytest.param("server", marks=pytest.mark.xdist_group("routes")),
    pytest.param("proxy", marks=[pytest.mark.needs("nginx", "openssl"), pytest.mark.xdist_group("routes by nginx")]),
]


@pytest.fixture(scope="module", params=WAYS)
def url(request: pytest.FixtureRequest) -> str:
    """Returns where requests go."""
    listener = request.getfixturevalue(request.param)
    assert isinstance(listener, Server | Nginx)
    return listener.url


@pytest.fixture
def job(url: str, inputs: Path) -> Iterator[str]:
    """Yields the id of a new job, and removes it."""
    status, body = ask("--data-binary", "@all.bpf", f"{url}/jobs", folder=inputs)
    assert status == "200"
    assert re.fullmatch(rb"[0-9]+\n", body)
    yield body.decode().rstrip()
    ask("-X", "DELETE", f"{url}/jobs/{int(body)}")


def finish(url: str) -> None:
    """Sends two requests. A turn follows each, and a job over the example county needs two."""
    for _ in range(2):
        assert ask(f"{url}/health") == Reply("200", b"ok\n")


@pytest.mark.parametrize("status, body, arguments", CASES)
def test_route(status: str, body: str, arguments: str, url: str, inputs: Path) -> None:
    expected = (inputs / body[1:]).read_bytes() if body.startswith("@") else f"{body}\n".encode()
    assert ask(*shlex.split(arguments.replace("URL", url)), folder=inputs) == Reply(status, expected)


def test_methods_of_a_job(url: str) -> None:
    _, head = ask("-D", "-", "-o", "/dev/null", "-X", "PUT", f"{url}/jobs/x")
    assert "allow: get, delete" in head.decode().lower().splitlines()


def test_id_of_a_job(job: str) -> None:
    assert int(job) > 0


def test_rows_of_a_job(url: str, inputs: Path, job: str) -> None:
    finish(url)
    assert ask(f"{url}/jobs/{job}") == Reply("200", b"400 400\n" + (inputs / "rows").read_bytes())


def test_another_spelling_of_an_id(url: str, inputs: Path, job: str) -> None:
    finish(url)
    assert ask(f"{url}/jobs/0{job}") == Reply("200", b"400 400\n" + (inputs / "rows").read_bytes())


def test_removed_job(url: str, job: str) -> None:
    assert ask("-X", "DELETE", f"{url}/jobs/{job}") == Reply("200", b"dropped\n")
    assert ask(f"{url}/jobs/{job}") == Reply("404", b"not found\n")
