"""The counts of `GET /metrics`, read by the client library of Prometheus, after requests to a new server without and with --log.

The rows are those in the replies, and the segments those that a job reports.
"""

import time
import urllib.error
import urllib.request
from collections import Counter
from typing import Any, NamedTuple

import pytest
from harness.bodies import EXAMPLES
from harness.server import Server

pytestmark = [pytest.mark.needs("python3-prometheus-client"), pytest.mark.xdist_group("metrics")]

SECONDS = 120
ALL = (EXAMPLES / "programs/all.bpf").read_bytes()
# Bodies by their names. The second one is an exit without a value.
BODIES = {"all.bpf": ALL, "bare.bpf": ALL[-8:]}


class Request(NamedTuple):
    """A row: a path, its route, the status of the reply, and a file's name or a text as the body, if it isn't a GET."""

    path: str
    route: str
    status: str
    body: str

    def data(self) -> bytes | None:
        return BODIES.get(self.body, self.body.encode()) if self.body else None


# A path that no route has counts for an empty one.
ROWS = """
/health | /health | 200 |
/health?x | /health | 200 |
/Health |  | 404 |
/metrics | /metrics | 200 |
/verify | /verify | 405 |
/verify | /verify | 200 | all.bpf
/extract | /extract | 200 | all.bpf
/extract | /extract | 422 | bare.bpf
/select | /select | 200 | TLID > 0
/select?format=csv | /select | 200 | FENAME IS NOT NULL
/select?format=geojsonseq | /select | 200 | FENAME IS NULL
/select?format=csv | /select | 422 | FENAME =
/jobs | /jobs | 200 | all.bpf
/jobs/1 | /jobs/{id} | 200 |
/jobs/1 | /jobs/{id} | 200 |
/jobs/2 | /jobs/{id} | 404 |
"""
REQUESTS = [Request(*(cell.strip() for cell in row.split("|"))) for row in ROWS.strip().splitlines()]
TYPES = {
    "extractd_requests": "counter",
    "extractd_jobs": "gauge",
    "extractd_segments_judged": "counter",
    "extractd_rows_written": "counter",
    "process_start_time_seconds": "gauge",
}
WAYS: dict[str, list[str]] = {"plain": [], "log": ["--log"]}


class Answer(NamedTuple):
    status: str
    media: str
    body: bytes

    def rows(self, route: str) -> int:
        """Returns how many rows it has."""
        if self.status != "200" or route not in ("/extract", "/select", "/jobs/{id}"):
            return 0
        lines = self.body.count(b"\n")
        return lines - 1 if route == "/jobs/{id}" or self.media == "text/csv" else lines


class Counted(NamedTuple):
    """The replies to the requests, then that with the counts, and when the server started and the counts were read."""

    answers: list[Answer]
    metrics: Answer
    started: float
    ended: float

    def segments(self) -> int:
        """Returns the county's, which the job's first reply has. The job has ended."""
        job = next(answer for request, answer in zip(REQUESTS, self.answers) if request.path == "/jobs/1")
        return int(job.body.split()[1])

    def samples(self) -> dict[tuple[str, ...], float]:
        """Returns the values by their names and those of their labels."""
        return {
            (sample.name, *sample.labels.values()): sample.value
            for family in self.families()
            for sample in family.samples
        }

    def families(self) -> list[Any]:
        from prometheus_client.parser import text_string_to_metric_families

        return list(text_string_to_metric_families(self.metrics.body.decode()))  # type: ignore[no-untyped-call]


def answer_to(url: str, body: bytes | None) -> Answer:
    """Sends a GET, or a POST if there is a body."""
    try:
        with urllib.request.urlopen(urllib.request.Request(url, body), timeout=SECONDS) as reply:
            return Answer(str(reply.status), reply.headers["Content-Type"], reply.read())
    except urllib.error.HTTPError as reply:
        return Answer(str(reply.code), reply.headers["Content-Type"], reply.read())


@pytest.fixture(scope="module", params=WAYS)
def counted(request: pytest.FixtureRequest, extractd: str) -> Counted:
    started = time.time()
    with Server(EXAMPLES, *WAYS[request.param]) as server:
        answers = [answer_to(server.url + row.path, row.data()) for row in REQUESTS]
        metrics = answer_to(f"{server.url}/metrics", None)
    return Counted(answers, metrics, started, time.time())


@pytest.mark.parametrize("number", range(len(REQUESTS)), ids=lambda number: " ".join(REQUESTS[number]).strip())
def test_status(number: int, counted: Counted) -> None:
    assert counted.answers[number].status == REQUESTS[number].status


def test_media_type(counted: Counted) -> None:
    assert counted.metrics.media == "text/plain; version=0.0.4"


def test_start(counted: Counted) -> None:
    assert counted.started - 1 <= counted.samples()["process_start_time_seconds",] <= counted.ended


@pytest.mark.parametrize("name", TYPES)
def test_type(name: str, counted: Counted) -> None:
    """Each count has a type and a text."""
    family = next(family for family in counted.families() if family.name == name)
    assert family.type == TYPES[name]
    assert family.documentation


REPLIES = Counter((request.route, request.status) for request in REQUESTS)


@pytest.mark.parametrize("route, status", REPLIES, ids=lambda word: word or "none")
def test_requests(route: str, status: str, counted: Counted) -> None:
    assert counted.samples()["extractd_requests_total", route, status] == REPLIES[route, status]


@pytest.mark.parametrize("state, jobs", [("running", 0), ("finished", 1)])
def test_jobs(state: str, jobs: int, counted: Counted) -> None:
    assert counted.samples()["extractd_jobs", state] == jobs


def test_segments(counted: Counted) -> None:
    """Those of each extract, and of the job."""
    extracts = sum(row.status == "200" and row.route in ("/extract", "/select") for row in REQUESTS)
    assert counted.samples()["extractd_segments_judged_total",] == counted.segments() * (extracts + 1)


def test_rows(counted: Counted) -> None:
    written = sum(answer.rows(request.route) for request, answer in zip(REQUESTS, counted.answers))
    assert counted.samples()["extractd_rows_written_total",] == written > 0


def test_no_other_counts(counted: Counted) -> None:
    requests = {("extractd_requests_total", *reply) for reply in REPLIES}
    jobs = {("extractd_jobs", "running"), ("extractd_jobs", "finished")}
    others = {("extractd_segments_judged_total",), ("extractd_rows_written_total",), ("process_start_time_seconds",)}
    assert counted.samples().keys() == requests | jobs | others
