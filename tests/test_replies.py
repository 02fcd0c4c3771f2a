"""Replies of `POST /select` whose texts are files of tests/replies, worked out by hand, over a county of one segment."""

from collections.abc import Iterator

import pytest
from harness.curl import ask
from harness.program import TOP
from harness.rows import constant
from harness.server import Server

pytestmark = [pytest.mark.needs("curl"), pytest.mark.xdist_group("replies")]

# The query; the filter; the media type of the body; the file that it begins, and the number of its lines.
ROWS = """
format=csv; TRUE; text/csv; select.csv; 2
format=csv&score=ZIPR; FALSE; text/csv; select.csv; 1
format=geojsonseq&score=ZIPR; TRUE; application/geo+json-seq; select.geojsonl; 1
"""


@pytest.fixture(scope="module")
def server(tmp_path_factory: pytest.TempPathFactory) -> Iterator[Server]:
    folder = tmp_path_factory.mktemp("county")
    (folder / "TGR01001.RT1").write_text(constant("records.rt", "RT1") + "\n")
    with Server(folder) as server:
        yield server


@pytest.mark.parametrize("row", ROWS.strip().splitlines())
def test_reply(server: Server, row: str) -> None:
    query, text, media, file, count = row.split("; ")
    lines = (TOP / "tests/replies" / file).read_bytes().splitlines(keepends=True)
    reply = ask("-w", "%{stderr}%{http_code} %{content_type}", "--data-binary", text, f"{server.url}/select?{query}")
    assert reply == (f"200 {media}", b"".join(lines[: int(count)]))
