"""The pages of the service, downloads, the places of addresses and the listings of programs, over HTTP.

Expected segments are read from the files of the counties.
"""

import csv
import io
import json
import shutil
import sqlite3
import subprocess
import time
import urllib.error
import urllib.request
from collections.abc import Callable, Iterator
from html.parser import HTMLParser
from pathlib import Path
from typing import Any, NamedTuple
from urllib.parse import quote, urlencode

import pytest
from counties import CODE, EXAMPLES, copy_county, program_of, records
from test_features_command import HANGING, Running, start  # noqa: F401 (a fixture)
from test_interrupts import processes_with
from tigerline.layout import FIELDS
from towns import write_cities

pytest.importorskip("jinja2", reason="no jinja2")

TOWN = "01007"
MARKUP = "<img src=x onerror=alert(1)>"
FORMULA = "=1+1"
ITEMS = f"/collections/{TOWN}/items"
BROWSER = "text/html,application/xhtml+xml,application/xml;q=0.9,*/*;q=0.8"
PLACES = {field.name: field.bytes for field in FIELDS}

pytestmark = pytest.mark.usefixtures("scratch")


def write_data(folder: Path) -> Path:
    """Writes the town, and a county whose streets and cities have markup as names, and one a formula."""
    shutil.copytree(EXAMPLES / "town", folder)
    write_cities(folder / f"TGR{TOWN}.RTC", TOWN, [("13264", "P", "Milford"), ("90315", "M", "Milford")])
    for path in EXAMPLES.glob(f"TGR{CODE}.RT?"):
        shutil.copy(path, folder)
    codes = set()
    lines: list[bytes] = []
    for record in records(folder / f"TGR{CODE}.RT1"):
        codes |= {(field_of(record, f"PLACE{side}"), "P") for side in "LR"}
        codes |= {(field_of(record, f"COUSUB{side}"), "M") for side in "LR"}
        if field_of(record, "FENAME") == "Main":
            record = record[:19] + MARKUP.ljust(30).encode() + b'<b>"&i>' + record[56:]
        elif not lines:
            record = record[:19] + FORMULA.ljust(30).encode() + record[49:]
        lines.append(record + b"\r\n")
    (folder / f"TGR{CODE}.RT1").write_bytes(b"".join(lines))
    write_cities(folder / f"TGR{CODE}.RTC", CODE, [(code, kind, MARKUP) for code, kind in sorted(codes) if code])
    return folder


def field_of(record: bytes, name: str) -> str:
    return record[PLACES[name]].decode("latin-1").strip(" ")


def varies_by(headers: Any) -> set[str]:
    """Returns the headers of a request that its reply depends on."""
    return {name.strip() for line in headers.get_all("Vary", []) for name in line.split(",")}


def town_rows(chosen: Callable[[dict[str, str]], bool]) -> list[dict[str, str]]:
    """Returns the segments of the town that are chosen by their fields."""
    rows = [{name: field_of(record, name) for name in PLACES} for record in records(EXAMPLES / f"town/TGR{TOWN}.RT1")]
    return [row for row in rows if chosen(row)]


class Shown(NamedTuple):
    """A reply: its status, its headers, and its text."""

    status: int
    headers: Any
    text: str


class Elements(HTMLParser):
    """The elements of a page: the names of tags, the targets of links, and the texts."""

    def __init__(self, text: str) -> None:
        super().__init__()
        self.tags: list[str] = []
        self.links: dict[str, str] = {}
        self.texts: list[str] = []
        self.attributes: set[str] = set()
        self.feed(text)

    def handle_starttag(self, tag: str, attrs: list[tuple[str, str | None]]) -> None:
        given = dict(attrs)
        self.tags.append(tag)
        self.attributes |= set(given)
        if tag == "a":
            self.links.setdefault(given.get("rel") or given.get("id") or "", given["href"] or "")

    def handle_data(self, data: str) -> None:
        self.texts.append(data)


@pytest.fixture
def service(start: Callable[..., Running], tmp_path: Path) -> Running:  # noqa: F811
    return start("--data", write_data(tmp_path / "data"))


def ask(service: Running, target: str, accept: str = "*/*") -> Shown:
    request = urllib.request.Request(service.url + target, headers={"Accept": accept})
    try:
        with urllib.request.urlopen(request, timeout=120) as reply:
            return Shown(reply.status, reply.headers, reply.read().decode())
    except urllib.error.HTTPError as error:
        with error:
            return Shown(error.code, error.headers, error.read().decode())


@pytest.mark.parametrize(
    ("target", "accept", "media_type"),
    [
        ("/", BROWSER, "text/html"),
        ("/", "*/*", "application/json"),
        ("/", "", "application/json"),
        ("/", "application/json, text/html;q=0.9", "application/json"),
        ("/", "application/json;q=0.5, text/html;q=0.9", "text/html"),
        ("/", "text/html;q=0", "application/json"),
        ("/?f=json", BROWSER, "application/json"),
        ("/conformance?f=html", "application/json", "text/html"),
        ("/api", BROWSER, "text/html"),
        ("/collections", BROWSER, "text/html"),
        (f"/collections/{TOWN}/", BROWSER, "text/html"),
        (f"/collections/{TOWN}/queryables", BROWSER, "text/html"),
        (f"/collections/{TOWN}/sortables", BROWSER, "text/html"),
        (f"{ITEMS}?limit=1", "application/geo+json, text/html;q=0.5", "application/geo+json"),
        (f"{ITEMS}?limit=1", BROWSER, "text/html"),
        (f"{ITEMS}/207001960", BROWSER, "text/html"),
        ("/geocode", BROWSER, "text/html"),
        ("/explain?filter=TRUE", BROWSER, "text/plain"),
        (f"{ITEMS}?f=csv&limit=1", BROWSER, "text/csv"),
        ("/static/explorer.js", BROWSER, "text/javascript"),
        ("/static/leaflet/leaflet.css", "*/*", "text/css"),
    ],
)
def test_negotiation(service: Running, target: str, accept: str, media_type: str) -> None:
    """Pages run only files of the service, and caches keep a page and a document apart."""
    status, headers, text = ask(service, target, accept)
    assert (status, headers.get_content_type()) == (200, media_type)
    assert varies_by(headers) == {"Accept-Encoding"} | ({"Accept"} if "/static/" not in target else set())
    if media_type == "text/html":
        assert headers["Content-Security-Policy"].startswith(
            "default-src 'none'; script-src 'self'; style-src 'self'; "
        )
        elements = Elements(text)
        assert not {"style", "onclick"} & elements.attributes and "style" not in elements.tags
        assert "html" in elements.tags and text.count("<script") == text.count("<script src=") + text.count(
            '<script type="module" src='
        )


@pytest.mark.parametrize(
    ("target", "status", "text"),
    [
        (f"{ITEMS}?f=html&filter=ZIP%20%3D%2035042", 400, "<mark"),
        (f"{ITEMS}?f=html&limit=x", 400, "limit: it is a whole number"),
        ("/collections/99999/items?f=html", 404, "there is no collection"),
        ("/nothing?f=html", 404, "there is no such path"),
        ("/static/nothing.js", 404, "not-found"),
        ("/static/../pages.py", 404, "not-found"),
        ("/static/leaflet/../../service/pages.py", 404, "not-found"),
        ("/static/%2e%2e/pages.py", 404, "not-found"),
        (f"{ITEMS}?f=xml", 400, "the formats are json and html"),
        ("/conformance?f=csv", 400, "the formats are json and html"),
        ("/explain", 400, "filter: it is missing"),
        ("/explain?filter=ZIP%3D1", 400, "UnknownColumn"),
        ("/explain?filter=TRUE&filter-lang=sql", 400, "filter-lang"),
        ("/geocode?address=x&collection=99999", 404, "no collection"),
        ("/geocode?address=" + "x%0a" * 21, 400, "up to 20 lines"),
        ("/geocode?address=" + "x" * 201, 400, "up to 200 characters"),
    ],
)
def test_problems(service: Running, target: str, status: int, text: str) -> None:
    """A problem is a document or a page, which caches keep apart, too."""
    found = ask(service, target)
    assert found.status == status and text in found.text
    assert varies_by(found.headers) == {"Accept-Encoding", "Accept"}


def test_pages_have_all_segments(service: Running) -> None:
    """Following the links to the next page yields each segment once, with its columns."""
    target, seen = f"{ITEMS}?f=html&filter=CFCC%20%3D%20%27A31%27&limit=25&address=none", []
    while target:
        elements = Elements(ask(service, target).text)
        rows = [text for text in elements.texts if text.isdigit() and len(text) == 9]
        seen += rows
        target = elements.links.get("next", "")
        assert not target or "&address=none" in target.replace("&f=html", "")
    assert seen == [row["TLID"] for row in town_rows(lambda row: row["CFCC"] == "A31")]


@pytest.mark.parametrize(
    ("written", "marked", "corrected"),
    [
        ("ZIP = 35042", "ZIP", "ZIPL = 35042"),
        ("CFCC = 'A41' AND\n  FENAM = 'Main'", "FENAM", "CFCC = 'A41' AND\n  FENAME = 'Main'"),
        ("ZIPL = '35042'", "'35042'", None),
        ("ZIPL = 35042 AND", " ", None),
        (f"FENAME = '{MARKUP}' AND <b>", "<", None),
    ],
)
def test_refusals(service: Running, written: str, marked: str, corrected: str | None) -> None:
    """A refusal is marked at its place, and the nearest name can be taken."""
    text = ask(service, f"{ITEMS}?f=html&filter={quote(written)}").text
    elements = Elements(text)
    assert elements.tags.count("mark") == 1 and "img" not in elements.tags and "b" not in elements.tags

    before, _, rest = text.partition("<mark")
    assert rest.partition(">")[2].partition("</mark>")[0] == marked.replace("'", "&#39;").replace("<", "&lt;")
    correction = elements.links.get("correction")
    expected = corrected and urlencode({"filter": corrected, "f": "html"})
    assert (correction and correction.partition("?")[2]) == expected


def test_rows(service: Running) -> None:
    """A page has 50 rows, or as many as the limit says, but not more than 1,000."""
    for limit, rows in (("", 50), ("&limit=0007", 7), ("&limit=1100", 1000), ("&limit=" + "9" * 5000, 1000)):
        assert ask(service, f"/collections/us/items?f=html{limit}").text.count("<tr data-id=") == rows


def test_markup(service: Running) -> None:
    """What files and requests say is a text, whatever it is."""
    for target in (
        f"/collections/{CODE}/items?f=html&filter={quote(f'FENAME = {chr(39)}{MARKUP}{chr(39)}')}",
        f"/collections/{CODE}/items?f=html&address={quote(MARKUP)}%0a5901%20Yarrow%20Blvd,%2036067",
        f"/collections/{CODE}/items/107000896?f=html",
        f"/geocode?f=html&address={quote(MARKUP)}%0a5901%20Yarrow%20Blvd,%2036067",
        f"/collections/{quote(MARKUP)}?f=html",
        f"{ITEMS}?f=html&{quote(MARKUP)}=1",
    ):
        text = ask(service, target).text
        elements = Elements(text)
        assert "img" not in elements.tags and "b" not in elements.tags and "onerror" not in elements.attributes
        assert MARKUP.lower() in " ".join(elements.texts).lower(), target


def test_csv(service: Running) -> None:
    """A table has all segments, in the order of the file, with shape points. No text in it is a formula."""
    reply = ask(service, f"{ITEMS}?f=csv&filter=CFCC%20LIKE%20%27A2%25%27")
    assert reply.headers["Content-Disposition"] == f'attachment; filename="{TOWN}.csv"'
    rows = list(csv.DictReader(io.StringIO(reply.text, newline="")))
    expected = town_rows(lambda row: row["CFCC"].startswith("A2"))
    degrees = ("FRLONG", "FRLAT", "TOLONG", "TOLAT")
    texts = [{name: text for name, text in row.items() if name not in degrees} for row in expected]
    assert [{name: row[name] for name in texts[0]} for row in rows] == texts
    for row, own in zip(rows, expected):
        points = row["WKT"].removeprefix("LINESTRING (").removesuffix(")").split(",")
        ends = [*points[0].split(" "), *points[-1].split(" ")]
        assert [round(float(end) * 1e6) for end in ends] == [int(own[name]) for name in degrees]
        assert row["id"] == own["TLID"] and [row[name] for name in degrees] == ends
    assert len(ask(service, f"{ITEMS}?f=csv").text.splitlines()) == 1 + len(town_rows(lambda row: True))
    assert len(ask(service, f"{ITEMS}?f=csv&limit=3&offset=5").text.splitlines()) == 4
    assert ask(service, f"{ITEMS}?f=csv&filter=FALSE").text.splitlines()[0].startswith("id,RT,VERSION,TLID,")
    table = ask(service, f"/collections/{CODE}/items?f=csv&properties=FENAME,FRLONG&limit=1").text
    assert [row["FENAME"] for row in csv.DictReader(io.StringIO(table, newline=""))] == [f"'{FORMULA}"]


def test_all_pages_are_downloaded(start: Callable[..., Running]) -> None:  # noqa: F811
    """A table has all segments of all counties if a page is smaller."""
    service = start("--data", EXAMPLES, "--page", 100)
    rows = list(csv.reader(io.StringIO(ask(service, "/collections/us/items?f=csv").text)))
    county = [f"{CODE}.{field_of(record, 'TLID')}" for record in records(EXAMPLES / f"TGR{CODE}.RT1")]
    town = [f"{TOWN}.{row['TLID']}" for row in town_rows(lambda row: True)]
    assert [row[0] for row in rows] == ["id", *county, *town]


@pytest.mark.usefixtures("gdal")
@pytest.mark.parametrize("written", ["CFCC LIKE 'A2%'", "FALSE"])
def test_geopackage(service: Running, tmp_path: Path, written: str) -> None:
    path = tmp_path / "segments.gpkg"
    with urllib.request.urlopen(f"{service.url}{ITEMS}?f=gpkg&filter={quote(written)}", timeout=120) as reply:
        path.write_bytes(reply.read())
    with sqlite3.connect(path) as database:
        count = database.execute("SELECT COUNT(*) FROM segments").fetchone()[0]
        system = database.execute("SELECT srs_id FROM gpkg_geometry_columns").fetchone()[0]
    database.close()
    assert system == 4269
    assert count == (len(town_rows(lambda row: row["CFCC"].startswith("A2"))) if written != "FALSE" else 0)


def test_places(service: Running) -> None:
    """The places of addresses are those of the segments with their numbers."""
    addresses = ("701 N Oak Ave, Milford, AL 35042", "9 Nowhere St, 35042", "99999 N Oak Ave", "12 Elsewhere St, TX")
    found = json.loads(ask(service, f"/geocode?collection={TOWN}&address={quote(chr(10).join(addresses))}").text)
    shown = [feature["properties"] for feature in found["features"]]
    assert [one["address"] for one in shown] == list(addresses)
    assert [(one["match"], one["exact"], one["reasons"]) for one in shown] == [
        ("Match", True, []),
        ("No_Match", False, ["no_such_street"]),
        ("No_Match", False, ["no_such_number_on_street"]),
        ("No_Match", False, ["other_state"]),
    ]
    assert shown[0]["matched_address"] == "701 N OAK AVE, MILFORD, AL, 35042"
    (segment,) = town_rows(lambda row: row["TLID"] == str(shown[0]["tlid"]))
    assert (segment["FEDIRP"], segment["FENAME"]) == ("N", "Oak") and "701" in (segment["FRADDL"], segment["TOADDR"])
    (x, y), place = found["features"][0]["geometry"]["coordinates"], [int(segment["TOLONG"]), int(segment["TOLAT"])]
    assert abs(x * 1e6 - place[0]) < 500 and abs(y * 1e6 - place[1]) < 500
    assert [feature["geometry"] for feature in found["features"][1:]] == [None] * 3


def test_listing(service: Running, extractd: str, tmp_path: Path) -> None:
    """A listing is what `extractd explain` says of the filter's program."""
    words = subprocess.run([extractd, "compile", "--filter", "-"], input=b"ZIPL = 35042", stdout=subprocess.PIPE).stdout
    (tmp_path / "program").write_bytes(words)
    listing = subprocess.run([extractd, "explain", "--program", str(tmp_path / "program")], stdout=subprocess.PIPE)
    json_filter = '{"op":"=","args":[{"property":"ZIPL"},35042]}'
    for query in ({"filter": "ZIPL = 35042"}, {"filter": json_filter, "filter-lang": "cql2-json"}):
        assert ask(service, f"/explain?{urlencode(query)}").text == listing.stdout.decode()


@pytest.mark.parametrize("target", ["/explain?filter=TRUE", f"/geocode?collection={CODE}&address=1%20Main%20St"])
def test_limits(start: Callable[..., Running], tmp_path: Path, target: str) -> None:  # noqa: F811
    """A program that hangs is killed at the end of its time, when the client leaves, and at the end of the service."""
    program = program_of(tmp_path / "hanging", f"{HANGING}; true")
    service = start("--data", EXAMPLES, "--counties", CODE, "--extractd", program, "--seconds", 2)
    started = time.monotonic()
    found = ask(service, target)
    assert found.status == 503 and "time-limit" in found.text and time.monotonic() - started < 10
    connection = service.connect()
    connection.sendall(f"GET {target} HTTP/1.1\r\nHost: localhost\r\n\r\n".encode())
    wait_for(lambda: bool(processes_with(HANGING)))
    assert service.stop() == (0, "")
    connection.close()
    wait_for(lambda: not processes_with(HANGING))


def wait_for(condition: Callable[[], bool]) -> None:
    deadline = time.monotonic() + 20
    while not condition():
        assert time.monotonic() < deadline
        time.sleep(0.02)


def test_many_counties(start: Callable[..., Running], tmp_path: Path) -> None:  # noqa: F811
    """The page of many counties lists them, since their segments together take long to select."""
    for number in range(11):
        copy_county(tmp_path, code=f"010{number:02}")
    text = ask(start("--data", tmp_path, "--extractd", program_of(tmp_path / "failing", "exit 3")), "/?f=html").text
    assert text.count('<th scope="row">') == 13 and 'id="map"' not in text


def test_public_address(start: Callable[..., Running]) -> None:  # noqa: F811
    """Behind a proxy, pages load their files from the path of the service."""
    service = start("--data", EXAMPLES, "--counties", CODE, "--url", "https://example.org/tiger")
    text = ask(service, f"/collections/{CODE}/items?limit=1", BROWSER).text
    assert 'href="/tiger/static/explorer.css"' in text and f'data-items="/tiger/collections/{CODE}/items"' in text
