"""The OGC API as a WSGI application: pages, shapes, ids, bad input, and the number of runs of `extractd`."""

import json
import threading
import time
from collections.abc import Callable, Iterator
from concurrent.futures import ThreadPoolExecutor, as_completed
from pathlib import Path
from typing import Any, NamedTuple
from urllib.parse import parse_qsl, urlencode, urlsplit
from wsgiref.types import WSGIEnvironment
from wsgiref.util import setup_testing_defaults
from wsgiref.validate import IteratorWrapper, validator

import pytest
from counties import (
    CODE,
    EXAMPLES,
    SEGMENTS,
    copy_county,
    gdal_rows,
    points_of,
    program_of,
    records,
    write_shapes,
    zip_folder,
)
from test_features_command import HANGING, wait_until
from test_interrupts import processes_with
from tigerline.layout import FIELDS, Field, Kind
from tigerline.service import Limits, Service, application

BASE = "http://127.0.0.1"
ITEMS = f"/collections/{CODE}/items"

pytestmark = pytest.mark.usefixtures("scratch")

Make = Callable[..., Service]


class Answer(NamedTuple):
    """A reply of the application."""

    status: int
    headers: dict[str, str]
    document: Any


def ask(service: Service, target: str, method: str = "GET", is_raw: bool = False, **environ: Any) -> Answer:
    """Requests a path with its query through WSGI, which is validated. The document is JSON, or bytes as they are."""
    path, _, query = target.removeprefix(BASE).partition("?")
    environ |= {"REQUEST_METHOD": method, "SCRIPT_NAME": "", "PATH_INFO": path, "QUERY_STRING": query}
    setup_testing_defaults(environ)
    started: list[Any] = []

    def start_response(*arguments: Any) -> Callable[[bytes], None]:
        started[:] = arguments
        return lambda data: None

    parts = validator(service)(environ, start_response)
    assert isinstance(parts, IteratorWrapper)
    body = b"".join(parts)
    parts.close()
    headers = dict(started[1])
    if method != "HEAD":
        assert headers["Content-Length"] == str(len(body))
    return Answer(int(started[0][:3]), headers, body if is_raw else json.loads(body) if body else None)


def query(**parameters: object) -> str:
    return f"{ITEMS}?{urlencode(parameters)}"


def pages(service: Service, target: str, relation: str = "next") -> Iterator[dict[str, Any]]:
    """Yields this page and the following ones, by their links."""
    while target:
        page = ask(service, target).document
        yield page
        target = next((link["href"] for link in page["links"] if link["rel"] == relation), "")


def tlids(document: dict[str, Any]) -> list[int]:
    return [feature["properties"]["TLID"] for feature in document["features"]]


def resolved(document: dict[str, Any], item: dict[str, Any]) -> dict[str, Any]:
    """Returns a part of a document that may be a reference to another part."""
    found: dict[str, Any] = item
    for name in item.get("$ref", "#").split("/")[1:]:
        found = (document if found is item else found)[name]
    return found


def parts_of(numbers: list[int], size: int) -> list[list[int]]:
    """Returns a list in parts of a size. The last part has the rest."""
    return [numbers[place : place + size] for place in range(0, len(numbers), size)]


def ids(document: dict[str, Any]) -> list[int]:
    return [feature["id"] for feature in document["features"]]


def points(feature: dict[str, Any]) -> list[tuple[float, float]]:
    return [(longitude, latitude) for longitude, latitude in feature["geometry"]["coordinates"]]


def value_of(field: Field, record: str) -> object:
    """Returns the value of a field of an example, as docs/layers.md describes it."""
    text = record[field.first - 1 : field.last].strip(" ")
    if not text:
        return None
    if field.kind is Kind.COORDINATE:
        return int(text) / 1e6
    return int(text) if field.kind is Kind.NUMBER else text


@pytest.fixture
def make() -> Iterator[Make]:
    """Returns a function that makes services. At the end, ends their processes."""
    made: list[Service] = []

    def start(data: Path = EXAMPLES, counties: str | None = None, **options: Any) -> Service:
        made.append(application(data, counties or CODE, **options))
        return made[-1]

    yield start
    for service in made:
        service.close()


@pytest.fixture
def service(make: Make, extractd: str) -> Service:
    return make()


class TestDocuments:
    """The standard's requirements on the documents other than features."""

    def test_every_link(self, make: Make, extractd: str, tmp_path: Path) -> None:
        copy_county(copy_county(tmp_path), code="01003")
        service = make(tmp_path, "01")
        seen: set[str] = set()
        todo = [(f"{BASE}/", "application/json")]
        while todo:
            target, media_type = todo.pop()
            seen.add(target)
            answer = ask(service, target, is_raw=media_type == "text/html")
            assert (answer.status, answer.headers["Content-Type"].removesuffix("; charset=utf-8")) == (
                200,
                media_type,
            ), target
            if media_type == "text/html":
                continue
            documents = [answer.document, *answer.document.get("collections", [])]
            links = [link for document in documents for link in document.get("links", [])]
            todo += [(link["href"], link["type"]) for link in links if link["href"] not in seen]
        paths = {urlsplit(target).path for target in seen}
        assert {"/", "/api", "/conformance", "/collections", ITEMS, "/collections/01003/queryables"} <= paths

    def test_each_collection_is_as_in_the_list(self, service: Service) -> None:
        listed = ask(service, "/collections").document["collections"]
        assert [collection["id"] for collection in listed] == [CODE, "al", "us"]
        assert listed == [ask(service, f"/collections/{collection['id']}").document for collection in listed]
        lines = [record.decode() for record in records(EXAMPLES / "TGR01001.RT1")]
        ends = [(int(line[at : at + 10]), int(line[at + 10 : at + 19])) for line in lines for at in (190, 209)]
        bounds = [choose(values) / 1e6 for choose in (min, max) for values in zip(*ends)]
        assert [collection["extent"]["spatial"]["bbox"] for collection in listed] == [[bounds]] * 3
        assert listed[0]["storageCrs"].endswith("CRS83") and listed[0]["crs"][0].endswith("CRS84")

    def test_definition_has_the_parameters(self, service: Service) -> None:
        """Each parameter of the definition works, and GDAL finds `cql-text` in it."""
        document = ask(service, "/api").document
        parameters = document["paths"]["/collections/{collectionId}/items"]["get"]["parameters"]
        given = {item["name"]: item for item in (resolved(document, parameter) for parameter in parameters)}
        assert given["filter-lang"]["schema"]["enum"] == ["cql2-text", "cql2-json", "cql-text"]
        assert given["limit"]["schema"]["maximum"] == 10_000
        values = {"bbox": "-87,32,-86,33", "datetime": "2006-01-01T00:00:00Z", "filter": "TRUE", "f": "json"}
        values |= {"properties": "CFCC", "sortby": "-CFCC"}
        assert values.keys() < given.keys() and len(given) == 37
        for name, item in given.items():
            default = resolved(document, item["schema"]).get("default", "1")
            if item["in"] == "query":
                assert ask(service, query(**{name: values.get(name, default)})).status == 200, name

    def test_queryables_are_of_their_types(self, service: Service) -> None:
        """A filter accepts a feature's values in all listed columns, and the geometry. Codes aren't listed."""
        columns = ask(service, f"/collections/{CODE}/queryables").document["properties"]
        assert columns.pop("geometry")["format"] == "geometry-linestring"
        house_numbers = {f"{end}ADD{side}_TEXT" for end in ("FR", "TO") for side in "LR"}
        assert columns.keys() == {field.name for field in FIELDS if field.kind is not Kind.CODE} | house_numbers
        for column in columns:
            feature = ask(service, query(filter=f"{column} IS NOT NULL", limit=1)).document["features"]
            value = feature[0]["properties"][column.removesuffix("_TEXT")] if feature else "A"
            literal = f"'{value}'" if isinstance(value, str) else value
            answer = ask(service, query(filter=f"{column} = {literal}", limit=1))
            assert answer.status == 200 and (answer.document["features"] == feature or column == "FENAME"), column

    def test_public_address(self, make: Make, extractd: str) -> None:
        service = make(url="https://example.org/tiger/")
        links = {link["rel"]: link["href"] for link in ask(service, query(limit=1, offset=1)).document["links"]}
        assert links.keys() == {"self", "alternate", "next", "prev", "collection"}
        for target in links.values():
            assert target.startswith("https://example.org/tiger/collections/01001")
        for url in ("example.org", "ftp://example.org", "https://example.org/?a"):
            with pytest.raises(ValueError, match="is no address"):
                make(url=url)

    def test_head(self, service: Service) -> None:
        answer = ask(service, query(limit=3), "HEAD")
        assert answer.status == 200 and answer.document is None and int(answer.headers["Content-Length"]) > 1000


class TestFeatures:
    """Records become features."""

    def test_properties(self, service: Service) -> None:
        record = records(EXAMPLES / "TGR01001.RT1")[145].decode()
        feature = ask(service, query(limit=1, offset=145)).document["features"][0]
        assert feature["id"] == feature["properties"]["TLID"] == int(record[5:15])
        assert feature["properties"]["TRACTL"] == record[170:176] and feature["properties"]["STATEL"] == "01"
        assert feature["properties"]["FENAME"] == record[19:49].strip() and feature["properties"]["FEDIRP"] is None
        numbers = [int(record[first:last]) / 1e6 for first, last in ((190, 200), (200, 209), (209, 219), (219, 228))]
        assert feature["geometry"] == {"type": "LineString", "coordinates": [numbers[:2], numbers[2:]]}

    def test_all_properties(self, service: Service) -> None:
        """They are the fields in the order of the record."""
        features = ask(service, ITEMS).document["features"]
        for record, feature in zip(records(EXAMPLES / "TGR01001.RT1"), features, strict=True):
            expected = {field.name: value_of(field, record.decode("latin-1")) for field in FIELDS}
            assert list(feature["properties"].items()) == list(expected.items())

    def test_any_byte(self, make: Make, extractd: str, tmp_path: Path) -> None:
        odd = bytes(byte for byte in range(256) if byte != 10)
        lines = []
        for shift in range(40):
            record = bytearray((odd * 2)[shift * 5 : shift * 5 + 228])
            record[0:1], record[5:15], record[227:] = b"1", b"%10d" % (1000 + shift), b"9"
            lines.append(bytes(record))
        (copy_county(tmp_path) / "TGR01001.RT1").write_bytes(b"\n".join(lines) + b"\n")
        features = ask(make(tmp_path), ITEMS).document["features"]
        for line, feature in zip(lines, features, strict=True):
            assert feature["properties"]["FENAME"] == line[19:49].decode("latin-1").strip(" ")

    @pytest.mark.parametrize(
        ("limit", "largest"),
        [(1, 500), (7, 500), (100, 500), (200, 500), (399, 500), (400, 500), (401, 500), (10**30, 500), (401, 150)],
    )
    def test_each_page_once(self, make: Make, extractd: str, limit: int, largest: int) -> None:
        """All pages but the last have as many features as the limit says, or as the largest page has. None is empty."""
        expected = [int(record[5:15]) for record in records(EXAMPLES / "TGR01001.RT1")]
        found = list(pages(make(limits=Limits(page=largest)), query(limit=limit)))
        assert [tlids(page) for page in found] == parts_of(expected, min(limit, largest))
        assert {page["numberMatched"] for page in found} == {SEGMENTS}
        assert [page["numberReturned"] for page in found] == [len(page["features"]) for page in found]

    @pytest.mark.parametrize(
        ("offset", "limit"),
        [(0, 70), (1, 70), (140, 70), (399, 70), (400, 70), (401, 70), (5000, 70), (10**30, 70), (5, 1)],
    )
    def test_pages_back(self, service: Service, offset: int, limit: int) -> None:
        """The pages before one have all features before it, each once. All but the first have as many as the limit says."""
        expected = [int(record[5:15]) for record in records(EXAMPLES / "TGR01001.RT1")]
        page, *back = pages(service, query(limit=limit, offset=offset), "prev")
        assert tlids(page) == expected[offset : offset + limit]
        assert [tlids(page)[::-1] for page in back] == parts_of(expected[:offset][::-1], limit)

    def test_links_repeat_the_request(self, service: Service) -> None:
        given = {"filter": "FENAME LIKE 'M%'", "bbox": "-87,32,-86,33", "limit": "2", "filter-lang": "cql2-text"}
        links = {link["rel"]: link["href"] for link in ask(service, query(**given)).document["links"]}
        assert dict(parse_qsl(urlsplit(links["next"]).query)) == given | {"offset": "2"}
        assert tlids(ask(service, links["self"]).document) == tlids(ask(service, query(**given)).document)

    def test_all_conditions_hold(self, service: Service) -> None:
        """Filter, box and properties are joined by AND, even if the filter has an OR."""
        given = {"filter": "CFCC = 'A41' OR CFCC = 'A61'", "FETYPE": "Ct", "bbox": "-86.7,32.3,-86.5,32.6"}
        found = ask(service, query(**given)).document["features"]
        each = [set(ids(ask(service, query(**{name: value})).document)) for name, value in given.items()]
        assert {feature["id"] for feature in found} == set.intersection(*each) and 0 < len(found) < SEGMENTS

    def test_forms_of_a_county(self, make: Make, extractd: str, tmp_path: Path) -> None:
        copy_county(tmp_path / "lower", name=str.lower)
        archive = zip_folder(copy_county(tmp_path / "plain"), tmp_path / "TGR01001.ZIP")
        expected = ask(make(), ITEMS).document["features"]
        for data in (tmp_path / "lower", archive):
            assert ask(make(data), ITEMS).document["features"] == expected


class TestShapes:
    """The geometry of a segment has its shape points if its county has a file of type 2."""

    @pytest.mark.usefixtures("gdal", "extractd")
    @pytest.mark.parametrize("code", [CODE, "01007"])
    def test_same_as_gdal(self, make: Make, tmp_path: Path, code: str) -> None:
        if code == CODE:
            write_shapes(copy_county(tmp_path))
        data = tmp_path if code == CODE else EXAMPLES / "town"
        expected = {int(row["TLID"]): points_of(row["WKT"]) for row in gdal_rows(data / f"TGR{code}.RT1")}
        features = ask(make(data, code), f"/collections/{code}/items?limit=10000").document["features"]
        assert {feature["id"]: points(feature) for feature in features} == expected
        assert sum(len(line) > 2 for line in expected.values()) > len(expected) / 4

    def test_forms_of_a_county(self, make: Make, extractd: str, tmp_path: Path) -> None:
        """Of a county in other cases or in a zip file, and of one segment."""
        write_shapes(copy_county(tmp_path / "plain"))
        archive = zip_folder(tmp_path / "plain", tmp_path / "TGR01001.ZIP")
        (tmp_path / "lower").mkdir()
        for path in (tmp_path / "plain").iterdir():
            (tmp_path / "lower" / path.name.lower()).write_bytes(path.read_bytes())
        service = make(tmp_path / "plain")
        expected = ask(service, ITEMS).document["features"]
        for data in (tmp_path / "lower", archive):
            assert ask(make(data), ITEMS).document["features"] == expected
        single = ask(service, f"{ITEMS}/{expected[6]['id']}").document
        assert points(single) == points(expected[6]) and len(points(single)) == 25

    def test_one_county_without_file(self, make: Make, extractd: str, tmp_path: Path) -> None:
        write_shapes(copy_county(tmp_path))
        service = make(copy_county(tmp_path, code="01003"), "01")
        for code, lengths in (("01001", {2, 3, 11, 12, 13, 22, 25}), ("01003", {2})):
            features = ask(service, f"/collections/{code}/items").document["features"]
            assert {len(points(feature)) for feature in features} == lengths

    @pytest.mark.parametrize(
        ("lines", "number", "text"),
        [
            (b"x\n", 1, "rt2 line 1 WrongLength"),
            (b"20006 107000001  x" + b"+000000000+00000000" * 10 + b"\n", 120, "rt2 line 1 BadSequence"),
            ((b"20006 107000001  1" + b"+000000000+00000000" * 10 + b"\n") * 2, 121, "rt2 line 2 RepeatedSequence"),
        ],
        ids=["length", "sequence", "twice"],
    )
    def test_faulty_file(
        self,
        make: Make,
        extractd: str,
        tmp_path: Path,
        capfd: pytest.CaptureFixture[str],
        lines: bytes,
        number: int,
        text: str,
    ) -> None:
        (copy_county(tmp_path) / "TGR01001.RT2").write_bytes(lines)
        service = make(copy_county(tmp_path, code="01003"), "01")
        for target in (ITEMS, f"{ITEMS}/107000001", query(filter="TRUE", bbox="-87,32,-86,33")):
            answer = ask(service, target)
            assert answer.status == 500 and answer.document["type"].endswith("#refused-county")
            assert answer.document["refusal"] == number and text in answer.document["detail"]
        assert ["extent" in item for item in ask(service, "/collections").document["collections"]] == [
            False,
            True,
            False,
            False,
        ]


class TestIds:
    """Ids are unique, and the same in each selection, even if a file repeats a TLID."""

    @pytest.fixture
    def repeated(self, make: Make, extractd: str, tmp_path: Path) -> Service:
        lines = records(EXAMPLES / "TGR01001.RT1")[:30]
        other = lines[3][:55] + b"A99" + lines[3][58:]
        zeros = lines[9][:5] + b"%010d" % int(lines[9][5:15]) + lines[9][15:]
        written = [*lines, other, lines[3], lines[5], zeros, other, zeros, lines[9], lines[3]]
        (copy_county(tmp_path) / "TGR01001.RT1").write_bytes(b"\n".join(written) + b"\n")
        return make(tmp_path)

    def test_unique_and_found(self, repeated: Service) -> None:
        features = ask(repeated, ITEMS).document["features"]
        assert len({feature["id"] for feature in features}) == len(features) == 38
        for feature in features:
            found = ask(repeated, f"{ITEMS}/{feature['id']}").document
            assert {name: found[name] for name in feature} == feature

    @pytest.mark.parametrize("limit", [1, 2, 5, 100])
    def test_same_in_each_selection(self, repeated: Service, limit: int) -> None:
        features = {feature["id"]: feature for feature in ask(repeated, ITEMS).document["features"]}
        for where in ("CFCC = 'A99'", "CFCC <> 'A99'", "TLID > 0", "FENAME IS NOT NULL"):
            found = [page["features"] for page in pages(repeated, query(filter=where, limit=limit))]
            selected = [feature for page in found for feature in page]
            assert selected and all(features[feature["id"]] == feature for feature in selected)
            assert len({feature["id"] for feature in selected}) == len(selected)

    @pytest.mark.parametrize(
        "name", ["1", "x", "-1", "0107000003", "107000003.0", "9" * 40, "30107000003", "%2e%2e", "1/2"]
    )
    def test_unknown(self, repeated: Service, name: str) -> None:
        assert ask(repeated, f"{ITEMS}/{name}").status == 404


FILTERS = [
    # The refusals of docs/filters.md: filter, number, line, column.
    ("ZIPL = 36067 AND", 90, 1, 17),
    ("ZIP = 36067", 91, 1, 1),
    ("ZIPL = '36067'", 92, 1, 8),
    ("FRLAT > 1000", 93, 1, 9),
    ("CFCC = 'A410'", 94, 1, 8),
    ("(" * 65, 95, 1, 65),
    ("HAS_NAME('Main', 5000)", 96, 1, 1),
    # Unpaired parentheses, other lines, other characters, nothing.
    ("TRUE) OR (TRUE", 90, 1, 5),
    ("TRUE AND\n  ZIP = 1", 91, 2, 3),
    ("FENAME = 'é' AND ZIP = 1", 91, 1, 18),
    ("FENAME = '\u20ac'", 90, 1, 11),
    ("", 90, 1, 1),
    ("--", 90, 1, 3),
    ("/", 90, 1, 1),
]


class TestBadInput:
    """Each fault has its status, its kind, and its parameter or place."""

    @pytest.mark.parametrize("more", [{}, {"bbox": "-87,32,-86,33"}, {"CFCC": "A41"}], ids=["alone", "box", "property"])
    @pytest.mark.parametrize(("text", "number", "line", "column"), FILTERS)
    def test_filters(
        self, service: Service, text: str, number: int, line: int, column: int, more: dict[str, str]
    ) -> None:
        answer = ask(service, query(filter=text, **more))
        assert (answer.status, answer.headers["Content-Type"]) == (400, "application/problem+json")
        problem = answer.document
        assert problem["type"].endswith("#refused-filter") and problem["parameter"] == "filter"
        place = (problem["refusal"], problem["line"], problem["column"])
        assert place == (number, line, column) and problem["detail"].startswith(f"refused {number} line {line} column")

    def test_deep_filter_and_property(self, service: Service) -> None:
        """A property costs a filter one of its 64 levels of parentheses, and the place is in the filter as sent."""
        given = {"filter": "(" * 64 + "TRUE" + ")" * 64}
        assert ask(service, query(**given)).status == 200
        assert ask(service, query(**given, bbox="-87,32,-86,33")).status == 200
        problem = ask(service, query(**given, CFCC="A41")).document
        assert (problem["refusal"], problem["column"]) == (95, 64)

    @pytest.mark.parametrize(
        ("given", "kind", "parameter"),
        [
            ("unknown=1", "unknown-parameter", "unknown"),
            ("Limit=1", "unknown-parameter", "Limit"),
            ("ZIPL=36067", "unknown-parameter", "ZIPL"),
            ("limit=1&limit=2", "bad-parameter", "limit"),
            ("limit=0", "bad-parameter", "limit"),
            ("limit=-1", "bad-parameter", "limit"),
            ("limit=1e3", "bad-parameter", "limit"),
            ("limit=", "bad-parameter", "limit"),
            ("limit=%D9%A1", "bad-parameter", "limit"),
            ("offset=-1", "bad-parameter", "offset"),
            ("offset=x", "bad-parameter", "offset"),
            ("bbox=", "bad-parameter", "bbox"),
            ("bbox=1,2,3", "bad-parameter", "bbox"),
            ("bbox=1,2,3,4,5", "bad-parameter", "bbox"),
            ("bbox=1,2,3,x", "bad-parameter", "bbox"),
            ("bbox=1,2,3,nan", "bad-parameter", "bbox"),
            ("bbox=1,2,3,inf", "bad-parameter", "bbox"),
            ("bbox=1,2,3,1e999", "bad-parameter", "bbox"),
            ("bbox=1,2,3,1_0", "bad-parameter", "bbox"),
            ("bbox=-87,33,-86,32", "bad-parameter", "bbox"),
            ("bbox=-87,32,5,-86,33,4", "bad-parameter", "bbox"),
            ("bbox-crs=http://www.opengis.net/def/crs/EPSG/0/3857", "bad-parameter", "bbox-crs"),
            ("properties=", "bad-parameter", "properties"),
            ("properties=CFCC,cfcc", "bad-parameter", "properties"),
            ("properties=geometry", "bad-parameter", "properties"),
            ("sortby=", "bad-parameter", "sortby"),
            ("sortby=CFCC,", "bad-parameter", "sortby"),
            ("sortby=*CFCC", "bad-parameter", "sortby"),
            ("sortby=CFCC,-CFCC", "bad-parameter", "sortby"),
            ("sortby=FRADDL_TEXT", "bad-parameter", "sortby"),
            ("crs=EPSG:4326", "bad-parameter", "crs"),
            ("filter=TRUE&filter-crs=x", "bad-parameter", "filter-crs"),
            ("filter=TRUE&filter-lang=cql2", "bad-parameter", "filter-lang"),
            ("filter=true&filter-lang=CQL2-JSON", "bad-parameter", "filter-lang"),
            ("filter=TRUE%00", "bad-parameter", "filter"),
            pytest.param("filter=" + "x" * 16_385, "long-filter", "filter", id="filter of too many letters"),
            pytest.param("filter=" + "%C3%A9" * 8_193, "long-filter", "filter", id="filter of too many bytes"),
            ("filter=%FF", "bad-parameter", None),
            ("datetime=yesterday", "bad-parameter", "datetime"),
            ("datetime=2006-01-01/2006-02-01/2006-03-01", "bad-parameter", "datetime"),
            ("f=xml", "bad-parameter", "f"),
            ("CFCC=A410", "bad-parameter", "CFCC"),
            ("CFCC=", "bad-parameter", "CFCC"),
            ("CFCC=%C5%81", "bad-parameter", "CFCC"),
            ("FENAME=a%0Ab", "bad-parameter", "FENAME"),
            ("TLID=1x", "bad-parameter", "TLID"),
            ("FRLONG=1000", "bad-parameter", "FRLONG"),
            ("FRLONG=0.1234567", "bad-parameter", "FRLONG"),
        ],
    )
    def test_parameters(self, service: Service, given: str, kind: str, parameter: str | None) -> None:
        answer = ask(service, f"{ITEMS}?{given}")
        assert (answer.status, answer.headers["Content-Type"]) == (400, "application/problem+json")
        assert answer.document["type"] == f"{BASE}/api#{kind}" and answer.document.get("parameter") == parameter

    @pytest.mark.parametrize(
        "given",
        [
            "FENAME=O'Neil",
            "FENAME='",
            "FENAME=%25",
            "datetime=../2006-01-01",
            "offset=400",
            "filter=TRUE" + "+" * 16_380,
        ],
    )
    def test_odd_but_good(self, service: Service, given: str) -> None:
        assert ask(service, f"{ITEMS}?{given}").status == 200

    @pytest.mark.parametrize(
        ("target", "status"),
        [
            ("/nothing", 404),
            ("/collections/99999", 404),
            ("/collections/99999/items", 404),
            ("/collections/01001/nothing", 404),
            ("/collections/01001/items/1/2", 404),
            ("/../etc/passwd", 404),
            ("//", 404),
            ("/\xff", 404),
            ("/collections?limit=1", 400),
            ("/?x=1", 400),
            ("/api?f=yaml", 400),
            ("/collections/01001/items/107000003?limit=1", 400),
            ("/collections/", 200),
        ],
    )
    def test_paths(self, service: Service, target: str, status: int) -> None:
        assert ask(service, target).status == status

    @pytest.mark.parametrize(("method", "status"), [("POST", 405), ("PUT", 405), ("DELETE", 405), ("OPTIONS", 200)])
    def test_methods(self, service: Service, method: str, status: int) -> None:
        answer = ask(service, ITEMS, method)
        assert answer.status == status and answer.headers["Allow"] == "GET, HEAD, OPTIONS"

    @pytest.mark.parametrize("host", ["a b", 'a"', "", "a/b"])
    def test_hosts(self, service: Service, host: str) -> None:
        assert ask(service, "/", HTTP_HOST=host).status == (400 if host else 200)

    def test_faulty_county(self, make: Make, extractd: str, tmp_path: Path, capfd: pytest.CaptureFixture[str]) -> None:
        with open(copy_county(tmp_path) / "TGR01001.RT1", "ab") as file:
            file.write(b"x\n")
        service = make(copy_county(tmp_path, code="01003"), "01")
        answer = ask(service, ITEMS)
        assert answer.status == 500 and answer.document["type"].endswith("#refused-county")
        assert answer.document["refusal"] == 1 and "rt1 line 401 WrongLength" in answer.document["detail"]
        assert ask(service, "/collections/01003/items").status == 200
        assert ["extent" in item for item in ask(service, "/collections").document["collections"]] == [
            False,
            True,
            False,
            False,
        ]

    def test_missing_file(self, make: Make, extractd: str, tmp_path: Path, capfd: pytest.CaptureFixture[str]) -> None:
        """Only the operator sees names of files."""
        service = make(copy_county(tmp_path))
        (tmp_path / "TGR01001.RT1").unlink()
        answer = ask(service, ITEMS)
        assert answer.status == 500 and str(tmp_path) not in json.dumps(answer.document)
        assert f"{tmp_path} has no TGR01001.RT1" in capfd.readouterr().err


# Filters as text and as JSON, for the same segments.
ENCODINGS = [
    ("CFCC = 'A41'", '{"op":"=","args":[{"property":"CFCC"},"A41"]}'),
    (
        "CFCC <> 'A41' OR NOT ZIPL = 36067",
        '{"op":"or","args":[{"op":"<>","args":[{"property":"CFCC"},"A41"]},'
        '{"op":"not","args":[{"op":"=","args":[{"property":"ZIPL"},36067]}]}]}',
    ),
    ("FENAME LIKE 'L%'", ' {"args" : [{"property":"FENAME"}, "\\u004c%"], "op" : "like"}\n'),
    ("TRUE", "true"),
    (
        "S_INTERSECTS(geometry, BBOX(-86.7, 32.3, -86.5, 32.6))",
        '{"op":"s_intersects","args":[{"property":"geometry"},{"bbox":[-86.7,32.3,-86.5,32.6]}]}',
    ),
]


class TestJson:
    """A filter in JSON is passed on as it is, and its refusals have JSON pointers."""

    @pytest.mark.parametrize("more", [{}, {"FETYPE": "St", "bbox": "-87,32,-86,33"}], ids=["alone", "more"])
    @pytest.mark.parametrize(("text", "encoded"), ENCODINGS)
    def test_same_segments(self, service: Service, text: str, encoded: str, more: dict[str, str]) -> None:
        expected = ask(service, query(filter=text, **more)).document["features"]
        found = ask(service, query(filter=encoded, **more, **{"filter-lang": "cql2-json"}))
        assert found.status == 200 and found.document["features"] == expected != []

    def test_values_of_parameters(self, service: Service) -> None:
        """The values of columns are the same in both languages."""
        for given in ({"TLID": "0107000006"}, {"FRLONG": "-086.62573"}, {"FENAME": 'O\'Neil "é"'}, {"SOURCE": "J"}):
            expected = ask(service, query(filter="TRUE", **given)).document["features"]
            found = ask(service, query(filter="true", **given, **{"filter-lang": "cql2-json"}))
            assert found.status == 200 and found.document["features"] == expected, given

    @pytest.mark.parametrize("more", [{}, {"CFCC": "A41"}], ids=["alone", "property"])
    @pytest.mark.parametrize(
        ("encoded", "number", "place"),
        [
            ('{"op":"=","args":[{"property":"ZIPL"},"36067"]}', 92, {"pointer": "/args/1"}),
            (
                '{"op":"and","args":[true,{"op":"=","args":[{"property":"ZIP"},1]}]}',
                91,
                {"pointer": "/args/1/args/0/property"},
            ),
            ('{"op":', 90, {"line": 1, "column": 7}),
            # The place is after the bracket, which has been read.
            ('true]},{"op":"or","args":[true', 90, {"line": 1, "column": 6}),
        ],
    )
    def test_refusals(
        self, service: Service, encoded: str, number: int, place: dict[str, Any], more: dict[str, str]
    ) -> None:
        answer = ask(service, query(filter=encoded, **more, **{"filter-lang": "cql2-json"}))
        problem = answer.document
        assert (answer.status, problem["refusal"], problem["parameter"]) == (400, number, "filter")
        assert {name: problem[name] for name in ("line", "column", "pointer") if name in problem} == place
        assert problem["detail"].startswith(f"refused {number} ") and problem["detail"].count("\n") == 1

    @pytest.mark.parametrize(
        ("more", "pointer", "expected"),
        [
            ({}, " pointer /args/1", "/args/1"),
            ({}, "", None),
            ({"CFCC": "A41"}, " pointer /args/0/args/1", "/args/1"),
            ({"CFCC": "A41"}, " pointer /args/0", None),
            ({"CFCC": "A41"}, " pointer /args/1", None),
            ({"CFCC": "A41"}, "", None),
        ],
    )
    def test_command(
        self, make: Make, tmp_path: Path, more: dict[str, str], pointer: str, expected: str | None
    ) -> None:
        """The options of a run, and how the place of a refusal is read, without the built program."""
        log = tmp_path / "calls"
        script = f"""
            printf '%s\\n' "$*" >> {log}
            case "$*" in
            *--where=TRUE*) exit 0 ;;
            *--where=*) printf 'refused 92{pointer} WrongType\\nwrite a number' >&2; exit 1 ;;
            esac"""
        service = make(extractd=program_of(tmp_path / "refusing", script))
        encoded = '{"op":"=","args":[{"property":"ZIPL"},"1"]}'
        problem = ask(service, query(filter=encoded, **more, **{"filter-lang": "cql2-json"})).document
        assert problem.get("pointer") == expected and problem["detail"].endswith("WrongType\nwrite a number")
        *_, last = log.read_text().splitlines()
        condition = '{"op":"=","args":[{"property":"CFCC"},"A41"]}'
        text = f'{{"op":"and","args":[{encoded},{condition}]}}' if more else encoded
        assert last.startswith(f"select --where={text} --filter-lang cql2-json --data ")
        assert ("compile --filter - --filter-lang cql2-json" in log.read_text()) == bool(more)


class Counting:
    """The built program with a log of its calls."""

    def __init__(self, folder: Path, extractd: str, before: str = "") -> None:
        self.log = folder / "calls"
        self.path = program_of(folder / "counting", f'{before}\necho "$1" >> {self.log}\nexec {extractd} "$@"')

    def calls(self) -> list[str]:
        found = self.log.read_text().split() if self.log.exists() else []
        self.log.unlink(missing_ok=True)
        return found


class TestRuns:
    """A selection is one run, however many pages and clients it has."""

    def test_pages(self, make: Make, extractd: str, tmp_path: Path) -> None:
        program = Counting(tmp_path, extractd)
        service = make(extractd=program.path)
        for where in ("CFCC LIKE 'A%'", "CFCC LIKE 'H%'"):
            assert len(list(pages(service, query(filter=where, limit=5)))) > 10
        # One for all segments, for the ids, and one per filter.
        assert program.calls() == ["select"] * 3
        list(pages(service, query(filter="CFCC LIKE 'A%'", limit=50)))
        list(pages(service, query(limit=50)))
        assert program.calls() == []
        # A box needs the segments of the filter, which are there.
        for box in ("-87,32,-86,33", "-86.7,32.3,-86.5,32.6"):
            assert len(list(pages(service, query(filter="CFCC LIKE 'A%'", bbox=box, limit=5)))) > 1
        assert program.calls() == []
        list(pages(service, query(filter="CFCC LIKE 'A%'", FETYPE="Ct", bbox="-87,32,-86,33", limit=5)))
        assert program.calls() == ["compile", "select"]

    def test_buffers_are_bounded(self, make: Make, extractd: str, tmp_path: Path) -> None:
        """A county with more bytes than all buffers may have is kept while it is read."""
        program = Counting(tmp_path, extractd)
        service = make(extractd=program.path, limits=Limits(buffers=150_000))
        assert sum(len(page["features"]) for page in pages(service, query(limit=10))) == SEGMENTS
        assert program.calls() == ["select"]
        first, second = query(filter="CFCC = 'A41'"), query(filter="CFCC = 'A61'")
        for target in (first, second, first, second):
            assert ask(service, target).status == 200
        assert program.calls() == ["select"] * 2
        ask(service, ITEMS)
        ask(service, first)
        assert program.calls() == ["select"] * 2

    def test_number_of_buffers_is_bounded(
        self, make: Make, extractd: str, tmp_path: Path, monkeypatch: pytest.MonkeyPatch
    ) -> None:
        """Single segments take no room, and a further selection that of the one requested longest ago."""
        monkeypatch.setattr("tigerline.service.selections.MOST_BUFFERS", 2)
        program = Counting(tmp_path, extractd)
        service = make(extractd=program.path)
        ask(service, query(filter="CFCC = 'A41'"))
        assert program.calls() == ["select"] * 2
        for number in range(3):
            ask(service, f"{ITEMS}/{number}")
        assert program.calls() == ["select"] * 3
        ask(service, query(filter="CFCC = 'A41'", offset=10))
        ask(service, ITEMS)
        assert program.calls() == []
        for where in ("CFCC = 'A61'", "CFCC = 'A41'"):
            ask(service, query(filter=where))
            assert program.calls() == ["select"]

    def test_same_request_at_once(self, make: Make, extractd: str, tmp_path: Path) -> None:
        program = Counting(tmp_path, extractd, "sleep 0.3")
        service = make(extractd=program.path)
        found: list[int] = []
        threads = [threading.Thread(target=lambda: found.append(ask(service, query(limit=1)).status)) for _ in range(8)]
        for thread in threads:
            thread.start()
        for thread in threads:
            thread.join(60)
        assert found == [200] * 8 and program.calls() == ["select"]

    def test_time_limit(self, make: Make, tmp_path: Path) -> None:
        program = program_of(tmp_path / "hanging", f"{HANGING}; true")
        started = time.monotonic()
        answer = ask(make(extractd=program, limits=Limits(seconds=0.3)), ITEMS)
        assert answer.status == 503 and answer.document["type"].endswith("#time-limit")
        assert time.monotonic() - started < 10 and answer.headers["Retry-After"]
        assert not processes_with(program) and not processes_with(HANGING)

    def test_too_many_wait(self, make: Make, tmp_path: Path) -> None:
        """One request runs and one waits, until their clients leave. The others are refused at once."""
        program = program_of(tmp_path / "hanging", f"exec {HANGING}")
        service = make(extractd=program, limits=Limits(processes=1, waiting=1, seconds=10))
        have_left = threading.Event()
        environ: WSGIEnvironment = {"waitress.client_disconnected": have_left.is_set}
        with ThreadPoolExecutor(5) as threads:
            pending = [threads.submit(ask, service, f"{ITEMS}/{number}", **environ) for number in range(5)]
            answers = (answer.result() for answer in as_completed(pending))
            found = [next(answers) for _ in range(3)]
            wait_until(lambda: processes_with(HANGING))
            assert len(processes_with(HANGING)) == 1
            have_left.set()
            found += answers
        kinds = [answer.document["type"].partition("#")[2] for answer in found]
        assert kinds == ["busy"] * 3 + ["client-left"] * 2
        assert {answer.status for answer in found} == {503} and not processes_with(HANGING)

    def test_client_that_left(self, make: Make, tmp_path: Path) -> None:
        program = program_of(tmp_path / "hanging", f"{HANGING}; true")
        started = time.monotonic()
        left = started + 0.3
        environ: WSGIEnvironment = {"waitress.client_disconnected": lambda: time.monotonic() > left}
        assert ask(make(extractd=program), ITEMS, **environ).status == 503
        assert time.monotonic() - started < 10 and not processes_with(program)

    def test_close(self, make: Make, tmp_path: Path) -> None:
        program = program_of(tmp_path / "hanging", f"{HANGING}; true")
        service = make(extractd=program)
        thread = threading.Thread(target=lambda: ask(service, ITEMS))
        thread.start()
        wait_until(lambda: processes_with(program))
        service.close()
        thread.join(10)
        assert not thread.is_alive() and not processes_with(program)
        assert ask(service, ITEMS).status == 503

    @pytest.mark.parametrize(
        ("script", "status", "kind"),
        [
            ("printf x", 500, "failed"),
            ("printf '0\\t%0229d' 1", 500, "failed"),
            ("printf '1\\t%0228d\\n' 1", 500, "failed"),
            ("kill -9 $$", 500, "failed"),
            ("exit 77", 500, "failed"),
            ("echo 'refused 60 Write' >&2; exit 3", 500, "failed"),
            ("echo 'refused memory' >&2; exit 4", 503, "memory"),
        ],
    )
    def test_failures(self, make: Make, tmp_path: Path, script: str, status: int, kind: str) -> None:
        answer = ask(make(extractd=program_of(tmp_path / "program", script)), ITEMS)
        assert answer.status == status and answer.document["type"].endswith(f"#{kind}")
