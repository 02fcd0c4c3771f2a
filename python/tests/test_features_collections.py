"""Collections of several counties, the order and the view of features, coordinate reference systems, and compression."""

import gzip
import json
import sqlite3
from pathlib import Path
from types import SimpleNamespace
from urllib.parse import quote, urlencode

import pytest
from counties import CODE, EXAMPLES, SEGMENTS, copy_county, records
from test_features import Make, ask, make, pages, points, service, value_of  # noqa: F401 (two are fixtures)
from tigerline.layout import FIELDS, NAMES
from tigerline.service.application import Service
from tigerline.service.axes import exchanged
from tigerline.service.lines import Lines
from tigerline.service.query import FeatureSelection
from tigerline.service.selections import Processes, Watch
from tigerline.sources import County

OTHER, FAR = "01003", "02016"
STATE = "/collections/al/items"
ALL = "/collections/us/items"
SYSTEM = "http://www.opengis.net/def/crs/"

pytestmark = pytest.mark.usefixtures("scratch")


@pytest.fixture
def counties(make: Make, extractd: str, tmp_path: Path) -> Service:  # noqa: F811
    """Three counties. Two share a segment, one of them has it twice, and the third is in another state."""
    lines = records(EXAMPLES / "TGR01001.RT1")
    for code, chosen in ((CODE, lines[:7]), (OTHER, [*lines[6:9], lines[6]]), (FAR, lines[20:25])):
        (copy_county(tmp_path, code=code) / f"TGR{code}.RT1").write_bytes(b"\n".join(chosen) + b"\n")
    return make(tmp_path, [FAR, OTHER, CODE])


def slow_down(monkeypatch: pytest.MonkeyPatch, seconds: float) -> None:
    """Has each selection take this time, by a clock that otherwise stands still."""
    select, now = Processes.select, [0.0]

    def slow(processes: Processes, county: County, selection: FeatureSelection, watch: Watch) -> Lines:
        now[0] += seconds
        return select(processes, county, selection, watch)

    monkeypatch.setattr(Processes, "select", slow)
    monkeypatch.setattr("tigerline.service.selections.time", SimpleNamespace(monotonic=lambda: now[0]))


class TestCollections:
    """A state and all counties are collections, whose counties follow one another."""

    @pytest.mark.parametrize(("items", "codes"), [(STATE, [CODE, OTHER]), (ALL, [CODE, OTHER, FAR])])
    @pytest.mark.parametrize("more", ["", "filter=FENAME IS NOT NULL", "bbox=-86.7,32.3,-86.5,32.6"])
    @pytest.mark.parametrize("limit", [1, 3, 7, 100])
    def test_pages(self, counties: Service, items: str, codes: list[str], more: str, limit: int) -> None:
        """They have the features of each county, which their ids name."""
        target = "{}?" + quote(more, safe="=&") + f"&limit={limit}"
        found = [*pages(counties, target.format(items))]
        each = [ask(counties, target.format(f"/collections/{code}/items") + "00").document for code in codes]
        expected = [
            feature | {"id": f"{code}.{feature['id']}"}
            for code, page in zip(codes, each)
            for feature in page["features"]
        ]
        assert [feature for page in found for feature in page["features"]] == expected != []
        assert {page["numberMatched"] for page in found} == {sum(page["numberMatched"] for page in each)}
        assert len({feature["id"] for feature in expected}) == len(expected)

    def test_single_features(self, counties: Service) -> None:
        features = ask(counties, STATE).document["features"]
        assert len(features) == 11
        for feature in features:
            found = ask(counties, f"{STATE}/{feature['id']}").document
            assert {name: found[name] for name in feature} == feature

    @pytest.mark.parametrize("name", ["107000003", "01001", "01001.1", "02016.107000003", "01001.0107000003", "1001.1"])
    def test_unknown(self, counties: Service, name: str) -> None:
        assert ask(counties, f"{STATE}/{name}").status == 404

    @pytest.mark.parametrize("target", [f"{ALL}?filter=TRUE", f"{ALL}?sortby=TLID", "/collections/us"])
    @pytest.mark.parametrize(("seconds", "is_late"), [(20, False), (31, True)])
    def test_time_limit(
        self, counties: Service, monkeypatch: pytest.MonkeyPatch, target: str, seconds: float, is_late: bool
    ) -> None:
        """It is 30 seconds for each county, and a request over several may take longer."""
        slow_down(monkeypatch, seconds)
        found = ask(counties, target).document
        assert (found.get("numberMatched") == 16 or "extent" in found) != is_late
        assert found.get("type", "").endswith("#time-limit") == (is_late and target.startswith(ALL))

    def test_extent(self, counties: Service) -> None:
        """It is the box around the extents of the counties."""
        found = {
            collection["id"]: collection["extent"]["spatial"]["bbox"][0]
            for collection in ask(counties, "/collections").document["collections"]
        }
        assert [*found] == [CODE, OTHER, FAR, "al", "ak", "us"]
        for name, codes in (("al", (CODE, OTHER)), ("us", (CODE, OTHER, FAR))):
            sides = [*zip(*(found[code] for code in codes))]
            assert found[name] == [*map(min, sides[:2]), *map(max, sides[2:])]


class TestOrder:
    """Features are sorted as by SQLite."""

    @pytest.mark.parametrize("items", [f"/collections/{CODE}/items", ALL])
    @pytest.mark.parametrize(
        "keys",
        ["FENAME", "-FENAME", "+CFCC,-FENAME", "-TLID", "-CFCC,FRLONG", "FEDIRP,-ZIPL,FRADDL", "RT", "-FEDIRS"],
    )
    def test_same_as_sqlite(self, service: Service, items: str, keys: str) -> None:  # noqa: F811
        database = sqlite3.connect(":memory:")
        database.execute(f"CREATE TABLE segments ({', '.join(NAMES)})")
        for record in records(EXAMPLES / f"TGR{CODE}.RT1"):
            values = [value_of(field, record.decode("latin-1")) for field in FIELDS]
            database.execute(f"INSERT INTO segments VALUES ({', '.join('?' * len(values))})", values)
        order = [f"{key.strip('+-')} {'DESC' if key[0] == '-' else 'ASC'} NULLS LAST" for key in keys.split(",")]
        expected = [tlid for tlid, in database.execute(f"SELECT TLID FROM segments ORDER BY {', '.join(order)}, rowid")]
        found = [*pages(service, f"{items}?{urlencode({'sortby': keys, 'limit': 77})}")]
        assert [feature["properties"]["TLID"] for page in found for feature in page["features"]] == expected
        assert {page["numberMatched"] for page in found} == {SEGMENTS}

    def test_too_many(self, service: Service, monkeypatch: pytest.MonkeyPatch) -> None:  # noqa: F811
        monkeypatch.setattr("tigerline.service.selections.MOST_SORTED", SEGMENTS - 1)
        answer = ask(service, f"{ALL}?sortby=CFCC")
        assert answer.status == 400 and answer.document["parameter"] == "sortby"
        assert ask(service, f"{ALL}?sortby=CFCC&filter=FENAME%20IS%20NOT%20NULL").status == 200

    def test_sortables(self, service: Service) -> None:  # noqa: F811
        assert [*ask(service, "/collections/al/sortables").document["properties"]] == [*NAMES]


class TestViews:
    """What features show."""

    @pytest.mark.parametrize("names", ["FENAME", "TOLAT,RT", "CFCC,CFCC,TLID"])
    def test_properties(self, counties: Service, names: str) -> None:
        for items in (f"/collections/{CODE}/items", STATE):
            whole = ask(counties, items).document["features"]
            found = ask(counties, f"{items}?properties={names}").document["features"]
            for feature, expected in zip(found, whole, strict=True):
                shown = {name: expected["properties"][name] for name in names.split(",")}
                assert [*feature["properties"].items()] == [*shown.items()]
                assert feature | {"properties": None} == expected | {"properties": None}
            single = ask(counties, f"{items}/{whole[3]['id']}?properties={names}").document
            assert single["properties"] == found[3]["properties"]

    def test_text_that_looks_like_properties(self, make: Make, extractd: str, tmp_path: Path) -> None:  # noqa: F811
        """Names of streets that have the words and the signs of the format."""
        lines = records(EXAMPLES / "TGR01001.RT1")[:3]
        names = ['","CFCC":"x', '},"geometry":[1.0,2.0]', '\\","FETYPE":null,[3,4]']
        written = [line[:19] + name.ljust(30).encode() + line[49:] for line, name in zip(lines, names)]
        (copy_county(tmp_path) / "TGR01001.RT1").write_bytes(b"\n".join(written) + b"\n")
        served = make(tmp_path)
        for more in ("", "&sortby=CFCC,TLID", f"&crs={SYSTEM}EPSG/0/4326"):
            found = ask(served, f"{ALL}?properties=FENAME,CFCC{more}").document["features"]
            assert sorted(feature["properties"]["FENAME"] for feature in found) == sorted(names)

    @pytest.mark.parametrize(
        ("name", "is_exchanged"),
        [("OGC/1.3/CRS84", False), ("OGC/1.3/CRS83", False), ("EPSG/0/4326", True), ("EPSG/0/4269", True)],
    )
    def test_systems(self, counties: Service, name: str, is_exchanged: bool) -> None:
        """The order of the axes is that of PROJ, so a map isn't mirrored."""
        osr = pytest.importorskip("osgeo.osr", reason="no python3-gdal")
        system = osr.SpatialReference()
        assert system.SetFromUserInput(SYSTEM + name) == 0
        system.SetAxisMappingStrategy(osr.OAMS_AUTHORITY_COMPLIANT)
        order = [*system.GetDataAxisToSRSAxisMapping()]
        assert system.GetAxisName(None, 0).startswith("Geodetic lat") == is_exchanged and order == [1, 2]
        expected = ask(counties, f"{STATE}?limit=5").document["features"]
        answer = ask(counties, f"{STATE}?limit=5&crs={SYSTEM}{name}")
        single = ask(counties, f"{STATE}/{expected[2]['id']}?crs={SYSTEM}{name}")
        assert answer.headers["Content-Crs"] == single.headers["Content-Crs"] == f"<{SYSTEM}{name}>"
        step = -1 if is_exchanged else 1
        lines = [points(feature) for feature in answer.document["features"]]
        assert lines == [[point[::step] for point in points(feature)] for feature in expected]
        assert points(single.document) == lines[2]
        assert SYSTEM + name in ask(counties, "/collections/al").document["crs"]


BOXES = [("-86.7,32.4,-86.6,32.5", "32.4,-86.7,32.5,-86.6"), ("-86.7,32.4,1,-86.6,32.5,2", "32.4,-86.7,1,32.5,-86.6,2")]
FILTERS = [
    ("S_INTERSECTS(geometry, BBOX(-86.7, 32.3, -86.5, 32.6))", "S_INTERSECTS(geometry, bbox(32.3,-86.7, 32.6 ,-86.5))"),
    (
        "FENAME <> 'POINT(1 2)' AND STARTS_IN(POLYGON((-86.7 32.3, -86.5 32.3, -86.5 32.6, -86.7 32.3)))",
        "FENAME <> 'POINT(1 2)' AND STARTS_IN(POLYGON ((32.3 -86.7, 32.3 -86.5, 32.6 -86.5, 32.3  -86.7)))",
    ),
    (
        '{"op":"s_intersects","args":[{"property":"geometry"},{"bbox":[-86.7,32.3,-86.5,32.6]}]}',
        '{"op":"s_intersects","args":[{"property":"geometry"},{"bbox":[32.3,-86.7,32.6,-86.5]}]}',
    ),
    (
        '{"op":"s_intersects","args":[{"property":"geometry"},{"type":"Polygon","coordinates":[[[-86.7,32.3],[-86.5,32.3],[-86.5,32.6],[-86.7,32.3]]]}]}',
        '{"op":"s_intersects","args":[{"property":"geometry"},{"type":"Polygon","coordinates":[[[32.3,-86.7],[32.3,-86.5],[32.6,-86.5],[32.3,-86.7]]]}]}',
    ),
]


class TestSystemsOfConditions:
    """Boxes and shapes in filters may have the latitude first."""

    @pytest.mark.parametrize(("box", "exchanged_box"), BOXES)
    def test_boxes(self, service: Service, box: str, exchanged_box: str) -> None:  # noqa: F811
        expected = ask(service, f"{ALL}?bbox={box}").document["features"]
        for code in (4326, 4269):
            found = ask(service, f"{ALL}?bbox={exchanged_box}&bbox-crs={SYSTEM}EPSG/0/{code}").document
            assert found["features"] == expected != []

    @pytest.mark.parametrize(("text", "exchanged_text"), FILTERS)
    def test_filters(self, service: Service, text: str, exchanged_text: str) -> None:  # noqa: F811
        language = "cql2-json" if text.startswith("{") else "cql2-text"
        given = {"filter": text, "filter-lang": language}
        expected = ask(service, f"{ALL}?{urlencode(given)}").document["features"]
        given |= {"filter": exchanged_text, "filter-crs": f"{SYSTEM}EPSG/0/4326"}
        assert ask(service, f"{ALL}?{urlencode(given)}").document["features"] == expected != []

    @pytest.mark.parametrize(
        ("text", "is_json"),
        [("FRLONG < -86 -1 AND TLID = 1 + 2", False), ("\"POINT(1 2)\" = 'BBOX(1,2,3,4)'", False), ('{"op":', True)],
    )
    def test_other_numbers_stay(self, text: str, is_json: bool) -> None:
        assert exchanged(text, is_json) == text


class TestCompression:
    """Large replies are compressed for clients that take that, if there is a processor for it."""

    @pytest.mark.parametrize(
        ("accepted", "is_compressed"),
        [
            ("gzip", True),
            ("deflate, GZIP;q=0.5", True),
            ("gzip;q=0", False),
            ("gzip; q=0.0, deflate", False),
            ("br", False),
            ("", False),
        ],
    )
    def test_accepted(self, service: Service, accepted: str, is_compressed: bool) -> None:  # noqa: F811
        for target in (f"{ALL}?limit=300", "/api"):
            self.compare(service, target, accepted, is_compressed)

    def test_small_replies_stay(self, service: Service) -> None:  # noqa: F811
        self.compare(service, "/", "gzip", False)

    def test_processors_are_busy(self, service: Service, monkeypatch: pytest.MonkeyPatch) -> None:  # noqa: F811
        monkeypatch.setattr("tigerline.service.replies.compressing.acquire", lambda blocking: False)
        self.compare(service, "/api", "gzip", False)

    def compare(self, served: Service, target: str, accepted: str, is_compressed: bool) -> None:
        raw = ask(served, target, HTTP_ACCEPT_ENCODING=accepted, is_raw=True)
        assert ("Content-Encoding" in raw.headers) == is_compressed and raw.headers["Vary"] == "Accept-Encoding"
        expected = ask(served, target).document
        found = json.loads(gzip.decompress(raw.document) if is_compressed else raw.document)
        assert {**found, "timeStamp": ""} == {**expected, "timeStamp": ""}
