"""Boxes, which select what meets them, and the extents of counties. Shapely decides in the same coordinates."""

import random
from collections.abc import Iterable, Iterator
from pathlib import Path
from typing import Any

import pytest
from counties import CODE, EXAMPLES, copy_county, records
from test_features import ITEMS, Make, ask, ids, make, points, query, service, tlids  # noqa: F401 (two are fixtures)
from tigerline.service.application import Service

geometry = pytest.importorskip("shapely.geometry", reason="no shapely")

SEED = 2006
TOWN = "01007"
TOWN_ITEMS = f"/collections/{TOWN}/items"
# Boxes have up to seven decimals. In this unit coordinates are whole numbers, which floating point represents.
UNIT = 10_000_000
FAR = 1000 * UNIT

pytestmark = pytest.mark.usefixtures("scratch")

Box = tuple[int, int, int, int]
Ends = tuple[int | None, int | None, int | None, int | None]


def lines_of(document: dict[str, Any]) -> dict[int, Any]:
    """Returns the geometries of a page, by the ids of their features. A feature may have none."""
    features = [feature for feature in document["features"] if feature["geometry"] is not None]
    return {
        feature["id"]: geometry.LineString([(round(x * UNIT), round(y * UNIT)) for x, y in points(feature)])
        for feature in features
    }


def area(west: int, south: int, east: int, north: int) -> Any:
    """Returns a rectangle. Shapely has no polygons without an area."""
    if west == east and south == north:
        return geometry.Point(west, south)
    if west == east or south == north:
        return geometry.LineString([(west, south), (east, north)])
    return geometry.box(west, south, east, north)


def in_box(lines: dict[int, Any], box: Box) -> list[int]:
    """Returns the ids of the lines that meet a box."""
    west, south, east, north = box
    plain = [box] if west <= east else [(west, south, FAR, north), (-FAR, south, east, north)]
    areas = [area(*part) for part in plain]
    return [number for number, line in lines.items() if any(line.intersects(part) for part in areas)]


def compare(served: Service, items: str, boxes: Iterable[Box]) -> set[int]:
    """Requests boxes in several notations, and returns the numbers of segments in them."""
    lines = lines_of(ask(served, f"{items}?limit=10000").document)
    randoms = random.Random(SEED)
    counts = set()
    for box in boxes:
        text = ",".join(randoms.choice(("%r", "%.17g", "%.16f")) % (number / UNIT) for number in box)
        found = ask(served, f"{items}?limit=10000&bbox={text}").document
        assert ids(found) == in_box(lines, box), text
        assert found["numberMatched"] == len(found["features"])
        counts.add(found["numberMatched"])
    return counts


def write_ends(folder: Path, segments: Iterable[Ends], code: str = CODE) -> Path:
    """Writes a county of segments with these ends in millionths of a degree. An end may lack a coordinate."""
    template = records(EXAMPLES / "TGR01001.RT1")[0]
    lines = []
    for number, ends in enumerate(segments, start=1):
        texts = [" " * width if end is None else f"{end:+0{width}d}" for end, width in zip(ends, (10, 9, 10, 9))]
        lines.append(template[:5] + b"%10d" % number + template[15:190] + "".join(texts).encode() + b"\n")
    (copy_county(folder, code=code) / f"TGR{code}.RT1").write_bytes(b"".join(lines))
    return folder


def town_boxes(town: Service) -> Iterator[Box]:
    """Yields boxes of all sizes at points of lines, next to them, and between millionths of a degree."""
    lines = lines_of(ask(town, f"{TOWN_ITEMS}?limit=10000").document)
    corners = [point for line in lines.values() for point in line.coords]
    randoms = random.Random(SEED)
    for size in (0, 1, 5, 10, 30, 1000, 20_000, 300_000, 1_000_000) * 30:
        x, y = (int(number) + randoms.choice((0, randoms.randint(-20, 20))) for number in randoms.choice(corners))
        west, south = x - randoms.randint(0, size), y - randoms.randint(0, size)
        yield west, south, x + randoms.randint(0, size), y + randoms.randint(0, size)


class TestBoxes:
    """A box selects the segments whose geometry meets it, edges included."""

    @pytest.fixture
    def scattered(self, make: Make, extractd: str, tmp_path: Path) -> Service:  # noqa: F811
        """A county on both sides of the 180th meridian, around 0, and in Alabama, without some of its coordinates."""
        randoms = random.Random(SEED)
        segments: list[Ends] = []
        for _ in range(400):
            x, y = randoms.choice((-179_999_000, 179_999_000, 0, -86_700_000)), randoms.choice((0, 32_400_000))
            steps = [randoms.randint(-3, 3) * step for step in (1, 1, 500, 500)]
            ends = [place + step for place, step in zip((x, y, x, y), steps)]
            west, south, east, north = (end if randoms.random() < 0.95 else None for end in ends)
            segments.append((west, south, east, north))
        return make(write_ends(tmp_path, segments))

    def test_town(self, make: Make, extractd: str) -> None:  # noqa: F811
        town = make(EXAMPLES / "town", TOWN)
        assert len(compare(town, TOWN_ITEMS, town_boxes(town))) > 30

    def test_scattered(self, scattered: Service) -> None:
        randoms = random.Random(SEED)
        boxes = []
        for _ in range(60):
            west, east = (self.near(randoms, (-180, 180, 0, -86.7)) for _ in range(2))
            south, north = sorted(self.near(randoms, (0, 32.4)) for _ in range(2))
            boxes.append((west, south, east, north))
        assert len(compare(scattered, ITEMS, boxes)) > 15

    @staticmethod
    def near(randoms: random.Random, degrees: tuple[float, ...]) -> int:
        """Returns a number at, next to, or close to ends of segments, also between two millionths of a degree."""
        largest, step = randoms.choice(((4000, 10), (3, 10), (35, 1)))
        return round(randoms.choice(degrees) * UNIT) + randoms.randint(-largest, largest) * step

    def test_without_coordinates(self, scattered: Service) -> None:
        everything = ask(scattered, ITEMS).document["features"]
        without = {feature["id"] for feature in everything if feature["geometry"] is None}
        with_geometry = [feature["id"] for feature in everything if feature["geometry"] is not None]
        assert without and ids(ask(scattered, query(bbox="-180,-90,180,90")).document) == with_geometry

    def test_corner_of_a_line(self, make: Make, extractd: str, tmp_path: Path) -> None:  # noqa: F811
        """The line ascends by 1 in 3, so that it touches the last corner between millionths of a degree."""
        served = make(write_ends(tmp_path, [(0, 0, 3, 1)]))
        for box, count in (
            ("0.0000015,0.0000001,0.0000018,0.0000005", 1),
            ("0.0000015,0.0000001,0.0000018,0.00000049999999999", 0),
            ("0.0000009,0.00000029999999999,0.0000009,0.00000030000000001", 1),
            ("0.0000009,0.00000030000000001,0.0000009,0.00000030000000002", 0),
            ("0.000003,0.000001,1,1", 1),
            ("0.00000300000000001,0.000001,1,1", 0),
        ):
            assert ask(served, query(bbox=box)).document["numberMatched"] == count, box

    def test_pages_of_a_box(self, scattered: Service) -> None:
        """Following the links yields each segment of the box once, and its ids are those without a box."""
        box = "179,-1,-86,33"
        found = ask(scattered, query(bbox=box)).document
        assert 100 < found["numberMatched"] < 400
        target, pages = query(bbox=box, limit=7), []
        while target:
            pages.append(ask(scattered, target).document)
            target = next((link["href"] for link in pages[-1]["links"] if link["rel"] == "next"), "")
        assert [number for page in pages for number in ids(page)] == ids(found)
        assert {page["numberMatched"] for page in pages} == {found["numberMatched"]}

    @pytest.mark.parametrize(
        ("box", "same"),
        [
            ("-86.700000000000003,32.399999999999999,-86.599999999999994,32.5", "-86.7,32.4,-86.6,32.5"),
            ("-86.7,32.4,-100,-86.6,32.5,1e3", "-86.7,32.4,-86.6,32.5"),
            (" -86.7, 32.4, -86.6, 32.5", "-86.7,32.4,-86.6,32.5"),
            ("-867e-1,+32.4,-86.6,.325e2", "-86.7,32.4,-86.6,32.5"),
            ("-1e300,-1e300,1e300,1e300", "-180,-90,180,90"),
            ("-86.69999999999999999999,32.4,-86.6,32.5", "-86.7,32.4,-86.6,32.5"),
        ],
    )
    def test_forms(self, service: Service, box: str, same: str) -> None:  # noqa: F811
        assert tlids(ask(service, query(bbox=box)).document) == tlids(ask(service, query(bbox=same)).document)


class TestExtent:
    """The extent is the smallest box around all lines, which may cross the 180th meridian."""

    @pytest.mark.parametrize(
        ("segments", "extent"),
        [
            ([(179.1, 179.8), (-179.3, -178.9), (173.2, 173.3)], (173.2, -178.9)),
            ([(179.9, 180), (-180, -179.9)], (179.9, -179.9)),
            ([(179.9, 179.95), (179.95, -179.95)], (179.9, -179.95)),
            ([(-0.5, 0.25)], (-0.5, 0.25)),
            ([(-0.5, -0.25), (0.5, 1)], (-0.5, 1)),
            ([(-100, -90), (80, 90)], (-100, 90)),
            ([(-100, -90), (90, 91)], (90, -90)),
            ([(170, 180)], (170, 180)),
            ([(-180, -170)], (-180, -170)),
            ([(-86.5, None), (-86.4, -86.3)], (-86.4, -86.3)),
            ([(None, -86.3)], None),
            ([], None),
        ],
    )
    def test_longitudes(
        self,
        make: Make,  # noqa: F811
        extractd: str,
        tmp_path: Path,
        segments: list[tuple[float | None, float | None]],
        extent: tuple[float, float] | None,
    ) -> None:
        """Each segment is given by the longitudes of its ends."""
        ends = [[None if x is None else round(x * 1e6) for x in longitudes] for longitudes in segments]
        served = make(write_ends(tmp_path, [(start, 51_000_000, end, 52_000_000) for start, end in ends]))
        document = ask(served, f"/collections/{CODE}").document
        found = document["extent"]["spatial"]["bbox"][0] if "extent" in document else None
        assert found == (None if extent is None else [extent[0], 51, extent[1], 52])
        if found is not None:
            box = ",".join(map(repr, found))
            lines = lines_of(ask(served, ITEMS).document)
            assert ids(ask(served, query(bbox=box)).document) == [*lines]

    def test_shapes(self, make: Make, extractd: str) -> None:  # noqa: F811
        """Points between the ends count: the town's lines bend beyond them."""
        town = make(EXAMPLES / "town", TOWN)
        lines = geometry.MultiLineString([*lines_of(ask(town, f"{TOWN_ITEMS}?limit=10000").document).values()])
        extent = ask(town, f"/collections/{TOWN}").document["extent"]["spatial"]["bbox"]
        assert extent == [[number / UNIT for number in lines.bounds]]
