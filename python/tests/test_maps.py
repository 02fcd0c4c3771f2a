"""Tests of tigerline.maps. Expected positions and counts are calculated by hand or by counting in the test."""

import json
import os
import re
import shutil
import subprocess
import sys
import time
import warnings
from collections.abc import Iterator
from math import cos, radians, sin
from pathlib import Path
from typing import Any, TypedDict
from xml.etree import ElementTree

import pytest
from browsers import ActionChains, Chrome, browser
from tigerline.interrupts import Interrupts
from tigerline.maps.content import MapContent, map_segments
from tigerline.maps.drawing import Drawing
from tigerline.maps.layers import by_class, by_score
from tigerline.maps.rows import table_of
from tigerline.maps.view import MapSegment, view_of
from tigerline.program import find_program

pytest.importorskip("matplotlib", reason="no matplotlib")
SVG = "{http://www.w3.org/2000/svg}"
TOWN = Path(__file__).parents[2] / "examples" / "town"
PACKAGES = Path(__file__).parents[1]
MARGIN = 9  # from the edge of a picture to its map


def line(cfcc: str, *points: tuple[float, float], name: str = "", score: int = 0) -> MapSegment:
    return MapSegment(cfcc, name, score, points)


STREET = line("A41", (-87.1, 32.95), (-87.09, 32.96), name="N Oak Ave", score=101)
RIVER = line("H11", (-87.1, 32.96), (-87.095, 32.955), (-87.09, 32.95), name="Mill Riv")
RAILROAD = line("B11", (-87.1, 32.955), (-87.09, 32.955), name="Central Valley Rlwy")
INTERSTATE = line("A11", (-87.095, 32.95), (-87.095, 32.96), name="I-65")
SOME = [STREET, RIVER, STREET, INTERSTATE, RAILROAD]
DOT = line("A41", (-87.1, 32.9), (-87.1, 32.9))


def drawn(
    segments: list[MapSegment], caption: str = "", background: list[MapSegment] = [], score: str | None = None
) -> Drawing:
    groups = by_class(segments) if score is None else by_score(segments)
    return Drawing(view_of(segments), groups, by_class(background), caption, f"{len(segments):,} segments", score)


def svg(
    segments: list[MapSegment], caption: str = "", background: list[MapSegment] = [], score: str | None = None
) -> str:
    return drawn(segments, caption, background, score).file(".svg").decode()


def tree_of(text: str) -> ElementTree.Element:
    return ElementTree.fromstring(text)


def texts_of(text: str) -> list[str]:
    return [found.text or "" for found in tree_of(text).iter(SVG + "text")]


def names_of(text: str) -> list[str]:
    """Returns the names of streets on a map."""
    groups = (group for group in tree_of(text).iter(SVG + "g") if group.get("id", "").startswith("name"))
    return [group[0].text or "" for group in groups]


def legend_of(text: str) -> dict[str, str]:
    """Returns the rows of the legend: each label with its count."""
    rows = (re.fullmatch(r"(.+) \(([0-9,]+)\)", row) for row in texts_of(text))
    return {found[1]: found[2] for found in rows if found}


def lines_of(text: str) -> Iterator[tuple[str, list[list[tuple[float, float]]]]]:
    """Yields the color and the lines of each path that is clipped by the frame, in points."""
    for path in tree_of(text).iter(SVG + "path"):
        color = re.search("stroke: (#[0-9a-f]{6})", path.get("style", ""))
        if color and path.get("clip-path"):
            parts = re.findall("M[^M]*", path.get("d", ""))
            yield color[1], [
                [(float(x), float(y)) for x, y in re.findall("([0-9.-]+) ([0-9.-]+)", one)] for one in parts
            ]


def test_picture_has_caption_and_source() -> None:
    root = tree_of(svg(SOME, "CFCC LIKE 'A%' AND $x$"))
    assert root.tag == SVG + "svg" and "width" not in root.attrib  # so it fills the screen
    assert root.findtext(SVG + "title") == "CFCC LIKE 'A%' AND $x$"
    texts = texts_of(svg(SOME, "CFCC LIKE 'A%' AND $x$"))
    assert {"CFCC LIKE 'A%' AND $x$", "U.S. Census Bureau, TIGER/Line 2006, NAD83"} <= {*texts}


def test_legend_counts_segments_by_class() -> None:
    picture = svg(SOME, background=[RAILROAD] * 1234)
    expected = {"Interstate": "1", "Local road": "2", "Railroad": "1", "Water": "1", "Not selected": "1,234"}
    assert legend_of(picture) == expected
    assert list(legend_of(picture)) == list(expected)


@pytest.mark.parametrize(
    ("cfcc", "label"),
    [
        ("A15", "Interstate"),
        ("A21", "US highway"),
        ("A31", "State or county road"),
        ("A41", "Local road"),
        ("A51", "Trail or alley"),
        ("A61", "Local road"),
        ("A63", "Ramp"),
        ("A73", "Trail or alley"),
        ("A", "Local road"),
        ("B11", "Railroad"),
        ("C20", "Other feature"),
        ("D85", "Landmark"),
        ("E10", "Other feature"),
        ("F10", "Boundary"),
        ("H11", "Water"),
        ("H12", "Intermittent stream"),
        ("X00", "Other feature"),
        ("   ", "Other feature"),
        ("", "Other feature"),
    ],
)
def test_class_has_row(cfcc: str, label: str) -> None:
    assert [group.layer.label for group in by_class([line(cfcc, (1, 1), (2, 2))])] == [label]


def test_order_and_strength() -> None:
    """Water is below railroads below roads, a selection above and darker than what is around it, and all is clipped."""
    around = [line(segment.cfcc, (-88, 32.9), (-86, 33)) for segment in SOME]
    strokes = [color for color, _ in lines_of(svg(SOME, background=around))]
    water, railroad, street, interstate = "#3f86b5", "#fdfcf8", "#57524a", "#34528f"
    places = [strokes.index(color) for color in (water, railroad, street, interstate)]
    assert places == sorted(places) and places[0] >= 4
    brightness = [sum(int(color[at : at + 2], 16) for at in (1, 3, 5)) for color in strokes]
    assert min(brightness[:4]) > max(brightness[place] for place in (places[0], *places[2:]))


def test_north_is_up_and_west_is_left() -> None:
    ((_, ((start, end),)),) = lines_of(svg([STREET]))
    assert start[0] < end[0] and start[1] > end[1]


def test_aspect_is_that_of_the_latitude() -> None:
    square = [(10.0, 59.9), (10.2, 59.9), (10.2, 60.1), (10.0, 60.1), (10.0, 59.9)]
    ((_, (points,)),) = lines_of(svg([line("F10", *square)]))
    width = max(x for x, _ in points) - min(x for x, _ in points)
    height = max(y for _, y in points) - min(y for _, y in points)
    assert width / height == pytest.approx(0.5, rel=0.001)  # the cosine of 60 degrees


def test_map_across_the_180th_meridian() -> None:
    """The Aleutians are drawn as the same islands elsewhere are."""
    points = [(172.5, 52.0), (179.9, 51.5), (-179.8, 51.4), (-176.6, 51.9)]
    crossing, elsewhere = ([line("A41", *((x if x > 0 else x + shift, y) for x, y in points))] for shift in (0, 360))
    moved = [line("A41", *((x - 100, y) for x, y in elsewhere[0].points))]
    assert [*lines_of(svg(crossing))] == [*lines_of(svg(elsewhere))] == [*lines_of(svg(moved))]


def test_scale_bars_are_as_long_as_they_say() -> None:
    picture = svg([line("F10", (10.0, 50.0), (10.0, 50.5))])
    ((_, (points,)),) = lines_of(picture)
    per_kilometer = (points[0][1] - points[1][1]) / (0.5 * 40030.2 / 360)  # the Earth's circumference
    bars = re.findall(r'id="line2d_[12]">\s*<path d="M ([0-9.]+) [0-9.]+ \s*L ([0-9.]+) ', picture)
    labels = [found for found in texts_of(picture) if re.fullmatch("[0-9.,]+ (km|mi)", found)]
    for (start, end), text, unit in zip(bars, labels, (1, 1.609344), strict=True):
        width = float(end) - float(start)
        assert 20 < width <= 60
        assert width / per_kilometer == pytest.approx(float(text.split()[0]) * unit, rel=0.005)
    assert [text.split()[1] for text in labels] == ["km", "mi"]


@pytest.mark.parametrize(
    "segments",
    [
        [],
        [STREET],
        [line("A41", (-87.1, 32.9), (-87.1, 33.0))],
        [line("A41", (-87.1, 32.9), (-87.0, 32.9))],
        [DOT._replace(name="Dot")],
        [line("A41")],
        [line("A41", (-87.1, 32.9))],
        [line("A41", (179.9, -89.9), (179.9, 89.9))],
        [line("H31", (0, 0), (1, 1), (1, 0), (0, 0), name="A pond")],
    ],
    ids=["none", "one", "vertical", "horizontal", "dot", "no points", "one point", "pole to pole", "area"],
)
@pytest.mark.parametrize("score", [None, "FRADDL"])
def test_small_selections(segments: list[MapSegment], score: str | None) -> None:
    picture = svg(segments, "few", score=score)
    assert "few" in texts_of(picture)
    assert sum(map(int, legend_of(picture).values())) == len(segments)
    assert "nan" not in picture and "inf" not in picture
    places = [x for _, found in lines_of(picture) for points in found for x, _ in points]
    assert bool(places) == any(len(segment.points) > 1 for segment in segments)
    assert all(MARGIN <= x <= 400 + MARGIN for x in places)


@pytest.mark.parametrize("kind", [".svg", ".png", ".pdf", ".html"])
def test_texts_are_escaped(kind: str) -> None:
    evil = "</title></svg><script>alert(1)</script><img onerror=alert(2)>&\"'$\x00\x1b\ud800"
    wide = [STREET._replace(name=evil, cfcc="<&>"), INTERSTATE._replace(points=((-87.1, 32.9), (-86, 32.9)), name=evil)]
    file = drawn(wide, evil).file(kind)
    if kind == ".svg":
        shown = "</title></svg><script>alert(1)</script><img onerror=alert(2)>&\"'$\ufffd\ufffd\ufffd"
        assert tree_of(file.decode()).findtext(SVG + "title") == shown
    if kind in (".svg", ".html"):
        assert b"<script>alert" not in file and b"onerror=alert(2)>" not in file and b"\x1b" not in file


@pytest.mark.parametrize(
    "caption", ["word " * 5000, "x" * 1_000_000, "word\n\t" * 20], ids=["words", "letters", "lines"]
)
def test_long_caption_is_wrapped_and_cut(caption: str) -> None:
    texts = texts_of(svg([], caption))
    lines = texts[: texts.index("U.S. Census Bureau, TIGER/Line 2006, NAD83")]
    assert all(0 < len(line) < 80 for line in lines)
    shown = "".join(lines).replace(" ", "")
    assert shown == re.sub("\\s", "", caption) or shown.endswith("\N{HORIZONTAL ELLIPSIS}") and len(lines) == 6


def test_lines_in_any_order_take_little_time() -> None:
    """Many lines at one point, and a long line drawn from its end to its start."""
    star = [line("H31", (0, 0), (1 + number / 1000, 1), name="Star") for number in range(20_000)]
    steps = [(number / 100_000, 0) for number in range(20_001)]
    river = [line("H11", b, a, name="River") for a, b in zip(steps[::-1], steps[-2::-1])]
    start = time.process_time()
    svg(star + river)
    assert time.process_time() - start < 6


def test_few_scores_are_a_class_each() -> None:
    segments = [STREET._replace(score=score) for score in (7, 7, 9, 1000, 2**64 - 1)]
    assert legend_of(svg(segments, score="FRADDL")) == {
        "18,446,744,073,709,551,615": "1",
        "1,000": "1",
        "9": "1",
        "7": "2",
    }


def test_many_scores_are_five_classes() -> None:
    segments = [STREET._replace(score=score) for score in range(100)]
    assert legend_of(svg(segments, score="FRADDL")) == {
        "80 to 99": "20",
        "60 to 79": "20",
        "40 to 59": "20",
        "20 to 39": "20",
        "0 to 19": "20",
    }


def test_most_common_score_is_one_class() -> None:
    segments = [STREET._replace(score=score) for score in [0] * 90 + list(range(-5, 0)) + list(range(1, 6))]
    legend = legend_of(svg(segments, score="FRADDL"))
    assert sum(map(int, legend.values())) == 100 and len(legend) == 2


def filled_area(text: str, color: str) -> float:
    """Returns the area that is filled with a color in square points, by the shoelace formula."""
    area = 0.0
    for path in tree_of(text).iter(SVG + "path"):
        if f"fill: {color}" in path.get("style", ""):
            for part in re.findall("M[^M]*", path.get("d", "")):
                ring = [(float(x), float(y)) for x, y in re.findall("([0-9.-]+) ([0-9.-]+)", part)]
                area += sum(a[0] * b[1] - b[0] * a[1] for a, b in zip(ring, [*ring[1:], ring[0]])) / 2
    return abs(area)


def test_closed_outlines_of_lakes_are_filled() -> None:
    """A lake of three lines, and an island in it. Open outlines and circles of roads aren't filled."""
    water = "#b5d9ec"
    shore = [line("H31", (0, 0), (1, 0), name="Lake"), line("H31", (0, 1), (0, 0)), line("H31", (0, 1), (1, 0))]
    island = line("H31", (0.2, 0.2), (0.4, 0.2), (0.2, 0.4), (0.2, 0.2))
    lake, whole = filled_area(svg([*shore, island]), water), filled_area(svg(shore), water)
    assert whole > 1000 and lake == pytest.approx(whole * (0.5 - 0.02) / 0.5, rel=0.01)
    assert filled_area(svg(shore[:2]), water) == 0 == filled_area(svg([island._replace(cfcc="A41")]), water)


def test_map_shows_the_selection_and_what_is_around() -> None:
    """Of the segments of a county, those far from the selection aren't drawn."""
    header, rows = (
        "score,TLID,FEDIRP,FENAME,FETYPE,FEDIRS,CFCC,WKT\n",
        '{0},{0},,Oak,St,,A41,"LINESTRING ({1} 33,{2} 33.01)"\n',
    )
    near, beside, far = (rows.format(*row) for row in ((1, -87, -86.99), (2, -86.99, -86.9), (3, -80, -79)))
    content = MapContent()
    content.add_county((header + near).encode(), (header + near + beside + far).encode())
    with Interrupts() as interrupts:
        drawing = content.drawing("", None, interrupts)
        nothing = MapContent()
        nothing.add_county(header.encode(), (header + far).encode())
        assert nothing.drawing("", None, interrupts).rest == 1
    assert (drawing.rest, drawing.title) == (1, "1 segment by class")
    assert [segment.points[0] for segment in drawing.background[0].segments] == [(-86.99, 33)]


@pytest.mark.parametrize(("most", "rest"), [(6, 6), (5, 0)])
def test_most_segments_around(monkeypatch: pytest.MonkeyPatch, most: int, rest: int) -> None:
    """Up to the limit the other segments of all counties are drawn, and above it none, with a warning."""
    monkeypatch.setattr("tigerline.maps.content.MOST_SEGMENTS", most)
    header = "score,TLID,FEDIRP,FENAME,FETYPE,FEDIRS,CFCC,WKT\n"
    content = MapContent()
    for county in range(3):
        own, *others = (f'0,{county}{place},,Oak,St,,A41,"LINESTRING (-87 33,-86 34)"\n' for place in range(3))
        content.add_county((header + own).encode(), (header + own + "".join(others)).encode())
    with Interrupts() as interrupts, warnings.catch_warnings(record=True) as said:
        assert content.drawing("", None, interrupts).rest == rest
    warning = "the map shows the selection alone: its counties have more than 5 other segments"
    assert [str(one.message) for one in said] == ([] if rest else [warning])


def town(extent: float) -> list[MapSegment]:
    """Returns the streets of a grid that lie within an extent from its middle."""
    places = (at / 1000 for at in range(-60, 61) if abs(at) <= 1000 * extent)
    streets = [line("A41", (-extent, at), (extent, at), name=f"{at * 1000:.0f} Street") for at in places]
    return streets + [
        segment._replace(name=f"{segment.name.split()[0]} Avenue", points=tuple((y, x) for x, y in segment.points))
        for segment in streets
    ]


def test_more_names_with_zoom() -> None:
    """Local roads have names if there is room: most of them in a small extent, and some in a large one."""
    few, most = svg(town(0.06)), svg(town(0.004))
    assert len({*names_of(most)}) == len(names_of(most)) > 15 and len(town(0.004)) == 18
    assert 20 < len(names_of(few)) < len(town(0.06)) / 2 and len({*names_of(few)}) == len(names_of(few))
    assert names_of(svg(SOME)).count("I-65") == 1 and "N Oak Ave" in names_of(svg(SOME))


def placed_names(text: str) -> Iterator[tuple[str, Any]]:
    """Yields the names on a map with the lines that they are surely on: letters are at least 0.4 as wide as high."""
    # Shapely has no types.
    line_string: Any = pytest.importorskip("shapely.geometry", reason="no shapely").LineString
    for group in tree_of(text).iter(SVG + "g"):
        if group.get("id", "").startswith("name"):
            found = group[0]
            place = re.search(r"rotate\(([^ ]+) ([^ ]+) ([^ ]+)\)", found.get("transform", ""))
            assert place and found.text is not None
            angle, x, y = map(float, place.groups())
            half = len(found.text) * 6 * 0.4 / 2
            along = half * cos(radians(angle)), half * sin(radians(angle))
            yield found.text, line_string([(x - along[0], y - along[1]), (x + along[0], y + along[1])])


@pytest.mark.parametrize("extent", [0.004, 0.01, 0.02])
def test_names_do_not_overlap(extent: float) -> None:
    placed = [*placed_names(svg(town(extent), background=town(0.02)))]
    assert len(placed) > 10
    for at, (_, one) in enumerate(placed):
        assert all(one.distance(other) > 3 for _, other in placed[at + 1 :])


def test_names_are_along_their_lines() -> None:
    streets = {"North": (-87, 33.01), "East": (-86.99, 33), "Between": (-86.995, 33.005)}
    picture = svg([line("A41", (-87, 33), end, name=name) for name, end in streets.items()])
    angles = dict(re.findall(r'rotate\((-?[0-9.]+) [^"]*">(North|East|Between)<', picture))
    assert {name: round(float(angle)) for angle, name in angles.items()} == {"North": -90, "East": 0, "Between": -50}


def test_hundred_thousand_segments_take_little_time() -> None:
    segments = []
    for number in range(100_000):
        x, y = -87 + number % 400 / 1000, 32 + number // 400 / 1000
        segments.append(line(("A41", "A31", "H11", "B11")[number % 4], (x, y), (x + 0.001, y), name=f"{number} St"))
    start = time.process_time()
    picture = svg(segments, "many")
    assert time.process_time() - start < 6
    assert len(picture) < 6_000_000


def select_by_hand() -> bytes:
    """Returns the rows of the roads with the ZIP Code 35042, by slices of the town's file."""
    rows = []
    for record in (TOWN / "TGR01007.RT1").read_bytes().split(b"\r\n"):
        if record[55:56] == b"A" and b"35042" in (record[106:111], record[111:116]):
            rows.append(b"0\t" + record + b"\n")
    return b"".join(rows)


def drawn_by_command(*arguments: str) -> str:
    command = [sys.executable, "-m", "tigerline", "map", "-", *arguments]
    environment = {**os.environ, "PYTHONPATH": str(PACKAGES)}
    return subprocess.run(
        command, input=select_by_hand(), env=environment, stdout=subprocess.PIPE, check=True
    ).stdout.decode()


def test_command_draws_rows_over_their_county() -> None:
    picture = drawn_by_command("--county", str(TOWN / "TGR01007.RT1"), "--caption", "North")
    legend = legend_of(picture)
    selected = select_by_hand().count(b"\n")
    others = (TOWN / "TGR01007.RT1").read_bytes().count(b"\n") - selected
    assert others > int(legend.pop("Not selected")) > others / 2
    assert sum(map(int, legend.values())) == selected > 300
    shapes = (TOWN / "TGR01007.RT2").read_bytes().count(b"\n")
    assert sum(len(points) for _, found in lines_of(picture) for points in found) > 2 * selected + shapes


def test_picture_of_the_readme_is_what_the_command_draws(tmp_path: Path) -> None:
    where = "CFCC LIKE 'A%' AND (ZIPL = 35042 OR ZIPR = 35042)"
    words = ["select", str(TOWN), str(tmp_path / "a.csv"), "--where", where, "--map", str(tmp_path / "a.svg")]
    command, environment = [sys.executable, "-m", "tigerline", *words], {**os.environ, "PYTHONPATH": str(PACKAGES)}
    subprocess.run(command, env=environment, check=True, timeout=300)
    picture = (tmp_path / "a.svg").read_text()
    assert picture == (TOWN.parents[1] / "docs" / "images" / "town.svg").read_text()
    assert picture == drawn_by_command("--county", str(TOWN / "TGR01007.RT1"), "--caption", where)
    assert len(picture) < 300_000


@pytest.mark.parametrize(
    ("rows", "county", "status", "text"),
    [
        (None, None, 3, "nowhere: No such file or directory: check the path"),
        (b"no row\n", None, 3, "rows: this isn't a row that extractd wrote: b'no row\\n'"),
        (b"", "nowhere", 3, "nowhere: No such file or directory: check the path"),
        (b"", b"1" * 228 + b"\n" + b"2" * 228 + b"\n", 3, "county: refused 2 rt1 line 2 WrongType"),
    ],
)
def test_bad_input(tmp_path: Path, rows: bytes | None, county: bytes | str | None, status: int, text: str) -> None:
    command = [sys.executable, "-m", "tigerline", "map", "nowhere" if rows is None else "rows"]
    if rows is not None:
        (tmp_path / "rows").write_bytes(rows)
    if isinstance(county, bytes):
        (tmp_path / "county").write_bytes(county)
    if county is not None:
        command += ["--county", "county" if isinstance(county, bytes) else county]
    environment = {**os.environ, "PYTHONPATH": str(PACKAGES)}
    done = subprocess.run(command, cwd=tmp_path, env=environment, capture_output=True, text=True)
    assert (done.returncode, done.stdout, done.stderr) == (status, "", f"error: {text}\n")


def test_closed_pipe() -> None:
    command = f'"{sys.executable}" -m tigerline map /dev/null --caption "$(yes | head -n 60000)"; echo $? >&2'
    environment = {**os.environ, "PYTHONPATH": str(PACKAGES)}
    done = subprocess.run(["sh", "-c", f"{{ {command}; }} | true"], env=environment, stderr=subprocess.PIPE, text=True)
    assert done.stderr == "error: the output can't be written: Broken pipe\n3\n"


def test_command_needs_only_rows() -> None:
    assert sum(map(int, legend_of(drawn_by_command("--by", "score")).values())) == select_by_hand().count(b"\n")


# GDAL reads the same points


def needed(program: str) -> str:
    """Finds a program, or skips the test without it."""
    found = shutil.which(program)
    if found is None:
        pytest.skip(f"no {program}")
    return found


def assert_gdal_reads(folder: Path) -> None:
    """Checks that GDAL's TIGER driver finds the same segments with the same points in a folder."""
    precision = ["-lco", "COORDINATE_PRECISION=6"]
    command = [needed("ogr2ogr"), "-f", "GeoJSONSeq", "/vsistdout/", str(folder), "CompleteChain", *precision]
    features = subprocess.run(command, stdout=subprocess.PIPE, check=True).stdout.decode().splitlines()
    county = folder / "TGR01007.RT1"
    with Interrupts() as interrupts:
        table = table_of(find_program(None, interrupts), county, county, interrupts)
    segments = [(segment.cfcc, segment.points) for segment in map_segments(table)]
    assert len(features) == len(segments) > 300
    assert sum(len(line) for _, line in segments) > 2.5 * len(segments)
    for feature, (cfcc, line) in zip(map(json.loads, features), segments):
        assert [tuple(point) for point in feature["geometry"]["coordinates"]] == list(line)
        assert feature["properties"]["CFCC"] == cfcc


def test_gdal_finds_the_same_points_in_the_town() -> None:
    assert_gdal_reads(TOWN)


def test_gdal_finds_the_same_points_in_a_selection(tmp_path: Path) -> None:
    records = [row[-228:] for row in select_by_hand().splitlines()]
    (tmp_path / "TGR01007.RT1").write_bytes(b"".join(record + b"\n" for record in records))
    selected = {record[5:15] for record in records}
    shapes = (TOWN / "TGR01007.RT2").read_bytes().replace(b"\r", b"").splitlines(keepends=True)
    (tmp_path / "TGR01007.RT2").write_bytes(b"".join(shape for shape in shapes if shape[5:15] in selected))
    assert_gdal_reads(tmp_path)


# Pages


class PageData(TypedDict):
    """The rows of segments in a page: the row of the legend, the class, the name, the score and the points of each."""

    selected: list[list[object]]
    around: list[list[object]]


def page_data(page: bytes) -> PageData:
    (text,) = re.findall('<script type="application/json" id="data">(.*?)</script>', page.decode(), re.DOTALL)
    data: PageData = json.loads(text)
    return data


def shown_by(chromium: Chrome, selector: str) -> list[str]:
    """Returns the texts of elements."""
    return [found.text for found in chromium.find_elements("css selector", selector)]


def point_at(chromium: Chrome, across: int, down: int) -> Any:
    """Moves the pointer to a place, counted from the middle of the map."""
    # Selenium has no types of this class.
    actions: Any = ActionChains
    chains = actions(chromium).move_to_element_with_offset(chromium.find_element("id", "map"), across, down)
    chains.perform()
    return chains


def open_page(chromium: Chrome, page: bytes, folder: Path) -> None:
    (folder / "page.html").write_bytes(page)
    chromium.get((folder / "page.html").as_uri())


def test_page_has_all_segments_and_no_address() -> None:
    page = drawn(SOME, "roads", [RAILROAD._replace(name="Spur")]).file(".html")
    data = page_data(page)
    assert [row[1:4] for row in data["around"]] == [["B11", "Spur", None]]
    expected = [[segment.cfcc, segment.name, str(segment.score) if segment.score else None] for segment in SOME]
    assert sorted(map(repr, (row[1:4] for row in data["selected"]))) == sorted(map(repr, expected))
    elements = re.sub(rb"(<(script|style)[^>]*>).*?(</\2>)", rb"\1\3", page, flags=re.DOTALL)
    assert not re.search(rb"<(link|img|iframe|object|embed)|src=|https?:|unsafe-", elements)


def test_page_and_picture_have_the_same_legend(tmp_path: Path) -> None:
    drawing = drawn(SOME, "roads", [RIVER])
    with browser(tmp_path) as chromium:
        open_page(chromium, drawing.file(".html"), tmp_path)
        title, *rows = shown_by(chromium, "#legend li")
        assert (title, chromium.title) == ("5 segments", "roads")
        assert dict(row.rsplit("\n", 1) for row in rows) == legend_of(drawing.file(".svg").decode())


def test_page_shows_the_segment_at_the_pointer(tmp_path: Path) -> None:
    """A name isn't markup, the largest score isn't rounded, and a click keeps what is shown."""
    evil = "</script><b>&amp;<img src=x onerror=alert(1)>"
    street = STREET._replace(name=evil, score=2**64 - 1)
    with browser(tmp_path) as chromium:
        for score, last in (("FRADDL", "FRADDL\n18,446,744,073,709,551,615"), (None, "Class\nA41, local road")):
            segment = street if score else street._replace(score=0)
            open_page(chromium, drawn([segment], evil, score=score).file(".html"), tmp_path)
            assert shown_by(chromium, "h1") == [evil]
            point_at(chromium, 3, 0)
            (tip,) = shown_by(chromium, ".leaflet-tooltip")
            assert tip.startswith(evil) and tip.endswith(last)
            point_at(chromium, -300, 200)
            assert shown_by(chromium, ".leaflet-tooltip") == []
            point_at(chromium, 3, 0).click().perform()
            point_at(chromium, -300, 200)
            (kept,) = shown_by(chromium, ".leaflet-popup-content")
            assert kept == tip


def test_page_runs_no_other_script(tmp_path: Path) -> None:
    """A script that gets into the page runs only if the page has no policy."""
    page = drawn(SOME, "roads").file(".html")
    script = b"<script>document.title = 'evil'</script><p onclick='document.title = 2'>here</p></body>"
    with browser(tmp_path) as chromium:
        for policy, title in ((True, "roads"), (False, "evil")):
            shown = page if policy else re.sub(rb'<meta http-equiv="Content-Security-Policy".*', b"", page)
            open_page(chromium, shown.replace(b"</body>", script), tmp_path)
            assert chromium.title == title and len(shown_by(chromium, "#legend li")) == 5
            said = " ".join(entry["message"] for entry in chromium.get_log("browser"))
            assert ("Content Security Policy" in said) == policy


@pytest.mark.parametrize("segments", [[], [STREET._replace(points=((-87, 33), (-86.9999, 33.0001)))]])
def test_page_of_few_meters_or_nothing(tmp_path: Path, segments: list[MapSegment]) -> None:
    """A selection of a few meters, surrounded by lines of hundreds of kilometers."""
    around = [line("A11", (-90 + number / 1000, 30), (-84 + number / 1000, 36)) for number in range(100)]
    with browser(tmp_path, width=360, height=640) as chromium:
        started = time.monotonic()
        open_page(chromium, drawn(segments, background=around if segments else []).file(".html"), tmp_path)
        assert shown_by(chromium, "#legend li")[0] == f"{len(segments)} segments"
        assert chromium.execute_script("return document.documentElement.scrollWidth <= innerWidth")
        assert time.monotonic() - started < 20
