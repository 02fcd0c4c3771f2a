"""`tigerline reverse` and the function: the nearest street, its side and the house number there."""

import csv
import io
import math
from collections import defaultdict
from collections.abc import Iterator, Sequence
from itertools import pairwise
from pathlib import Path
from random import Random
from typing import NamedTuple

import pytest
import tigerline
from counties import CODE, EXAMPLES, copy_county, zip_folder
from test_main import layer, run_command as run
from towns import write_cities

pytest.importorskip("shapely", reason="no shapely")
pytestmark = pytest.mark.usefixtures("extractd", "scratch")

# A degree of latitude has about 111,000 m, so 0.0001 degrees are 11 m; of longitude it has about 93,600 m here.
# Each segment: TLID, CFCC, name, type, the ends, left numbers, right numbers, ZIP Codes, and the points between the ends.
# Longitudes and latitudes are in millionths of a degree east of -87 and north of 33. Main goes to the east and Oak to the
# north; they meet at 0 0, and there the point lies beside the one that it is further from if both went on. Bend goes to the
# east and turns back on itself. Polar is at 60 degrees north, where a degree of longitude has 55,800 m.
SEGMENTS = """
1 | A41 | Main  | St  | -2000 0 0 0     | 101 199 | 100 198 | 35001 35002 |
2 | A41 | Oak   | Ave | 0 0 0 2000      | 250 200 | 251 201 | 35001 35001 |
3 | A41 | Bend  | Rd  | 6000 0 6000 200 | 1 99    | -       | 35003 35003 | 8000 100
4 | B11 | Rails | -   | 0 -100 900 -100 | -       | -       | -           |
5 | A41 | -     | -   | 0 -200 900 -200 | 1 99    | 2 98    | 35001 35001 |
6 | A31 | Both  | Rd  | 9000 0 9000 999 | 10 20   | 1 8     | 35004 35004 |
7 | A41 | Queen | St  | 9999 0 9999 999 | 1-1 1-9 | 2 2     | 35005 35005 |
8 | A41 | Far   | Rd  | 20000 0 20000 999 | 1 9   | 2 8     | 35006 35006 |
9 | A41 | Near  | Rd  | 20220 0 20220 999 | 11 19 | 12 18   | 35006 35006 |
10 | A41 | Polar | Rd | 30000 27000000 30000 27000999 | 1 9 | 2 8 | 35007 35007 |
""".strip().splitlines()
# The ranges of record type 6: the TLID, left numbers, right numbers, and ZIP Codes.
FURTHER = """
3 | -     | 40 20 | - 35009
1 | 1 9   | -     | 35009 -
""".strip().splitlines()

# A point, and the street, the house number, the ZIP Code and the side, or nothing. A point on a street counts as on its
# left. Near Rd is 37 cm nearer than Far Rd, and the points of the last rows are up to 100 m outside of the county's box.
POINTS = """
-990 100    | Main St 151  35001 L
-990 0      | Main St 151  35001 L
-990 -100   | Main St 150  35002 R
-2000 100   | Main St 101  35001 L
-2500 -50   | Main St 100  35002 R
-490 100    | Main St 175  35001 L
-20 990     | Oak Ave 226  35001 L
20 990      | Oak Ave 227  35001 R
-100 50     | Main St 195  35001 L
-50 190     | Oak Ave 246  35001 L
300 -10     | Oak Ave 251  35001 R
10 -300     | Main St 198  35002 R
7000 130    | Bend Rd 75   35003 L
6900 30     | Bend Rd 36   35009 R
8020 100    | Bend Rd 30   35009 R
500 -100    | Oak Ave 251  35001 R
500 -1200   |
8990 500    | Both Rd 16   35004 L
9010 500    | Both Rd 5    35004 R
9990 500    | Queen St -   35005 L
10009 500   | Queen St 2   35005 R
20112 500   | Near Rd 15   35006 L
-500 -800   | Main St 174  35002 R
30010 27001799 | Polar Rd 8 35007 R
31401 27000500 | Polar Rd 6 35007 R
""".strip().splitlines()


def numbers(text: str) -> str:
    first, last = text.split() if text != "-" else ("", "")
    return f"{first:>11}{last:>11}"


def zips(text: str) -> str:
    return "".join(f"{'' if code == '-' else code:5}" for code in (text.split() * 2)[:2])


def place(words: Sequence[str]) -> str:
    return f"{-87_000_000 + int(words[0]):+010}{33_000_000 + int(words[1]):+09}"


def write_streets(folder: Path, code: str = CODE) -> Path:
    lines: dict[str, list[str]] = {record_type: [] for record_type in "12456"}
    for tlid, cfcc, name, kind, ends, left, right, codes, shape in (
        [*map(str.strip, row.split("|"))] for row in SEGMENTS
    ):
        street = f"  {name.strip('-'):30}{kind.strip('-'):4}  {cfcc}"
        addresses = f"{numbers(left)}{numbers(right)}0000{zips(codes)}"
        start, end = ends.split()[:2], ends.split()[2:]
        record = f"10006{tlid:>10}  {street}{addresses}".ljust(140) + "9000190002".ljust(20) + "1000110003".ljust(30)
        lines["1"].append(record + place(start) + place(end))
        if shape:
            lines["2"].append(f"20006{tlid:>10}  1{place(shape.split())}" + f"{0:+010}{0:+09}" * 9)
    for tlid, left, right, codes in ([*map(str.strip, row.split("|"))] for row in FURTHER):
        lines["6"].append(f"60006{tlid:>10}  1{numbers(left)}{numbers(right)}0000{zips(codes)}")
    folder.mkdir(exist_ok=True)
    for record_type, records in lines.items():
        (folder / f"TGR{code}.RT{record_type}").write_text("".join(line + "\n" for line in records))
    return folder


def degrees(text: str) -> tuple[float, float]:
    east, north = text.split()
    return -87 + int(east) / 1e6, 33 + int(north) / 1e6


def test_points(tmp_path: Path) -> None:
    """The nearest street with a name, its side and the number there."""
    write_streets(tmp_path)
    rows = [row.partition("|") for row in POINTS]
    found = tigerline.reverse([degrees(row[0]) for row in rows], tmp_path)
    texts = [
        f"{street.street} {'-' if street.number is None else street.number} {street.zip} {street.side}"
        if street
        else ""
        for street in found
    ]
    assert texts == [" ".join(row[2].split()) for row in rows]


# A file of points, options, and its answers: the id and the house number; or the status and the end of the message.
FILES = [
    ("id,longitude,latitude\na,-87.00099,33.0001\nb,-87,33.5\n", [], [("a", "151"), ("b", "")]),
    ("Lat;Lon\n33.0001;-87.00099\n", [], [("2", "151")]),
    ("-87.00099,33.0001\n\n-87.00099,32.9999\n", [], [("1", "151"), ("3", "150")]),
    ("a\t-87.00099\t33.0001\n", [], [("a", "151")]),
    ("Nr,Ost,Nord\na,-87.00099,33.0001\n", ["--columns", "id=Nr,longitude=Ost", "--columns", "latitude=Nord"],
     [("a", "151")]),
    ("-87.00099,33.0001\n", ["--distance", "5"], [("1", "")]),
    ("", [], []),
    ("id,x,y\na,-87,33\nb,,33\n", [], (3, "line 3: the longitude '' isn't a number of degrees")),
    ("id,x,y\na,-87,133\n", [], (3, "line 2: a latitude is between -90 and 90, and 133.0 isn't")),
    ("id,x,y\na,-87,nan\n", [], (3, "line 2: the latitude 'nan' isn't a number of degrees")),
    ("a,b\n-87,33\n", [], (3, "line 1 has no columns longitude and latitude, but a, b: name them, as in --columns "
     "longitude=X,latitude=Y")),
    ("a,b\n-87,33\n", ["--columns", "longitude=c"],
     (3, "line 1, the head line: no column has the name 'c'; the columns are a, b")),
    ("-87,33\n", ["--columns", "lon=a"],
     (2, "--columns has 'lon=a': write COLUMN=NAME, where COLUMN is one of id, longitude, latitude")),
    ("-87,33\n", ["--distance", "-1"], (2, "a distance is between 0 and 100,000 meters, and -1.0 isn't")),
]  # fmt: skip


@pytest.mark.parametrize(("text", "options", "expected"), FILES)
def test_files(
    tmp_path: Path, text: str, options: list[str], expected: list[tuple[str, str]] | tuple[int, str]
) -> None:
    (tmp_path / "in").write_text(text)
    done = run("reverse", tmp_path / "in", "--data", write_streets(tmp_path / "data"), *options)
    if isinstance(expected, list):
        assert (done.returncode, done.stderr) == (0, "")
        assert [(row["id"], row["number"]) for row in csv.DictReader(io.StringIO(done.stdout))] == expected
    else:
        about = f"{tmp_path}/in: " if expected[0] == 3 else ""
        assert (done.returncode, done.stderr, done.stdout) == (expected[0], f"error: {about}{expected[1]}\n", "")


@pytest.mark.parametrize("suffix", ["csv", "gpkg", "geojson", "fgb"])
@pytest.mark.usefixtures("gdal")
def test_formats(tmp_path: Path, suffix: str) -> None:
    """A point without a street is a feature, too. The city is the place, or else the county subdivision."""
    (tmp_path / "in").write_text("-87.00099,33.0001\n-86.99998,33.00099\n-88,33\n")
    cities = [("10001", "P", "Milford"), ("90001", "M", "Kelso"), ("90002", "M", "Bibb")]
    write_cities(write_streets(tmp_path / "data") / f"TGR{CODE}.RTC", CODE, cities)
    zip_folder(tmp_path / "data", tmp_path / "data.zip")
    out = tmp_path / f"out.{suffix}"
    done = run("reverse", tmp_path / "in", out, "--data", tmp_path / "data.zip")
    assert (done.returncode, done.stderr) == (0, "")
    assert done.stdout == f"{out}: 3 points: 2 with a street within 100 m\n"
    rows = list(csv.DictReader(out.open())) if suffix == "csv" else layer(out)
    rows.sort(key=lambda row: row["id"])  # FlatGeobuf sorts by location.
    assert [row["address"] for row in rows] == ["151 MAIN ST, MILFORD, AL, 35001", "227 OAK AVE, BIBB, AL, 35001", ""]
    assert [row["tlid"] for row in rows] == ["1", "2", ""]
    if suffix != "csv":
        assert rows[0]["WKT"].replace("POINT (", "POINT(").startswith("POINT(-87.00099 33.0001")


def test_counties(tmp_path: Path) -> None:
    """The nearest street of all counties counts, the first of one in several files. Shape points may be missing."""
    copy_county(tmp_path, code="01003")
    for code in (CODE, "01005"):
        (write_streets(tmp_path, code) / f"TGR{code}.RT2").unlink()
    places = [degrees("-990 100"), (-86.62576, 32.566932), degrees("7000 30")]
    found = list(tigerline.reverse(places, tmp_path, distance=20))
    assert [street and (street.county, street.tlid) for street in found] == [(CODE, 1), ("01003", 107000006), None]


@pytest.mark.parametrize(
    ("point", "distance", "message"),
    [
        ((-87.0, 133.0), 100, "a latitude is between -90 and 90, and 133.0 isn't"),
        ((-187.0, 33.0), 100, "a longitude is between -180 and 180, and -187.0 isn't"),
        ((math.nan, 33.0), 100, "a longitude is between -180 and 180, and nan isn't"),
        ((-87.0, 33.0), 0, "a distance is between 0 and 100,000 meters, and 0 isn't"),
    ],
)
def test_bad_arguments(tmp_path: Path, point: tuple[float, float], distance: float, message: str) -> None:
    with pytest.raises(ValueError, match=message):
        list(tigerline.reverse([point], write_streets(tmp_path), distance=distance))


class House(NamedTuple):
    """A house of the made-up county: all names of its street, its number, and its place beside the street."""

    names: set[str]
    number: int
    place: tuple[float, float]


METERS = (math.cos(math.radians(33)) * 111_320, 110_920.0)  # per degree, near enough for a county


def in_meters(record: str, first: int = 190) -> tuple[float, float]:
    return int(record[first : first + 10]) / 1e6 * METERS[0], int(record[first + 10 : first + 19]) / 1e6 * METERS[1]


def houses(folder: Path, code: str, count: int) -> Iterator[House]:
    """Yields houses of random streets, 5 to 25 m beside the place of their number along the shape."""
    records = {kind: (folder / f"TGR{code}.RT{kind}").read_text("latin-1").splitlines() for kind in "12456"}
    features = {record[10:18]: record[20:50].strip() for record in records["5"]}
    names: dict[str, set[str]] = defaultdict(set)
    shapes: dict[str, list[tuple[float, float]]] = defaultdict(list)
    sides: dict[str, list[tuple[int, str]]] = defaultdict(list)
    for record in records["4"]:
        names[record[5:15]] |= {features[record[at : at + 8]] for at in range(18, 58, 8) if record[at : at + 8].strip()}
    for record in records["2"]:
        shapes[record[5:15]] += [in_meters(record, at) for at in range(18, 208, 19) if int(record[at : at + 10])]
    for record in records["1"]:
        sides[record[5:15]] += [(1, record[58:80]), (-1, record[80:102])]
    for record in records["6"]:
        sides[record[5:15]] += [(1, record[18:40]), (-1, record[40:62])]
    streets = [record for record in records["1"] if record[55] == "A" and record[19:49].strip()]
    streets = [record for record in streets if any(numbers.strip() for _, numbers in sides[record[5:15]])]
    dice = Random(3)
    for record in (dice.choice(streets) for _ in range(count)):
        tlid = record[5:15]
        side, ends = dice.choice([found for found in sides[tlid] if found[1].strip()])
        first, last = int(ends[:11]), int(ends[11:])
        number = dice.randrange(min(first, last), max(first, last) + 1, 2)
        line = [in_meters(record), *shapes[tlid], in_meters(record, 209)]
        x, y = beside(line, (number - first) / ((last - first) or 1), side * dice.uniform(5, 25))
        yield House({record[19:49].strip(), *names[tlid]}, number, (x / METERS[0], y / METERS[1]))


def beside(line: list[tuple[float, float]], share: float, offset: float) -> tuple[float, float]:
    """Returns the place after a share of a line and to its left."""
    pieces = list(pairwise(line))
    left = share * sum(math.dist(*piece) for piece in pieces)
    for start, end in pieces:
        length = math.dist(start, end)
        if left <= length or (start, end) == pieces[-1]:
            break
        left -= length
    x, y = (end[0] - start[0]) / length, (end[1] - start[1]) / length
    return start[0] + left * x - offset * y, start[1] + left * y + offset * x


def test_houses_of_a_county() -> None:
    """The rest of the houses are nearer to a side street. 77.5 and 69.8 % are what PostGIS's TIGER geocoder finds."""
    drawn = list(houses(EXAMPLES / "town", "01007", 1000))
    found = list(tigerline.reverse([house.place for house in drawn], EXAMPLES / "town"))
    names = {int(record[5:15]): record[19:49].strip() for record in (EXAMPLES / "town/TGR01007.RT1").open()}
    right = [(house, street) for house, street in zip(drawn, found) if street and names[street.tlid] in house.names]
    near = [house for house, street in right if street.number and abs(street.number - house.number) <= 10]
    assert len(right) >= 775 and len(near) >= 698
