"""A second reading of docs/records.md and docs/geocoding.md: counties and addresses that are drawn, and what `geocode-batch` has to write about them.

The counties are small, with alternate names, further ranges, hyphenated numbers and unknown coordinates. The addresses are on and near their streets, in a
CSV file with its columns in any order, quoted cells, line breaks within cells, empty lines and either line ending.
"""

import csv
import io
from collections.abc import Iterator
from itertools import pairwise
from math import cos, isqrt, radians
from pathlib import Path
from random import Random
from typing import NamedTuple

CODES = ("00001", "00002")
SEGMENTS = 60
HEADER = [
    "id",
    "status",
    "reason",
    "longitude",
    "latitude",
    "tlid",
    "side",
    "fedirp",
    "fename",
    "fetype",
    "fedirs",
    "zip",
    "county",
    "from",
    "to",
]
COLUMNS = ["number", "name", "id", "zip", "predir", "type", "sufdir"]
NAMES = [
    "La Cañada",
    "Main",
    "Maine",
    "Oak",
    "Oak Hill",
    "County Road 70",
    "St. John's",
    'Old "Mill"',
    "A, B",
    "",
    "Abcdefghijklmnopqrstuvwxyzabcd",
]
ODD_CELLS = [
    "",
    "12-34",
    "123456789012",
    "x" * 31,
    "No Street",
    "1" * 11,
    "é" * 30,
    "é" * 31,
    "La Can\u0303ada",
    "La Ca€ada",
]
DIRECTIONS = ["", "", "", "N", "S", "NE"]
TYPES = ["St", "Rd", "Ave", "Blvd", ""]
ZIPS = ["36066", "36067", "07001", "", "36067"]
# Of whole degrees, in 1/32,768.
COSINES = [round(cos(radians(degree)) * 2**15) for degree in range(91)] + [0] * 20


class FullName(NamedTuple):
    fedirp: str
    fename: str
    fetype: str
    fedirs: str

    def field(self) -> str:
        return f"{self.fedirp:2}{self.fename:30}{self.fetype:4}{self.fedirs:2}"


class Point(NamedTuple):
    longitude: int
    latitude: int


class Side(NamedTuple):
    letter: str
    start: str
    end: str
    zip: str


class Segment(NamedTuple):
    tlid: int
    names: list[FullName]
    sides: list[Side]
    coordinates: list[int | None]
    # The points between its ends, or none if it is a straight line.
    shape: list[Point] | None


class Hit(NamedTuple):
    place: Point | None
    cells: list[str]


def number_of(field: str) -> int | None:
    """Returns the number of a field or of a cell: 1 to 11 digits."""
    digits = field.strip(" ")
    return int(digits) if digits.isascii() and digits.isdigit() and len(digits) <= 11 else None


def coordinate_of(field: str) -> int | None:
    digits = field.strip(" ")
    bare = digits[1:] if digits[:1] in ("+", "-") else digits
    return int(digits) if bare.isascii() and bare.isdigit() and len(bare) <= 9 else None


def lines(path: Path) -> list[str]:
    return path.read_text("latin-1").splitlines() if path.exists() else []


def sides_of(addresses: str, zips: str) -> list[Side]:
    cut = [addresses[at : at + 11] for at in range(0, 44, 11)]
    return [Side("L", cut[0], cut[1], zips[:5]), Side("R", cut[2], cut[3], zips[5:])]


def points_of(line: str) -> Iterator[Point]:
    """Returns the points of a type 2 line before the first unused one."""
    for at in range(18, 208, 19):
        longitude, latitude = coordinate_of(line[at : at + 10]), coordinate_of(line[at + 10 : at + 19])
        if longitude is None or latitude is None or longitude == latitude == 0:
            return
        yield Point(longitude, latitude)


def read_shapes(path: Path) -> dict[int, list[Point]]:
    shapes: dict[int, list[Point]] = {}
    for line in sorted(lines(path), key=lambda line: int(line[15:18])):
        shapes.setdefault(int(line[5:15]), []).extend(points_of(line))
    return shapes


def read_county(folder: Path, code: str, shaped: bool) -> list[Segment]:
    stem = folder / f"TGR{code}"
    shapes = read_shapes(stem.with_suffix(".RT2"))
    features: dict[int, FullName] = {}
    for line in lines(stem.with_suffix(".RT5")):
        features.setdefault(int(line[10:18]), FullName(line[18:20], line[20:50], line[50:54], line[54:56]))
    names: dict[int, list[FullName]] = {}
    for line in lines(stem.with_suffix(".RT4")):
        for at in range(18, 58, 8):
            feature = number_of(line[at : at + 8])
            if feature in features:
                names.setdefault(int(line[5:15]), []).append(features[feature])
    ranges: dict[int, list[Side]] = {}
    for line in lines(stem.with_suffix(".RT6")):
        ranges.setdefault(int(line[5:15]), []).extend(sides_of(line[18:62], line[66:76]))
    segments = []
    for line in lines(stem.with_suffix(".RT1")):
        tlid = int(line[5:15])
        own = FullName(line[17:19], line[19:49], line[49:53], line[53:55])
        coordinates = [
            coordinate_of(line[190:200]),
            coordinate_of(line[200:209]),
            coordinate_of(line[209:219]),
            coordinate_of(line[219:228]),
        ]
        sides = sides_of(line[58:102], line[106:116]) + ranges.get(tlid, [])
        segments.append(
            Segment(tlid, [own, *names.get(tlid, [])], sides, coordinates, shapes.get(tlid, []) if shaped else None)
        )
    return segments


def is_on(number: int, side: Side) -> bool:
    start, end = number_of(side.start), number_of(side.end)
    if start is None or end is None:
        return False
    return min(start, end) <= number <= max(start, end) and (start % 2 != end % 2 or number % 2 == start % 2)


def between(start: int, end: int, part: int, whole: int) -> int:
    if whole == 0:
        return start
    quotient = abs(end - start) * part // whole
    return start + (quotient if start <= end else -quotient)


def length(start: Point, end: Point) -> int:
    """Returns the length of a straight line, in 1/32,768 of a millionth of a degree of latitude."""
    degree, rest = divmod(abs(start.latitude + end.latitude) // 2, 1_000_000)
    cosine = (COSINES[degree] * (1_000_000 - rest) + COSINES[degree + 1] * rest) // 1_000_000
    return isqrt(
        (abs(start.longitude - end.longitude) * cosine) ** 2 + (abs(start.latitude - end.latitude) * 2**15) ** 2
    )


def place_along(points: list[Point], part: int, whole: int) -> Point:
    """Returns the place at a share of the length of a line."""
    left = sum(length(*piece) for piece in pairwise(points)) * part // whole
    for start, end in pairwise(points):
        if left <= length(start, end):
            break
        left -= length(start, end)
    return place_between(start, end, left, length(start, end))


def place_between(start: Point, end: Point, part: int, whole: int) -> Point:
    return Point(
        between(start.longitude, end.longitude, part, whole), between(start.latitude, end.latitude, part, whole)
    )


def place_of(segment: Segment, number: int, side: Side) -> Point | None:
    from_longitude, from_latitude, to_longitude, to_latitude = segment.coordinates
    if from_longitude is None or from_latitude is None or to_longitude is None or to_latitude is None:
        return None
    start, end = Point(from_longitude, from_latitude), Point(to_longitude, to_latitude)
    part, whole = abs(number - int(side.start)), abs(int(side.end) - int(side.start))
    if segment.shape is None:
        return place_between(start, end, part, whole)
    return place_along([start, *segment.shape, end], part, whole or 1)


def degrees(coordinate: int) -> str:
    return f"{'-' if coordinate < 0 else ''}{abs(coordinate) // 1_000_000}.{abs(coordinate) % 1_000_000:06}"


def agrees(wanted: str, field: str) -> bool:
    return wanted == "" or folded(wanted) == folded(field.strip(" "))


def folded(text: str) -> str:
    """Returns a text with the letters of ASCII in lower case."""
    return "".join(character.lower() if character.isascii() else character for character in text)


def first_match(segment: Segment, cells: dict[str, str]) -> FullName | None:
    for name in segment.names:
        if (
            folded(name.fename.rstrip(" ")) == folded(cells["name"])
            and agrees(cells["predir"], name.fedirp)
            and agrees(cells["type"], name.fetype)
            and agrees(cells["sufdir"], name.fedirs)
        ):
            return name
    return None


def hits_on(segment: Segment, name: FullName, code: str, number: int, wanted_zip: int | None) -> Iterator[Hit]:
    for side in segment.sides:
        if not is_on(number, side) or (wanted_zip is not None and number_of(side.zip) != wanted_zip):
            continue
        place = place_of(segment, number, side)
        coordinates = ["", ""] if place is None else [degrees(place.longitude), degrees(place.latitude)]
        fields = [*name, side.zip, code, side.start, side.end]
        yield Hit(place, [*coordinates, str(segment.tlid), side.letter, *(field.strip(" ") for field in fields)])


def answer(counties: list[tuple[str, list[Segment]]], cells: dict[str, str]) -> list[list[str]]:
    """Returns the cells after the id, one list per line of output."""
    if not cells["number"] or not cells["name"]:
        return none("missing")
    number, wanted_zip = number_of(cells["number"]), number_of(cells["zip"])
    if number is None:
        return none("not_a_number")
    if len(cells["name"]) > 30:
        return none("name_too_long")
    if cells["zip"] and wanted_zip is None:
        return none("not_a_number")
    matches = [
        (code, segment, name)
        for code, segments in counties
        for segment in segments
        if (name := first_match(segment, cells))
    ]
    hits = [hit for code, segment, name in matches for hit in hits_on(segment, name, code, number, wanted_zip)]
    if hits:
        one_place = all(hit.place is not None and hit.place == hits[0].place for hit in hits[1:])
        return [["match" if one_place else "tie", "", *hit.cells] for hit in hits]
    if not matches:
        return none("no_such_street")
    anywhere = any(True for code, segment, name in matches for hit in hits_on(segment, name, code, number, None))
    return none("other_zip" if anywhere else "no_such_number")


def none(reason: str) -> list[list[str]]:
    return [["no_match", reason] + [""] * 12]


# ---- Drawing


def draw_full_name(random: Random) -> FullName:
    return FullName(random.choice(DIRECTIONS), random.choice(NAMES), random.choice(TYPES), random.choice(DIRECTIONS))


def draw_addresses(random: Random) -> str:
    text = ""
    for parity in (1, 0):
        start = random.randrange(0, 400, 2) + parity
        end = start + random.choice((0, 20, 98, 99, -30))
        kind = random.random()
        if kind < 0.15:
            text += " " * 22
        elif kind < 0.2:
            text += f"{'164-20':>11}{'164-98':>11}"
        else:
            text += f"{start:11}{max(end, 0):11}"
    return text


def draw_coordinate(random: Random, width: int) -> str:
    if random.random() < 0.03:
        return " " * width
    # Near zero too, where a coordinate has no whole degrees.
    value = random.choice((random.randint(-99_999_999, 99_999_999), random.randint(-999_999, 999_999)))
    return f"{value:+0{width}d}"


def draw_points(random: Random, count: int) -> str:
    return "".join(draw_coordinate(random, 10) + draw_coordinate(random, 9) for _ in range(count))


def draw_shape(random: Random, tlid: int) -> list[str]:
    """Returns the type 2 lines of a segment."""
    drawn = []
    for number in random.sample(range(1000), random.choice((1, 1, 2, 3))):
        points = draw_points(random, random.randint(0, 10))
        drawn.append(f"20006{tlid:10}{number:3}{points}{'+000000000+00000000' * 10}"[:208])
    return drawn


def write_county(random: Random, folder: Path, code: str) -> None:
    stem = folder / f"TGR{code}"
    features = range(1, 15)
    tlids: list[int] = []
    rt1 = []
    for _ in range(SEGMENTS):
        tlid = tlids[-1] if tlids and random.random() < 0.1 else random.randint(1, 10**6)
        tlids.append(tlid)
        line = f"10006{tlid:10}  {draw_full_name(random).field()}A41{draw_addresses(random)}0000{random.choice(ZIPS):5}{random.choice(ZIPS):5}"
        rt1.append(f"{line:190}{draw_points(random, 2)}")
    rt2 = [line for tlid in random.sample(sorted(set(tlids)), 25) for line in draw_shape(random, tlid)]
    random.shuffle(rt2)
    rt4 = []
    for tlid in random.sample(tlids, 25):
        rt4.append(f"40006{tlid:10}  1" + "".join(f"{random.choice((*features, 99, '')):>8}" for _ in range(5)))
    rt5 = [f"50006{code}{feature:8}{draw_full_name(random).field()}" for feature in (*features, 1, 2)]
    rt6 = [
        f"60006{tlid:10}  1{draw_addresses(random)}0000{random.choice(ZIPS):5}{random.choice(ZIPS):5}"
        for tlid in random.choices(tlids, k=20)
    ]
    for end, file in ((".RT1", rt1), (".RT2", rt2), (".RT4", rt4), (".RT5", rt5), (".RT6", rt6)):
        stem.with_suffix(end).write_text("".join(line + "\n" for line in file), "latin-1", newline="")


def draw_cells(random: Random, segments: list[Segment], at: int) -> dict[str, str]:
    segment = random.choice(segments)
    name = random.choice(segment.names)
    side = random.choice(segment.sides)
    start = number_of(side.start)
    number = str(start + random.choice((0, 1, 2, 10, 20, -1))) if start is not None else str(random.randint(0, 500))
    cells = {
        "number": number,
        "name": name.fename.strip(),
        "id": f"a{at}",
        "zip": "",
        "predir": "",
        "type": "",
        "sufdir": "",
    }
    for column, field in (("zip", side.zip), ("predir", name.fedirp), ("type", name.fetype), ("sufdir", name.fedirs)):
        if random.random() < 0.5:
            cells[column] = field.strip()
    if random.random() < 0.3:
        cells["name"] = cells["name"].swapcase()
    kind = random.random()
    if kind < 0.06:
        cells[random.choice(("number", "name"))] = random.choice(ODD_CELLS)
    elif kind < 0.12:
        cells["zip"] = random.choice(("99999", "7001", "abc", "36067-1234"))
    elif kind < 0.2:
        cells[random.choice(("predir", "type", "sufdir"))] = random.choice(("st", "RD", "n", "Court"))
    elif kind < 0.25:
        cells["id"] = random.choice(('say "hi"', "a,b", "two\nlines", " blanks ", ""))
    return cells


def write_file(random: Random, rows: list[dict[str, str]]) -> tuple[str, list[str]]:
    """Returns a CSV file of addresses, and the id of each in the output."""
    columns = COLUMNS + ["note"]
    if random.random() < 0.5:
        columns.remove("id")
    random.shuffle(columns)
    end = random.choice(("\n", "\r\n"))
    text = io.StringIO()
    writer = csv.writer(text, lineterminator=end, quoting=random.choice((csv.QUOTE_MINIMAL, csv.QUOTE_ALL)))
    writer.writerow([column.title() if random.random() < 0.3 else column for column in columns])
    ids = []
    for row in rows:
        if random.random() < 0.05:
            text.write(end)
        ids.append(row["id"] if "id" in columns else str(text.getvalue().count("\n") + 1))
        cells = [row.get(column, random.choice(("", "a note", "two\nlines", 'a "quote"'))) for column in columns]
        if random.random() < 0.3:
            cells = [
                f" {cell} " if column in ("number", "type", "zip") and cell else cell
                for column, cell in zip(columns, cells)
            ]
        writer.writerow(cells)
    file = text.getvalue()
    if random.random() < 0.3:
        file = file.removesuffix(end)
    return ("\ufeff" if random.random() < 0.3 else "") + file, ids


def csv_text(rows: list[list[str]]) -> str:
    text = io.StringIO()
    csv.writer(text, lineterminator="\n").writerows(rows)
    return text.getvalue()


class Batch(NamedTuple):
    """Two counties and addresses in a folder, and what is expected of each address: its lines of the output."""

    addresses: list[dict[str, str]]
    header: str
    lines: list[str]


def draw_batch(random: Random, folder: Path, count: int, shaped: bool) -> Batch:
    """Writes the counties' files and `addresses.csv`."""
    for code in CODES:
        write_county(random, folder, code)
    counties = [(code, read_county(folder, code, shaped)) for code in CODES]
    segments = [segment for _, county in counties for segment in county]
    rows = [draw_cells(random, segments, at) for at in range(count)]
    file, names = write_file(random, rows)
    (folder / "addresses.csv").write_text(file, "utf-8", newline="")
    lines = [
        csv_text([[name, *cells] for cells in answer(counties, row)]) for row, name in zip(rows, names, strict=True)
    ]
    return Batch(rows, csv_text([HEADER]), lines)
