"""Measures the TIGER geocoder of PostGIS and `tigerline geocode` on the same addresses, and prints a table in Markdown.

    PYTHONPATH=. python3 tests/postgis.py [FOLDER]

Run it in the folder python, as root on Debian 12, with the program's path in EXTRACTD. It takes some ten minutes. It installs PostgreSQL 15
and PostGIS by apt-get, and needs pytest and shapely, which tests/run installs. It starts a PostgreSQL server of its own in a temporary
folder, without a port, and removes both at the end. FOLDER keeps the counties, as for noise.py.

Each county is a database, loaded by postgis.sql. The addresses are those of noise.py. A result of PostGIS is right if it is at most 13 m
from the address's segment, with its shape points, and at most 80 m from the place of the house number along it: PostGIS moves places
10 m off the street. A result without a street, such as the middle of a town, counts as none. A match of `tigerline geocode` is right if
it is exactly at the place of the address. The points are those of test_reversing.py.
"""

import csv
import math
import os
import re
import shutil
import signal
import subprocess
import sys
import tempfile
from collections import Counter
from collections.abc import Iterable, Iterator, Sequence
from concurrent.futures import ThreadPoolExecutor
from contextlib import contextmanager
from dataclasses import replace
from functools import partial
from pathlib import Path
from typing import NamedTuple

import tigerline
from shapely.geometry import LineString
from shapely.geometry import Point as Place
from noise import Drawn, cut_parts, draw_addresses, draw_counties, measure, measure_cut
from test_geocoding_index import Index, Segment
from test_reversing import METERS, House, beside, houses
from tigerline.layout import FIELDS

PACKAGES = ["postgresql-15", "postgresql-15-postgis-3", "postgresql-15-postgis-3-scripts"]
PROGRAMS = Path("/usr/lib/postgresql/15/bin")
GEOCODER = Path("/usr/share/postgresql/15/extension/postgis_tiger_geocoder.control")
EXTENSIONS = ("postgis", "fuzzystrmatch", "postgis_tiger_geocoder")
FIRST, SECOND = "01007", "01009"
COUNTY_NAMES = {FIRST: "Bibb", SECOND: "Blount"}
OFF_LINE, OFF_PLACE = 13, 80  # meters
GOOD_RATING = 20
# The first words of numbered roads in TIGER/Line 2006, and the type before the name that the Bureau writes today.
ROAD_TYPES = {"US Hwy": "US Hwy", "State Hwy": "State Hwy", "County Road": "Co Rd"}
# The class of today's data by the first two letters of CFCC.
CLASSES = {
    "A1": "S1100", "A2": "S1200", "A3": "S1200", "A4": "S1400", "A5": "S1500", "A6": "S1630", "B1": "R1011", "B2": "R1011",
    "D8": "K2180", "F1": "P0001", "H1": "H3010", "H3": "H2030",
}  # fmt: skip
FIELD_BYTES = {field.name: field.bytes for field in FIELDS}
TICKS = "split_part(pg_read_file('/proc/self/stat'), ' ', 14)::int + split_part(pg_read_file('/proc/self/stat'), ' ', 15)::int"

CUT_NAMES = """
    SET client_min_messages = warning;
    UPDATE tiger.featnames SET
        name = 'Cut 777', pretypabrv = NULL, fullname = concat_ws(' ', predirabrv, 'Cut 777', suftypabrv, sufdirabrv)
    WHERE concat_ws(' ', pretypabrv, name) IN ({names});
    VACUUM ANALYZE;
"""

Point = tuple[float, float]
Lines = dict[int, list[Point]]


class Found(NamedTuple):
    rating: int
    place: Point


class Row(NamedTuple):
    """A row of the table: a cell for `tigerline`, for PostGIS, and for its results with a good rating."""

    title: str
    ours: str
    all: str
    good: str = ""


# The server


class Server(NamedTuple):
    """A running PostgreSQL server, by the folder of its socket."""

    socket: Path

    def psql(self, database: str, script: str, folder: Path | None = None) -> str:
        """Runs a script over a connection of its own. Prints errors of statements, after which it goes on."""
        command = [f"{PROGRAMS}/psql", "-XqAt", "-F", "\t", "-h", str(self.socket), "-U", "postgres", database]
        done = subprocess.run(
            command, input=script, cwd=folder, stdout=subprocess.PIPE, stderr=subprocess.PIPE, text=True
        )
        if done.stderr:
            print(done.stderr, file=sys.stderr)
        done.check_returncode()
        return done.stdout

    def ask(self, database: str, queries: Iterable[str]) -> tuple[dict[int, list[str]], float]:
        """Returns the first row of each query that has one, by its place, and the server's seconds of processor time.

        There is a connection for each processor.
        """
        statements = [f"SELECT {at}, {query} LIMIT 1;" for at, query in enumerate(queries)]
        count = os.cpu_count() or 1
        parts = [statements[part::count] for part in range(count)]
        with ThreadPoolExecutor(count) as pool:
            answers = list(pool.map(partial(self._answers, database), parts))
        return {at: row for found, _ in answers for at, row in found.items()}, sum(seconds for _, seconds in answers)

    def _answers(self, database: str, statements: Sequence[str]) -> tuple[dict[int, list[str]], float]:
        ticks = f"SELECT 'ticks', {TICKS};"
        script = "\n".join(["SET search_path = tiger, public;", ticks, *statements, ticks])
        rows = [line.split("\t") for line in self.psql(database, script).splitlines()]
        first, last = (int(row[1]) for row in rows if row[0] == "ticks")
        found = {int(row[0]): row[1:] for row in rows if row[0] != "ticks"}
        return found, (last - first) / os.sysconf("SC_CLK_TCK")


def install() -> None:
    """Installs PostgreSQL and PostGIS if they are missing."""
    if not (PROGRAMS / "initdb").exists() or not GEOCODER.exists():
        subprocess.run(["apt-get", "update"], check=True, stdout=sys.stderr)
        command = ["apt-get", "install", "-y", "--no-install-recommends", *PACKAGES]
        subprocess.run(command, env={**os.environ, "DEBIAN_FRONTEND": "noninteractive"}, check=True, stdout=sys.stderr)


@contextmanager
def started_server() -> Iterator[Server]:
    """Starts a server in a temporary folder, and removes it at the end."""
    with tempfile.TemporaryDirectory() as temporary:
        socket, data = Path(temporary), f"{temporary}/data"
        shutil.chown(socket, "postgres")
        as_postgres("initdb", "--auth=trust", "--encoding=UTF8", "--locale=C.UTF-8", "--no-sync", "-D", data)
        options = f"-c listen_addresses='' -c fsync=off -k {temporary}"
        as_postgres("pg_ctl", "start", "-w", "-D", data, "-l", f"{temporary}/log", "-o", options)
        try:
            yield Server(socket)
        finally:
            as_postgres("pg_ctl", "stop", "-m", "immediate", "-D", data)


def as_postgres(program: str, *arguments: str) -> None:
    command = ["runuser", "-u", "postgres", "--", str(PROGRAMS / program), *arguments]
    subprocess.run(command, cwd="/", check=True, stdout=subprocess.DEVNULL)


# The counties


def load(server: Server, database: str, folder: Path, code: str) -> Lines:
    """Loads a county into a new database, and returns the lines of its segments in meters."""
    server.psql("postgres", f"CREATE DATABASE {database};")
    server.psql(database, "".join(f"CREATE EXTENSION {name};\n" for name in EXTENSIONS))
    with tempfile.TemporaryDirectory() as temporary:
        lines = write_tables(Path(temporary), folder, code)
        settings = f"\\set code '{code}'\n\\set county '{COUNTY_NAMES[code]}'\n"
        server.psql(database, settings + Path(__file__).with_suffix(".sql").read_text(), Path(temporary))
    return {tlid: [in_meters(point) for point in line] for tlid, line in lines.items()}


def write_tables(target: Path, folder: Path, code: str) -> Lines:
    """Writes the tables that postgis.sql reads, and returns the lines of all segments in degrees."""
    segments = Index(folder, code).segments
    shapes = shape_points(folder / f"TGR{code}.RT2")
    records = (folder / f"TGR{code}.RT1").read_text("latin-1").splitlines()
    lines: Lines = {}
    nodes: dict[Point, int] = {}
    tables: dict[str, list[Sequence[object]]] = {name: [] for name in ("segments", "sides", "ranges", "names")}
    for record, segment in zip(records, segments, strict=True):
        fields = {name: record[place].strip() for name, place in FIELD_BYTES.items()}
        line = lines[segment.tlid] = line_of(segment, shapes.get(segment.tlid, ()))
        ends = [nodes.setdefault(point, len(nodes) + 1) for point in (line[0], line[-1])]
        names = [[*split_name(name)] for name in segment.names if name[1]]
        name = full_name(names[0]) if names else ""
        tables["segments"].append((segment.tlid, CLASSES[fields["CFCC"][:2]], name, *ends, wkt("LINESTRING", line)))
        tables["sides"] += [(segment.tlid, side, *side_fields(fields, side, line)) for side in "LR"]
        tables["ranges"] += [(segment.tlid, *numbers) for numbers in segment.sides]
        tables["names"] += [(segment.tlid, "A" if at else "P", full_name(one), *one) for at, one in enumerate(names)]
    cities = (folder / f"TGR{code}.RTC").read_text("latin-1").splitlines()
    tables["cities"] = [(line[14:19], line[24], line[62:122].strip()) for line in cities]
    for table, rows in tables.items():
        with (target / f"{table}.csv").open("w", newline="") as file:
            csv.writer(file).writerows(rows)
    return lines


def shape_points(path: Path) -> dict[int, list[Point]]:
    """Returns the shape points of each TLID in degrees, in the order of the file."""
    found: dict[int, list[Point]] = {}
    for record in path.read_text("latin-1").splitlines():
        points = ((int(record[at : at + 10]), int(record[at + 10 : at + 19])) for at in range(18, 208, 19))
        found.setdefault(int(record[5:15]), []).extend((x / 1e6, y / 1e6) for x, y in points if (x, y) != (0, 0))
    return found


def line_of(segment: Segment, shape: Sequence[Point]) -> list[Point]:
    """Returns the line of a segment in degrees, with no point twice in a row."""
    x, y, to_x, to_y = (end / 1e6 for end in segment.ends or (0, 0, 0, 0))
    points = [(x, y), *shape, (to_x, to_y)]
    return points[:1] + [point for before, point in zip(points, points[1:]) if point != before]


def wkt(kind: str, points: Iterable[Point]) -> str:
    return f"SRID=4269;{kind}({', '.join(f'{x:.7f} {y:.7f}' for x, y in points)})"


def side_fields(fields: dict[str, str], side: str, line: Sequence[Point]) -> list[str]:
    """Returns a side's ZIP Code, a point 0.2 m beside the middle of the line, and the areas there."""
    at = len(line) // 2
    (x, y), (to_x, to_y) = line[at - 1], line[at]
    off = 2e-6 / math.dist(line[at - 1], line[at]) * (1 if side == "L" else -1)
    point = (x + to_x) / 2 - (to_y - y) * off, (y + to_y) / 2 + (to_x - x) * off
    areas = [fields[f"{name}{side}"] for name in ("COUSUB", "PLACE", "TRACT", "BLOCK")]
    return [fields[f"ZIP{side}"], wkt("POINT", [point]), *areas]


def split_name(name: Sequence[str]) -> tuple[str, str, str, str, str]:
    """Returns a name as the Bureau writes it today: direction, type before the name, name, type and direction."""
    predir, words, kind, sufdir = name
    start, _, number = words.rpartition(" ")
    return (
        (predir, ROAD_TYPES[start], number, kind, sufdir) if start in ROAD_TYPES else (predir, "", words, kind, sufdir)
    )


def full_name(parts: Sequence[str]) -> str:
    return " ".join(part for part in parts if part)


def in_meters(point: Point) -> Point:
    return point[0] * METERS[0], point[1] * METERS[1]


# The measurements


def geocode(
    server: Server, database: str, drawn: Sequence[Drawn], state: str = "AL"
) -> tuple[list[Found | None], float]:
    """Returns the best result for each address, and the server's seconds of processor time."""
    texts = [f"{one.street}, {one.city}, {state} {one.zip}".strip() for one in drawn]
    return found_by(server, database, [f"geocode({quoted(text)}, 1)" for text in texts])


def found_by(server: Server, database: str, calls: Sequence[str]) -> tuple[list[Found | None], float]:
    columns, with_street = "rating, ST_X(geomout), ST_Y(geomout)", "(addy).streetname IS NOT NULL"
    rows, seconds = server.ask(database, [f"{columns} FROM {call} WHERE {with_street}" for call in calls])
    found = {at: Found(int(row[0]), (float(row[1]), float(row[2]))) for at, row in rows.items()}
    return [found.get(at) for at in range(len(calls))], seconds


def quoted(text: str) -> str:
    return "'" + text.replace("'", "''") + "'"


def outcome(drawn: Drawn, found: Found | None, lines: Lines) -> str:
    """Returns right, wrong or none."""
    if found is None or not drawn.places:
        return "wrong" if found else "none"
    line, (x, y) = lines[drawn.spot.tlid], in_meters(found.place)
    off_line = LineString(line).distance(Place(x, y))
    off_place = math.dist((x, y), beside(line, drawn.spot.share, 0))
    return "right" if off_line <= OFF_LINE and off_place <= OFF_PLACE else "wrong"


def counted(drawn: Sequence[Drawn], found: Sequence[Found | None], lines: Lines) -> list[Counter[str]]:
    """Returns how often each outcome is there, with all results, and with those of a good rating."""
    good = [one if one and one.rating <= GOOD_RATING else None for one in found]
    return [
        Counter(outcome(one, result, lines) for one, result in zip(drawn, results, strict=True))
        for results in (found, good)
    ]


def wrong(title: str, ours: Counter[str], theirs: Sequence[Counter[str]]) -> Row:
    return Row(f"{title}: wrong", *(str(counter["wrong"]) for counter in (ours, *theirs)))


def total(counts: dict[str, Counter[str]]) -> Counter[str]:
    return sum(counts.values(), Counter())


def processor_time() -> float:
    """Returns the processor time of this process and of all that it has waited for, in seconds."""
    return sum(os.times()[:4])


def of_addresses(server: Server, folder: Path, exact: list[Drawn], noise: list[Drawn], lines: Lines) -> Iterator[Row]:
    """Yields the rows of exact and noisy addresses, and the speed."""
    started, seconds = processor_time(), 0.0
    by_kind = measure([*exact, *noise], folder / "first")
    own_seconds = processor_time() - started
    ours = by_kind.pop("exact"), total(by_kind)
    for title, drawn, own in zip(("exact", "noisy"), (exact, noise), ours):
        found, used = geocode(server, "first", drawn)
        seconds += used
        cells = (
            f"{one['right']} / {one['wrong']} / {one['tie'] + one['none']}"
            for one in (own, *counted(drawn, found, lines))
        )
        yield Row(f"{title} addresses: right / wrong / tie or none", *cells)
    count = len(exact) + len(noise)
    yield Row("addresses per second of processor time", f"{count / own_seconds:,.0f}", f"{count / seconds:,.0f}")


def of_crossings(server: Server, folder: Path, noise: list[Drawn], lines: Lines) -> Row:
    """Returns the row of the crossings, for which PostGIS has another function."""
    drawn = [one for one in noise if one.kind == "crossing"]
    calls = []
    for one in drawn:
        streets = re.split(" (?:&|and|at|@) |/", one.street)
        calls.append(f"geocode_intersection({', '.join(map(quoted, (*streets, 'AL', one.city, one.zip)))}, 1)")
    theirs = counted(drawn, found_by(server, "first", calls)[0], lines)
    right = (counter["right"] for counter in (total(measure(drawn, folder / "first")), *theirs))
    return Row(f"{len(drawn)} crossings, with `geocode_intersection`: right", *map(str, right))


def of_absent(server: Server, folder: Path, exact: list[Drawn], noise: list[Drawn], lines: Lines) -> Iterator[Row]:
    """Yields the rows of addresses that aren't in the data."""
    for title, drawn, county, state in (
        ("exact addresses of a county that isn't loaded", exact, "second", "AL"),
        ("noisy addresses of a county that isn't loaded", noise, "second", "AL"),
        ("exact addresses of another state", exact, "first", "GA"),
    ):
        nowhere = [replace(one, places=frozenset()) for one in drawn]
        found = geocode(server, county, nowhere, state)[0]
        yield wrong(title, total(measure(nowhere, folder / county, state)), counted(nowhere, found, lines))


def of_cut(server: Server, folder: Path, exact: list[Drawn], lines: Lines) -> Row:
    """Returns the row of addresses whose streets are cut from the data, a part of the names at a time."""
    with tempfile.TemporaryDirectory() as temporary:
        ours = measure_cut(exact, folder / "first", FIRST, Path(temporary) / "cut")
    theirs: list[Counter[str]] = [Counter(), Counter()]
    for missing, nowhere in cut_parts(exact, 10):
        names = ", ".join(quoted(full_name(split_name(("", name, "", ""))[1:3])) for name in sorted(missing))
        server.psql("postgres", "CREATE DATABASE cut TEMPLATE first;")
        server.psql("cut", CUT_NAMES.format(names=names))
        found = geocode(server, "cut", nowhere)[0]
        server.psql("postgres", "DROP DATABASE cut;")
        for counter, more in zip(theirs, counted(nowhere, found, lines)):
            counter.update(more)
    return wrong("exact addresses whose street is cut from the data", ours, theirs)


def of_points(server: Server, folder: Path) -> Iterator[Row]:
    """Yields the rows of the streets nearest to points, and the speed."""
    drawn = list(houses(folder / "first", FIRST, 1000))
    started = processor_time()
    streets = list(tigerline.reverse([house.place for house in drawn], folder / "first"))
    own_seconds = processor_time() - started
    names = {
        segment.tlid: today(name[1] for name in segment.names) for segment in Index(folder / "first", FIRST).segments
    }
    ours = [(names[street.tlid], street.number) if street else (set(), None) for street in streets]
    calls = [f"reverse_geocode(ST_SetSRID(ST_MakePoint({x}, {y}), 4269))" for x, y in (house.place for house in drawn)]
    found, seconds = server.ask("first", [f"(addy[1]).streetname, (addy[1]).address FROM {call}" for call in calls])
    rows = (found.get(at, ["", ""]) for at in range(len(drawn)))
    theirs = [({name.lower()}, int(number) if number else None) for name, number in rows]
    yield Row("points: street right / number within 10", right_points(drawn, ours), right_points(drawn, theirs))
    yield Row("points per second of processor time", f"{len(drawn) / own_seconds:,.0f}", f"{len(drawn) / seconds:,.0f}")


def today(names: Iterable[str]) -> set[str]:
    """Returns names as PostGIS has them: without the type before a road's number, in small letters."""
    return {split_name(("", name, "", ""))[2].lower() for name in names if name}


def right_points(drawn: Sequence[House], found: Sequence[tuple[set[str], int | None]]) -> str:
    """Returns how many points have got a street with a name of their own, and how many of these a number within 10."""
    numbers = [(house.number, number) for house, (names, number) in zip(drawn, found) if names & today(house.names)]
    near = [number for own, number in numbers if number is not None and abs(number - own) <= 10]
    return f"{len(numbers)} / {len(near)}"


def main() -> None:
    signal.signal(signal.SIGTERM, lambda *_: sys.exit(1))  # stops the server
    install()
    with tempfile.TemporaryDirectory() as temporary, started_server() as server:
        folder = Path(sys.argv[1] if len(sys.argv) > 1 else temporary)
        exact, noise = draw_addresses(folder, draw_counties(folder))
        lines = load(server, "first", folder / "first", FIRST)
        load(server, "second", folder / "second", SECOND)
        print(f"| Of 1,000 | `tigerline` | PostGIS | PostGIS, rating ≤ {GOOD_RATING} |\n|---|---|---|---|")
        for row in rows(server, folder, exact, noise, lines):
            print("|", " | ".join(row), "|", flush=True)


def rows(server: Server, folder: Path, exact: list[Drawn], noise: list[Drawn], lines: Lines) -> Iterator[Row]:
    *shares, speed = of_addresses(server, folder, exact, noise, lines)
    yield from shares
    yield of_crossings(server, folder, noise, lines)
    yield from of_absent(server, folder, exact, noise, lines)
    yield of_cut(server, folder, exact, lines)
    yield from (*of_points(server, folder), speed)


if __name__ == "__main__":
    main()
