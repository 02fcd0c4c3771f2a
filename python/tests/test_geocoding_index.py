"""Geocoding agrees with an independent index, over the files and in plain Python, for 2,000 made-up addresses.

The index shares no code with the package. It looks for names of the data in a string, while the package looks for
readings of the string in the data.
"""

import importlib.util
import sys
from collections import Counter, defaultdict
from collections.abc import Iterator
from pathlib import Path
from random import Random
from types import ModuleType
from typing import NamedTuple

import pytest
import tigerline
from counties import EXAMPLES, TOOLS, TOP

sys.path.append(str(TOP / "tests"))
from addresses import Point, degrees, place_along, place_between, read_shapes  # noqa: E402

ADDRESSES, SPOILT = 1000, 250  # per county
PARTS = 12
OTHER_TYPES = {"St": "Ave", "Ave": "St", "Rd": "Ln", "Ct": "Rd"}
LONG = {
    "N": "North", "S": "South", "E": "East", "W": "West", "NE": "Northeast", "SW": "South West",
    "St": "Street", "Ave": "Avenue", "Rd": "Road", "Dr": "Drive", "Ln": "Lane", "Blvd": "Boulevard", "Ct": "Court",
    "Pl": "Place", "Cir": "Circle", "Way": "Wy", "Pike": "Pike", "Hwy": "Highway", "Pkwy": "Parkway",
}  # fmt: skip
SHORT_ROUTES = {
    "County Road": ["CR", "Co Rd", "County Rd"],
    "State Hwy": ["State Highway", "St. Hwy."],
    "US Hwy": ["US", "U.S. Highway"],
}
DIRECTIONS = {"n": "n", "north": "n", "s": "s", "south": "s", "e": "e", "east": "e", "w": "w", "west": "w", "ne": "ne", "sw": "sw",
    "northeast": "ne", "southwest": "sw", "south west": "sw"}  # fmt: skip
TYPES = {**{long.lower(): short.lower() for short, long in LONG.items() if len(short) > 2 or short in ("St", "Rd", "Dr", "Ln", "Ct", "Pl")},
    "bend": "bnd", "ferry": "fry", "hill": "hl", "mill": "ml", "park": "park", "spring": "spg", "lake": "lk", "ridge": "rdg",
    "union": "un", "meadow": "mdw", "summit": "smt", "valley": "vly", "run": "run", "center": "ctr"}  # fmt: skip
TYPES |= {short: short for short in TYPES.values()}


class Name(NamedTuple):
    """The fields of a name, without blanks around them."""

    fedirp: str
    fename: str
    fetype: str
    fedirs: str


class Segment(NamedTuple):
    tlid: int
    names: list[Name]
    sides: list[tuple[str, int, int, str]]  # letter, first and last number, ZIP Code
    ends: tuple[int, int, int, int] | None
    shape: list[Point] | None  # None if the county has no shapes


class Found(NamedTuple):
    rank: tuple[int, ...]
    tlid: int
    side: str
    place: tuple[str, str] | None


class Index:
    """The segments of a county by name."""

    def __init__(self, folder: Path, code: str) -> None:
        def lines(record_type: int) -> list[str]:
            return (folder / f"TGR{code}.RT{record_type}").read_text("latin-1").splitlines()

        features = {
            int(line[10:18]): (line[18:20], line[20:50], line[50:54], line[54:56]) for line in reversed(lines(5))
        }
        names: dict[str, list[tuple[str, ...]]] = defaultdict(list)
        sides: dict[str, list[tuple[str, str, str]]] = defaultdict(list)
        for line in lines(4):
            for at in range(18, 58, 8):
                if line[at : at + 8].strip():
                    names[line[5:15]].append(features[int(line[at : at + 8])])
        for line in lines(6):
            sides[line[5:15]] += [("L", line[18:40], line[66:71]), ("R", line[40:62], line[71:76])]
        path = folder / f"TGR{code}.RT2"
        shapes = read_shapes(path) if path.exists() else None
        self.segments: list[Segment] = []
        self.by_name: dict[str, list[tuple[Segment, Name]]] = defaultdict(list)
        for line in lines(1):
            own = (line[17:19], line[19:49], line[49:53], line[53:55])
            ranges = [("L", line[58:80], line[106:111]), ("R", line[80:102], line[111:116]), *sides[line[5:15]]]
            segment = Segment(
                int(line[5:15]),
                [Name(*map(str.strip, name)) for name in (own, *names[line[5:15]])],
                [(side, int(both[:11]), int(both[11:]), code.strip()) for side, both, code in ranges if both.strip()],
                ends_of(line),
                None if shapes is None else shapes.get(int(line[5:15]), []),
            )
            self.segments.append(segment)
            for name in segment.names:
                self.by_name[name.fename.lower()].append((segment, name))

    def answer(self, number: int, street: str, zip_code: str) -> tuple[str, list[Found]]:
        """Returns Match, Tie or the reason, and the best hits."""
        hits: list[Found] = []
        street_exists = False
        for name, prefix, type_, suffix in self.splits(street.lower().replace(".", "").split()):
            for segment, (fedirp, fename, fetype, fedirs) in self.by_name[name]:
                if not fename:
                    continue
                pairs = [(prefix, fedirp.lower()), (type_, fetype.lower()), (suffix, fedirs.lower())]
                street_exists |= all(wanted in ("", has) for wanted, has in pairs)
                if all(wanted == has or not wanted or not has for wanted, has in pairs):
                    wanted, has = {prefix, suffix} - {""}, {fedirp.lower(), fedirs.lower()} - {""}
                    if wanted and has and not wanted & has:
                        continue
                    exact = all(wanted == has for wanted, has in pairs)
                    unconfirmed = len(wanted - has) + (type_ != "" and fetype == "")
                    hits += self.on(segment, number, zip_code, (not exact, unconfirmed))
        if not hits:
            return ("no_such_number_on_street" if street_exists else "no_such_street"), []
        best = min(hit.rank for hit in hits)
        if best[0]:
            return ("other_zip" if any(hit.rank[0] == 2 for hit in hits) else "no_zip"), []
        hits = [hit for hit in hits if hit.rank == best]
        return ("Tie" if len({hit.place for hit in hits}) > 1 else "Match"), hits

    def on(self, segment: Segment, number: int, zip_code: str, rank: tuple[int, ...]) -> Iterator[Found]:
        for side, first, last, code in segment.sides:
            if min(first, last) <= number <= max(first, last) and (first % 2 != last % 2 or first % 2 == number % 2):
                agrees = 1 if not zip_code or not code else 0 if zip_code == code else 2
                yield Found((agrees, *rank), segment.tlid, side, place(segment, number, first, last))

    def splits(self, words: list[str]) -> Iterator[tuple[str, str, str, str]]:
        """Yields the names of the data in a string, with the words before and after them."""
        for first in range(len(words)):
            prefix = " ".join(words[:first])
            if prefix and prefix not in DIRECTIONS:
                continue
            for after in range(first + 1, len(words) + 1):
                rest = words[after:]
                type_ = TYPES.get(rest[0], "") if rest else ""
                for used in {0, int(bool(type_))}:
                    suffix = " ".join(rest[used:])
                    if not suffix or suffix in DIRECTIONS:
                        parts = DIRECTIONS.get(prefix, ""), type_ if used else "", DIRECTIONS.get(suffix, "")
                        for name in self.same(" ".join(words[first:after])):
                            yield name, *parts

    @staticmethod
    def same(name: str) -> list[str]:
        """Returns the name, and the full name of a numbered road."""
        for full, short in SHORT_ROUTES.items():
            for start in short:
                number = name.removeprefix(start.lower().replace(".", "") + " ")
                if number.isdigit() and number != name:
                    return [name, f"{full.lower()} {number}"]
        return [name]


def ends_of(record: str) -> tuple[int, int, int, int] | None:
    """Returns the longitude and the latitude of both ends of a segment, or None if one of the four is missing."""
    fields = record[190:200], record[200:209], record[209:219], record[219:228]
    if not all(map(str.strip, fields)):
        return None
    longitude, latitude, to_longitude, to_latitude = map(int, fields)
    return longitude, latitude, to_longitude, to_latitude


def place(segment: Segment, number: int, first: int, last: int) -> tuple[str, str] | None:
    """Returns the place of a house number in degrees, along the shape if the county has shapes."""
    if segment.ends is None:
        return None
    start, end = Point(*segment.ends[:2]), Point(*segment.ends[2:])
    part, whole = abs(number - first), abs(last - first) or 1
    if segment.shape is None:
        spot = place_between(start, end, part, whole)
    else:
        spot = place_along([start, *segment.shape, end], part, whole)
    return degrees(spot.longitude), degrees(spot.latitude)


class Drawn(NamedTuple):
    """An address: how it was altered, its segment and side, and the input for the index."""

    kind: str
    tlid: int
    side: str
    place: tuple[str, str] | None
    text: str
    number: int
    street: str
    zip: str


# Alterations of an address, and whether it can still be found on its own segment.
HARMLESS = ["canonical", "long words", "capitals", "unit", "blanks", "short route"]
SPOILS = {
    "direction moved": True,
    "other ZIP Code": True, "no ZIP Code": True, "no direction": True, "no type": True, "other type": False, "other direction": True,
    "misspelt": False, "other number": False, "hyphenated": False, "no number": False, "box": False,
}  # fmt: skip
REASONS = {
    "hyphenated": "no_such_number_on_street", "no number": "no_house_number",
    "box": "po_box_or_rural_route",
}  # fmt: skip


def altered(random: Random, kind: str, parts: list[str]) -> list[str]:
    """Returns direction, name, type and direction as they are written."""
    if kind == "long words":
        return [LONG.get(part, part) if at != 1 else part for at, part in enumerate(parts)]
    if kind == "capitals":
        return [part.upper() for part in parts]
    if kind == "direction moved":
        return [parts[3], parts[1], parts[2], parts[0]]
    if kind == "box":
        return ["", "", "", ""]
    if kind == "short route":
        for full, short in SHORT_ROUTES.items():
            if parts[1].startswith(full + " ") and parts[1].split()[-1].isdigit():
                parts[1] = f"{random.choice(short)} {parts[1].split()[-1]}"
    elif kind == "no direction":
        parts[0] = parts[3] = ""
    elif kind == "no type":
        parts[2] = ""
    elif kind == "other type":
        parts[2] = OTHER_TYPES.get(parts[2], "St")
    elif kind == "other direction":
        parts[0] = random.choice(["N", "S", "E", "W"])
    elif kind == "misspelt":
        parts[1] = parts[1][:-1] + "qx"
    return parts


def draw(random: Random, index: Index, kind: str) -> Drawn:
    while True:
        segment = random.choice(index.segments)
        name = random.choice(segment.names)
        if segment.sides and name[1]:
            break
    side, first, last, zip_code = random.choice(segment.sides)
    number = random.randrange(min(first, last), max(first, last) + 1, 2 if first % 2 == last % 2 else 1)
    spot = place(segment, number, first, last)
    house, parts, unit = str(number), altered(random, kind, list(name)), ""
    if kind == "unit":
        unit = random.choice([" Apt 4", ", Unit B-2", " #12", ", Ste. 200", " Bldg 3 Apt C", " 2nd Fl", " Rear"])
    elif kind == "other ZIP Code":
        zip_code = "99999"
    elif kind == "no ZIP Code":
        zip_code = ""
    elif kind == "other number":
        number += 2 * random.randint(40, 4000)
        house = str(number)
    elif kind in REASONS:
        numbers = {"hyphenated": f"{number}-2", "box": "P.O. Box 12"}
        house = numbers.get(kind, "")
    street = " ".join(part for part in parts if part)
    text = f"{house}   {street} " if kind == "blanks" else f"{house} {street}{unit}"
    return Drawn(kind, segment.tlid, side, spot, text, number, street, zip_code)


@pytest.fixture(scope="module")
def many_segments(tmp_path_factory: pytest.TempPathFactory) -> Path:
    """Writes a county of some thousand segments: several from make_county, each with its own TLIDs."""
    maker = module(TOOLS / "make_county.py")
    folder = tmp_path_factory.mktemp("county")
    chains = []
    for part in range(PARTS):
        for chain in maker.county(maker.Dice(2006 + part)):
            for segment in chain:
                segment["TLID"] = str(int(segment["TLID"]) + 10_000 * part)
            chains.append(chain)
    segments = [segment for chain in chains for segment in chain]
    maker.write(folder, (segments, *maker.joined(maker.Dice(59), chains)))
    return folder


def module(path: Path) -> ModuleType:
    spec = importlib.util.spec_from_file_location(path.stem, path)
    assert spec and spec.loader
    loaded = importlib.util.module_from_spec(spec)
    sys.modules[path.stem] = loaded
    spec.loader.exec_module(loaded)
    return loaded


@pytest.mark.usefixtures("extractd", "scratch")
@pytest.mark.parametrize("code", ["01007", "01001"])
def test_index(code: str, many_segments: Path) -> None:
    folder = EXAMPLES / "town" if code == "01007" else many_segments
    index, random = Index(folder, code), Random(code)
    kinds = [random.choice(HARMLESS) for _ in range(ADDRESSES - SPOILT)]
    kinds += [random.choice(list(SPOILS)) for _ in range(SPOILT)]
    drawn = [draw(random, index, kind) for kind in kinds]
    addresses = [(str(at), address.text, "Town", "AL", address.zip) for at, address in enumerate(drawn)]
    matches = list(tigerline.geocode(addresses, folder, code))
    counts: Counter[str] = Counter()
    for at, (address, match) in enumerate(zip(drawn, matches, strict=True)):
        assert match.address.id == str(at)
        check(index, address, match)
        counts[match.status] += 1
    assert counts["Match"] > ADDRESSES / 3 and counts["No_Match"] > SPOILT / 3


def check(index: Index, drawn: Drawn, match: tigerline.Match) -> None:
    if drawn.kind in REASONS:
        assert (match.status, *match.reasons) == ("No_Match", REASONS[drawn.kind]), drawn
        return
    expected, hits = index.answer(drawn.number, drawn.street, drawn.zip)
    if expected.startswith(("no_", "other_")) and drawn.kind in ("other type", "other direction"):
        assert match.status != "Match" or {*match.reasons} <= {"type", "direction", "route"}, (drawn, match)
        return
    if expected.startswith(("no_", "other_")):
        assert (match.status, *match.reasons) == ("No_Match", expected), drawn
        return
    assert match.status == expected, (drawn, match, hits)
    if expected == "Match":
        found = f"{match.longitude:.6f}", f"{match.latitude:.6f}"
        assert (match.tlid, match.side, found) in [hit[1:] for hit in hits], (drawn, match)
        assert match.is_exact == (hits[0].rank == (0, False, 0)), (drawn, match)
        check_segment(drawn, match, found)


def check_segment(drawn: Drawn, match: tigerline.Match, found: tuple[str, str]) -> None:
    """Fails if a match is on a wrong segment: neither the address's own nor one with exactly the written address."""
    is_own = (match.tlid, match.side) == (drawn.tlid, drawn.side) or found == drawn.place
    if drawn.kind in HARMLESS:
        assert is_own and match.is_exact, (drawn, match)
    elif SPOILS[drawn.kind]:
        assert is_own or match.is_exact, (drawn, match)
