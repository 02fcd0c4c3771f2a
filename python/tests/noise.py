"""Draws addresses of made-up towns, exact ones and noisy ones, each with the segment and the side where it is.

    PYTHONPATH=. python3 tests/noise.py [FOLDER]

measures `tigerline geocode` on 2,000 addresses over 20 towns, on addresses of another county and of another state, on addresses whose
street is cut from the data, and on 51 spellings of numbered roads. FOLDER keeps the counties, which take minutes to draw. EXTRACTD
names the program. postgis.py measures PostGIS on the same addresses.
"""

import re
import sys
import tempfile
import time
from collections import Counter, defaultdict
from collections.abc import Callable, Iterator, Sequence
from dataclasses import dataclass, replace
from pathlib import Path
from random import Random
from typing import NamedTuple

import tigerline
from test_geocoding_index import DIRECTIONS, LONG, Index, Segment, place
from towns import CITIES, SECOND_CITIES, Town, write_county

TYPES = ["St", "Ave", "Rd", "Dr", "Ln", "Ct", "Blvd", "Pl", "Way", "Cir"]
LETTERS = "abcdefghijklmnopqrstuvwxyz"
SPOKEN = {
    "US Hwy": ["US", "US-", "U.S. Hwy", "Hwy", "Highway", "Route", "Rt", "US Route", "United States Highway"],
    "State Hwy": [
        "SR",
        "AL",
        "AL-",
        "AL Hwy",
        "Alabama Highway",
        "Alabama",
        "State Rd",
        "St Rt",
        "Hwy",
        "Highway",
        "Route",
    ],
    "County Road": ["CR", "C R", "Co Rd", "Cty Rd", "Co Hwy", "County Hwy", "County", "Co", "Road", "Rd", "CH", "C.R."],
}
# Spellings of numbered roads, by the words in the data.
ROADS = {
    "US Hwy": """
        US {0} | US-{0} | U.S. {0} | US Hwy {0} N | Hwy {0} S | Hwy {0} | Highway {0} | Route {0} | Rt {0} | US Highway {0}
        U.S. Hwy {0} | US Route {0} | US Rt {0} | United States Hwy {0}
    """,
    "State Hwy": """
        SR {0} | SR-{0} | S.R. {0} | State Route {0} | State Rt {0} | St Rt {0} | State Highway {0} | State Rd {0} | St Hwy {0}
        AL {0} | AL-{0} | AL Hwy {0} | Alabama {0} | Alabama Hwy {0} | Alabama Highway {0} | Hwy {0} | Highway {0} | Route {0}
        Rt {0}
    """,
    "County Road": """
        CR {0} | CR-{0} | C.R. {0} | C R {0} | Co Rd {0} | Co. Rd. {0} | Co Road {0} | County Rd {0} | Cty Rd {0} | Cnty Rd {0}
        County Hwy {0} | Co Hwy {0} | CH {0} | County Route {0} | County {0} | Co {0} | Road {0} | Rd {0}
    """,
}
ADDRESSES_OF_ROADS = 12


class Spot(NamedTuple):
    """A place on a segment: its TLID, and the share of the segment before it, from 0 to 1."""

    tlid: int
    share: float


@dataclass(frozen=True)
class Drawn:
    """An address, what was done to it, and where it is: a segment and a side, a crossing, or nowhere.

    `places` are on straight segments, and empty if the address is nowhere. `spot` is where it was drawn.
    """

    kind: str
    number: str
    predir: str
    name: str
    type: str
    sufdir: str
    city: str
    zip: str
    places: frozenset[tuple[str, str] | None]
    spot: Spot
    written: str = ""

    @property
    def street(self) -> str:
        parts = (self.number, self.predir, self.name, self.type, self.sufdir)
        return self.written or " ".join(part for part in parts if part)


class Source:
    """The segments of a county, from which addresses are drawn."""

    def __init__(self, folder: Path, code: str, towns: Sequence[Town], seed: str) -> None:
        self.index, self.towns, self.random = Index(folder, code), towns, Random(seed)
        self.of_name: dict[tuple[object, ...], list[tuple[Segment, tuple[str, int, int, str]]]] = defaultdict(list)
        for segment in self.index.segments:
            for name in segment.names:
                for side in segment.sides:
                    self.of_name[name, side[3]].append((segment, side))
        self.at: dict[tuple[int, int], list[Segment]] = defaultdict(list)
        for segment in self.index.segments:
            if segment.ends and segment.names[0][1] and segment.sides:
                for end in (segment.ends[:2], segment.ends[2:]):
                    self.at[end].append(segment)

    def city(self, segment: Segment) -> str:
        return self.towns[(segment.tlid - 207_000_000) // 100_000].city

    def exact(self, accepts: Callable[[tuple[str, ...]], bool] = lambda name: True) -> Drawn:
        """Draws an address that is at one place only."""
        while True:
            segment = self.random.choice(self.index.segments)
            name = self.random.choice(segment.names)
            if not segment.sides or not name[1] or not accepts(name):
                continue
            side, first, last, zip_code = self.random.choice(segment.sides)
            number = self.random.randrange(min(first, last), max(first, last) + 1, 2 if first % 2 == last % 2 else 1)
            places = {
                place(one, number, low, high)
                for one, (_, low, high, _) in self.of_name[name, zip_code]
                if min(low, high) <= number <= max(low, high) and (low % 2 != high % 2 or low % 2 == number % 2)
            }
            if len(places) == 1:
                spot = Spot(segment.tlid, (number - first) / ((last - first) or 1))
                return Drawn("exact", str(number), *name, self.city(segment), zip_code, frozenset(places), spot)

    def crossing(self) -> Drawn:
        """Draws a corner of two streets with different names that meet nowhere else in their ZIP Code."""
        while True:
            end = self.random.choice(list(self.at))
            first, *others = self.at[end]
            second = next((one for one in others if one.names[0][1] != first.names[0][1]), None)
            zips = {side[3] for side in first.sides} & {side[3] for side in second.sides} if second else set()
            if second and len(zips) == 1 and self._meets(first, second, zips) == {end}:
                one, other = (" ".join(filter(None, segment.names[0])) for segment in (first, second))
                longitude, latitude = (
                    f"{'-' if value < 0 else ''}{abs(value) // 10**6}.{abs(value) % 10**6:06}" for value in end
                )
                spot = Spot(first.tlid, 0 if first.ends and end == first.ends[:2] else 1)
                text = f"{one}{self.random.choice([' & ', ' and ', ' at ', ' @ ', '/'])}{other}"
                places = frozenset({(longitude, latitude)})
                return Drawn("crossing", "", "", "", "", "", self.city(first), zips.pop(), places, spot, text)

    def _meets(self, first: Segment, second: Segment, zips: set[str]) -> set[tuple[int, int]]:
        ends = []
        for segment in (first, second):
            same = [one for one, _ in self.of_name[segment.names[0], next(iter(zips))]]
            ends.append({end for one in same if one.ends for end in (one.ends[:2], one.ends[2:])})
        return ends[0] & ends[1]


def one_edit(random: Random, name: str) -> str:
    """Returns the name with one letter inserted, dropped or changed."""
    while True:
        at = random.randrange(len(name))
        letter = random.choice(LETTERS)
        edited = random.choice(
            [name[:at] + letter + name[at:], name[:at] + name[at + 1 :], name[:at] + letter + name[at + 1 :]]
        )
        if edited.lower() != name.lower() and edited.strip() == edited:
            return edited


def transposed(random: Random, name: str) -> str:
    pairs = [
        at for at in range(len(name) - 1) if name[at].lower() != name[at + 1].lower() and name[at : at + 2].isalpha()
    ]
    at = random.choice(pairs)
    return name[:at] + name[at + 1] + name[at] + name[at + 2 :]


def is_word(name: tuple[str, ...]) -> bool:
    return len(name[1]) > 3 and not any(character.isdigit() for character in name[1])


def has_type(name: tuple[str, ...]) -> bool:
    return bool(name[2])


def has_direction(name: tuple[str, ...]) -> bool:
    return bool(name[0])


def is_route(name: tuple[str, ...]) -> bool:
    return name[1].rsplit(" ", 1)[0] in SPOKEN


def spoken(random: Random, name: str) -> str:
    system, number = name.rsplit(" ", 1)
    word = random.choice(SPOKEN[system])
    return f"{word}{number}" if word.endswith("-") else f"{word} {number}"


def roads(source: Source) -> list[Drawn]:
    """Draws addresses on numbered roads in all their spellings."""
    drawn = []
    for words, spellings in ROADS.items():
        found = [source.exact(lambda name: name[1].startswith(f"{words} ")) for _ in range(ADDRESSES_OF_ROADS)]
        for spelling in re.split(r"[|\n]", spellings.strip()):
            for one in found:
                road = spelling.strip().format(one.name.removeprefix(f"{words} "))
                text = " ".join(filter(None, (one.number, one.predir, road, one.type, one.sufdir)))
                drawn.append(replace(one, kind=f"{spelling.strip().format('#')} for {words}", written=text))
    return drawn


def beyond(source: Source, drawn: Drawn) -> Drawn:
    number = int(drawn.number) + 20_000
    return replace(drawn, number=str(number), places=frozenset())


def spelled(random: Random, drawn: Drawn) -> Drawn:
    if random.random() < 0.5:
        return replace(drawn, predir=LONG[drawn.predir])
    return replace(drawn, predir="", sufdir=random.choice([drawn.predir, LONG[drawn.predir]]))


def other_zip(source: Source, drawn: Drawn) -> str:
    """Returns another ZIP Code of the town, or one with a wrong digit."""
    town = next(town for town in source.towns if town.city == drawn.city)
    at = source.random.randrange(5)
    mistyped = [drawn.zip[:at] + digit + drawn.zip[at + 1 :] for digit in "0123456789"]
    return source.random.choice([one for one in source.random.choice((town.zips, mistyped)) if one != drawn.zip])


def of_unit(random: Random, drawn: Drawn) -> Drawn:
    unit = random.choice([" Apt 4", ", Unit B", " #12", " Ste 200", " Bldg 3", ", Lot 7", " # 2"])
    return replace(drawn, written=drawn.street + unit)


def more_words(random: Random, drawn: Drawn) -> Drawn:
    street = drawn.street.removeprefix(drawn.number).strip()
    forms = ("{0}B {1}", "{0}-B {1}", "{0} 1/2 {1}", "Apt 4, {0} {1}", "#{0} {1}", "{0} {1} c/o Smith", "{0} {1} (rear)",
        "{0} {1} No. 4", "City Hall, {0} {1}", "{0} {1}, {2}")  # fmt: skip
    return replace(drawn, written=random.choice(forms).format(drawn.number, street, drawn.city))


def noisy(source: Source, kind: str) -> Drawn:
    """Draws an address and spoils it."""
    random = source.random
    if kind == "crossing":
        return source.crossing()
    accepts, spoil = SPOILERS[kind]
    return replace(spoil(source, source.exact(accepts)), kind=kind)


Spoiler = Callable[[Source, Drawn], Drawn]
SPOILERS: dict[str, tuple[Callable[[tuple[str, ...]], bool], Spoiler]] = {
    "one edit": (is_word, lambda s, d: replace(d, name=one_edit(s.random, d.name))),
    "transposed": (is_word, lambda s, d: replace(d, name=transposed(s.random, d.name))),
    "two edits": (is_word, lambda s, d: replace(d, name=one_edit(s.random, one_edit(s.random, d.name)))),
    "one edit, no type": (lambda n: is_word(n) and has_type(n), lambda s, d: replace(d, name=one_edit(s.random, d.name), type="")),
    "no type": (has_type, lambda s, d: replace(d, type="")),
    "type spelled": (lambda n: n[2] in LONG, lambda s, d: replace(d, type=s.random.choice([LONG[d.type], d.type.upper() + "."]))),
    "other type": (has_type, lambda s, d: replace(d, type=s.random.choice([one for one in TYPES if one != d.type]))),
    "no direction": (has_direction, lambda s, d: replace(d, predir="")),
    "direction spelled": (has_direction, lambda s, d: spelled(s.random, d)),
    "other ZIP Code": (lambda n: True, lambda s, d: replace(d, zip=other_zip(s, d))),
    "no ZIP Code": (lambda n: True, lambda s, d: replace(d, zip="")),
    "highway": (is_route, lambda s, d: replace(d, name=spoken(s.random, d.name))),
    "more words": (lambda n: True, lambda s, d: more_words(s.random, d)),
    "unit": (lambda n: True, lambda s, d: of_unit(s.random, d)),
    "box": (lambda n: True, lambda s, d: replace(d, written=f"PO Box {d.number}", places=frozenset())),
    "number beyond": (lambda n: True, beyond),
}  # fmt: skip
SHARES = {
    "one edit": 150, "transposed": 80, "two edits": 80, "one edit, no type": 20, "no type": 80, "type spelled": 60,
    "other type": 60, "no direction": 60, "direction spelled": 60, "other ZIP Code": 80, "no ZIP Code": 60, "highway": 60,
    "unit": 50, "box": 20, "more words": 20, "number beyond": 20, "crossing": 40,
}  # fmt: skip


def addresses(drawn: Sequence[Drawn], state: str = "AL") -> list[tuple[str, ...]]:
    return [(str(at), one.street, one.city, state, one.zip) for at, one in enumerate(drawn)]


def outcome(drawn: Drawn, match: tigerline.Match) -> str:
    """Returns right, wrong, tie or none."""
    if match.status != tigerline.Status.MATCH:
        return "tie" if match.status == tigerline.Status.TIE else "none"
    return "right" if (f"{match.longitude:.6f}", f"{match.latitude:.6f}") in drawn.places else "wrong"


def measure(drawn: Sequence[Drawn], data: Path, state: str = "AL") -> dict[str, Counter[str]]:
    """Geocodes addresses, and returns how often each outcome is there by kind."""
    counts: dict[str, Counter[str]] = defaultdict(Counter)
    for one, match in zip(drawn, tigerline.geocode(addresses(drawn, state), data), strict=True):
        counts[one.kind][outcome(one, match)] += 1
        if "-v" in sys.argv and outcome(one, match) != "right":
            print(one.kind, one.street, one.city, one.zip, match.status, *match.reasons, match.matched)
    return counts


def cut(folder: Path, data: Path, code: str, names: set[str]) -> Path:
    """Copies a county without streets of these names: they are called otherwise."""
    folder.mkdir(exist_ok=True)
    for path in data.glob(f"TGR{code}.RT*"):
        at = {"1": 19, "5": 20}.get(path.name[-1])
        lines = path.read_bytes().split(b"\r\n")
        if at:
            lines = [
                line[:at] + b"Cut 777".ljust(30) + line[at + 30 :]
                if line[at : at + 30].decode("latin-1").strip() in names
                else line
                for line in lines
            ]
        (folder / path.name).write_bytes(b"\r\n".join(lines))
    return folder


def cut_parts(drawn: Sequence[Drawn], parts: int) -> Iterator[tuple[set[str], list[Drawn]]]:
    """Yields a part of the names at a time, and the addresses that have them, which are nowhere if these are cut."""
    names = sorted({one.name for one in drawn})
    for part in range(parts):
        missing = set(names[part::parts])
        yield missing, [replace(one, places=frozenset()) for one in drawn if one.name in missing]


def measure_cut(drawn: Sequence[Drawn], data: Path, code: str, scratch: Path, parts: int = 10) -> Counter[str]:
    """Geocodes addresses whose streets are cut from the data, a part of the names at a time: every match is wrong."""
    total: Counter[str] = Counter()
    for missing, nowhere in cut_parts(drawn, parts):
        total += sum(measure(nowhere, cut(scratch, data, code, missing)).values(), Counter())
    return total


def draw_counties(folder: Path) -> list[Town]:
    """Draws the counties `first` and `second` that aren't there yet, and returns the towns of the first."""
    if not (folder / "second").exists():
        write_county(folder / "second", "01009", cities=SECOND_CITIES, first_zip=36100)
    return write_county(folder / "first") if not (folder / "first").exists() else towns_of(CITIES, 35100)


def draw_addresses(folder: Path, towns: Sequence[Town]) -> tuple[list[Drawn], list[Drawn]]:
    """Draws 1,000 exact addresses of the first county, and 1,000 noisy ones."""
    source = Source(folder / "first", "01007", towns, "first")
    exact = [source.exact() for _ in range(1000)]
    return exact, [noisy(source, kind) for kind, count in SHARES.items() for _ in range(count)]


def main() -> None:
    with tempfile.TemporaryDirectory() as temporary:
        folder = next((Path(word) for word in sys.argv[1:] if word != "-v"), Path(temporary))
        towns = draw_counties(folder)
        exact, noise = draw_addresses(folder, towns)
        started = time.process_time(), time.monotonic()
        report("exact", measure(exact, folder / "first"))
        report("noise", measure(noise, folder / "first"))
        print(
            f"{time.process_time() - started[0]:.2f} s of Python, {time.monotonic() - started[1]:.2f} s, for 2000 addresses"
        )
        report("other county", measure(exact, folder / "second"))
        report("other county, noise", {"all": sum(measure(noise, folder / "second").values(), Counter())})
        report("other state", measure(exact, folder / "first", "GA"))
        report("roads", measure(roads(Source(folder / "first", "01007", towns, "roads")), folder / "first"))
        report("street cut", {"all": measure_cut(exact, folder / "first", "01007", Path(temporary) / "cut")})


def towns_of(cities: list[str], first_zip: int) -> list[Town]:
    zips = range(first_zip, first_zip + 3 * len(cities), 3)
    return [Town(city, "", "", (f"{at}", f"{at + 1}", f"{at + 2}")) for city, at in zip(cities, zips, strict=True)]


def report(title: str, counts: dict[str, Counter[str]]) -> None:
    total: Counter[str] = sum(counts.values(), Counter())
    for kind, counter in [*counts.items(), ("all", total)]:
        if kind != "all" or len(counts) != 1 or kind in counts:
            print(
                f"{title:20} {kind:34} {counter.total():5}",
                *(f"{name} {counter[name]}" for name in ("right", "wrong", "tie", "none")),
            )


if __name__ == "__main__":
    main()
