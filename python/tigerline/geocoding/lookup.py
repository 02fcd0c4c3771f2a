"""Runs `extractd geocode-batch` with all readings of addresses, and gives its hits to the answers."""

import csv
import io
import warnings
from collections import defaultdict
from collections.abc import Iterable, Iterator, Sequence, Set
from contextlib import contextmanager
from dataclasses import dataclass, field
from pathlib import Path
from typing import NamedTuple

from ..extract import with_own_paths
from ..interrupts import Interrupts
from ..program import run
from ..scratch import scratch_folder
from ..sources import County, county_files, has_shapes, missing_names, record_types
from .addresses import Crossing, Reading, Street
from .choice import Answer, Hit
from .crossings import add_crossings, read_ends
from .hyphens import copy_county, hyphenated
from .street_names import OTHER_NAMES, Streets, name_key, street_names
from .towns import Cities

NO_PARTS = ("", "", "")
QUESTION_COLUMNS = ("id", "number", "name", "predir", "type", "sufdir")
HIT_COLUMNS = ("id", "status", "reason", *Hit._fields[: Hit._fields.index("first")], "from", "to")
ID, REASON, FIRST_FIELD, TLID, SIDE = map(HIT_COLUMNS.index, ("id", "reason", "longitude", "tlid", "side"))
Asked = tuple[Street, Answer]
# A house number, a name, and the directions and the type that it must have.
Question = tuple[int, str, tuple[str, str, str]]


class Asker(NamedTuple):
    """The reading that a question is for, its place among those of its address, and the answer."""

    number: int
    reading: Reading
    order: int
    answer: Answer


class Questions:
    """What is asked for some addresses, by the names of the streets."""

    def __init__(self, addresses: Iterable[Asked]) -> None:
        self._askers = [
            Asker(street.number, reading, order, answer)
            for street, answer in addresses
            for order, reading in enumerate(street.readings)
        ]
        self._by_name: dict[bytes, list[int]] = defaultdict(list)
        for at, asker in enumerate(self._askers):
            self._by_name[name_key(asker.reading.name)].append(at)

    def __bool__(self) -> bool:
        return bool(self._askers)

    def of(self, names: Set[bytes]) -> dict[Question, list[Asker]]:
        """Returns the questions for these names, each once and with its askers, in the order of the addresses.

        The program compares the first name of a segment that matches the given parts, and a segment may be called both
        `Main Ave` and `Main St`. So each question is asked with the parts and without them, since the data may omit them.
        """
        found: dict[Question, list[Asker]] = {}
        for at in sorted(at for name in self._by_name.keys() & {*names, OTHER_NAMES} for at in self._by_name[name]):
            asker = self._askers[at]
            number, reading = asker.number, asker.reading
            for given in dict.fromkeys((reading.parts, NO_PARTS)):
                found.setdefault((number, reading.name, given), []).append(asker)
        return found


class OpenCounty(NamedTuple):
    """The files of a county in a temporary folder, its cities, and its place in the order of the counties."""

    county: County
    order: int
    files: dict[str, Path]
    cities: Cities


@dataclass
class Lookup:
    """Looks addresses up in some counties. It warns once of missing files."""

    program: str
    counties: Sequence[County]
    has_warned_of_files: bool = False
    has_warned_of_cities: bool = False
    _without_cities: set[str] = field(default_factory=set)

    def answer(
        self, addresses: Sequence[Asked], crossings: Sequence[tuple[Crossing, Answer]], interrupts: Interrupts
    ) -> None:
        """Adds the hits of the addresses to their answers, and the places of crossings."""
        asked = _by_form(addresses)
        names = {reading.name.upper() for crossing, _ in crossings for street in crossing.streets for reading in street}
        for order, county in enumerate(self.counties if addresses or crossings else ()):
            with self._opened(county, order, interrupts) as opened:
                self._geocode_readings(opened, asked, interrupts)
                if crossings:
                    add_crossings(crossings, read_ends(opened.files, opened.cities, names), county.code, order)
            interrupts.check()
        self.has_warned_of_files = True
        remaining = [(street, answer) for street, answer in addresses if not answer.found]
        for order, county in enumerate(self.counties if remaining else ()):
            with self._opened(county, order, interrupts) as opened:
                self._geocode_readings(opened, _by_form(_further(opened, remaining)), interrupts)
            interrupts.check()
        self._warn_of_cities(remaining)

    @contextmanager
    def _opened(self, county: County, order: int, interrupts: Interrupts) -> Iterator[OpenCounty]:
        with county_files(county, record_types(has_shapes(county)) + "C", interrupts) as files:
            missing = missing_names(county, files)
            if missing and not self.has_warned_of_files:
                warnings.warn(missing, stacklevel=2)
            name = str(county.files.get("C") or county.archive)
            if "C" not in files:
                self._without_cities.add(county.code)
            yield OpenCounty(county, order, files, Cities(files.get("C"), name))

    def _warn_of_cities(self, addresses: Sequence[Asked]) -> None:
        """Warns once if an address has no match since the cities of a county aren't known."""
        lacking = [answer for _, answer in addresses if answer.wanted.city and not answer.found]
        counties = [found.hit.county for answer in lacking for found in answer.refused]
        unknown = [code for code in counties if code in self._without_cities]
        if unknown and not self.has_warned_of_cities:
            self.has_warned_of_cities = True
            warnings.warn(f"TGR{unknown[0]}.RTC is missing: cities can't be compared", stacklevel=2)

    def _geocode_readings(self, opened: OpenCounty, asked: tuple[Questions, Questions], interrupts: Interrupts) -> None:
        """Geocodes plain numbers in a county, and hyphenated ones in its copy with plain numbers.

        The program reads a county even if there is no question for it, and so refuses one that is faulty.
        """
        if not any(asked):
            return
        # About a quarter of the readings have a name that a segment has. The others needn't be looked up.
        names = street_names(opened.files)
        plain, with_hyphen = (questions.of(names) for questions in asked)
        self._run(opened, plain, interrupts)
        if with_hyphen:
            with scratch_folder() as folder:
                copy = opened._replace(files=copy_county(opened.files, folder))
                self._run(copy, with_hyphen, interrupts, is_copy=True)

    def _run(
        self, opened: OpenCounty, questions: dict[Question, list[Asker]], interrupts: Interrupts, is_copy: bool = False
    ) -> None:
        """Runs the program for a county or its copy."""
        county, files = opened.county, opened.files
        shape = ["--shape"] if "2" in files else []
        command = [self.program, "geocode-batch", "--addresses", "-", *shape, "--data", str(files["1"].parent)]
        try:
            given = _csv_of(questions)
            output = run([*command, county.code], interrupts, standard_input=given, county=county.code)
        except OSError as error:
            raise with_own_paths(error, county, files) from None
        _give(questions, _hits(output, opened, is_copy), opened)


def _hits(output: bytes, opened: OpenCounty, is_copy: bool) -> dict[int, list[Hit]]:
    """Returns the hits of each question whose street exists, with the names of their cities."""
    lines = read_lines(output)
    cities = opened.cities.of_segments(opened.files["1"], {line[TLID] for line in lines if line[TLID]})
    hits: dict[int, list[Hit]] = {}
    for line in lines:
        if line[TLID]:
            hit = Hit._make((*line[FIRST_FIELD:], cities.get((line[TLID], line[SIDE]), ())))
            if is_copy:
                hit = hit._replace(first=hyphenated(hit.first), last=hyphenated(hit.last))
            hits.setdefault(int(line[ID]), []).append(hit)
        elif line[REASON] == "no_such_number":
            hits[int(line[ID])] = []
    return hits


def _give(questions: dict[Question, list[Asker]], hits: dict[int, list[Hit]], opened: OpenCounty) -> None:
    """Gives the hits to those who ask. The same hit with and without parts is given once."""
    places = {question: at for at, question in enumerate(questions)}
    for at, ((number, name, given), askers) in enumerate(questions.items()):
        if at not in hits:
            continue
        for asker in askers:
            reading, answer = asker.reading, asker.answer
            if given == reading.parts:
                answer.add(reading, hits[at], (opened.order, asker.order))
                if not hits[at] and answer.may_be_in(opened.county.code):
                    answer.street_exists = True
            else:
                known = set(hits.get(places[number, name, reading.parts], ()))
                answer.add(reading, [hit for hit in hits[at] if hit not in known], (opened.order, asker.order))


def _by_form(addresses: Sequence[Asked]) -> tuple[Questions, Questions]:
    """Returns the questions with plain numbers, and those with hyphenated ones."""
    plain = Questions(asked for asked in addresses if not asked[0].hyphenated)
    return plain, Questions(asked for asked in addresses if asked[0].hyphenated)


def _further(opened: OpenCounty, addresses: Sequence[Asked]) -> list[Asked]:
    """Returns the addresses with further readings, for those without a hit."""
    streets = Streets(opened.files, opened.cities)
    return [
        (street._replace(readings=tuple(dict.fromkeys(streets.further(street.readings, answer)))), answer)
        for street, answer in addresses
        if answer.may_be_in(opened.county.code)
    ]


def _csv_of(questions: Iterable[Question]) -> bytes:
    text = io.StringIO()
    writer = csv.writer(text, lineterminator="\n")
    writer.writerow(QUESTION_COLUMNS)
    writer.writerows((at, number, name, *given) for at, (number, name, given) in enumerate(questions))
    return text.getvalue().encode("utf-8", "replace")


def read_lines(output: bytes) -> list[list[str]]:
    """Returns the lines of `geocode-batch` without their head. Raises OSError for other columns."""
    head, *lines = [*csv.reader(io.StringIO(output.decode("utf-8"), newline=""))] or [[]]
    if tuple(head) != HIT_COLUMNS:
        raise OSError(f"extractd geocode-batch wrote other columns than expected: {','.join(head)[:200]!r}")
    return lines
