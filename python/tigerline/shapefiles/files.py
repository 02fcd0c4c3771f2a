"""Finds the shapefiles of counties by their names, and opens them."""

import re
import warnings
from collections.abc import Collection, Container, Iterable, Iterator, Mapping, Sequence
from contextlib import contextmanager
from dataclasses import dataclass
from functools import partial
from itertools import chain, islice
from pathlib import Path
from typing import Any

from ..archives import members, opened_archive, require_regular, unpack
from ..gdal import read_layer
from ..interrupts import Interrupts
from ..sources import chosen_codes, nearest, walk
from .rules import CENSUSES, GEOMETRY, OF_CENSUS, AnyRow, Kind

EXAMPLE = "tl_2025_01001_edges.zip"
NATION = "us"
CODE_LENGTH = 5  # of a county
# The first files of the kind begin with fe. Those of the year of a census may end with it, as place10.
_NAME = re.compile(
    r"(?:tl|fe)_((?:19|20)[0-9]{2})_(us|[0-9]{2}|[0-9]{5})_"
    rf"({'|'.join(Kind)})(?:{'|'.join(CENSUSES)})?\.(zip|shp|shx|dbf|cpg)",
    re.IGNORECASE,
)


@dataclass(frozen=True)
class Shapefile:
    """A shapefile: its kind, the county, state or nation that it covers, its year, and its files by their suffixes, or a zip file."""

    kind: Kind
    area: str
    year: str
    folder: Path
    files: Mapping[str, Path]

    @property
    def place(self) -> Path:
        """The file to name in a message."""
        return next(self.files[suffix] for suffix in ("zip", "dbf", "shp") if suffix in self.files)


Found = dict[tuple[Kind, str, str], list[Shapefile]]  # by kind, area and year


@dataclass(frozen=True)
class Source:
    """The shapefiles of a county by their kinds. Those but edges may be missing."""

    code: str
    year: str
    files: Mapping[Kind, Shapefile]


def counties_among(sources: Sequence[Path], counties: Iterable[str] | None, year: str | None) -> list[Source]:
    """Returns the requested counties among the shapefiles in folders and the folders in them, or the ones that are named.

    The counties are those of `sources.counties_in`. Without a year, each has to be there of one year only.
    """
    found: Found = {}
    # A shapefile may be named by several of its files.
    for one in {one.place: one for source in sources for one in _shapefiles_of(source)}.values():
        found.setdefault((one.kind, one.area, one.year), []).append(one)
    years: dict[str, list[str]] = {}
    for kind, area, own_year in found:
        if kind is Kind.EDGES and year in (None, own_year):
            years.setdefault(area, []).append(own_year)
    _report_others(found, years)
    of_year = f"tl_{year or '????'}"
    codes = chosen_codes(counties, years, lambda code: f"there is no {of_year}_{code}_edges among the sources")
    if not codes:
        example = EXAMPLE.replace("2025", year or "2025")
        raise FileNotFoundError(f"{_named(sources)} has no county: no file such as {example}")
    return [_source(code, _only_year(code, years[code], found), found) for code in codes]


def _report_others(found: Found, codes: Container[str]) -> None:
    """Warns of the files of counties without edges."""
    others = [files[0].place for (_, area, _), files in found.items() if len(area) == CODE_LENGTH and area not in codes]
    if others:
        count = len(others) - 1
        more = f" and {count} other{'s' if count > 1 else ''} are" if count else " is"
        warnings.warn(f"{others[0]}{more} left out: there are no edges of the county", stacklevel=3)


def _named(sources: Sequence[Path]) -> str:
    return str(sources[0]) if len(sources) == 1 else f"none of {', '.join(map(str, sources))}"


def _only_year(code: str, years: Collection[str], found: Found) -> str:
    first, *others = sorted(years)
    if others:
        places = [found[Kind.EDGES, code, year][0].place for year in (first, others[0])]
        named = f"{first} and of {others[0]}, {places[0]} and {places[1]}"
        raise ValueError(f"county {code} is there of {named}: choose by --year")
    return first


def _source(code: str, year: str, found: Found) -> Source:
    areas = {Kind.PLACE: code[:2], Kind.COUSUB: code[:2], Kind.COUNTY: NATION}
    files = {}
    for kind in Kind:
        area = areas.get(kind, code)
        if candidates := found.get((kind, area, year)):
            files[kind] = nearest(candidates, f"tl_{year}_{area}_{kind} is there")
    return Source(code, year, files)


def _shapefiles_of(source: Path) -> Iterator[Shapefile]:
    if source.is_dir():
        for folder, names in walk(source):
            yield from _grouped(folder, names)
        return
    source.stat()
    stem, is_packed = source.name.partition(".")[0], source.suffix.lower() == ".zip"
    if not _NAME.fullmatch(f"{stem}.dbf"):
        raise OSError(f"{source} isn't named as the Census Bureau names its shapefiles, such as {EXAMPLE}")
    beside = sorted(path.name for path in source.parent.glob(f"{stem}.*") if path.suffix.lower() != ".zip")
    yield from _grouped(source.parent, [source.name] if is_packed else beside)


def _grouped(folder: Path, names: Iterable[str]) -> Iterator[Shapefile]:
    """Yields the shapefiles of a folder. Unpacked files take precedence over a zip file."""
    groups: dict[tuple[str, str, Kind], dict[str, Path]] = {}
    for file in names:
        if name := _NAME.fullmatch(file):
            files = groups.setdefault((name[1], name[2].lower(), Kind(name[3].lower())), {})
            if (suffix := name[4].lower()) in files:
                raise OSError(f"{folder} has {files[suffix].name} and {file}, which are the same file")
            files[suffix] = folder / file
    for (year, area, kind), files in groups.items():
        is_unpacked = "shp" in files or "dbf" in files
        kept = {suffix: path for suffix, path in files.items() if (suffix != "zip") == is_unpacked}
        if is_unpacked or "zip" in files:
            yield Shapefile(kind, area, year, folder, kept)


@contextmanager
def opened(shapefile: Shapefile, scratch: Path, interrupts: Interrupts) -> Iterator[Path]:
    """Makes links to the files of a shapefile, or unpacks them, and yields what GDAL opens.

    Only edges need their shapes.
    """
    suffixes = ("shp", "shx", "dbf", "cpg") if shapefile.kind is Kind.EDGES else ("dbf", "cpg")
    made = {suffix: scratch / f"{shapefile.kind}.{suffix}" for suffix in suffixes}
    if archive := shapefile.files.get("zip"):
        _unpack(archive, shapefile, made, interrupts)
    else:
        for suffix in made.keys() & shapefile.files.keys():
            require_regular(shapefile.files[suffix])
            made[suffix].symlink_to(shapefile.files[suffix].absolute())
    for suffix in suffixes[:-1]:
        if not made[suffix].exists():
            raise FileNotFoundError(f"{shapefile.place}: it has no {_stem(shapefile)}.{suffix}")
    yield made[suffixes[0]]
    for path in made.values():
        path.unlink(missing_ok=True)


def _stem(shapefile: Shapefile) -> str:
    return f"tl_{shapefile.year}_{shapefile.area}_{shapefile.kind}"


def _unpack(path: Path, shapefile: Shapefile, made: Mapping[str, Path], interrupts: Interrupts) -> None:
    with opened_archive(path) as archive:
        wanted = {}
        for name, member in members(archive, path, _NAME):
            year, area, kind, suffix = (part.lower() for part in name.groups())
            if suffix in made and kind == shapefile.kind:
                if (year, area) != (shapefile.year, shapefile.area):
                    raise OSError(f"{path} has a file of another county or year: {member.filename!r}")
                if made[suffix] in wanted:
                    raise OSError(f"{path} has {name[0]} twice")
                wanted[made[suffix]] = member
        unpack(archive, path, wanted, interrupts)


@contextmanager
def opened_rows(
    shapefile: Shapefile, row: type[AnyRow], scratch: Path, interrupts: Interrupts, order: str = ""
) -> Iterator[Iterator[AnyRow]]:
    """Starts to read a shapefile, and yields its rows in the order of some columns, while this goes on."""
    with opened(shapefile, scratch, interrupts) as path:
        named = str(shapefile.place)
        with read_layer(path, f'SELECT * FROM "{path.stem}" LIMIT 1', named, interrupts) as blocks:
            (columns,) = next(blocks, [[]])
        if not columns:
            yield iter(())
            return
        wanted = [f'"{_column(columns, name, shapefile)}"' for name in row._fields if name != GEOMETRY]
        query = f'SELECT {", ".join(wanted)} FROM "{path.stem}"' + (f" ORDER BY {order}" if order else "")
        with read_layer(path, query, named, interrupts) as blocks:
            rows = chain.from_iterable(blocks)
            # As `_make` does, which takes three times as long.
            make: Any = partial(tuple.__new__, row)
            yield map(make, islice(rows, 1, None))


def _column(columns: Sequence[str], name: str, shapefile: Shapefile) -> str:
    """Returns the name of a column in a file, which may have the year of a census at its end."""
    own = {column.upper(): column for column in columns}
    for end in (*CENSUSES, "") if name in OF_CENSUS else ("", *CENSUSES):
        if name + end in own:
            return own[name + end]
    raise OSError(f"{shapefile.place}: it has no column {name}")
