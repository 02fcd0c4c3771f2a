"""Finds the files of counties as the Census Bureau ships them, and presents them as `extractd` expects them."""

import os
import re
import warnings
import zipfile
from collections.abc import Callable, Collection, Container, Iterable, Iterator, Sequence
from contextlib import contextmanager
from dataclasses import dataclass
from pathlib import Path
from typing import Protocol, TypeVar

from .archives import members, opened_archive, require_regular, unpack
from .interrupts import Interrupts
from .scratch import scratch_folder

# The states, the District of Columbia, and the territories in TIGER/Line: postal abbreviations, FIPS codes and names.
_STATES = """
    AL 01 Alabama Ala | AK 02 Alaska | AZ 04 Arizona Ariz | AR 05 Arkansas Ark | CA 06 California Calif Cal
    CO 08 Colorado Colo | CT 09 Connecticut Conn | DE 10 Delaware Del | DC 11 District_of_Columbia Washington_DC
    FL 12 Florida Fla | GA 13 Georgia | HI 15 Hawaii | ID 16 Idaho | IL 17 Illinois Ill | IN 18 Indiana Ind
    IA 19 Iowa | KS 20 Kansas Kans Kan | KY 21 Kentucky | LA 22 Louisiana | ME 23 Maine | MD 24 Maryland
    MA 25 Massachusetts Mass | MI 26 Michigan Mich | MN 27 Minnesota Minn | MS 28 Mississippi Miss | MO 29 Missouri
    MT 30 Montana Mont | NE 31 Nebraska Nebr Neb | NV 32 Nevada Nev | NH 33 New_Hampshire | NJ 34 New_Jersey
    NM 35 New_Mexico | NY 36 New_York | NC 37 North_Carolina | ND 38 North_Dakota | OH 39 Ohio | OK 40 Oklahoma Okla
    OR 41 Oregon Ore | PA 42 Pennsylvania Penn Penna | RI 44 Rhode_Island | SC 45 South_Carolina
    SD 46 South_Dakota | TN 47 Tennessee Tenn | TX 48 Texas Tex | UT 49 Utah | VT 50 Vermont | VA 51 Virginia
    WA 53 Washington Wash | WV 54 West_Virginia | WI 55 Wisconsin Wis Wisc | WY 56 Wyoming Wyo
    AS 60 American_Samoa | GU 66 Guam | MP 69 Northern_Mariana_Islands | PR 72 Puerto_Rico
    UM 74 US_Minor_Outlying_Islands | VI 78 Virgin_Islands US_Virgin_Islands
"""
_ENTRIES = [entry.split() for entry in re.split(r"[|\n]", _STATES.strip())]
STATES = {postal: code for postal, code, *_ in _ENTRIES}
# What may be written for a state, in capitals and without dots, and its postal abbreviation.
STATE_NAMES = {name.replace("_", " ").upper(): postal for postal, _, *names in _ENTRIES for name in (postal, *names)}
# The record types whose lines `extractd` joins to those of type 1. Their files may be missing.
_JOINED = "456"
_FILE = re.compile(rf"TGR([0-9]{{5}})\.(?:RT([12{_JOINED}C])|(ZIP))", re.IGNORECASE)


class Placed(Protocol):
    """Files in a folder, and the one to name in a message."""

    @property
    def folder(self) -> Path:
        ...

    @property
    def place(self) -> Path:
        ...


AnyPlaced = TypeVar("AnyPlaced", bound=Placed)


@dataclass(frozen=True)
class County:
    """The files of a county: one per record type, or a zip file with all of them."""

    code: str
    folder: Path
    files: dict[str, Path]
    archive: Path | None = None

    @property
    def place(self) -> Path:
        """The file to name in a message."""
        return self.archive or self.files["1"]


def find_counties(data: Path) -> list[County]:
    """Returns the counties of a folder and the folders in it, or of a zip file.

    A county may be there several times. Within a folder, unpacked files take precedence over a zip file.
    """
    if not data.is_dir():
        return _counties_of_archive(data)
    return [county for folder, names in walk(data) for county in _counties_of_folder(folder, names)]


def walk(data: Path) -> Iterator[tuple[Path, list[str]]]:
    """Yields a folder and the folders in it, each with the sorted names of its files. Warns of those it can't read."""
    for folder, folders, names in os.walk(data, onerror=_report_folder):
        folders.sort()
        yield Path(folder), sorted(names)


def _report_folder(error: OSError) -> None:
    warnings.warn(f"{error.filename} is left out: {error.strerror}", stacklevel=2)


def _counties_of_folder(folder: Path, names: list[str]) -> Iterator[County]:
    files: dict[str, dict[str, Path]] = {}
    for name in names:
        if found := _FILE.fullmatch(name):
            types, kind = files.setdefault(found[1], {}), (found[2] or found[3]).upper()
            if kind in types:
                raise OSError(f"{folder} has {types[kind].name} and {name}, which are the same file of a county")
            types[kind] = folder / name
    for code, types in files.items():
        archive = types.pop("ZIP", None)
        if "1" in types:
            yield County(code, folder, types)
        elif archive is not None:
            yield County(code, folder, {}, archive)


def _counties_of_archive(path: Path) -> list[County]:
    if path.exists() and not path.is_file():
        raise OSError(f"{path} is neither a folder nor a zip file")
    with opened_archive(path) as archive:
        codes = {code for code, record_type in _members(archive, path) if record_type == "1"}
    if not codes:
        raise FileNotFoundError(f"{path} has no file of record type 1, such as TGR01001.RT1")
    return [County(code, path.parent, {}, path) for code in sorted(codes)]


def counties_in(data: str | os.PathLike[str], counties: str | Iterable[str] | None) -> list[County]:
    """Returns the requested counties of a folder and the folders in it, or of a zip file: each once, in that order.

    "01001" is a county, "01" or "AL" means all counties of a state, and None all counties that are there.
    """
    data = Path(data)
    found: dict[str, list[County]] = {}
    for county in find_counties(data):
        found.setdefault(county.code, []).append(county)
    codes = chosen_codes(counties, found, lambda pattern: f"{data} has no TGR{pattern}.RT1 and no TGR{pattern}.ZIP")
    if not codes:
        raise FileNotFoundError(f"{data} has no county: no file such as TGR01001.RT1 or TGR01001.ZIP")
    return [nearest(found[code], f"{data} has county {code}") for code in codes]


def chosen_codes(
    names: str | Iterable[str] | None, present: Collection[str], missing: Callable[[str], str]
) -> list[str]:
    """Returns the codes of the requested counties among those that are there, each once, in that order.

    The names are those of `counties_in`. `missing` says that there is none with a code, or with a state's and ???.
    """
    if names is None:
        return sorted(present)
    chosen: list[str] = []
    for name in [names] if isinstance(names, str) else names:
        prefix = STATES.get(name.upper(), name)
        if not re.fullmatch(r"[0-9]{2}|[0-9]{5}", prefix):
            raise ValueError(
                f'{name!r} is no county: counties are written as "01001", or "AL" or "01" for all of a state'
            )
        codes = sorted(code for code in present if code.startswith(prefix))
        if not codes:
            raise FileNotFoundError(missing(prefix if len(prefix) == 5 else prefix + "???"))
        chosen += codes
    return [*dict.fromkeys(chosen)]


def nearest(candidates: Sequence[AnyPlaced], named: str) -> AnyPlaced:
    """Returns what is the fewest folders away from the top. Raises OSError if two are equally far."""
    least = min(len(one.folder.parts) for one in candidates)
    first, *others = [one for one in candidates if len(one.folder.parts) == least]
    if others:
        raise OSError(f"{named} twice: {first.place} and {others[0].place}")
    return first


def files_of_county(folder: Path, code: str) -> list[Path]:
    """Returns the files of a county in a folder, with names in any case, or its zip file. The folder may be missing."""
    names = sorted(os.listdir(folder)) if folder.exists() else []
    return [folder / name for name in names if (found := _FILE.fullmatch(name)) and found[1] == code]


def has_shapes(county: County) -> bool:
    """Returns whether a county has a file of record type 2."""
    if county.archive is None:
        return "2" in county.files
    with opened_archive(county.archive) as archive:
        return (county.code, "2") in _members(archive, county.archive)


def record_types(with_shapes: bool) -> str:
    """Returns the record types of the files that `extractd` reads for segments."""
    return f"1{'2' if with_shapes else ''}{_JOINED}"


@contextmanager
def opened_county(county: County, types: str, interrupts: Interrupts) -> Iterator[dict[str, Path]]:
    """Yields the files of a county by record type, and warns if one that is joined is missing."""
    with county_files(county, types, interrupts) as files:
        if missing := missing_names(county, files):
            warnings.warn(missing, stacklevel=2)
        yield files


@contextmanager
def county_files(county: County, types: str, interrupts: Interrupts) -> Iterator[dict[str, Path]]:
    """Makes a temporary folder with the files of a county, named in capitals, and yields their paths by record type.

    They are links to files or unpacked from a zip file.
    """
    with scratch_folder() as folder:
        if county.archive is None:
            for record_type in county.files.keys() & set(types):
                require_regular(county.files[record_type])
                link = folder / f"TGR{county.code}.RT{record_type}"
                link.symlink_to(county.files[record_type].absolute())
        else:
            _unpack(county.archive, county.code, types, folder, interrupts)
        interrupts.check()
        paths = {record_type: folder / f"TGR{county.code}.RT{record_type}" for record_type in types}
        present = {record_type: path for record_type, path in paths.items() if path.exists()}
        for record_type in "12":
            if record_type in types and record_type not in present:
                raise FileNotFoundError(f"{county.archive or county.folder} has no TGR{county.code}.RT{record_type}")
        yield present


def missing_names(county: County, present: Container[str]) -> str | None:
    """Returns the names of the joined files that are missing, or None if all are there."""
    missing = [f"TGR{county.code}.RT{record_type}" for record_type in _JOINED if record_type not in present]
    if not missing:
        return None
    return f"{county.archive or county.folder} has no {', '.join(missing)}: names or address ranges may be missing"


def _members(archive: zipfile.ZipFile, path: Path) -> dict[tuple[str, str], zipfile.ZipInfo]:
    """Returns the members with records, by county and record type.

    Raises OSError for another zip file, for repeated members, and for several counties.
    """
    found: dict[tuple[str, str], zipfile.ZipInfo] = {}
    for name, member in members(archive, path, _FILE):
        if name[3]:
            raise OSError(f"{path} has the zip file {member.filename!r} in it: unpack it, and name the folder")
        key = name[1], name[2].upper()
        if key in found:
            raise OSError(f"{path} has {name[0]} twice")
        found[key] = member
    codes = sorted({code for code, _ in found})
    if len(codes) > 1:
        raise OSError(f"{path} has more than one county, {' and '.join(codes[:2])}: unpack it, and name the folder")
    return found


def _unpack(path: Path, code: str, types: str, folder: Path, interrupts: Interrupts) -> None:
    with opened_archive(path) as archive:
        found = _members(archive, path)
        wanted = {folder / f"TGR{code}.RT{one}": found[code, one] for one in types if (code, one) in found}
        unpack(archive, path, wanted, interrupts)
