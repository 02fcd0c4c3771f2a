"""Writes shapefiles as the Census Bureau publishes them: by rows, or of the TIGER/Line 2006 files of a county.

    PYTHONPATH=. python3 tests/shapefiles.py [DATA CODE OUT [YEAR]]

Run it in the folder python. Without arguments it writes examples/shapefiles. Names and widths of files and columns are the Bureau's. Everything in them is made up, and
faces and places are boxes: of those only the columns matter. The loader of PostGIS 3.3.2 (loader_generate_script) took all of
a county of 20 towns, when it was tried.
"""

import csv
import re
import subprocess
import sys
import tempfile
import zipfile
from collections import defaultdict
from collections.abc import Iterable, Mapping
from dataclasses import dataclass, field
from pathlib import Path

from counties import TOP

Row = Mapping[str, object]
Fields = dict[str, str]
Places = list[tuple[int, int]]  # in millionths of a degree

WKT = "WKT"
YEAR = "2025"
DATE = "2025-09-23"  # the date in the head of a dbf, which makes a file depend on its rows alone

EXTENT = "FUNCSTAT 1, ALAND N14, AWATER N14, INTPTLAT 11, INTPTLON 12"
# The columns of each kind of file with their widths; N10 is a number. Those with an asterisk end with the census's year.
COLUMNS = {
    "edges": "STATEFP 2, COUNTYFP 3, TLID N10, TFIDL N10, TFIDR N10, MTFCC 5, FULLNAME 100, SMID 22, LFROMADD 12, LTOADD 12, "
    "RFROMADD 12, RTOADD 12, ZIPL 5, ZIPR 5, FEATCAT 1, HYDROFLG 1, RAILFLG 1, ROADFLG 1, OLFFLG 1, PASSFLG 1, DIVROAD 1, "
    "EXTTYP 1, TTYP 1, DECKEDROAD 1, ARTPATH 1, PERSIST 1, GCSEFLG 1, OFFSETL 1, OFFSETR 1, TNIDF N10, TNIDT N10",
    "featnames": "TLID N10, FULLNAME 100, NAME 100, PREDIRABRV 15, PRETYPABRV 50, PREQUALABR 15, SUFDIRABRV 15, SUFTYPABRV 50, "
    "SUFQUALABR 15, PREDIR 2, PRETYP 3, PREQUAL 2, SUFDIR 2, SUFTYP 3, SUFQUAL 2, LINEARID 22, MTFCC 5, PAFLAG 1",
    "addr": "TLID N10, FROMHN 12, TOHN 12, SIDE 1, ZIP 5, PLUS4 4, FROMTYP 1, TOTYP 1, FROMARMID N10, TOARMID N10, ARID 22, "
    "MTFCC 5",
    "faces": "TFID N10, STATEFP* 2, COUNTYFP* 3, TRACTCE* 6, BLKGRPCE* 1, BLOCKCE* 4, ZCTA5CE 5, STATEFP 2, COUNTYFP 3, "
    "TRACTCE 6, BLKGRPCE 1, COUSUBFP 5, SUBMCDFP 5, CONCTYFP 5, PLACEFP 5, AIANNHFP 5, AIANNHCE 4, COMPTYP 1, TRSUBFP 5, "
    "TRSUBCE 3, ANRCFP 5, TTRACTCE 6, TBLKGPCE 1, ELSDLEA 5, SCSDLEA 5, UNSDLEA 5, CD111FP 2, SLDUST 3, SLDLST 3, CSAFP 3, "
    "CBSAFP 5, METDIVFP 5, CNECTAFP 3, NECTAFP 5, NCTADVFP 5, LWFLAG 1, OFFSET 1, ATOTAL N14, INTPTLAT 11, INTPTLON 12",
    "place": "STATEFP 2, PLACEFP 5, PLACENS 8, GEOID 7, NAME 100, NAMELSAD 100, LSAD 2, CLASSFP 2, PCICBSA 1, PCINECTA 1, "
    f"MTFCC 5, {EXTENT}",
    "cousub": "STATEFP 2, COUNTYFP 3, COUSUBFP 5, COUSUBNS 8, GEOID 10, NAME 100, NAMELSAD 100, LSAD 2, CLASSFP 2, MTFCC 5, "
    f"CNECTAFP 3, NECTAFP 5, NCTADVFP 5, {EXTENT}",
    "county": "STATEFP 2, COUNTYFP 3, COUNTYNS 8, GEOID 5, NAME 100, NAMELSAD 100, LSAD 2, CLASSFP 2, MTFCC 5, CSAFP 3, "
    f"CBSAFP 5, METDIVFP 5, {EXTENT}",
}
SHAPES = {"edges": "LINESTRING", "faces": "POLYGON", "place": "POLYGON", "cousub": "POLYGON", "county": "POLYGON"}
# The class that the Bureau gives today to what had the longest of these classes.
MTFCC = {
    "A1": "S1100", "A2": "S1200", "A3": "S1200", "A4": "S1400", "A5": "S1500", "A63": "S1630", "A64": "S1640", "A65": "L4165",
    "A71": "S1710", "A72": "S1720", "A73": "S1730", "A74": "S1740", "B": "R1011", "H": "H3010", "C": "L4020",
}  # fmt: skip
OTHER_MTFCC = "P0001"
# What the Bureau has before a name as its type.
ROAD_TYPES = ("US Hwy", "State Hwy", "State Route", "County Road", "Truck Route", "I-")


@dataclass(frozen=True)
class Form:
    """How files are written: their year, packed or not, the encoding, and the end of columns that have the census's year."""

    year: str = YEAR
    packed: bool = True
    encoding: str = "UTF-8"
    census: str = "20"

    def columns(self, kind: str) -> list[list[str]]:
        """Returns the names and the widths of a kind's columns. Up to 2010 only the census's year is there."""
        return [column.replace("*", self.census).split() for column in COLUMNS[kind].split(", ")]


PACKED = Form()


def write_table(folder: Path, kind: str, area: str, rows: Iterable[Row], form: Form = PACKED) -> Path:
    """Writes a shapefile, or a dbf alone for kinds without shapes. Returns its zip file, or its dbf."""
    folder.mkdir(parents=True, exist_ok=True)
    name = f"tl_{form.year}_{area}_{kind}"
    with tempfile.TemporaryDirectory() as scratch:
        source, made = Path(scratch, f"{name}.csv"), Path(scratch, "made")
        columns = form.columns(kind) + ([[WKT, ""]] if kind in SHAPES else [])
        with open(source, "w", encoding="utf-8", newline="") as file:
            writer = csv.DictWriter(file, [column for column, _ in columns])
            writer.writeheader()
            writer.writerows(rows)
        types = [("WKT" if column == WKT else f"Integer64({width[1:]})" if width[0] == "N" else f"String({width})")
            for column, width in columns]  # fmt: skip
        source.with_suffix(".csvt").write_text(",".join(types))
        shape = SHAPES.get(kind, "NONE")
        command = [
            "ogr2ogr",
            "-f",
            "ESRI Shapefile",
            str(made),
            str(source),
            "-oo",
            "EMPTY_STRING_AS_NULL=YES",
            "-nlt",
            shape,
        ]
        command += ["-lco", f"ENCODING={form.encoding}", "-lco", f"DBF_DATE_LAST_UPDATE={DATE}"]
        command += ["-a_srs", "EPSG:4269", "-select", ",".join(column for column, _ in columns if column != WKT)]
        subprocess.run(command, check=True)
        files = sorted(made.iterdir())
        if not form.packed:
            for path in files:
                (folder / path.name).write_bytes(path.read_bytes())
            return folder / f"{name}.dbf"
        with zipfile.ZipFile(folder / f"{name}.zip", "w", zipfile.ZIP_DEFLATED) as archive:
            for path in files:
                archive.writestr(zipfile.ZipInfo(path.name), path.read_bytes(), zipfile.ZIP_DEFLATED)
    return folder / f"{name}.zip"


def line_of(points: Places) -> str:
    """Returns a line in WKT."""
    return f"LINESTRING ({', '.join(f'{x / 1e6:.6f} {y / 1e6:.6f}' for x, y in points)})"


def box_of(points: Places) -> str:
    """Returns the box around points in WKT."""
    west, east = min(x for x, _ in points) / 1e6, max(x for x, _ in points) / 1e6
    south, north = min(y for _, y in points) / 1e6, max(y for _, y in points) / 1e6
    east, north = max(east, west + 1e-6), max(north, south + 1e-6)
    corners = (west, south), (west, north), (east, north), (east, south), (west, south)
    return f"POLYGON (({', '.join(f'{x:.6f} {y:.6f}' for x, y in corners)}))"


# Counties of TIGER/Line 2006


def layout(text: str) -> dict[str, slice]:
    rows = [row.replace("-", " ").split() for row in text.split(", ")]
    return {name: slice(int(places[0]) - 1, int(places[-1])) for name, *places in rows}


LAYOUTS = {
    "1": layout(
        "TLID 6-15, FEDIRP 18-19, FENAME 20-49, FETYPE 50-53, FEDIRS 54-55, CFCC 56-58, FRADDL 59-69, TOADDL 70-80, "
        "FRADDR 81-91, TOADDR 92-102, FRIADDL 103, TOIADDL 104, FRIADDR 105, TOIADDR 106, ZIPL 107-111, ZIPR 112-116, "
        "STATEL 131-132, STATER 133-134, COUNTYL 135-137, COUNTYR 138-140, COUSUBL 141-145, COUSUBR 146-150, "
        "PLACEL 161-165, PLACER 166-170, TRACTL 171-176, TRACTR 177-182, BLOCKL 183-186, BLOCKR 187-190, FRLONG 191-200, "
        "FRLAT 201-209, TOLONG 210-219, TOLAT 220-228"
    ),
    "2": layout("TLID 6-15, RTSQ 16-18"),
    "4": layout("TLID 6-15, RTSQ 16-18, FEAT1 19-26, FEAT2 27-34, FEAT3 35-42, FEAT4 43-50, FEAT5 51-58"),
    "5": layout("FEAT 11-18, FEDIRP 19-20, FENAME 21-50, FETYPE 51-54, FEDIRS 55-56"),
    "6": layout(
        "TLID 6-15, RTSQ 16-18, FRADDL 19-29, TOADDL 30-40, FRADDR 41-51, TOADDR 52-62, FRIADDL 63, TOIADDL 64, "
        "FRIADDR 65, TOIADDR 66, ZIPL 67-71, ZIPR 72-76"
    ),
    "C": layout("FIPS 15-19, ENTITY 25, NAME 63-122"),
}
AREAS = ("STATE", "COUNTY", "COUSUB", "PLACE", "TRACT", "BLOCK")
NAME = ("FEDIRP", "FENAME", "FETYPE", "FEDIRS")
FEATURES = ("FEAT1", "FEAT2", "FEAT3", "FEAT4", "FEAT5")
EXAMPLE_NAMES = [
    {"FIPS": fips, "ENTITY": entity, "NAME": name}
    for fips, entity, name in (("13264", "P", "Milford"), ("90315", "M", "Milford"), ("90477", "M", "Cahaba"))
]
FIRST_FACE, OUTSIDE = 260_000_000, 259_999_999


def number_of(text: str) -> int:
    return int(text or 0)


def read(data: Path, code: str, record_type: str) -> list[Fields]:
    """Returns the records of a file by their fields, in the order of TLID and RTSQ, or none if the county lacks it."""
    path = data / f"TGR{code}.RT{record_type}"
    lines = path.read_bytes().decode("latin-1").split("\n") if path.exists() else []
    found = [
        {name: line[place].strip() for name, place in LAYOUTS[record_type].items()} | {"line": line}
        for line in lines
        if line
    ]
    return sorted(found, key=lambda one: number_of(one["RTSQ"])) if "RTSQ" in LAYOUTS[record_type] else found


def mtfcc_of(cfcc: str) -> str:
    return next((MTFCC[cfcc[:length]] for length in (3, 2, 1) if cfcc[:length] in MTFCC), OTHER_MTFCC)


def name_columns(own: Fields) -> dict[str, str]:
    """Returns a name in its parts, as featnames has it."""
    name = own["FENAME"]
    road = next((one for one in ROAD_TYPES if re.match(rf"{one} ?\S", name)), "")
    is_joined = bool(road) and name[len(road)] != " "  # I-65
    parts = {
        "PREDIRABRV": own["FEDIRP"],
        "PRETYPABRV": "" if is_joined else road,
        "NAME": name if is_joined or not road else name[len(road) + 1 :],
        "SUFTYPABRV": own["FETYPE"],
        "SUFDIRABRV": own["FEDIRS"],
    }
    return parts | {"FULLNAME": " ".join(filter(None, parts.values()))}


@dataclass
class Shapefiles:
    """The rows of a county's tables by kind."""

    code: str
    rows: dict[str, list[Row]] = field(default_factory=lambda: {kind: [] for kind in COLUMNS})
    faces: dict[tuple[str, ...], int] = field(default_factory=dict)
    boxes: dict[int, Places] = field(default_factory=lambda: defaultdict(list))
    linear: dict[str, int] = field(default_factory=dict)

    def face(self, own: Fields, side: str, points: Places) -> int:
        """Returns the number of a side's area. What is outside of the county has one that faces lacks."""
        area = tuple(own[f"{name}{side}"] for name in AREAS)
        if "".join(area[:2]) != self.code:
            return OUTSIDE
        number = self.faces.setdefault(area, FIRST_FACE + len(self.faces))
        self.boxes[number] += points
        return number

    def add_faces(self, census: str) -> None:
        for area, number in self.faces.items():
            state, county, cousub, place, tract, block = area
            self.rows["faces"].append({
                "TFID": number, f"STATEFP{census}": state, f"COUNTYFP{census}": county, f"TRACTCE{census}": tract,
                f"BLKGRPCE{census}": block[:1], f"BLOCKCE{census}": block, "STATEFP": state, "COUNTYFP": county, "TRACTCE": tract,
                "BLKGRPCE": block[:1], "COUSUBFP": cousub, "PLACEFP": place, "LWFLAG": "L", "OFFSET": "N",
                WKT: box_of(self.boxes[number]),
            })  # fmt: skip

    def add_names(self, tlid: str, mtfcc: str, names: list[Fields]) -> None:
        for at, own in enumerate(names):
            if columns := name_columns(own) if own["FENAME"] else None:
                linear = self.linear.setdefault(columns["FULLNAME"], len(self.linear) + 1)
                row = {"TLID": tlid, "LINEARID": f"110{linear:010}", "MTFCC": mtfcc, "PAFLAG": "A" if at else "P"}
                self.rows["featnames"].append(columns | row)

    def add_ranges(self, own: Fields) -> None:
        for side in "LR":
            ends = own[f"FRADD{side}"], own[f"TOADD{side}"]
            if any(ends):
                imputed = ["I" if own[f"{end}IADD{side}"] == "1" else "" for end in ("FR", "TO")]
                self.rows["addr"].append({
                    "TLID": own["TLID"], "FROMHN": ends[0], "TOHN": ends[1], "SIDE": side, "ZIP": own[f"ZIP{side}"],
                    "FROMTYP": imputed[0], "TOTYP": imputed[1], "ARID": f"400{len(self.rows['addr']):010}", "MTFCC": "D1000",
                })  # fmt: skip


def shapefiles_of(data: Path, code: str, census: str = PACKED.census) -> Shapefiles:
    """Returns the shapefiles of a county's TIGER/Line 2006 files."""
    made = Shapefiles(code)
    points = shape_points(data, code)
    features = {own["FEAT"]: own for own in read(data, code, "5")}
    others: dict[str, list[Fields]] = defaultdict(list)
    for own in read(data, code, "4"):
        others[own["TLID"]] += [features[own[feature]] for feature in FEATURES if own[feature] in features]
    further: dict[str, list[Fields]] = defaultdict(list)
    for own in read(data, code, "6"):
        further[own["TLID"]].append(own)
    for own in read(data, code, "1"):
        tlid, mtfcc = own["TLID"], mtfcc_of(own["CFCC"])
        start, end = [(int(own[f"{one}LONG"]), int(own[f"{one}LAT"])) for one in ("FR", "TO")]
        line = [start, *points[tlid], end]
        flags = {
            name: "Y" if mtfcc[0] == letter else "N" for name, letter in zip(("ROADFLG", "RAILFLG", "HYDROFLG"), "SRH")
        }
        row: dict[str, object] = {
            "STATEFP": code[:2], "COUNTYFP": code[2:], "TLID": tlid, "MTFCC": mtfcc, **flags, WKT: line_of(line),
            **{f"TFID{side}": made.face(own, side, line) for side in "LR"},
            **{f"ZIP{side}": own[f"ZIP{side}"] for side in "LR"},
            **{f"{side}{end}ADD": own[f"{end[:2]}ADD{side}"] for side in "LR" for end in ("FROM", "TO")},
            "FULLNAME": name_columns(own)["FULLNAME"] if own["FENAME"] else "",
        }  # fmt: skip
        made.rows["edges"].append(row)
        made.add_names(tlid, mtfcc, [own, *others[tlid]])
        for one in (own, *further[tlid]):
            made.add_ranges(one)
    made.add_faces(census)
    add_places(made, read(data, code, "C"))
    return made


def shape_points(data: Path, code: str) -> dict[str, Places]:
    """Returns the points between the ends of the segments."""
    found: dict[str, Places] = defaultdict(list)
    for own in read(data, code, "2"):
        places = [(int(own["line"][at : at + 10]), int(own["line"][at + 10 : at + 19])) for at in range(18, 208, 19)]
        found[own["TLID"]] += [place for place in places if place != (0, 0)]
    return found


def add_places(made: Shapefiles, names: list[Fields]) -> None:
    """Adds the names of places and county subdivisions, and that of the county."""
    state, county = made.code[:2], made.code[2:]
    everywhere = [place for places in made.boxes.values() for place in places] or [(0, 0)]
    own = {"STATEFP": state, "COUNTYFP": county, "GEOID": made.code, "NAME": "Bibb", "NAMELSAD": "Bibb County"}
    made.rows["county"].append(own | {"LSAD": "06", "MTFCC": "G4020", WKT: box_of(everywhere)})
    for one in names:
        kind, city = ("place", "city") if one["ENTITY"] == "P" else ("cousub", "CCD")
        row = {"STATEFP": state, "GEOID": state + one["FIPS"], "NAME": one["NAME"], "NAMELSAD": f"{one['NAME']} {city}"}
        row |= {"PLACEFP": one["FIPS"]} if kind == "place" else {"COUNTYFP": county, "COUSUBFP": one["FIPS"]}
        made.rows[kind].append(row | {WKT: box_of(everywhere)})


def write_shapefiles(made: Shapefiles, folder: Path, form: Form = PACKED) -> Path:
    """Writes the tables of a county that have rows."""
    areas = {"place": made.code[:2], "cousub": made.code[:2], "county": "us"}
    for kind, rows in made.rows.items():
        if rows:
            known = {column for column, _ in form.columns(kind)} | {WKT}
            own = ({name: value for name, value in row.items() if name in known} for row in rows)
            write_table(folder, kind, areas.get(kind, made.code), own, form)
    return folder


def write_example(folder: Path) -> Path:
    """Writes the shapefiles of the example town, with names of its city and county subdivisions."""
    made = shapefiles_of(TOP / "examples/town", "01007")
    add_places(made, EXAMPLE_NAMES)
    made.rows["county"].pop()
    return write_shapefiles(made, folder)


if __name__ == "__main__":
    if not sys.argv[1:]:
        write_example(TOP / "examples/shapefiles")
    else:
        data, code, out, year = [*sys.argv[1:], YEAR][:4]
        write_shapefiles(shapefiles_of(Path(data), code), Path(out), Form(year))
