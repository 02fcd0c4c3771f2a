"""What `tigerline import` makes of the columns of shapefiles, by the rules of docs/shapefiles.md.

Each row of a table is a segment of one made-up county, and what its records have to be.
"""

import re
from collections.abc import Iterator, Mapping
from pathlib import Path

import pytest
from counties import TOP, records
from shapefiles import LAYOUTS, WKT, Form, line_of, write_table
from tigerline.commands import main
from tigerline.layout import LAYOUTS as PACKAGE_LAYOUTS
from tigerline.shapefiles.rules import CLASSES, ROWS

pytestmark = pytest.mark.usefixtures("gdal", "scratch")

CODE, STATE = "01001", "01"
ROAD = "S1400"
POINTS = [(-86_500_000, 32_400_000), (-86_400_000, 32_500_000)]
FIELDS = LAYOUTS["1"] | {"RT": slice(0, 1), "VERSION": slice(1, 5), "SIDE1": slice(15, 16), "SOURCE": slice(16, 17)}
NAME_COLUMNS = ("PREDIRABRV", "PREQUALABR", "PRETYPABRV", "NAME", "SUFQUALABR", "SUFTYPABRV", "SUFDIRABRV")
NAME_FIELDS = ("FEDIRP", "FENAME", "FETYPE", "FEDIRS")

Rows = list[dict[str, object]]


class Imported:
    """The files of an imported county, and the line about it."""

    def __init__(self, folder: Path, said: str) -> None:
        self.folder, self.said = folder, said
        self.errors = ""

    def lines(self, record_type: str) -> list[dict[str, str]]:
        """Returns the fields of the lines of a record type."""
        layout = FIELDS if record_type == "1" else LAYOUTS[record_type]
        found = [line.decode("latin-1") for line in records(self.folder / f"TGR{CODE}.RT{record_type}") if line]
        return [{name: line[place].strip() for name, place in layout.items()} | {"line": line} for line in found]

    def losses(self) -> dict[str, str]:
        """Returns what didn't fit, and the count with the TLIDs."""
        _, *losses = self.said.strip().split("; ")
        return {loss.rpartition(": ")[0]: loss.rpartition(": ")[2] for loss in losses}


def edge(tlid: object, **columns: object) -> dict[str, object]:
    """Returns a row of edges."""
    row = {"STATEFP": STATE, "COUNTYFP": CODE[2:], "TLID": tlid, "MTFCC": ROAD, WKT: line_of(POINTS)}
    return {**row, **columns}


def write(folder: Path, form: Form = Form(), **tables: Rows) -> Path:
    """Writes tables by their kinds."""
    return write_tables(folder, tables, form)


def write_tables(folder: Path, tables: Mapping[str, Rows], form: Form = Form()) -> Path:
    areas = {"place": STATE, "cousub": STATE, "county": "us"}
    for kind, rows in tables.items():
        write_table(folder, kind, areas.get(kind, CODE), rows, form)
    return folder


def imported(tmp_path: Path, capsys: pytest.CaptureFixture[str], *options: str, **tables: Rows) -> Imported:
    """Imports a county of some tables, which has to succeed."""
    source, out = write_tables(tmp_path / "shapefiles", tables), tmp_path / "out"
    status = main(["import", str(source), str(out), *options])
    said = capsys.readouterr()
    assert status == 0, said.err
    found = Imported(out, said.out)
    found.errors = said.err
    return found


def cells(text: str, separator: str) -> list[str]:
    return [cell.strip() for cell in text.split(separator)]


# The parts of a name as NAME_COLUMNS has them, the fields as NAME_FIELDS has them, and what doesn't fit.
NAMES = f"""
;;; Main ;;;                           | ; Main ;;                              |
N;;; Main ;; St;                       | N; Main; St;                           |
;;; Main ;; St; SW                     | ; Main; St; SW                         |
;; State Hwy; 25 ;;;                   | ; State Hwy 25 ;;                      |
;; I-; 65 ;;; N                        | ; I- 65 ;; N                           |
; Old;; Mill ;; Rd;                    | ; Old Mill; Rd;                        |
; Old; Co Rd; 12 ; Byp;;               | ; Old Co Rd 12 Byp ;;                  |
;;; Mill ;; Xing;                      | ; Mill; Xing;                          |
;;; Mill ;; Cutoff;                    | ; Mill Cutoff ;;                       | types of more than 4 characters, written into the name
Alt;;; Mill ;; Rd;                     | ; Alt Mill; Rd;                        | directions of more than 2 characters, written into the name
;;; Mill ;; Rd; Byp                    | ; Mill Byp; Rd;                        | directions of more than 2 characters, written into the name
;;; {'Thirty Letters'.ljust(30, 'x')} ;; St; | ; {'Thirty Letters'.ljust(30, 'x')}; St; |
;;; {'Long Letters'.ljust(31, 'x')} ;; St; | ; {'Long Letters'.ljust(30, 'x')}; St; | names cut after 30 bytes
;;; Martin Luther King Junior and Mill ;; Blvd; | ; Martin Luther King Junior and; Blvd; | names cut after 30 bytes
;;; La Cañada ;; Rd;                   | ; La Cañada; Rd;                       |
;;; La Can\u0303ada ;; Rd;             | ; La Cañada; Rd;                       |
;;; Kal\u0101kaua ;; Ave;              | ; Kalakaua; Ave;                       | names with letters outside Latin-1, replaced
;;; Nu\u02bbuanu ;; Ave;               | ; Nu?uanu; Ave;                        | names with letters outside Latin-1, replaced
;;; \u6771\u4eac ;;;                   | ; ?? ;;                                | names with letters outside Latin-1, replaced
""".strip().splitlines()


class TestNames:
    def test_parts(self, tmp_path: Path, capsys: pytest.CaptureFixture[str]) -> None:
        table = [cells(row, "|") for row in NAMES]
        featnames = [
            {"TLID": tlid, "PAFLAG": "P", **dict(zip(NAME_COLUMNS, cells(parts, ";")))}
            for tlid, (parts, *_) in enumerate(table, 1)
        ]
        found = imported(tmp_path, capsys, edges=[edge(tlid) for tlid in range(1, len(table) + 1)], featnames=featnames)
        for (_, fields, _), line in zip(table, found.lines("1"), strict=True):
            assert [line[name] for name in NAME_FIELDS] == cells(fields, ";")
        expected: dict[str, list[str]] = {}
        for tlid, (_, _, loss) in enumerate(table, 1):
            if loss:
                expected.setdefault(loss, []).append(str(tlid))
        assert found.losses() == {loss: f"{len(who)} ({', '.join(who)})" for loss, who in expected.items()}

    def test_alternates(self, tmp_path: Path, capsys: pytest.CaptureFixture[str]) -> None:
        """The primary name comes first, wherever its row is. Equal names are one, and equal alternates have one number."""
        rows = """
        1 | A | Old Mill | Rd
        1 | P | Mill     | Rd
        1 | A | Mill     | Rd
        1 | A | County Road 5 |
        2 | P | Main     | St
        2 | A | County Road 5 |
        3 | A | Side     | St
        4 | P | Other    |
        4 | P | Second   |
        """.strip().splitlines()
        columns = ("TLID", "PAFLAG", "NAME", "SUFTYPABRV")
        featnames: Rows = [dict(zip(columns, cells(row, "|"))) for row in rows]
        edges = [edge(tlid, FULLNAME="Full Name") for tlid in (1, 2, 3, 4, 5)] + [edge(6)]
        found = imported(tmp_path, capsys, edges=edges, featnames=featnames)
        assert [(line["FENAME"], line["FETYPE"]) for line in found.lines("1")] == [
            ("Mill", "Rd"), ("Main", "St"), ("Side", "St"), ("Other", ""), ("Full Name", ""), ("", ""),
        ]  # fmt: skip
        assert [(line["FEAT"], line["FENAME"], line["FETYPE"]) for line in found.lines("5")] == [
            ("1", "Old Mill", "Rd"), ("2", "County Road 5", ""), ("3", "Second", ""),
        ]  # fmt: skip
        feats = [[line["TLID"], line["RTSQ"], *(line[f"FEAT{at}"] for at in range(1, 6))] for line in found.lines("4")]
        assert feats == [
            ["1", "1", "1", "2", "", "", ""],
            ["2", "1", "2", "", "", "", ""],
            ["4", "1", "3", "", "", "", ""],
        ]
        assert found.said == f"{CODE}: 6 segments, 8 names, 0 ranges\n"

    def test_many_alternates(self, tmp_path: Path, capsys: pytest.CaptureFixture[str]) -> None:
        """A segment has at most 5,000, in a thousand lines."""
        counts = {1: 6, 2: 5000, 3: 5003}
        featnames: Rows = [
            {"TLID": tlid, "PAFLAG": "A" if at else "P", "NAME": f"Name {at}"}
            for tlid, count in counts.items()
            for at in range(count + 1)
        ]
        found = imported(tmp_path, capsys, edges=[edge(tlid) for tlid in counts], featnames=featnames)
        lines = found.lines("4")
        sequences = {tlid: [int(line["RTSQ"]) for line in lines if line["TLID"] == str(tlid)] for tlid in counts}
        assert sequences == {1: [1, 2], 2: [*range(1000)], 3: [*range(1000)]}
        assert found.losses() == {"alternate names left out beyond 5,000 of a segment": "3 (3, ..)"}
        assert found.said.startswith(f"{CODE}: 3 segments, 5,004 names, ")

    def test_name_without_parts(self, tmp_path: Path, capsys: pytest.CaptureFixture[str]) -> None:
        featnames: Rows = [{"TLID": 1, "PAFLAG": "P", "FULLNAME": "Whole Name"}, {"TLID": 2, "PAFLAG": "P"}]
        found = imported(tmp_path, capsys, edges=[edge(1), edge(2, FULLNAME="Other")], featnames=featnames)
        assert [line["FENAME"] for line in found.lines("1")] == ["Whole Name", ""]


# The table of docs/shapefiles.md, written anew.
MTFCC = """
S1100 A11, S1200 A31, S1400 A41, S1500 A51, S1630 A63, S1640 A64, S1710 A71, S1720 A72, S1730 A73, S1740 A74, S1820 A71,
S1830 A71, R1011 B11, R1051 B31, H3010 H11, H3013 H11, H3020 H21, L4010 C10, L4020 C20, L4125 E22, L4165 A65, P0001 F00,
P0002 H01, S1750 A74, S1780 A74, S1810 A71, S2000 A21, R1052 B32, L4031 C30, L4110 E10, L4121 E21, L4130 F00, L4140 F00,
L4150 H01, P0003 H02, P0004 F00
"""


class TestClasses:
    def test_table(self, tmp_path: Path, capsys: pytest.CaptureFixture[str]) -> None:
        pairs = [pair.split() for pair in MTFCC.replace("\n", " ").split(",")]
        found = imported(tmp_path, capsys, edges=[edge(tlid, MTFCC=one) for tlid, (one, _) in enumerate(pairs, 1)])
        assert [line["CFCC"] for line in found.lines("1")] == [cfcc for _, cfcc in pairs]
        assert dict(pairs) == CLASSES and not found.losses()

    def test_unknown(self, tmp_path: Path, capsys: pytest.CaptureFixture[str]) -> None:
        edges = [edge(1, MTFCC="S9999"), edge(2, MTFCC="Z0001"), edge(3, MTFCC="S9999"), edge(4, MTFCC="")]
        found = imported(tmp_path, capsys, edges=edges)
        assert [line["CFCC"] for line in found.lines("1")] == ["X00"] * 4
        assert found.losses() == {
            "MTFCC S9999, written as CFCC X00": "2 (1, 3)",
            "MTFCC Z0001, written as CFCC X00": "1 (2)",
            "MTFCC missing, written as CFCC X00": "1 (4)",
        }

    @pytest.mark.parametrize(
        ("name", "cfcc"),
        [("US Hwy 31", "A21"), ("us 31", "A21"), ("State Hwy 5", "A31"), ("Usher", "A31"), ("US", "A31"), ("", "A31")],
    )
    def test_highways(self, tmp_path: Path, capsys: pytest.CaptureFixture[str], name: str, cfcc: str) -> None:
        found = imported(tmp_path, capsys, edges=[edge(1, MTFCC="S1200", FULLNAME=name)])
        assert [line["CFCC"] for line in found.lines("1")] == [cfcc]


# The columns LFROMADD, LTOADD, RFROMADD, RTOADD, ZIPL and ZIPR of edges; the rows of addr: SIDE FROMHN TOHN ZIP FROMTYP TOTYP;
# record type 1: the four ends, the four flags, ZIPL and ZIPR; and record type 6: the same. A dash is blank.
RANGES = """
- - - - - -         |                                        | - - - - ---- - -           |
1 9 2 8 35001 35002 |                                        | 1 9 2 8 0000 35001 35002    |
1 9 - - 35001 -     |                                        | 1 9 - - 00-- 35001 -        |
1 9 2 8 35001 35002 | L 101 109 35003 - -                    | 101 109 2 8 0000 35001 35002 |
- - - - - -         | R 2 8 35002 - -                        | - - 2 8 --00 - 35002        |
- - - - - -         | L 1 9 35001 I - ; R 2 8 35002 - I      | 1 9 2 8 1001 35001 35002    |
- - - - - -         | L 1 9 35001 I I ; L 11 19 35009 - I    | 1 9 - - 11-- 35001 -        | 11 19 - - 01-- 35009 -
- - - - - -         | R 2 8 35002 - - ; L 1 9 35001 - - ; R 12 18 35002 - - ; L 11 19 35001 - - ; R 22 28 - - - | 1 9 2 8 0000 35001 35002 | 11 19 12 18 0000 35001 35002 ; - - 22 28 --00 - -
- - - - - -         | L 12-34 12-98 35001 - -                | 12-34 12-98 - - 00-- 35001 - |
- - - - - -         | L N6W23001 N6W23099 35001 - -          | N6W23001 N6W23099 - - 00-- 35001 - |
- - - - - -         | L 1 - 35001 - -                        | 1 - - - 00-- 35001 -        |
- - - - - 35009     | L - - 35001 - - ; R - - 35002 - -      | - - - - ---- - 35009        |
- - - - - -         | L 12345678901 1 35001 - -              | 12345678901 1 - - 00-- 35001 - |
- - - - - -         | L 123456789012 1 35001 - - ; L 3 9 35001 - - | 3 9 - - 00-- 35001 -  |
123456789012 1 - - 35001 - |                                 | - - - - ---- 35001 -        |
- - - - - -         | X 1 9 35001 - - ; - 3 5 35001 - -      | - - - - ---- - -            |
""".strip().splitlines()
RANGE_LOSSES = {
    "ranges left out for house numbers of more than 11 characters": "2 (14, 15)",
    "ranges left out that have no side": "2 (16, ..)",
}
ENDS = ("FRADDL", "TOADDL", "FRADDR", "TOADDR")
FLAGS = ("FRIADDL", "TOIADDL", "FRIADDR", "TOIADDR")


def range_text(line: Mapping[str, str]) -> str:
    flags = "".join(line[name] or "-" for name in FLAGS)
    return " ".join([*(line[name] or "-" for name in ENDS), flags, line["ZIPL"] or "-", line["ZIPR"] or "-"])


def unless_dash(text: str) -> list[str]:
    return ["" if word == "-" else word for word in text.split()]


class TestRanges:
    def test_sides(self, tmp_path: Path, capsys: pytest.CaptureFixture[str]) -> None:
        edges: Rows = []
        addr: Rows = []
        for tlid, row in enumerate(RANGES, 1):
            own, rows, *_ = cells(row, "|")
            columns = ("LFROMADD", "LTOADD", "RFROMADD", "RTOADD", "ZIPL", "ZIPR")
            edges.append(edge(tlid, **dict(zip(columns, unless_dash(own)))))
            names = ("SIDE", "FROMHN", "TOHN", "ZIP", "FROMTYP", "TOTYP")
            addr += [{"TLID": tlid, **dict(zip(names, unless_dash(one)))} for one in cells(rows, ";") if one]
        found = imported(tmp_path, capsys, edges=edges, addr=addr)
        further = found.lines("6")
        for tlid, (row, line) in enumerate(zip(RANGES, found.lines("1"), strict=True), 1):
            _, _, first, others = cells(row, "|")
            of_segment = [one for one in further if one["TLID"] == str(tlid)]
            assert range_text(line) == first, row
            assert [range_text(one) for one in of_segment] == [one for one in cells(others, ";") if one], row
            assert [one["RTSQ"] for one in of_segment] == [str(at) for at in range(1, len(of_segment) + 1)]
        assert found.losses() == RANGE_LOSSES

    def test_many(self, tmp_path: Path, capsys: pytest.CaptureFixture[str]) -> None:
        """A side has at most 1,001."""
        addr: Rows = [{"TLID": 1, "SIDE": "L", "FROMHN": at, "TOHN": at} for at in range(1004)]
        addr += [{"TLID": 2, "SIDE": "R", "FROMHN": at, "TOHN": at} for at in range(1001)]
        found = imported(tmp_path, capsys, edges=[edge(1), edge(2)], addr=addr)
        lines = found.lines("6")
        assert [line["FRADDL"] for line in lines if line["TLID"] == "1"] == [str(at) for at in range(1, 1001)]
        assert [line["FRADDR"] for line in lines if line["TLID"] == "2"] == [str(at) for at in range(1, 1001)]
        assert found.losses() == {"ranges left out beyond 1,001 of a segment's side": "3 (1, ..)"}
        assert found.said.startswith(f"{CODE}: 2 segments, 0 names, 2,002 ranges; ")


class TestAreas:
    AREA = {"STATEFP": STATE, "COUNTYFP": CODE[2:], "COUSUBFP": "90101", "PLACEFP": "50505"}
    EXPECTED = ["01", "001", "90101", "50505", "020700", "1023"]
    NAMES = ("STATE", "COUNTY", "COUSUB", "PLACE", "TRACT", "BLOCK")

    @pytest.mark.parametrize("census", ["20", "10", "00"])
    def test_census(self, tmp_path: Path, capsys: pytest.CaptureFixture[str], census: str) -> None:
        """Tracts and blocks are those of the census, all else is as of the year."""
        own = {
            f"STATEFP{census}": "99",
            f"COUNTYFP{census}": "999",
            f"TRACTCE{census}": "020700",
            f"BLOCKCE{census}": "1023",
        }
        faces: Rows = [{"TFID": 7, **self.AREA, **own, "TRACTCE": "999999"}, {"TFID": 8, **self.AREA}]
        edges = [edge(1, TFIDL=7, TFIDR=7), edge(2, TFIDL=7, TFIDR=9), edge(3, TFIDL=0, TFIDR=8), edge(4)]
        write(
            tmp_path / "shapefiles",
            Form(census=census),
            faces=[{WKT: "POLYGON ((0 0,0 1,1 1,0 0))", **row} for row in faces],
        )
        found = imported(tmp_path, capsys, edges=edges)
        sides = [[[line[f"{name}{side}"] for name in self.NAMES] for side in "LR"] for line in found.lines("1")]
        no_block = [*self.EXPECTED[:4], "", ""]
        nowhere = [""] * 6
        assert sides == [
            [self.EXPECTED, self.EXPECTED],
            [self.EXPECTED, nowhere],
            [nowhere, no_block],
            [nowhere, nowhere],
        ]
        assert [line["SIDE1"] for line in found.lines("1")] == ["", "1", "1", ""]

    def test_names(self, tmp_path: Path, capsys: pytest.CaptureFixture[str]) -> None:
        """Record type C has the county and those of its places and county subdivisions that are in faces."""
        box: dict[str, object] = {WKT: "POLYGON ((0 0,0 1,1 1,0 0))"}
        long = "A Place Whose Name Is Longer Than Sixty Bytes As No Real One Is"
        own = {"STATEFP": STATE, "COUNTYFP": CODE[2:]}
        tables: dict[str, Rows] = {
            "faces": [{"TFID": 7, **self.AREA}, {"TFID": 8, **self.AREA, "PLACEFP": "50506"}],
            "place": [{"STATEFP": STATE, "PLACEFP": code, "NAME": name} for code, name in (("50505", "Milford"), ("50506", long), ("50507", "Elsewhere"))],
            "cousub": [{**own, "COUSUBFP": "90101", "NAME": "Peñasco"}, {**own, "COUNTYFP": "003", "COUSUBFP": "90101", "NAME": "Other"}],
            "county": [{**own, "NAME": "Autauga"}, {**own, "COUNTYFP": "003", "NAME": "Baldwin"}],
        }  # fmt: skip
        write_tables(tmp_path / "shapefiles", {kind: [{**row, **box} for row in rows] for kind, rows in tables.items()})
        found = imported(tmp_path, capsys, edges=[edge(1, TFIDL=7)])
        assert [(line["FIPS"], line["ENTITY"], line["NAME"]) for line in found.lines("C")] == [
            ("99001", "C", "Autauga"), ("50505", "P", "Milford"), ("50506", "P", long[:60]), ("90101", "M", "Peñasco"),
        ]  # fmt: skip
        assert all(line["line"].startswith("C0006010012025") and len(line["line"]) == 122 for line in found.lines("C"))
        assert found.losses() == {"names of places cut after 60 bytes": "1 (50506)"}


class TestLines:
    def test_points(self, tmp_path: Path, capsys: pytest.CaptureFixture[str]) -> None:
        """Record type 2 has ten points a line, and 10,000 of a segment."""
        counts = [2, 3, 12, 13, 23, 10_002, 10_003]
        lines = [[(-86_000_000 - 10 * at, 32_000_000 + 10 * at) for at in range(count)] for count in counts]
        lines.append([(179_999_999, -14_000_001), (-180_000_000, 0), (-1, 90_000_000)])
        edges = [edge(tlid, **{WKT: line_of(points)}) for tlid, points in enumerate(lines, 1)]
        found = imported(tmp_path, capsys, edges=edges)
        ends = [[int(line[name]) for name in ("FRLONG", "FRLAT", "TOLONG", "TOLAT")] for line in found.lines("1")]
        assert ends == [[*points[0], *points[-1]] for points in lines]
        shapes: dict[str, list[tuple[int, int]]] = {str(tlid): [] for tlid in range(1, len(lines) + 1)}
        sequences: dict[str, list[int]] = {tlid: [] for tlid in shapes}
        for line in found.lines("2"):
            text = line["line"]
            places = [(int(text[at : at + 10]), int(text[at + 10 : at + 19])) for at in range(18, 208, 19)]
            shapes[line["TLID"]] += [place for place in places if place != (0, 0)]
            sequences[line["TLID"]].append(int(line["RTSQ"]))
        expected = [points[1:-1] for points in lines]
        expected[6] = expected[6][::2]
        assert list(shapes.values()) == expected
        assert [len(one) for one in sequences.values()] == [0, 1, 1, 2, 3, 1000, 501, 1]
        assert sequences["6"] == [*range(1000)] and sequences["5"] == [1, 2, 3]
        assert found.losses() == {"shapes thinned to 10,000 points": "1 (7)"}

    def test_order_and_constants(self, tmp_path: Path, capsys: pytest.CaptureFixture[str]) -> None:
        """Segments are in the order of TLID, of up to ten digits."""
        tlids = [9_999_999_999, 3, 20, 100, 1]
        found = imported(tmp_path, capsys, edges=[edge(tlid) for tlid in tlids])
        assert [int(line["TLID"]) for line in found.lines("1")] == sorted(tlids)
        assert {(line["RT"], line["VERSION"], line["SOURCE"]) for line in found.lines("1")} == {("1", "0006", "A")}
        assert [len(line["line"].rstrip("\r")) for line in found.lines("1")] == [228] * 5


def columns_of_page() -> Iterator[tuple[str, str, str]]:
    """Yields the kinds, columns and rules in the table of the page."""
    section = (TOP / "docs/shapefiles.md").read_text().split("\n## Columns\n\n")[1].split("\n\n")[0]
    for kind, names, becomes in re.findall(r"^\| `([a-z]+)` \| (.+) \| (.+) \|$", section, re.MULTILINE):
        yield from ((kind, name, becomes) for name in names.split(", "))


def test_page_has_all_columns() -> None:
    """Each column has one rule in the page, and the page has no others."""
    found = sorted((kind, name) for kind, name, _ in columns_of_page())
    assert found == sorted((kind, name) for kind, row in ROWS.items() for name in row.__annotations__)
    rules = {(kind, name): rule for kind, name, rule in columns_of_page()}
    for kind, row in ROWS.items():
        for name, hint in row.__annotations__.items():
            assert rules[kind, name] == hint.__metadata__[0]


def test_page_has_all_classes() -> None:
    page = (TOP / "docs/shapefiles.md").read_text()
    assert dict(re.findall(r"\b([SRHLP][0-9]{4}) \| ([A-Z][0-9]{2})\b", page)) == CLASSES


def test_layouts() -> None:
    """Those of the package are the ones that the tests have."""
    for record_type, layout in LAYOUTS.items():
        assert {name: PACKAGE_LAYOUTS[record_type][name] for name in layout} == layout
