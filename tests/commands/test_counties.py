"""The files of a county: missing, empty, folders, forbidden, faulty."""

import shutil
from collections.abc import Iterator
from itertools import islice, repeat
from pathlib import Path

import pytest
from harness import cases
from harness.cases import Case
from harness.program import TOP

EXAMPLES = TOP / "examples"
ALL = "400 * 231"
RUN = "extractd run --program $all --data county 01001"
TRACE = "extractd trace --program $all --data county --line 1 --limit 9 01001"
# One program selects the segments with an alternate name, another those with a further range.
NAMES = "call 3\nexit\n"
RANGES = "call 4\nadd r0, -1\nexit\n"
# The types of the files of a county, and the numbers of segments that those programs select.
MISSING = """
1456 123 26
156 0 26
146 0 26
145 123 0
1 0 0
"""
# A county without its file of type 1 isn't an empty county, for any command. A folder without a name is the root.
MISSING_TYPE_1 = """
run --program $all --data FOLDER 01001|3|0|error: FOLDER/TGR01001.RT1: not found
trace --program $all --line 1 --limit 1 --data FOLDER 01001|3|0|error: FOLDER/TGR01001.RT1: not found
select --where TRUE --data FOLDER 01001|3|0|error: FOLDER/TGR01001.RT1: not found*
geocode --number 751 --name main --data FOLDER 01001|3|0|error: FOLDER/TGR01001.RT1: not found
geocode-batch --addresses $county/addresses.csv --data FOLDER 01001|3|0|error: FOLDER/TGR01001.RT1: not found
serve --port 1 --data FOLDER 01001|3|0|error: FOLDER/TGR01001.RT1: not found
"""
# Lines at the end of the file of a type, and the refusals of them.
FAULTS = r"""
4|40006 107000725  1     130     133                       \n|refused 1 rt4 line 140 WrongLength
4|50006 107000725  1     130     133                        \n|refused 2 rt4 line 140 WrongType
4|40006 1070007x5  1     130     133                        \n|refused 3 rt4 line 140 BadTlid
5|5000601001     130  Old Lantern                   Ct   \n|refused 1 rt5 line 99 WrongLength
5|4000601001     130  Old Lantern                   Ct    \n|refused 2 rt5 line 99 WrongType
5|5000601001          Old Lantern                   Ct    \n|refused 4 rt5 line 99 BadFeature
6|\n|refused 1 rt6 line 39 WrongLength
6|10006 107000725  1       3901       3999                      01  36067     \n|refused 2 rt6 line 39 WrongType
6|60006            1       3901       3999                      01  36067     \n|refused 3 rt6 line 39 BadTlid
"""
# Commands on a county with such a fault, then with a fault in its file of type 1 too.
WAYS = {"run": RUN, "trace": TRACE, "run with two faults": f"printf 'x\\n' >> county/TGR01001.RT1; {RUN}"}
TOO_MANY = {"6": "refused 7 rt6 line 1001 TooManyRanges", "4": "refused 6 rt4 line 1001 TooManyNames"}


def name_of(record_type: str) -> str:
    return f"TGR01001.RT{record_type}"


def make_county(types: str) -> Path:
    """Copies the files of these types, such as 1456, from the example county to the folder `county`."""
    county = Path("county")
    county.mkdir()
    for record_type in types:
        shutil.copy(EXAMPLES / name_of(record_type), county)
    return county


def append(file: Path, data: bytes) -> None:
    with file.open("ab") as out:
        out.write(data)


@pytest.mark.parametrize("row", MISSING.strip().splitlines())
@pytest.mark.parametrize("program", ["all", "names", "ranges"])
def test_missing_file(files: Path, row: str, program: str) -> None:
    types, names, ranges = row.split()
    make_county(types)
    shutil.copy(EXAMPLES / "programs/all.bpf", "all.bpf")
    for name, text in {"names": NAMES, "ranges": RANGES}.items():
        Path(f"{name}.s").write_text(text)
        cases.check(Case(f"extractd asm --source {name}.s > {name}.bpf", 0, "0", ""))
    selected = {"all": "400", "names": names, "ranges": ranges}[program]
    cases.check(Case(f"extractd run --program {program}.bpf --data county 01001", 0, f"{selected} * 231", ""))


@pytest.mark.parametrize("folder", ["county", ""])
@cases.rows(MISSING_TYPE_1)
def test_missing_type_1(files: Path, case: Case, folder: str) -> None:
    make_county("456")
    command = f"extractd {case.command.replace('FOLDER', folder or repr(folder))}"
    cases.check(case._replace(command=command, text=case.text.replace("FOLDER", folder)))


@pytest.mark.parametrize("record_type", "456")
def test_empty_file(files: Path, record_type: str) -> None:
    (make_county("1456") / name_of(record_type)).write_bytes(b"")
    cases.check(Case(RUN, 0, ALL, ""))


@pytest.mark.parametrize("record_type", "456")
def test_folder_for_a_file(files: Path, record_type: str) -> None:
    file = make_county("1456") / name_of(record_type)
    file.unlink()
    file.mkdir()
    cases.check(Case(RUN, 3, "0", f"refused 5 rt{record_type} line 1 Read"))


@pytest.mark.parametrize(
    "row", FAULTS.strip().splitlines(), ids=[row.split("|")[2] for row in FAULTS.strip().splitlines()]
)
@pytest.mark.parametrize("way", WAYS)
def test_fault(files: Path, row: str, way: str) -> None:
    """A fault in a file that is read earlier is reported first, whatever its line."""
    record_type, line, text = row.split("|")
    append(make_county("1456") / name_of(record_type), line.replace("\\n", "\n").encode())
    cases.check(Case(WAYS[way], 1, "0", text))


@pytest.mark.parametrize("command, size", [(RUN, ALL), (TRACE, "0")], ids=["run", "trace"])
def test_fault_in_type_1(files: Path, command: str, size: str) -> None:
    """The rows of the lines before it come first."""
    append(make_county("1456") / name_of("1"), b"x\n")
    cases.check(Case(command, 1, size, "refused 1 rt1 line 401 WrongLength"))


def lines_of_nothing(record_type: str, count: int) -> Iterator[bytes]:
    """Yields lines of a TLID that no line of type 1 has."""
    line = (EXAMPLES / "one" / name_of(record_type)).read_bytes().replace(b"\r", b"").splitlines(keepends=True)[0]
    return islice(repeat(record_type.encode() + b"0006         5" + line[15:]), count)


@pytest.mark.parametrize("types", ["4", "46"])
def test_many_lines(files: Path, types: str) -> None:
    county = make_county("1")
    for record_type in types:
        (county / name_of(record_type)).write_bytes(b"".join(lines_of_nothing(record_type, 1000)))
    cases.check(Case(RUN, 0, ALL, ""))


@pytest.mark.parametrize("types", ["6", "64"])
def test_too_many_lines(files: Path, types: str) -> None:
    """The files of types 4 and 6 have 1,000 lines, and these types one more. That of type 4 is read first."""
    county = make_county("1")
    for record_type in "46":
        count = 1001 if record_type in types else 1000
        (county / name_of(record_type)).write_bytes(b"".join(lines_of_nothing(record_type, count)))
    cases.check(Case(RUN, 1, "0", TOO_MANY[types[-1]]))


@pytest.mark.parametrize("record_type", "1456")
def test_forbidden_file(files: Path, unprivileged: str, record_type: str) -> None:
    (make_county("1456") / name_of(record_type)).chmod(0)
    command = f"{unprivileged} run --program $all --data county 01001"
    cases.check(Case(command, 3, "0", f"error: county/{name_of(record_type)}: permission denied"))
