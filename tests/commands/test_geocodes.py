"""House numbers over one county and several, and invalid arguments of `geocode`."""

from pathlib import Path

import pytest
from harness import cases
from harness.cases import Case
from harness.program import TOP

ADDRESSES = """
--data $county --number 1785 --name persimmon 01001|0|31|
--name=Persimmon --number 00000001785 01001 --data $county 01001|0|62|
--data $county --number 751 --name main 01001|0|62|
--data $county --number 751 --name main --zip 36067 01001|0|31|
--data latin --number 1785 --name persimmón 01001|0|31|
--data latin --number 1785 --name persimmon 01001|0|0|
--data latin --number 1785 --name persimm€n 01001|0|0|
--data $county --number 751 --name main --zip 36068 01001|0|0|
--data empty --number 751 --name main 01001|0|0|
--data faulty --number 751 --name main 01001 01003|1|0|refused 1 rt1 line 1 WrongLength
--data faulty --number 751 --name main 01003 01005|1|0|refused 1 rt1 line 1 WrongLength
--data faulty --number 751 --name main 01005 01003|3|0|error: faulty/TGR01005.RT1: not found
--data folders --number 751 --name main 01001|3|0|refused 5 rt1 line 1 Read
--data $county --number 164-20 --name main 01001|2|0|error: --number is 1 to 11 digits, and "164-20" isn't
--data $county --number 751 --name '' 01001|2|0|error: --name is 1 to 30 characters, and "" isn't
--data $county --number 751 --name main --zip 360670000000 01001|2|0|error: --zip is 1 to 11 digits, and "360670000000" isn't
--data $county --number 751 --name main 01001 1001|2|0|error: CODE is five digits, and "1001" isn't
--data $county --number 751 --name main|2|0|error: the following required arguments were not provided:*<CODE>...*Usage: extractd geocode *
--data $county --number 751 --name main $(yes 01001 | head -n 100001)|2|0|error: 100000 CODEs are taken at most, and 100001 are given
"""
SHOWN = """
error: 100000 CODEs are taken at most, and 100001 are given
error: --number is 1 to 11 digits, and "164-20" isn't
error: --name is 1 to 30 characters, and "" isn't
"""


@pytest.fixture
def latin(files: Path) -> Path:
    """Makes the county with a name beyond ASCII, in Latin-1."""
    (files / "latin").mkdir()
    for record_type in "1456":
        name = f"TGR01001.RT{record_type}"
        lines = (TOP / "examples" / name).read_bytes()
        (files / "latin" / name).write_bytes(lines.replace(b"Persimmon", b"Persimm\xf3n"))
    return files


@cases.rows(ADDRESSES, "extractd geocode ")
def test_address(latin: Path, case: Case) -> None:
    cases.check(case)


def test_batch_is_utf_8(latin: Path) -> None:
    (latin / "letters.csv").write_bytes("number,name\n1785,Persimmón\n".encode())
    output = cases.check(Case("extractd geocode-batch --addresses letters.csv --data latin 01001", 0, "*", ""))
    assert ",Persimmón,".encode() in output


@pytest.mark.parametrize("text", SHOWN.strip().splitlines())
def test_shown(text: str) -> None:
    cases.check_shown(text)
