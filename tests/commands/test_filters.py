"""Filters over one county and several, and their refusals."""

from pathlib import Path

import pytest
from harness import cases
from harness.cases import Case

FILTERS = r"""
select --where TRUE --data $county 01001|0|400 * 231|
select --where "CFCC = 'A41'" --score TLID --data $county 01001|0|110 * 239|
select --where "FRIADDL = '1'" --data $county 01001|0|13 * 231|
select --where "FRIADDL IS NULL" --format csv --columns friaddl,TOIADDR --geometry none --data $county 01001|0|22 + 228 * 4 + 14 * 5|
select --where "FRADDL_TEXT LIKE '17__'" --data $county 01001|0|4 * 231|
select --where "FRADDL_TEXT > '9'" --format csv --columns FRADDL,fraddl_text --geometry none --data $county 01001|0|25 + 2 * 10|
select --where TRUE --data empty 01001|0|0|
select --where TRUE --data faulty 01001 01003 01005|1|400 * 231|refused 1 rt1 line 1 WrongLength?county 01003
select --where TRUE --data faulty 01001 01005|3|400 * 231|error: faulty/TGR01005.RT1: not found
select --where TRUE --data folders 01001|3|0|refused 5 rt1 line 1 Read?county 01001
select --where ZIPP=1 --data missing 01001|1|0|refused 91 line 1 column 1 UnknownColumn?no column has this name, and the nearest is ZIPL
select --where '{"op":"in","args":[{"property":"CFCC"},["A41","A61"]]}' --filter-lang cql2-json --data $county 01001|0|122 * 231|
select --where '{"op":"=","args":[{"property":"ZIPL"},""]}' --filter-lang cql2-json --data missing 01001|1|0|refused 92 pointer /args/1 WrongType?*
select --where TRUE --filter-lang json --data missing 01001|2|0|error: --filter-lang is cql2-text or cql2-json, and "json" isn't
select --where TRUE --score FENAME --data $county 01001|2|0|error: --score is a column with numbers, and "FENAME" isn't
select --where TRUE --format json --data missing 01001|2|0|error: --format is rows, csv or geojsonseq, and "json" isn't
select --where TRUE --columns TLID --data missing 01001|2|0|error: --columns needs --format csv or geojsonseq
run --program missing --format rows --geometry line --data missing 01001|2|0|error: --geometry needs --format csv or geojsonseq
run --program missing --format csv --columns TLID,FRLATT --data missing 01001|2|0|error: --columns has "FRLATT", which isn't a column, and the nearest is FRLAT
run --program missing --format csv --columns CFCC,TLID,TLID --data missing 01001|2|0|error: --columns has "TLID" twice
select --where TRUE --format csv --columns '' --data missing 01001|2|0|error: --columns has an empty name
select --where TRUE --format csv --columns CFCC,,TLID --data missing 01001|2|0|error: --columns has an empty name
select --where TRUE --format geojsonseq --geometry point --data missing 01001|2|0|error: --geometry is none, line or shape, and "point" isn't
compile --filter missing.cql|3|0|error: missing.cql: not found
compile --filter folder|3|0|error: folder: is a directory
compile --filter /dev/zero|1|0|refused 96 line 1 column 1048577 TooLong?the text has more than 1,048,576 bytes
compile --filter /dev/zero --filter-lang cql2-json|1|0|refused 96 line 1 column 1048577 TooLong?the text has more than 1,048,576 bytes
compile --filter latin.s|1|0|refused 90 line 1 column 8 Syntax?expected UTF-8
compile --filter -|1|0|refused 90 line 1 column 1 Syntax?expected a predicate, TRUE, FALSE or a parenthesis
"""
SHOWN = """
error: --score is a column with numbers, and "FENAME" isn't
error: --filter-lang is cql2-text or cql2-json, and "json" isn't
error: --format is rows, csv or geojsonseq, and "json" isn't
error: --columns needs --format csv or geojsonseq
error: --columns has "FRLATT", which isn't a column, and the nearest is FRLAT
error: --columns has "TLID" twice
error: --columns has an empty name
error: --geometry is none, line or shape, and "point" isn't
"""


@cases.rows(FILTERS, "extractd ")
def test_filter(files: Path, case: Case) -> None:
    cases.check(case)


@pytest.mark.parametrize("text", SHOWN.strip().splitlines())
def test_shown(text: str) -> None:
    cases.check_shown(text)


def test_rows_come_before_the_refusal(files: Path) -> None:
    """Where both outputs are one stream, the refusal is below the rows."""
    both = cases.check(Case("extractd select --where TRUE --data faulty 01001 01003 2>&1", 1, "*", ""))
    assert both.splitlines()[400:] == [b"refused 1 rt1 line 1 WrongLength", b"county 01003"]
