"""tools/bad_rows.py can put a malformed row into each table of the crates, and finds the tests that have to fail then."""

import bad_rows
import pytest
from bad_rows import Table
from harness.program import TOP

TABLES = list(bad_rows.tables())
TESTS = bad_rows.tests_of(TABLES)
# Tables whose tests find them by another way than their names, so all tests of the crate are run.
OTHERWISE = ["wire_tests/filter_routes.rt/GROWTHS"]
SOURCE = """\
const ROWS: Table = Table(
    r##"
one; 1
two; "2"
  and so on"##,
);

pub const ONE: Table = Table("one; 1");

const WORDS: Table = Table(concat!(
    "a
", "b"));

#[test]
fn rows_are_read() {
    helper(ROWS);
}

fn helper(table: Table) {}

/// Says why.
#[test]
fn words_are_read() {
    helper(WORDS);
}
"""
# The last row of the table ROWS, and what it is with a bad row below it, of each kind.
LAST = 'two; "2"\n  and so on"##'
BAD = {
    "missing cell": 'two; "2"\n  and so on\ntwo"##',
    "further cell": 'two; "2"\n  and so on\ntwo; "2"\n  and so on;1"##',
    "misspelt cell": 'two; "2"\n  and so on\ntwo; "2"\n  and so onx"##',
}


@pytest.mark.parametrize("table", TABLES, ids=[table.label for table in TABLES])
def test_table(table: Table) -> None:
    source = table.path.read_text(encoding="utf-8")
    changed = [bad_rows.with_row(source, table.name, kind=kind) for kind in [*bad_rows.KINDS, "misspelt"]]
    assert any(changed)
    assert source not in changed
    assert bool(TESTS[table]) != (table.label in OTHERWISE)


def test_every_table_is_found() -> None:
    texts = [path.read_text(encoding="utf-8") for path in TOP.glob("crates/*/src/**/*.rt")]
    assert len(TABLES) == sum(text.count(": Table = Table(") for text in texts) > 100


def test_every_table_is_in_one_round() -> None:
    rounds = list(bad_rows.rounds(TABLES, TESTS))
    assert sorted(table for group in rounds for table in group) == sorted(TABLES)


@pytest.mark.parametrize("kind", BAD)
def test_bad_row(kind: str) -> None:
    changed = bad_rows.with_row(SOURCE, "ROWS", kind=kind)
    assert changed is not None
    assert changed.count(BAD[kind]) == 1
    assert changed.replace(BAD[kind], LAST) == SOURCE


def test_table_in_one_line() -> None:
    assert 'Table("one; 1\none; 1x");' in (bad_rows.with_row(SOURCE, "ONE", kind="misspelt cell") or "")


def test_table_without_cells() -> None:
    assert bad_rows.with_row(SOURCE, "WORDS", kind="missing cell") is None
    assert '", "b\n", "bx"));\n' in (bad_rows.with_row(SOURCE, "WORDS", kind="misspelt") or "")


def test_functions() -> None:
    found = [(name, is_test) for name, _, is_test in bad_rows.functions_of(SOURCE)]
    assert found == [("rows_are_read", True), ("helper", False), ("words_are_read", True)]


def test_other_tests_are_cut() -> None:
    kept = bad_rows.with_tests_only(SOURCE, "sample", {"sample::rows_are_read"})
    assert "rows_are_read" in kept and "helper" in kept
    assert "words_are_read" not in kept and "Says why" not in kept


def test_outcomes(monkeypatch: pytest.MonkeyPatch) -> None:
    """A table passes its trial if one of its own tests failed. A test that ran out of time is no answer."""
    one, other, slow = TABLES[:3]
    tests = {one: {"a::one"}, other: {"a::other"}, slow: {"a::slow"}}
    output = "test a::one ... FAILED\ntest a::other ... ok\ntest a::slow ... FAILED no-answer\ntest result: FAILED.\n"
    monkeypatch.setattr(bad_rows, "run_tests", lambda group, kind, tests: (group, output))
    found = bad_rows.outcomes([one, other, slow], "missing cell", tests)
    assert found == {one: "fails", other: "passes", slow: "passes"}
    monkeypatch.setattr(bad_rows, "run_tests", lambda group, kind, tests: (group, "error: nothing compiles"))
    assert bad_rows.outcomes([one], "missing cell", tests) == {one: "can't be tried: error: nothing compiles"}
