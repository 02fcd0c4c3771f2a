"""The files that docs/CHANGING.md names exist."""

import pytest
import walks

PAGE = walks.PAGE.read_text(encoding="utf-8")
WALKS = walks.walks_of(PAGE)
# Points of a walk, and what is missing of their files.
POINTS = {
    "- `cql2`: `column.rt`, `Column.antt`": [],
    "- `cql2`: `columns.rt`, `Columns.antt`": ["cql2: columns.rt", "cql2: Columns.antt"],
    "- `cql2_text` and `cql2_code`, each: `Name.antt`": ["cql2_text: Name.antt", "cql2_code: Name.antt"],
    "- Tests: `selections.rt` of `cql2_tests`, `heads.rt` of `cql2_tests`": ["cql2_tests: heads.rt"],
    "- `commands`: `never.rt` and `Never.antt` (both new), `lib.rt`, `neither.rt`": ["commands: neither.rt"],
    "- Around it: `extractd-never.1` (new), `extractd-ever.1`, `extractd.1`": ["extractd-ever.1"],
    "- `lib.rt`": ["?: lib.rt"],
}


@pytest.mark.parametrize("walk", WALKS, ids=[walk.title for walk in WALKS])
def test_walk(walk: walks.Walk) -> None:
    assert walks.count_of(walk) > 3
    assert [name for point in walk.points for name in walks.missing(point)] == []


@pytest.mark.parametrize("point", POINTS)
def test_missing(point: str) -> None:
    assert walks.missing(*walks.points_of(point)) == POINTS[point]


def test_modules_of_tests() -> None:
    assert walks.missing_tests(PAGE) == []
    assert walks.missing_tests(PAGE.replace("`bpf_tests` frame", "`bpf_tests` frames")) == ["bpf_tests: frames"]
