"""The names in docs/PROOFS.md are in the sources, and each crate has a section there."""

import contract_names
import pytest
from contract_names import Part

PARTS = list(contract_names.parts_of(contract_names.PAGE.read_text(encoding="utf-8")))
CRATES = contract_names.read_crates()
# Headings with nothing below them but sections.
EMPTY = ["Crate by crate"]
DESCRIBED = [name for name in CRATES if contract_names.needs_section(name)]
# Paragraphs of a section on the crate `jobs`, and what is wrong with them.
WRONG = {
    "`nothing_of_this_name`": ["no `nothing_of_this_name`"],
    "`Jobs::nothing`": ["no `Jobs::nothing`"],
    "`specs/Nothing`": ["no file specs/Nothing.antt"],
    "`next_turn` (`nothing`)": [
        "no clause `nothing` of a function that was named",
        "no clause `nothing` of `next_turn`",
    ],
}


@pytest.mark.parametrize("part", PARTS, ids=[part.heading or "the beginning" for part in PARTS])
def test_section(part: Part) -> None:
    assert part.names() or part.heading in EMPTY, "the section has no name"
    assert part.faults(CRATES) == []


@pytest.mark.parametrize("crate", DESCRIBED)
def test_crate_has_a_section(crate: str) -> None:
    assert contract_names.without_section(PARTS, [crate]) == []


@pytest.mark.parametrize("crate", CRATES)
def test_crate_is_read(crate: str) -> None:
    assert CRATES[crate].functions or CRATES[crate].members


def test_missing_section() -> None:
    assert contract_names.without_section([], ["decimal", "tl_tests"]) == ["decimal"]


@pytest.mark.parametrize("paragraph", WRONG)
def test_wrong_names(paragraph: str) -> None:
    assert Part(1, "jobs", ["jobs"], [(1, paragraph)]).faults(CRATES) == [
        f"line 1: jobs: {fault}" for fault in WRONG[paragraph]
    ]


def test_wrong_crate() -> None:
    assert Part(3, "nothing", ["nothing"], []).faults(CRATES) == ["line 3: no crate nothing"]
