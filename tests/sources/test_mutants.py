"""Each mutant can be applied to the sources. The gate has the prover refuse those of must-fail/, and tools/mutants.py the others."""

from pathlib import Path

import mutants
import pytest
from harness.program import TOP
from mutants import Mutant, Replacement

MUTANTS = mutants.chosen([])
SOURCE = """\
impl<'a> Buffer<'a> {
    pub fn push(&mut self) { one }
    fn pop(&mut self) { two; two }
}

pub(crate) const fn first() {
    three
}

const LIMIT: u64 = 4;
"""
# Edits of this source, and the functions that they edit.
FUNCTIONS = {
    "file: src/buffer.rt\nold: one\nnew: 1": ["buffer::Buffer::push"],
    "file: src/buffer.rt\nold: one\nnew: 1\nold: three\nnew: 3": ["buffer::Buffer::push", "buffer::first"],
    "file: src/buffer.rt\nold: LIMIT: u64 = 4\nnew: LIMIT: u64 = 5": None,
}
# Edits that can't be applied to it.
STALE = [
    "file: src/buffer.rt\nold: two\nnew: 2",
    "file: src/buffer.rt\nold: five\nnew: 5",
    "file: src/none.rt\nold: one\nnew: 1",
    "file: src/buffer.rt\nold: one\nnew: 1\nold: two\nnew: 2",
    "file: src/buffer.rt\nold: one",
    "",
]


@pytest.mark.parametrize("mutant", MUTANTS, ids=[mutant.name for mutant in MUTANTS])
def test_mutant(mutant: Mutant) -> None:
    assert any(mutant.replacements()), "it replaces nothing"
    assert mutants.stale_texts(mutant) == []
    assert all(old != new for _, old, new in mutant.replacements())


def test_every_file_is_a_mutant() -> None:
    assert sorted(mutant.path for mutant in MUTANTS) == sorted((TOP / "crates").glob("*/*/*.edit"))


@pytest.fixture
def buffer(tmp_path: Path, monkeypatch: pytest.MonkeyPatch) -> Path:
    """Returns the folder of a crate."""
    monkeypatch.setattr(mutants, "TOP", tmp_path)
    folder = tmp_path / "crates/buffer"
    (folder / "src").mkdir(parents=True)
    (folder / "mutants").mkdir()
    (folder / "src/buffer.rt").write_text(SOURCE)
    return folder


def sample(folder: Path, edit: str) -> Mutant:
    (folder / "mutants/sample.edit").write_text(f"# Why.\n{edit}\n")
    (mutant,) = mutants.chosen(["buffer/sample"])
    return mutant


@pytest.mark.parametrize("edit", FUNCTIONS)
def test_edited_functions(buffer: Path, edit: str) -> None:
    mutant = sample(buffer, edit)
    assert mutants.applies(mutant)
    assert mutants.edited(mutant, buffer) == FUNCTIONS[edit]
    assert (buffer / "src/buffer.rt").read_text() != SOURCE or FUNCTIONS[edit] is None


@pytest.mark.parametrize("edit", STALE)
def test_stale_edit(buffer: Path, edit: str) -> None:
    assert not mutants.applies(sample(buffer, edit))


def test_parts_of_an_edit(buffer: Path) -> None:
    mutant = sample(buffer, "file: src/a.rt\nold:   x: y\nnew:   x: z\nold: \nnew: w")
    assert mutant.name == "buffer/sample"
    assert list(mutant.replacements()) == [
        Replacement("src/a.rt", "  x: y", "  x: z"),
        Replacement("src/a.rt", "", "w"),
    ]


@pytest.mark.parametrize("name", ["buffer/none", "none"])
def test_unknown_name(buffer: Path, name: str) -> None:
    sample(buffer, "")
    with pytest.raises(SystemExit, match=f"{name}: no such mutant, and no crate with mutants"):
        mutants.chosen([name])
