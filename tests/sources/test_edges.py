"""crates.txt has the libraries of each crate, and says which of them only definitions and proofs use; no modules of a crate use each other."""

from pathlib import Path

import edges
import pytest
from harness.program import TOP

CRATES = list(edges.crates())
# The crates of another workspace, and their files.
TABLE = """\
low:
# proofs alone: none
middle: low
high: low middle none
"""
FILES = {
    "low/src/lib.rt": "pub fn begin() {}\n",
    "middle/src/lib.rt": "// use low::begin;\nghost use low::begin;\n",
    "high/src/lib.rt": "use low::begin;\nuse crate::first::one;\n",
    "high/src/first.rt": "use crate::second::two;\n",
    "high/src/second.rt": "use crate::{third::three, first};\n",
    "high/src/third.rt": "// use crate::first::one;\n",
    "high/src/middle.rt": "",
    "high/specs/High.antt": "import middle\n",
}
FAULTS = {
    "low": [],
    "middle": ["middle: marked: none; only definitions and proofs use: low"],
    "high": [
        "high: marked: none; only definitions and proofs use: middle",
        "high: first -> second -> first",
        "high: middle.rt has the name of a library",
    ],
}


@pytest.mark.parametrize("crate", CRATES, ids=[crate.name for crate in CRATES])
def test_crate(crate: edges.Crate) -> None:
    assert edges.code_of(crate.name), "the crate has no code"
    assert edges.faults(crate) == []


def test_every_crate_is_listed() -> None:
    assert sorted(crate.name for crate in CRATES) == sorted(path.name for path in (TOP / "crates").iterdir())


def test_uses_between_modules() -> None:
    uses = edges.module_uses("cql2_text")
    assert len(uses) == len(list((TOP / "crates/cql2_text/src").rglob("*.rt")))
    assert any(uses.values())


@pytest.fixture
def workspace(tmp_path: Path, monkeypatch: pytest.MonkeyPatch) -> Path:
    for name, text in FILES.items():
        (tmp_path / "crates" / name).parent.mkdir(parents=True, exist_ok=True)
        (tmp_path / "crates" / name).write_text(text)
    (tmp_path / "crates.txt").write_text(TABLE)
    monkeypatch.setattr(edges, "TOP", tmp_path)
    monkeypatch.setattr(edges, "TABLE", tmp_path / "crates.txt")
    return tmp_path


@pytest.mark.usefixtures("workspace")
@pytest.mark.parametrize("name", FAULTS)
def test_faults(name: str) -> None:
    crate = next(crate for crate in edges.crates() if crate.name == name)
    assert edges.faults(crate) == FAULTS[name]


def test_unused_library(workspace: Path) -> None:
    (workspace / "crates/high/specs/High.antt").write_text("")
    (workspace / "crates/high/src/middle.rt").unlink()
    crate = list(edges.crates())[-1]
    assert "high: middle is used by nothing" in edges.faults(crate)


def test_fixed_marks(workspace: Path) -> None:
    edges.fix()
    fixed = "low:\n# proofs alone: low\nmiddle: low\n# proofs alone: middle\nhigh: low middle none\n"
    assert (workspace / "crates.txt").read_text() == fixed
