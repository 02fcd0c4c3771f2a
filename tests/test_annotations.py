"""tests/verdicts/generated.txt is what annotations.py writes: programs, and the verdicts that a search for annotations finds."""

import annotations
from harness.program import TOP


def test_generated_verdicts() -> None:
    written = (TOP / "tests/verdicts/generated.txt").read_text()
    assert "".join(f"{line}\n" for line in annotations.table()) == written
