"""A program of 4,003 words, nearly all of them conditional jumps."""

from pathlib import Path

from harness import verdicts
from harness.program import TOP
from harness.server import Server


def test_jumps(here: Path, extractd: str) -> None:
    """`verify` and the server return the same verdict."""
    jumps = "jne r2, 65, +0\n" * 4000
    with Server(TOP / "examples/one") as server:
        assert verdicts.difference(f"ldxb r2, [r1+55]\n{jumps}mov r0, 1\nexit", "accepted", here, server) is None
