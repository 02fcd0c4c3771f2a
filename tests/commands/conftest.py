"""What the commands are tried on: folders and files next to the example county."""

import shutil
from pathlib import Path

import pytest
from harness import cases
from harness.program import TOP


@pytest.fixture
def files(here: Path, extractd: str) -> Path:
    """Goes to a new folder with what can't be used: an empty county, one whose files are folders, a faulty one, a folder, an empty file, and one in Latin-1."""
    for name in ("folder", "empty", "folders/TGR01001.RT1", "faulty"):
        (here / name).mkdir(parents=True)
    for name in ("nothing", "empty/TGR01001.RT1"):
        (here / name).touch()
    shutil.copy(TOP / "examples/TGR01001.RT1", here / "faulty")
    (here / "faulty/TGR01003.RT1").write_text("x\n")
    (here / "latin.s").write_bytes(b"exit ; \xff\n")
    return here


@pytest.fixture(scope="session")
def unprivileged(extractd: str) -> str:
    """Returns the words that run the program without root's right to read every file. As root it needs setpriv, which may be refused."""
    if cases.run(f"{cases.UNPRIVILEGED} dis --program $all").status:
        pytest.skip("root can't give up the right to read every file: setpriv is refused")
    return cases.UNPRIVILEGED
