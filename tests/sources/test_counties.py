"""The made-up counties in examples/ are what their scripts write, byte for byte."""

import subprocess
import sys
from functools import cache
from pathlib import Path

import make_county
import make_town
import pytest
from harness.program import TOP

EXAMPLES = TOP / "examples"
FILES = sorted(str(path.relative_to(EXAMPLES)) for path in EXAMPLES.glob("**/TGR01*.RT*"))

pytestmark = pytest.mark.xdist_group("counties")


@cache
def made() -> dict[str, bytes]:
    town = make_town.files_of(make_town.SEED, make_town.CODE)
    return {**make_county.examples(), **{f"town/{name}": content for name, content in town.items()}}


@pytest.mark.parametrize("name", FILES)
def test_file(name: str) -> None:
    assert (EXAMPLES / name).read_bytes() == made()[name]


def test_every_file_is_kept() -> None:
    assert len(made()) == 13
    assert made().keys() <= {*FILES}


@pytest.mark.parametrize(("script", "folder"), [("make_county.py", "."), ("make_town.py", "town")])
def test_script(tmp_path: Path, script: str, folder: str) -> None:
    subprocess.run([sys.executable, "-B", str(TOP / "tools" / script), str(tmp_path)], check=True)
    written = {str(path.relative_to(tmp_path)) for path in tmp_path.rglob("*") if path.is_file()}
    names = (Path(folder, name) for name in written)
    assert written
    assert all((tmp_path / name.relative_to(folder)).read_bytes() == made()[str(name)] for name in names)


@pytest.mark.parametrize(("seed", "code"), [(make_town.SEED, "01009"), (7, make_town.CODE)])
def test_other_town(tmp_path: Path, seed: int, code: str) -> None:
    options = ["--seed", str(seed), "--code", code, str(tmp_path)]
    subprocess.run([sys.executable, "-B", str(TOP / "tools/make_town.py"), *options], check=True)
    assert {path.name for path in tmp_path.iterdir()} == {f"TGR{code}.RT{number}" for number in "12456"}
    assert (tmp_path / f"TGR{code}.RT1").read_bytes() != made()["town/TGR01007.RT1"]


def test_wrong_code(tmp_path: Path) -> None:
    command = [sys.executable, "-B", str(TOP / "tools/make_town.py"), "--code", "1007", str(tmp_path)]
    done = subprocess.run(command, stderr=subprocess.PIPE, text=True)
    assert done.returncode == 2
    assert done.stderr.endswith("error: a code is five digits, and '1007' isn't\n")
    assert list(tmp_path.iterdir()) == []
