"""The files that repeat the version in VERSION have it, and no others name one."""

import re
from pathlib import Path

import pytest
import version
from harness.program import TOP

# Two versions of the program.
OLD, NEW = map("extractd {}".format, ("1.2.2", "1.2.3"))


@pytest.mark.parametrize("path", version.COPIES)
def test_copy(path: str) -> None:
    assert version.copy_faults(path) == []


@pytest.mark.parametrize("path", sorted(version.OTHERS))
def test_other_version(path: str) -> None:
    assert re.search(version.PROGRAM, (TOP / path).read_text()), "it names none any more"


def test_further_files() -> None:
    assert set(version.sources()) > {"README.md", "conftest.py", "install.sh", *version.OTHERS}
    assert version.other_faults() == []


def test_changelog() -> None:
    assert re.fullmatch(version.NUMBER, version.VERSION)
    assert version.changelog_faults() == []


def test_no_faults() -> None:
    assert version.faults() == []


@pytest.fixture
def clone(tmp_path: Path, monkeypatch: pytest.MonkeyPatch) -> Path:
    """Returns a clone with two copies of the version 1.2.3, and a file of another."""
    files = {"a.md": f"{NEW} and {NEW}", "b.py": 'VERSION = "1.2.3"', "c.rt": OLD}
    for name, text in {**files, "out/d.md": OLD}.items():
        (tmp_path / name).parent.mkdir(exist_ok=True)
        (tmp_path / name).write_text(text)
    monkeypatch.setattr(version, "TOP", tmp_path)
    monkeypatch.setattr(version, "VERSION", "1.2.3")
    monkeypatch.setattr(version, "OTHERS", {"c.rt"})
    monkeypatch.setattr(version, "COPIES", {"a.md": (version.PROGRAM,), "b.py": (r'(VERSION = ")(\d\.\d\.\d)',)})
    (tmp_path / "CHANGELOG.md").write_text("\n## [1.2.3]\n")
    return tmp_path


# Changes of a file of this clone, and what is wrong then.
CHANGES = [
    ("a.md", f"{NEW} and {NEW}", []),
    ("a.md", f"{NEW} and {OLD}", ["a.md: the version isn't 1.2.3; run tools/version.py"]),
    ("b.py", "VERSION = ''", ["b.py: the version isn't 1.2.3; run tools/version.py"]),
    ("d.sh", NEW, ["d.sh: names a version, but isn't in tools/version.py"]),
    ("CHANGELOG.md", "\n## [1.2.2]", ["CHANGELOG.md: no section on 1.2.3"]),
]


@pytest.mark.parametrize(("path", "text", "faults"), CHANGES)
def test_changed_file(clone: Path, path: str, text: str, faults: list[str]) -> None:
    (clone / path).write_text(text)
    assert version.faults() == faults


def test_written_copy() -> None:
    assert version.with_version("python/tigerline/version.py", '__version__ = "0.0.1"') == (
        f'__version__ = "{version.VERSION}"'
    )
