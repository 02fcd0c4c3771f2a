"""install.sh below a folder, and in a clean Debian: what it installs, and that nothing is left when it is uninstalled."""

from collections.abc import Iterator
from contextlib import contextmanager
from pathlib import Path
from typing import NamedTuple

import pytest
from harness.program import TOP
from harness.root import Debian, Files, Said, changes, is_quiet, run, snapshot

INSTALL = TOP / "install.sh"
FIRST = ("select", "--where", "CFCC = 'A41'", "--data")
EXAMPLES = "/usr/local/share/doc/extractd/examples"
PLACES = [
    pytest.param("in_folder", marks=pytest.mark.xdist_group("install")),
    pytest.param("in_debian", marks=[pytest.mark.release, pytest.mark.xdist_group("debian")]),
]


class Place(NamedTuple):
    """Where it is installed: a folder, which may have a Debian, and its files before."""

    root: Path
    debian: Debian | None
    before: Files
    program: str

    def script(self, *arguments: str | Path) -> Said:
        return run(INSTALL, *arguments, environment={"DESTDIR": str(self.root)})

    def install(self) -> Said:
        return self.script("--program", self.program, "/usr/local")

    def first_command(self) -> Said:
        """Runs the first command of README.md with the installed program and counties."""
        if self.debian:
            return self.debian.inside("/usr/local/bin/extractd", *FIRST, EXAMPLES, "01001")
        return run(f"{self.root}/usr/local/bin/extractd", *FIRST, f"{self.root}{EXAMPLES}", "01001")


@contextmanager
def installed(folder: Path, debian: Debian | None, program: str) -> Iterator[Place]:
    (folder / "usr/local").mkdir(parents=True, exist_ok=True)
    place = Place(folder, debian, snapshot(folder), program)
    assert is_quiet(said := place.install()), said
    yield place
    place.script("--uninstall", "/usr/local")


@pytest.fixture(scope="module")
def in_folder(extractd: str, tmp_path_factory: pytest.TempPathFactory) -> Iterator[Place]:
    with installed(tmp_path_factory.mktemp("root"), None, extractd) as place:
        yield place


@pytest.fixture(scope="module")
def in_debian(extractd: str, debian: Debian) -> Iterator[Place]:
    with installed(debian.folder, debian, extractd) as place:
        yield place


@pytest.fixture(scope="module", params=PLACES)
def place(request: pytest.FixtureRequest) -> Place:
    """Returns a place in which it is installed."""
    found = request.getfixturevalue(request.param)
    assert isinstance(found, Place)
    return found


def test_install_again(place: Place) -> None:
    assert is_quiet(place.install())


def test_first_command(place: Place) -> None:
    said = place.first_command()
    assert (said.status, said.output.count("\n"), said.errors) == (0, 110, "")


@pytest.mark.parametrize("unit", ["extractd.service", "extractd@.service"])
def test_program_of_unit(unit: str, place: Place) -> None:
    text = (place.root / "usr/local/lib/systemd/system" / unit).read_text()
    assert "\nExecStart=/usr/local/bin/extractd " in text


def test_links(place: Place) -> None:
    """The links of the installed pages lead to installed files."""
    assert is_quiet(run("python3", TOP / "tools/links.py", place.root / "usr/local/share/doc/extractd"))


@pytest.mark.release
@pytest.mark.xdist_group("debian")
@pytest.mark.parametrize("page", ["README.md", "docs/python.md"])
def test_page(page: str, in_debian: Place) -> None:
    """Its commands run inside as it shows them."""
    assert in_debian.debian
    in_debian.debian.assert_page("/usr/local", page)


def test_uninstall(place: Place) -> None:
    """Nothing is left. Whatever is refused leaves nothing either."""
    assert is_quiet(place.script("--uninstall", "/usr/local"))
    assert changes(place.before, place.root) == []
    assert place.script("--uninstall", "/usr/local").status == 1
    assert changes(place.before, place.root) == []
    assert is_quiet(place.install())


REFUSED: dict[str, tuple[int, list[str]]] = {
    "without PREFIX": (2, []),
    "without a program": (1, ["--program", "none", "prefix"]),
}


@pytest.mark.parametrize("name", REFUSED)
def test_refusal(name: str, here: Path, extractd: str) -> None:
    """It leaves nothing."""
    status, arguments = REFUSED[name]
    assert run(INSTALL, *arguments, folder=here).status == status
    assert list(here.iterdir()) == []
