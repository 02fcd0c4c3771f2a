"""The Debian packages: what deb.sh builds, what they install in a clean Debian, and that nothing is left when they are purged."""

import gzip
import re
import shlex
import time
from pathlib import Path

import pytest
from harness.counts import listed
from harness.program import TOP
from harness.root import DEB, Files, Installed, Packages, Unpacked, changes, is_quiet, run, snapshot

pytestmark = [
    pytest.mark.release,
    pytest.mark.needs("dpkg-shlibdeps", "strip"),
    pytest.mark.xdist_group("debian"),
]

DOCUMENTS = "usr/share/doc/extractd"
MAN = sorted(path.name for path in (TOP / "deploy/packaging/man").iterdir())
UNITS = ("extractd.service", "extractd@8081.service")
# The pages with tests.
PAGES = [name for name in listed() if name.endswith(".md")]


def rows(text: str) -> list[list[str]]:
    return [row.split(" | ") for row in text.strip().splitlines()]


# ---- What deb.sh builds


def test_building(packages: Packages) -> None:
    assert is_quiet(packages.said)
    assert sorted(packages.folder.iterdir()) == packages.paths()


def test_building_again(packages: Packages, extractd: str, tmp_path: Path) -> None:
    """Both are equal, though the time is another one."""
    time.sleep(1)
    again = Packages.built(extractd, tmp_path)
    assert is_quiet(again.said)
    assert [path.read_bytes() for path in again.paths()] == [path.read_bytes() for path in packages.paths()]


REFUSALS = """
a script | DEB | none | deb.sh: DEB: not an x86-64 ELF file
another program | /bin/true | none | deb.sh: /bin/true: --version isn't that of extractd
no folder | PROGRAM | nowhere | deb.sh: nowhere: no folder is there
"""


@pytest.mark.parametrize("name, program, folder, text", rows(REFUSALS), ids=[row[0] for row in rows(REFUSALS)])
def test_refusal(name: str, program: str, folder: str, text: str, here: Path, extractd: str) -> None:
    """Nothing is left of it."""
    (here / "none").mkdir()
    said = run(DEB, program.replace("DEB", str(DEB)).replace("PROGRAM", extractd), folder)
    assert said.status == 1
    assert said.output + said.errors == f"{text.replace('DEB', str(DEB))}\n"
    assert list(here.iterdir()) == [here / "none"] and list((here / "none").iterdir()) == []


def contents(package: Path) -> list[str]:
    return run("dpkg-deb", "-c", package).output.splitlines()


def test_modes(packages: Packages) -> None:
    modes = {line[:10] for line in contents(packages.paths()[0])}
    assert modes == {"-rw-r--r--", "-rwxr-xr-x", "drwxr-xr-x"}


def test_program_is_for_all(packages: Packages) -> None:
    """Nobody but root may write it."""
    lines = [line.split() for line in contents(packages.paths()[0])]
    assert [line[:2] for line in lines if line[-1] == "./usr/bin/extractd"] == [["-rwxr-xr-x", "root/root"]]


def test_depends_on_the_c_library(packages: Packages) -> None:
    depends = run("dpkg-deb", "-f", packages.paths()[0], "Depends").output
    assert [word.strip() for word in re.findall(r"([^,(]*)\(", depends)].count("libc6") == 1


@pytest.mark.needs("lintian")
def test_lintian(packages: Packages) -> None:
    """The packages aren't for Debian's archive, so they close no request for packaging."""
    options = ("--allow-root", "--fail-on", "error,warning", "--suppress-tags", "initial-upload-closes-no-bugs")
    assert is_quiet(said := run("lintian", *options, *packages.paths())), said


# ---- A folder in which dpkg unpacks them


@pytest.fixture(scope="module")
def unpacked(packages: Packages, tmp_path_factory: pytest.TempPathFactory) -> tuple[Unpacked, Files]:
    root = Unpacked(tmp_path_factory.mktemp("unpacked"))
    before = snapshot(root.folder)
    said = root.dpkg("--install", *packages.paths())
    assert said.status == 0, said
    return root, before


def test_first_command(unpacked: tuple[Unpacked, Files]) -> None:
    folder = unpacked[0].folder
    select = ("select", "--where", "CFCC = 'A41'", "--data", f"{folder}/{DOCUMENTS}/examples", "01001")
    assert run(f"{folder}/usr/bin/extractd", *select).output.count("\n") == 110


def test_purge_of_what_is_unpacked(unpacked: tuple[Unpacked, Files]) -> None:
    """dpkg warns about folders that belong to no other package."""
    root, before = unpacked
    assert (said := root.dpkg("--purge", "extractd", "python3-tigerline")).status == 0, said
    assert changes(before, root.folder) == []


# ---- A clean Debian


def test_install(installed: Installed) -> None:
    assert is_quiet(installed.said), installed.said


def test_install_again(installed: Installed) -> None:
    said = installed.install()
    assert is_quiet(said), said


QUIET = """
each file is as packaged | dpkg --verify extractd python3-tigerline
units | systemd-analyze verify --man=no /usr/lib/systemd/system/extractd.service /usr/lib/systemd/system/extractd@8081.service
"""
# A row is a name, all that a command writes, and the command.
WRITTEN = """
no fault |  | dpkg --audit
version | extractd VERSION | extractd --version
version of tigerline | tigerline VERSION | tigerline --version
the Python package | /usr/lib/python3/dist-packages/tigerline/__init__.py | python3 -c 'import tigerline; print(tigerline.__file__)'
completions in bash | complete -F _extractd extractd | bash -c '. /usr/share/bash-completion/completions/extractd && complete -p extractd'
completions in zsh | #compdef extractd | head -n 1 /usr/share/zsh/vendor-completions/_extractd
"""


@pytest.mark.parametrize("name, command", rows(QUIET), ids=[row[0] for row in rows(QUIET)])
def test_quiet(name: str, command: str, installed: Installed) -> None:
    said = installed.debian.inside(*shlex.split(command))
    assert is_quiet(said), said


@pytest.mark.parametrize("name, text, command", rows(WRITTEN), ids=[row[0] for row in rows(WRITTEN)])
def test_written(name: str, text: str, command: str, installed: Installed) -> None:
    assert installed.debian.text(*shlex.split(command)) == text.replace("VERSION", installed.version)


def test_links(installed: Installed) -> None:
    """The links of the installed pages lead to installed files."""
    assert is_quiet(run("python3", TOP / "tools/links.py", installed.debian.folder / DOCUMENTS))


@pytest.mark.parametrize("page", PAGES)
def test_page(page: str, installed: Installed) -> None:
    """Its commands run inside as it shows them."""
    installed.debian.assert_page("/usr", page)


def test_header(installed: Installed) -> None:
    header = installed.debian.folder / "usr/include/extractd.h"
    assert header.read_bytes() == (TOP / "tools/c/extractd.h").read_bytes()


def test_manual_pages(installed: Installed) -> None:
    folder = installed.debian.folder / "usr/share/man/man1"
    ours = sorted(path.name for path in folder.iterdir() if path.name.startswith(("extractd", "tigerline")))
    assert ours == [f"{name}.gz" for name in MAN]


@pytest.mark.parametrize("name", MAN)
def test_manual_page(name: str, installed: Installed) -> None:
    page = installed.debian.folder / f"usr/share/man/man1/{name}.gz"
    assert gzip.decompress(page.read_bytes()) == (TOP / "deploy/packaging/man" / name).read_bytes()


# ---- The end


def test_units_are_enabled(installed: Installed) -> None:
    installed.debian.inside("systemctl", "--quiet", "enable", *UNITS)
    assert installed.debian.text("systemctl", "is-enabled", *UNITS) == "enabled\nenabled"


def test_purge(installed: Installed) -> None:
    """dpkg knows nothing of them."""
    said = installed.purge()
    assert is_quiet(said), said
    assert installed.debian.inside("dpkg-query", "--show", "extractd", "python3-tigerline").output == ""
    names = [path.name for path in (installed.debian.folder / "var/lib/dpkg/info").iterdir()]
    assert [name for name in names if name.startswith(("extractd", "python3-tigerline"))] == []


def test_nothing_is_left(installed: Installed) -> None:
    assert installed.left() == []
