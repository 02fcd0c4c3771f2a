"""The upgrade from the packages of an earlier version, which OLD names: a package, or the folder with all of that version.

In a clean Debian the old packages are installed and configured, and then upgraded. What the administrator wrote stays, files that only the old packages have
are gone, and the program, the manual pages and the completions are the new ones. After a purge every other file is as before. Then the Debian is booted with
systemd as its first process, and the upgrade is repeated while the server runs: upgrade_boot.sh reports on it.
"""

import gzip
import hashlib
import os
import shutil
import tempfile
from collections.abc import Iterator
from pathlib import Path

import pytest
from harness.program import TOP
from harness.root import Debian, Packages, Said, changes, is_quiet, run, snapshot

pytestmark = [
    pytest.mark.release,
    pytest.mark.needs("dpkg-shlibdeps", "strip"),
    pytest.mark.xdist_group("upgrade"),
]

HERE = Path(__file__).parent
PACKAGING = TOP / "deploy/packaging"
MAN = sorted(path.name for path in (PACKAGING / "man").iterdir())
DOCUMENTS = "usr/share/doc/extractd"
NGINX = ("conf.d/extractd.conf", "extractd.key", "extractd.crt")
# What the administrator writes.
WRITTEN = ("srv/tiger", "etc/default/extractd", *(f"etc/nginx/{name}" for name in NGINX))


class Upgrade:
    """A Debian, with the packages of both versions in /packages."""

    def __init__(self, debian: Debian, packages: Packages) -> None:
        self.debian, self.root = debian, debian.folder
        old = Path(os.environ["OLD"]).resolve()
        debian.copy({file: f"packages/old/{file.name}" for file in (old.glob("*.deb") if old.is_dir() else [old])})
        debian.copy({file: f"packages/new/{file.name}" for file in packages.paths()})
        self.before = snapshot(self.root)
        self.links = self.dangling()
        self.old = self.install("old")
        self.old_version = debian.text("extractd", "--version")
        self.configure()
        self.written = self.sums()
        self.new = self.install("new")

    def packages(self, folder: str) -> list[Path]:
        return sorted((self.root / "packages" / folder).iterdir())

    def install(self, folder: str) -> Said:
        return self.debian.inside(
            "dpkg", "--install", *(f"/packages/{folder}/{path.name}" for path in self.packages(folder))
        )

    def fields(self, folder: str, field: str) -> list[str]:
        """Returns a field of the packages in a folder."""
        return [run("dpkg-deb", "-f", path, field).output.strip() for path in self.packages(folder)]

    def version(self, folder: str) -> str:
        versions = set(self.fields(folder, "Version"))
        assert len(versions) == 1
        return versions.pop()

    def contents(self, folder: str) -> set[str]:
        """Returns the paths that the packages in a folder install."""
        lines = [line for path in self.packages(folder) for line in run("dpkg-deb", "-c", path).output.splitlines()]
        return {line.split(maxsplit=5)[5].partition(" -> ")[0].removeprefix("./").rstrip("/") for line in lines}

    def configure(self) -> None:
        """Writes the counties and their files, the unit's settings, and a proxy with a site of the administrator's own."""
        documents = self.root / DOCUMENTS
        for file in (*documents.glob("examples/TGR01001.*"), *documents.glob("examples/town/TGR01007.*")):
            self.debian.copy({file: f"srv/tiger/{file.name}"})
        (self.root / "etc/default/extractd").write_text("COUNTIES=01001 01007\n")
        # In version 1.0 the site was in examples/server.
        site = next(documents.rglob("site.conf")).read_text()
        own = site.replace("extracts.example.org", "tiger.example.net")
        (self.root / "etc/nginx/conf.d/extractd.conf").write_text(own)
        certificate = "openssl req -x509 -newkey rsa:2048 -nodes -days 1 -subj /CN=extractd"
        files = "-keyout /etc/nginx/extractd.key -out /etc/nginx/extractd.crt"
        assert self.debian.inside(*certificate.split(), *files.split()).status == 0
        self.debian.inside("systemctl", "--quiet", "enable", "extractd.service")

    def sums(self) -> dict[str, str]:
        """Returns the checksums of what the administrator wrote."""
        files = [
            file
            for name in WRITTEN
            for file in ((self.root / name).rglob("*") if name == "srv/tiger" else [self.root / name])
        ]
        return {str(file): hashlib.sha256(file.read_bytes()).hexdigest() for file in files}

    def dangling(self) -> str:
        """Returns the links that lead nowhere."""
        return self.debian.text("find", "/", "-xdev", "-xtype", "l")

    def purge(self) -> Said:
        return self.debian.inside("dpkg", "--purge", *self.fields("new", "Package"))

    def left(self) -> list[str]:
        """Returns the names of what isn't as it was before, but for what the administrator wrote, which it removes."""
        shutil.rmtree(self.root / "srv/tiger")
        for name in WRITTEN[1:]:
            (self.root / name).unlink()
        return changes(self.before, self.root)


@pytest.fixture(scope="module")
def upgrade(packages: Packages) -> Iterator[Upgrade]:
    """Yields a Debian after the upgrade."""
    if "OLD" not in os.environ:
        pytest.skip("no packages of an earlier version: OLD names them")
    with tempfile.TemporaryDirectory(prefix="upgrade.") as folder:
        debian = Debian(Path(folder) / "root")
        try:
            yield Upgrade(debian, packages)
        finally:
            debian.close()


def test_later_version(upgrade: Upgrade) -> None:
    assert run("dpkg", "--compare-versions", upgrade.version("new"), "gt", upgrade.version("old")).status == 0


@pytest.mark.parametrize("said", ["old", "new"])
def test_install(said: str, upgrade: Upgrade) -> None:
    found: Said = getattr(upgrade, said)
    assert is_quiet(found), found


def test_old_version(upgrade: Upgrade) -> None:
    assert upgrade.old_version == f"extractd {upgrade.version('old').partition('-')[0]}"


def test_version(upgrade: Upgrade, extractd: str) -> None:
    assert upgrade.debian.text("extractd", "--version") == run(extractd, "--version").errors.rstrip("\n")


def test_version_of_tigerline(upgrade: Upgrade) -> None:
    assert upgrade.debian.text("tigerline", "--version") == f"tigerline {upgrade.version('new').partition('-')[0]}"


def test_files_are_as_packaged(upgrade: Upgrade) -> None:
    said = upgrade.debian.inside("dpkg", "--verify", *upgrade.fields("new", "Package"))
    assert is_quiet(said), said


def test_no_fault(upgrade: Upgrade) -> None:
    assert upgrade.debian.text("dpkg", "--audit") == ""


def test_what_the_administrator_wrote(upgrade: Upgrade) -> None:
    assert upgrade.sums() == upgrade.written != {}


def test_unit_is_enabled(upgrade: Upgrade) -> None:
    assert upgrade.debian.text("systemctl", "is-enabled", "extractd.service") == "enabled"


def test_files_of_the_old_packages_alone(upgrade: Upgrade) -> None:
    names = upgrade.contents("old") - upgrade.contents("new")
    assert [name for name in sorted(names) if os.path.lexists(upgrade.root / name)] == []


def test_links_that_lead_nowhere(upgrade: Upgrade) -> None:
    assert upgrade.dangling() == upgrade.links


@pytest.mark.parametrize("name", MAN)
def test_manual_page(name: str, upgrade: Upgrade) -> None:
    page = upgrade.root / f"usr/share/man/man1/{name}.gz"
    assert gzip.decompress(page.read_bytes()) == (PACKAGING / "man" / name).read_bytes()


def test_manual_pages(upgrade: Upgrade) -> None:
    names = sorted(path.name for path in (upgrade.root / "usr/share/man/man1").iterdir())
    assert [name for name in names if name.startswith(("extractd", "tigerline"))] == [f"{name}.gz" for name in MAN]


COMPLETIONS = {
    "extractd.bash": "usr/share/bash-completion/completions/extractd",
    "_extractd": "usr/share/zsh/vendor-completions/_extractd",
}


@pytest.mark.parametrize("name", COMPLETIONS)
def test_completions(name: str, upgrade: Upgrade) -> None:
    assert (upgrade.root / COMPLETIONS[name]).read_bytes() == (PACKAGING / "completions" / name).read_bytes()


def test_purge(upgrade: Upgrade) -> None:
    """What the administrator wrote stays, and nothing else does."""
    said = upgrade.purge()
    assert is_quiet(said), said
    assert upgrade.sums() == upgrade.written
    assert upgrade.left() == []


# ---- The upgrade while the server runs

# Names and values of upgrade_boot.sh.
BOOTED = """
the old server | 0 0 active
its segments | 1203 1203
the upgrade | 0
the new server answers | ok ok
state of the new server | 0 0 active enabled no
program of the new server | /usr/bin/extractd
segments of the new server | 1203 1203
a server at port 8081 | 803 0 0 active
swap.sh | status 0
segments after the swap | 803
another port | 1203 0 0 active
the purge | 0
servers that still run |
files that are left | LEFT
the upgrade with a drop-in | 0
a server with a drop-in | 400 0 0 active
"""
LEFT = """
/etc/default/extractd
/etc/default/extractd-8081
/etc/nginx/conf.d/extractd.conf
/etc/nginx/extractd.crt
/etc/nginx/extractd.key
/var/log/nginx/extractd.log
"""
BOOT_ROWS = [row.rstrip("|").rstrip().partition(" | ")[::2] for row in BOOTED.strip().splitlines()]


@pytest.fixture(scope="module")
def reported(upgrade: Upgrade) -> dict[str, str]:
    """Returns what upgrade_boot.sh reports, with the old packages installed and configured again."""
    assert is_quiet(said := upgrade.install("old")), said
    upgrade.configure()
    return upgrade.debian.boot(HERE / "upgrade_boot.sh")


@pytest.mark.needs("systemd-nspawn")
@pytest.mark.parametrize("name, value", BOOT_ROWS, ids=[name for name, _ in BOOT_ROWS])
def test_boot(name: str, value: str, reported: dict[str, str]) -> None:
    assert reported[name] == value.replace("LEFT", " ".join(LEFT.split()))
