"""The packages in a Debian that is booted with systemd as its first process. boot.sh runs there, and reports values."""

from pathlib import Path

import pytest
from harness.root import Debian, Packages, is_quiet

pytestmark = [
    pytest.mark.release,
    pytest.mark.needs("dpkg-shlibdeps", "strip", "systemd-nspawn"),
    pytest.mark.xdist_group("debian"),
]

# Names and values.
BOOTED = """
extractd is started | status 0 ok
extractd@8081 is started | status 0 ok
state of extractd | 0 0 active
state of extractd@8081 | 0 0 active
their segments | 400 1
log of extractd@8081 | "GET /health HTTP/1.1" 200 3
log of extractd |
servers that run as root |
a crash | 1 0 active ok
segments through nginx | 400
swap.sh | status 0
segments after the swap | 1 inactive
a missing county | 1 3
a refused county | 0 1 failed
too little memory | 0 4 failed
"""
BOOT_ROWS = [row.rstrip("|").rstrip().partition(" | ")[::2] for row in BOOTED.strip().splitlines()]


@pytest.fixture(scope="module")
def reported(debian: Debian, packages: Packages) -> dict[str, str]:
    debian.copy({packages.paths()[0]: "packages/extractd.deb"})
    assert is_quiet(said := debian.inside("dpkg", "--install", "/packages/extractd.deb")), said
    return debian.boot(Path(__file__).parent / "boot.sh")


@pytest.mark.parametrize("name, value", BOOT_ROWS, ids=[name for name, _ in BOOT_ROWS])
def test_boot(name: str, value: str, reported: dict[str, str]) -> None:
    assert reported[name] == value
