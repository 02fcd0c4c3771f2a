"""The settings of deploy/server's files, one by one: each is in a table with its reason, and no file has another.

A row of unit.txt, site.txt or nginx.txt is a section or a block, a setting, and the reason, if it isn't plain. A reason between quotation marks is a text of
docs/operating.md.
"""

import re
from collections.abc import Iterator
from pathlib import Path
from typing import NamedTuple

import pytest
from harness.nginx import SERVER
from harness.program import TOP
from harness.tables import rows_of

HERE = Path(__file__).parent
# What a setting ends with that another test looks at.
ANY = "*"
WORD = re.compile(r"#.*|'[^']*'|\"[^\"]*\"|[{};]|[^\s{};]+")
SIZES = {"": 1, "K": 2**10, "M": 2**20, "G": 2**30}


class Row(NamedTuple):
    block: str
    setting: str
    reason: str

    @property
    def name(self) -> str:
        return f"{self.block}: {self.setting}"


def table(name: str) -> list[Row]:
    cells = ([*map(str.strip, row.split(" | ")), ""] for _, row in rows_of(HERE / name))
    return [Row(*row[:3]) for row in cells]


def in_unit(name: str) -> Iterator[str]:
    """Yields a unit's settings with their sections, in its order."""
    section = ""
    for line in (SERVER / name).read_text().replace("\\\n", "").splitlines():
        if line.startswith("["):
            section = line.strip("[]")
        elif line and not line.startswith("#"):
            yield f"{section}: {line}"


def in_site(name: str) -> Iterator[str]:
    """Yields the settings of a file of nginx with their innermost blocks, in its order."""
    blocks, words = ["http" if name == "site.conf" else "main"], list[str]()
    for word in WORD.findall((SERVER / name).read_text()):
        if word == ";":
            yield f"{blocks[-1]}: {' '.join(words)}"
        elif word == "{":
            blocks.append(" ".join(words))
        elif word == "}":
            blocks.pop()
        if word in ";{}":
            words = []
        elif not word.startswith("#"):
            words.append(word)


def of_template(setting: str) -> str:
    """Returns a setting of extractd.service as extractd@.service has it, where the port is part of the unit's name."""
    setting = setting.replace("PORT=8080", "PORT=%i").replace("/default/extractd", "/default/extractd-%i")
    return re.sub("^Unit: Description=.*", r"\g<0>, at port %i", setting)


UNIT, SITE, NGINX = table("unit.txt"), table("site.txt"), table("nginx.txt")
FOUND = {
    "extractd.service": list(in_unit("extractd.service")),
    "extractd@.service": list(in_unit("extractd@.service")),
    "site.conf": list(in_site("site.conf")),
    "nginx.conf": list(in_site("nginx.conf")),
}
LISTED = {
    "extractd.service": [row.name for row in UNIT],
    "extractd@.service": [of_template(row.name) for row in UNIT],
    "site.conf": [row.name for row in SITE],
    "nginx.conf": [row.name for row in NGINX],
}
SETTINGS = [(file, setting) for file in LISTED for setting in LISTED[file]]
REASONS = [row for row in (*UNIT, *SITE, *NGINX) if row.reason.startswith('"')]


def is_like(setting: str, listed: str) -> bool:
    return setting == listed or listed.endswith(ANY) and setting.startswith(listed.removesuffix(ANY))


@pytest.mark.parametrize("file, setting", SETTINGS, ids=map(" ".join, SETTINGS))
def test_setting(file: str, setting: str) -> None:
    name = re.split("[= ]", setting.partition(": ")[2])[0]
    block = setting.partition(": ")[0]
    alike = [found for found in FOUND[file] if re.match(rf"{re.escape(f'{block}: {name}')}[= ]", f"{found} ")]
    assert any(is_like(found, setting) for found in alike), f"{file} should have {setting}, and has {alike}"


@pytest.mark.parametrize("file", FOUND)
def test_no_other_setting(file: str) -> None:
    """They are also in the table's order, which counts for some."""
    others = [found for found in FOUND[file] if not any(is_like(found, listed) for listed in LISTED[file])]
    assert others == []
    assert len(FOUND[file]) == len(LISTED[file])
    assert all(map(is_like, FOUND[file], LISTED[file]))


def test_template() -> None:
    """But for the port and the file of settings, both units are the same."""
    assert FOUND["extractd@.service"] == list(map(of_template, FOUND["extractd.service"]))


@pytest.mark.parametrize("row", REASONS, ids=[row.name for row in REASONS])
def test_reason(row: Row) -> None:
    """docs/operating.md says so."""
    page = " ".join((TOP / "docs/operating.md").read_text().split())
    assert row.reason.strip('"') in page


@pytest.mark.parametrize("unit", ["extractd.service", "extractd@.service"])
def test_memory(unit: str) -> None:
    """Requests are refused before the process is killed."""
    sizes = dict(re.findall(r"^(LimitAS|MemoryMax)=(\d+[KMG]?)$", (SERVER / unit).read_text(), re.MULTILINE))
    limit, most = (
        int(size.rstrip("KMG")) * SIZES[size.lstrip("0123456789")]
        for size in map(sizes.get, ("LimitAS", "MemoryMax"))
        if size
    )
    assert limit < most


@pytest.mark.parametrize("unit", ["extractd.service", "extractd@.service"])
def test_defaults(unit: str) -> None:
    """docs/operating.md has a table of them. The template has its port from its name."""
    page = (TOP / "docs/operating.md").read_text()
    shown = re.findall(r"^\| `([A-Z]+)=` \|(?: `([^`]*)`)? \|", page, re.MULTILINE)
    (words,) = (found.partition("=")[2] for found in FOUND[unit] if found.startswith("Service: Environment="))
    assert dict(word.split("=", 1) for word in words.replace("%i", "8080").split()) == dict(shown)
