"""The pages have what the sources say: their generated parts, each refusal, the options of each command and each route."""

import pages
import pytest

OPTIONS = pages.options_in_definition()
REFUSALS = sorted(pages.refusals_in_sources(), key=lambda row: (int(row[0]), row[1]))
# Changes of a page, and what is wrong with it then.
CHANGES = [
    ("README.md", "\n", "\n" * 3, "README.md: {} lines, more than 400"),
    (
        "README.md",
        "compile --filter FILE [--filter-lang LANG]",
        "compile --filter FILE",
        'README.md: compile has the options filter filter-lang score, and not those shown under "Using it"',
    ),
    ("docs/http.md", "| `GET /health` |", "| `PUT /health` |", "docs/http.md: no row for GET /health"),
    ("docs/refusals.md", "**2 WrongType**", "**2 OtherType**", "docs/refusals.md: 2 OtherType isn't in the sources"),
    ("docs/refusals.md", "- **2 WrongType**", "- WrongType", "docs/refusals.md: 2 WrongType is missing"),
    ("docs/ARCHITECTURE.md", "- `numerals`:", "- `numeral`:", "the part crates isn't what the sources say"),
    ("docs/helpers.md", "| 1 | `field` |", "| 2 | `field` |", "the part helpers isn't what the sources say"),
    ("docs/records.md", "| TLID | 6-15 |", "| TLID | 6-16 |", "the part type 1 isn't what the sources say"),
    ("docs/records.md", "FEAT1 19-26", "FEAT1 19-27", "the part type 4 isn't what the sources say"),
    ("docs/records.md", "FEAT 11-18", "FEAT 11-19", "the part type 5 isn't what the sources say"),
    ("docs/records.md", "ZIPR 72-76", "ZIPR 72-77", "the part type 6 isn't what the sources say"),
]


@pytest.mark.parametrize("name", pages.PARTS)
def test_part(name: str) -> None:
    assert len(pages.PARTS[name][1]()) > 50, "the part is empty"
    assert pages.part_faults(name) == []


@pytest.mark.parametrize("page", pages.pages())
def test_length(page: str) -> None:
    assert pages.read(page).count("\n") > 20
    assert pages.length_faults(page) == []


@pytest.mark.parametrize(("number", "name"), REFUSALS)
def test_refusal(number: str, name: str) -> None:
    assert ((number, name) in pages.refusals_on_page()) != (number in pages.UNREPORTED)


def test_further_refusals() -> None:
    assert pages.refusals_on_page()
    assert pages.refusal_faults() == []


@pytest.mark.parametrize("command", OPTIONS)
def test_options(command: str) -> None:
    assert OPTIONS[command]
    assert pages.options_in_readme()[command] == OPTIONS[command]


@pytest.mark.parametrize("route", pages.routes())
def test_route(route: str) -> None:
    assert f"docs/http.md: no row for {route}" not in pages.route_faults()


def test_no_faults() -> None:
    assert pages.faults() == []


@pytest.mark.parametrize(("page", "old", "new", "fault"), CHANGES, ids=[fault for *_, fault in CHANGES])
def test_changed_page(monkeypatch: pytest.MonkeyPatch, page: str, old: str, new: str, fault: str) -> None:
    texts = {name: pages.read(name) for name in pages.pages()}
    assert old in texts[page]
    texts[page] = texts[page].replace(old, new)
    monkeypatch.setattr(pages, "read", texts.__getitem__)
    found = pages.faults()
    assert any(fault.format(texts[page].count("\n")) in line for line in found)
    assert all(page in line for line in found)
