"""The layout against docs/records.md, and the reading of fields against its rules."""

import re
import string

import pytest
from counties import TOP
from tigerline import Row
from tigerline import layout

hypothesis = pytest.importorskip("hypothesis", reason="no hypothesis")
from hypothesis import given  # noqa: E402
from hypothesis import strategies as st  # noqa: E402

FIELD_TEXT = st.text(st.sampled_from(" 0123456789+-\t\r\0a\xa0\xb2\xff"), min_size=1, max_size=14)


def test_fields_are_those_of_the_document() -> None:
    section = (TOP / "docs/records.md").read_text().split("### Type 1")[1].split("###")[0]
    documented = []
    for names, places in re.findall(r"^\| ([A-Z0-9, ]+) \| ([0-9, -]+) \|", section, re.MULTILINE):
        for name, place in zip(names.split(", "), places.split(", "), strict=True):
            first, _, last = place.partition("-")
            documented.append((name, int(first), int(last or first)))
    documented.sort(key=lambda field: field[1])
    assert documented == [(field.name, field.first, field.last) for field in layout.FIELDS]


def test_kinds_are_those_of_filters() -> None:
    document = (TOP / "docs/filters.md").read_text()
    by_kind = {
        layout.Kind.TEXT: "text",
        layout.Kind.COORDINATE: "coordinate",
        layout.Kind.CODE: "number",
        layout.Kind.NUMBER: "number",
    }
    rows = re.findall(r"^\| (text|number|coordinate) \| ([A-Z0-9_, ]+) \|", document, re.MULTILINE)
    columns = {kind: set(names.split(", ")) for kind, names in rows}
    for field in (*layout.FIELDS, *layout.HOUSE_NUMBER_TEXTS):
        assert field.name in columns[by_kind[field.kind]]


def test_row_has_all_columns() -> None:
    assert Row._fields == ("county", "score", *layout.NAMES)


@pytest.mark.parametrize(
    ("field", "number"),
    [
        ("  123456789", 123456789),
        ("00101      ", 101),
        ("     164-20", None),
        ("       10 1", None),
        ("           ", None),
    ],
)
def test_numbers_of_the_document(field: str, number: int | None) -> None:
    assert layout.number(field) == number


def number_by_hand(field: str) -> int | None:
    """Returns the number by the rule of docs/records.md, written differently."""
    digits = field.strip(" ")
    return int(digits) if 1 <= len(digits) <= 11 and set(digits) <= set(string.digits) else None


def coordinate_by_hand(field: str) -> float | None:
    stripped = field.strip(" ")
    digits = stripped[1:] if stripped[:1] in ("+", "-") else stripped
    if not 1 <= len(digits) <= 9 or not set(digits) <= set(string.digits):
        return None
    return (-int(digits) if stripped[0] == "-" else int(digits)) / 1e6


@given(FIELD_TEXT)
def test_numbers_and_coordinates(field: str) -> None:
    assert layout.number(field) == number_by_hand(field)
    assert layout.coordinate(field) == coordinate_by_hand(field)


@given(st.text(st.characters(max_codepoint=255), max_size=30))
def test_texts(field: str) -> None:
    text = layout.text(field)
    assert (text or "") == field.strip(" ") and text != ""


def test_unknown_column() -> None:
    assert layout.chosen_names(["fename", "TLID", "FENAME"]) == ("FENAME", "TLID")
    with pytest.raises(ValueError, match="no column has the name ZIP"):
        layout.chosen_names(["ZIP"])
