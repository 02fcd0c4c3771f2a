"""The names that options and parameters take are in the code once. Whatever lists them has all of them, in the same order."""

import re
from pathlib import Path
from typing import NamedTuple

import pages
import pytest
from harness.program import TOP

LAYERS, FILTERS = "crates/layers/src", "crates/filters/src"
MAN = "deploy/packaging/man/extractd"
BASH, ZSH = "deploy/packaging/completions/extractd.bash", "deploy/packaging/completions/_extractd"
# Words of a list that are no names.
OTHERS = {"and", "by", "default", "is", "its", "needs", "or", "the", "these"}


def read(path: str) -> str:
    return (TOP / path).read_text()


def part(path: str, pattern: str) -> str:
    """Returns what the group of a pattern, which a file has once, is in the file."""
    found: list[str] = re.findall(pattern, read(path), re.DOTALL)
    assert len(found) == 1, f"{path} has {len(found)} times {pattern}"
    return found[0]


def arms(path: str, function: str) -> list[str]:
    """Returns the texts of the arms of a function's match."""
    return re.findall(r'"([^"]+)"\)? =>', part(path, rf"fn {function}<(.*?)\n}}"))


def compared(function: str) -> list[str]:
    """Returns the texts with which a function of the queries compares a key."""
    return re.findall(r'key == "([^"]+)"', part("crates/wire/src/query.rt", rf"fn {function}\((.*?)\n}}"))


COLUMNS = re.findall(r'^ +(?:Number|Coordinate|Text) \w+ "(\w+)"', read("crates/cql2/src/column.rt"), re.MULTILINE)
NAMES = {
    "format": arms(f"{LAYERS}/names.rt", "layer_named"),
    "geometry": arms(f"{LAYERS}/names.rt", "geometry_named"),
    "filter-lang": arms(f"{FILTERS}/options.rt", "language_named"),
    "compile": sorted(compared("is_filter_key")),
    "select": sorted([*compared("is_filter_key"), *compared("is_select_key")]),
}


class Place(NamedTuple):
    """Where a file lists names: those of the group of a pattern."""

    list: str
    path: str
    pattern: str


PLACES = [
    Place("format", f"{LAYERS}/layer_fault.rt", r'"format is ([^"]*)"'),
    Place("format", "crates/command_line/src/argument.rt", r'"FORMAT": "([^:"]*)'),
    Place("format", f"{MAN}-select.1", r"\nThe form of the output:\n.Bl -tag -width geojsonseq\n(.*?)\n\.El\n"),
    Place("format", BASH, r"--format\).*?compgen -W '([^']*)'"),
    Place("format", ZSH, r":format:\(([^)]*)\)"),
    Place("format", "README.md", r"\[--format ([a-z|]*)\]"),
    Place("format", "docs/layers.md", r"\n- `--format ([^:]*):"),
    Place("format", "docs/refusals.md", r"`error: --format is ([^\"]*), and"),
    Place("geometry", f"{LAYERS}/layer_fault.rt", r'"geometry is ([^"]*)"'),
    Place("geometry", "crates/command_line/src/argument.rt", r'"GEOMETRY": "[^:]*: ([^"]*), which'),
    Place("geometry", f"{MAN}-select.1", r"\n(\.Cm none ;.*?)\nThese are"),
    Place("geometry", BASH, r"--geometry\).*?compgen -W '([^']*)'"),
    Place("geometry", ZSH, r":geometry:\(([^)]*)\)"),
    Place("geometry", "README.md", r"\[--geometry ([a-z|]*)\]"),
    Place("geometry", "docs/layers.md", r"\n- `--geometry ([^:]*):"),
    Place("geometry", "docs/refusals.md", r"`error: --geometry is ([^\"]*), and"),
    Place("filter-lang", f"{FILTERS}/options_fault.rt", r'"filter-lang is ([^"]*)"'),
    Place("filter-lang", "crates/command_line/src/argument.rt", r'"LANG": "[^:]*: ([^"]*)"'),
    Place("filter-lang", f"{MAN}-select.1", r"\nThe language of the filter:\n(.*?)\nCQL2's"),
    Place("filter-lang", f"{MAN}-compile.1", r"\nThe language of the filter:\n(.*?)\nCQL2's"),
    Place("filter-lang", BASH, r"--filter-lang\).*?compgen -W '([^']*)'"),
    Place("filter-lang", ZSH, r":language:\(([^)]*)\)"),
    Place("filter-lang", "docs/refusals.md", r"`error: --filter-lang is ([^\"]*), and"),
]
# The parameters of a route, in the table of docs/http.md.
ROUTES = [("POST /select", "select"), ("POST /compile", "compile"), ("POST /filter-jobs", "compile")]


def listed(place: Place) -> list[str]:
    """Returns the names in a list, without those of mdoc's macros. Of a tagged list they are the tags."""
    text = part(place.path, place.pattern)
    tags = re.findall(r"^\.(?:It )?Cm (\S+)", text, re.MULTILINE)
    return tags or [word for word in re.findall(r"[a-z0-9-]+", text) if word not in OTHERS]


@pytest.mark.parametrize("name", NAMES)
def test_names(name: str) -> None:
    assert len(NAMES[name]) > 1
    assert len(set(NAMES[name])) == len(NAMES[name])


@pytest.mark.parametrize("place", PLACES, ids=[f"{place.list} in {place.path}" for place in PLACES])
def test_place(place: Place) -> None:
    assert listed(place) == NAMES[place.list]


@pytest.mark.parametrize(("route", "name"), ROUTES)
def test_parameters(route: str, name: str) -> None:
    row = part("docs/http.md", rf"\| `{route}` \| a filter; ([^|]*) \|")
    assert sorted(re.findall(r"`([^`]*)`", row)) == NAMES[name]


@pytest.mark.parametrize("command", ["select", "compile", "run"])
def test_options(command: str) -> None:
    """A parameter of a route is an option of the command."""
    options = pages.options_in_definition()[command]
    shared = set(NAMES["select"]) - {"format", "columns", "geometry"} if command != "run" else set()
    assert shared <= options
    assert ("LAYER" in options) == (command != "compile")


@pytest.mark.parametrize("column", COLUMNS)
def test_column(column: str) -> None:
    assert re.search(rf"^\| (?:number|coordinate|text) \|.*\b{column}\b", read("docs/filters.md"), re.MULTILINE)


def test_columns() -> None:
    """The page has no other columns, and neither have the completions."""
    rows = re.findall(r"^\| (?:number|coordinate|text) \| ([A-Z0-9_, ]*) \|", read("docs/filters.md"), re.MULTILINE)
    assert sorted(column for row in rows for column in row.split(", ")) == sorted(COLUMNS)
    for path in (BASH, ZSH):
        assert set(COLUMNS) <= set(re.findall(r"\b[A-Z0-9_]+\b", read(path))), path


def test_a_list_that_lacks_a_name(monkeypatch: pytest.MonkeyPatch, tmp_path: Path) -> None:
    """So that a wrong pattern isn't taken for a right list."""
    place = Place("format", "page.md", r"formats: ([^.]*)\.")
    monkeypatch.setitem(globals(), "TOP", tmp_path)
    (tmp_path / place.path).write_text("formats: rows, csv or geojsonseq.")
    assert listed(place) == NAMES["format"]
    (tmp_path / place.path).write_text("formats: `rows` (the default) or csv.")
    assert listed(place) == ["rows", "csv"]
