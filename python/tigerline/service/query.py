"""Reads the parameters of a request for features, and makes a filter for `extractd` and a box of them."""

import json
import math
import re
from collections.abc import Collection
from dataclasses import dataclass
from decimal import Decimal
from fractions import Fraction
from urllib.parse import parse_qsl

from ..layout import FIELDS, HOUSE_NUMBER_TEXTS, NAMES, Field, Kind
from .axes import exchanged
from .boxes import FAR, BBox
from .lines import Order
from .problems import ProblemError, bad_parameter

# The files are in NAD 83, which is CRS83.
CRS84 = "http://www.opengis.net/def/crs/OGC/1.3/CRS84"
CRS83 = "http://www.opengis.net/def/crs/OGC/1.3/CRS83"
# WGS 84 and NAD 83 with the latitude first.
LATITUDE_FIRST = tuple(f"http://www.opengis.net/def/crs/EPSG/0/{code}" for code in (4326, 4269))
SYSTEMS = (CRS84, CRS83, *LATITUDE_FIRST)
CQL2_JSON = "cql2-json"
# GDAL sends filters only if it finds `cql-text`.
LANGUAGES = ("cql2-text", CQL2_JSON, "cql-text")
# The fields that have the same type in a filter as in a feature, and the house numbers as texts. Codes don't: ZIPL is a
# number only in a filter.
PROPERTIES = (*(field for field in FIELDS if field.kind is not Kind.CODE), *HOUSE_NUMBER_TEXTS)
DEFAULT_PAGE = 1000
LARGEST_NUMBER = 999_999_999_999_999_999

_NUMBER = re.compile(r"[-+]?([0-9]+\.?[0-9]*|\.[0-9]+)([eE][-+]?[0-9]{1,4})?")
_LITERALS = {
    Kind.NUMBER: re.compile(r"[0-9]{1,18}"),
    Kind.COORDINATE: re.compile(r"[-+]?[0-9]{1,3}(\.[0-9]{1,6})?"),
}
_SORT_KEY = re.compile(rf"([-+ ]?)({'|'.join(NAMES)})")
_DAY = r"[0-9]{4}-[0-9]{2}-[0-9]{2}([Tt][0-9]{2}:[0-9]{2}:[0-9]{2}(\.[0-9]+)?([Zz]|[-+][0-9]{2}:[0-9]{2}))?"
_TIME = re.compile(rf"{_DAY}|({_DAY}|(\.\.)?)/({_DAY}|(\.\.)?)")


@dataclass(frozen=True)
class View:
    """What features show: these properties, or all of them, and points with the longitude or the latitude first."""

    columns: tuple[str, ...] = NAMES
    is_latitude_first: bool = False


@dataclass(frozen=True)
class FeatureSelection:
    """The segments of a county that a request is about.

    The filter and all conditions are true for them, and their geometry meets the box. The conditions are in JSON if the
    filter is. The other members say how they are written: with the county in their ids, and in which order.
    """

    filter: str | None = None
    conditions: tuple[str, ...] = ()
    box: BBox | None = None
    is_json: bool = False
    has_county: bool = False
    order: Order = ()
    view: View = View()

    # The part of the text that precedes the filter, and the pointer to it in JSON, if there are conditions.
    PREFIX = "("
    POINTER = "/args/0"

    @property
    def text(self) -> str:
        """The filter for `extractd`, which has no box."""
        if not self.conditions:
            return "TRUE" if self.filter is None else self.filter
        filters = () if self.filter is None else (self.filter,)
        if self.is_json:
            return f'{{"op":"and","args":[{",".join((*filters, *self.conditions))}]}}'
        return " AND ".join((*(f"{self.PREFIX}{text})" for text in filters), *self.conditions))

    @property
    def options(self) -> list[str]:
        """The options of `extractd` for the filter's language."""
        return ["--filter-lang", CQL2_JSON] if self.is_json else []


@dataclass(frozen=True)
class ItemsQuery:
    """A request for a page of features."""

    selection: FeatureSelection
    limit: int
    offset: int
    crs: str


def parameters(query: str, known: Collection[str]) -> dict[str, str]:
    """Returns the parameters of a query. Raises ProblemError for an unknown or a repeated one."""
    try:
        pairs = parse_qsl(query, keep_blank_values=True, errors="strict")
    except (UnicodeDecodeError, ValueError):
        raise ProblemError(400, "bad-parameter", "the query isn't UTF-8") from None
    found: dict[str, str] = {}
    for name, value in pairs:
        if name not in known:
            raise ProblemError(
                400, "unknown-parameter", f"there is no parameter {name[:60]!r} here", parameter=name[:60]
            )
        if name in found:
            raise bad_parameter(name, "it is there twice")
        if "\0" in value:
            raise bad_parameter(name, "a NUL can't be in it")
        found[name] = value
    if found.get("f", "json") != "json":
        raise bad_parameter("f", "the formats are json and html, and for segments also csv and gpkg")
    return found


def items_query(given: dict[str, str], filter_length: int, largest_page: int) -> ItemsQuery:
    """Returns the request of the parameters. Raises ProblemError for invalid values."""
    for name in ("bbox-crs", "filter-crs"):
        system(given, name)
    if given.get("filter-lang", LANGUAGES[0]) not in LANGUAGES:
        raise bad_parameter("filter-lang", f"it is {' or '.join(LANGUAGES)}")
    if not _TIME.fullmatch(given.get("datetime", "../..")):
        raise bad_parameter("datetime", "it is a date, a time or an interval of RFC 3339")
    text = given.get("filter")
    if text is not None and len(text.encode()) > filter_length:
        raise ProblemError(400, "long-filter", f"filter: it has more than {filter_length} bytes", parameter="filter")
    limit = whole_number(given, "limit", min(DEFAULT_PAGE, largest_page))
    if limit < 1:
        raise bad_parameter("limit", "it is 1 or more")
    is_json = text is not None and given.get("filter-lang") == CQL2_JSON
    if text is not None and system(given, "filter-crs") in LATITUDE_FIRST:
        text = exchanged(text, is_json)
    conditions = [equality(field, given[field.name], is_json) for field in PROPERTIES if field.name in given]
    area = box(given["bbox"], system(given, "bbox-crs") in LATITUDE_FIRST) if "bbox" in given else None
    return ItemsQuery(
        FeatureSelection(text, tuple(conditions), area, is_json, order=order(given), view=view(given)),
        min(limit, largest_page),
        whole_number(given, "offset", 0),
        system(given, "crs"),
    )


def view(given: dict[str, str]) -> View:
    """Returns what features show."""
    names = given["properties"].split(",") if "properties" in given else NAMES
    for name in names:
        if name not in NAMES:
            raise bad_parameter("properties", f"there is no property {name[:60]!r}")
    return View(tuple(dict.fromkeys(names)), system(given, "crs") in LATITUDE_FIRST)


def order(given: dict[str, str]) -> Order:
    """Returns the columns by which features are sorted. A plus becomes a blank in a URL."""
    keys = [_SORT_KEY.fullmatch(key) for key in given["sortby"].split(",")] if "sortby" in given else []
    found = tuple((key[2], key[1] == "-") for key in keys if key)
    if len({name for name, _ in found}) < len(keys):
        raise bad_parameter("sortby", "it is properties, each once, with + or - before them and commas between them")
    return found


def system(given: dict[str, str], name: str) -> str:
    """Returns the coordinate reference system that a parameter names."""
    found = given.get(name, CRS84)
    if found not in SYSTEMS:
        raise bad_parameter(name, f"it is {' or '.join(SYSTEMS)}")
    return found


def whole_number(given: dict[str, str], name: str, default: int) -> int:
    """Returns the number of a parameter. One of more than 18 digits becomes the largest of 18 digits."""
    text = given.get(name, str(default))
    if not re.fullmatch(r"[0-9]+", text):
        raise bad_parameter(name, "it is a whole number")
    digits = text.lstrip("0") or "0"
    return int(digits) if len(digits) <= len(str(LARGEST_NUMBER)) else LARGEST_NUMBER


def equality(field: Field, value: str, is_json: bool = False) -> str:
    """Returns the filter for segments with a value in a field. Raises ProblemError if no segment can have it."""
    if field.kind is Kind.TEXT:
        width = field.last - field.first + 1
        if not value.strip(" ") or len(value) > width or not value.isprintable() or max(value) > "\xff":
            raise bad_parameter(field.name, f"it is a text of up to {width} characters")
        literal = json.dumps(value) if is_json else quoted(value)
    else:
        if not _LITERALS[field.kind].fullmatch(value):
            raise bad_parameter(field.name, "it is a number that the field can have")
        # A number in JSON has no plus and no zeros at its start.
        literal = f"{Decimal(value):f}" if is_json else value
    return f'{{"op":"=","args":[{{"property":"{field.name}"}},{literal}]}}' if is_json else f"{field.name} = {literal}"


def quoted(text: str) -> str:
    """Returns a text as a literal."""
    return "'" + text.replace("'", "''") + "'"


def box(text: str, is_latitude_first: bool = False) -> BBox:
    """Returns the box of the parameter bbox. Ignores the heights in a box of six numbers: segments have none."""
    parts = [part.strip(" ") for part in text.split(",")]
    if len(parts) not in (4, 6) or not all(_NUMBER.fullmatch(part) for part in parts):
        raise bad_parameter("bbox", "it is four or six numbers with commas between them")
    numbers = [float(part) for part in parts]
    if not all(math.isfinite(number) for number in numbers):
        raise bad_parameter("bbox", "a number is too large")
    if len(numbers) == 6:
        if numbers[2] > numbers[5]:
            raise bad_parameter("bbox", "its lower height is above its upper one")
        del numbers[5], numbers[2]
    if is_latitude_first:
        numbers = [numbers[place] for place in (1, 0, 3, 2)]
    if numbers[1] > numbers[3]:
        raise bad_parameter("bbox", "its south is north of its north")
    west, south, east, north = (_degrees(number) for number in numbers)
    return BBox(west, south, east, north)


def _degrees(number: float) -> Fraction:
    """Returns the shortest decimal number with this value: GDAL sends -86.700000000000003 for -86.7.

    A number further than all coordinates becomes FAR.
    """
    return min(max(Fraction(repr(number)), Fraction(-FAR)), Fraction(FAR))
