"""The documents that describe the service: its landing page, its API definition, its counties and the queryables."""

import json
from collections.abc import Iterable
from importlib.resources import files
from typing import Any

from ..layout import FIELDS, NAMES, Field, Kind
from .boxes import Extent
from .collections import Collection
from .query import CRS83, CRS84, DEFAULT_PAGE, LANGUAGES, PROPERTIES, SYSTEMS
from .selections import Limits

JSON = "application/json"
GEOJSON = "application/geo+json"
HTML = "text/html"
SCHEMA = "application/schema+json"
OPENAPI = "application/vnd.oai.openapi+json;version=3.0"
PROBLEM = "application/problem+json"
QUERYABLES = "http://www.opengis.net/def/rel/ogc/1.0/queryables"
SORTABLES = "http://www.opengis.net/def/rel/ogc/1.0/sortables"
TITLE = "Street segments of TIGER/Line 2006"
DOCUMENT_PARAMETERS = ("f",)
ITEM_PARAMETERS = ("crs", "properties", "f")
ITEMS_PARAMETERS = (
    "limit", "offset", "bbox", "bbox-crs", "datetime", "filter", "filter-lang", "filter-crs", "sortby", *ITEM_PARAMETERS,
    *(field.name for field in PROPERTIES),
)  # fmt: skip

_FEATURES = "http://www.opengis.net/spec/ogcapi-features"
_CQL2 = "http://www.opengis.net/spec/cql2/1.0/conf"
# Those that docs/filters.md declares.
CQL2_CLASSES = ("basic-cql2", "advanced-comparison-operators", "property-property", "cql2-text", "cql2-json")
CONFORMS_TO = [
    *(f"{_FEATURES}-1/1.0/conf/{name}" for name in ("core", "oas30", "html", "geojson")),
    f"{_FEATURES}-2/1.0/conf/crs",
    *(f"{_FEATURES}-3/1.0/conf/{name}" for name in ("queryables", "filter", "features-filter")),
    *(f"{_CQL2}/{name}" for name in CQL2_CLASSES),
]

Document = dict[str, Any]


def link(relation: str, media_type: str, target: str, title: str | None = None) -> dict[str, str]:
    """Returns a link."""
    return {"rel": relation, "type": media_type, "href": target} | ({"title": title} if title else {})


def own_links(media_type: str, target: str) -> list[dict[str, str]]:
    """Returns the links of a document to itself and to its page."""
    separator = "&" if "?" in target else "?"
    return [link("self", media_type, target), link("alternate", HTML, f"{target}{separator}f=html", "the page")]


def landing(base: str) -> Document:
    """Returns the landing page."""
    return {
        "title": TITLE,
        "description": "A collection is a county, a state or all. The program extractd selects the segments of a filter.",
        "links": [
            *own_links(JSON, f"{base}/"),
            link("service-desc", OPENAPI, f"{base}/api", "the definition of the service"),
            link("conformance", JSON, f"{base}/conformance", "the parts of the standard"),
            link("data", JSON, f"{base}/collections", "the counties and states"),
        ],
    }


def collection(base: str, described: Collection, extent: Extent | None) -> Document:
    """Returns the description of a collection, with its extent if that is known."""
    here = f"{base}/collections/{described.id}"
    count = len(described.counties)
    document: Document = {
        "id": described.id,
        "title": described.title,
        "description": f"The street segments of {described.title}" + (f", {count} counties" if count > 1 else ""),
        "itemType": "feature",
        "crs": list(SYSTEMS),
        "storageCrs": CRS83,
        "links": [
            *own_links(JSON, here),
            link("items", GEOJSON, f"{here}/items", "the segments"),
            link(QUERYABLES, SCHEMA, f"{here}/queryables", "the columns that filters can name"),
            link(SORTABLES, SCHEMA, f"{here}/sortables", "the columns that can sort"),
        ],
    }
    if extent is not None:
        document["extent"] = {"spatial": {"bbox": [list(extent)], "crs": CRS84}}
    return document


def queryables(base: str, described: Collection) -> Document:
    """Returns the geometry, the columns that have the same type in a filter as in a feature, and house numbers as texts."""
    geometry = {
        "title": "geometry",
        "description": "The straight line from the segment's start to its end, without its shape points.",
        "format": "geometry-linestring",
    }
    text = "Filters can also name codes and house numbers, such as ZIPL, as numbers: ZIPL = 36067."
    document = _columns(f"{base}/collections/{described.id}/queryables", described.title, text, PROPERTIES)
    document["properties"]["geometry"] = geometry
    return document | {"additionalProperties": True}


def sortables(base: str, described: Collection) -> Document:
    """Returns the columns by which segments can be sorted."""
    text = "Codes and house numbers are sorted as texts."
    here = f"{base}/collections/{described.id}/sortables"
    return _columns(here, described.title, text, FIELDS) | {"additionalProperties": False}


def _columns(here: str, title: str, description: str, fields: Iterable[Field]) -> Document:
    return {
        "$schema": "https://json-schema.org/draft/2020-12/schema",
        "$id": here,
        "type": "object",
        "title": title,
        "description": description,
        "properties": {field.name: {"title": field.name, **_schema(field)} for field in fields},
    }


def _schema(field: Field) -> Document:
    if field.kind is Kind.NUMBER:
        return {"type": "integer"}
    if field.kind is Kind.COORDINATE:
        return {"type": "number"}
    return {"type": "string", "maxLength": field.last - field.first + 1}


def definition(base: str, names: list[str], limits: Limits) -> Document:
    """Returns the API definition in OpenAPI 3.0."""
    document: Document = json.loads(files(__package__).joinpath("openapi.json").read_text())
    shared, schemas = document["components"]["parameters"], document["components"]["schemas"]
    schemas["crs"]["enum"] = list(SYSTEMS)
    shared["collectionId"]["schema"]["enum"] = names
    shared["limit"]["schema"] |= {"maximum": limits.page, "default": min(DEFAULT_PAGE, limits.page)}
    shared["filter"]["schema"]["maxLength"] = limits.filter_length
    shared["filter-lang"]["schema"] |= {"enum": list(LANGUAGES), "default": LANGUAGES[0]}
    shared["properties"]["schema"]["items"]["enum"] = list(NAMES)
    shared["sortby"]["schema"]["items"]["pattern"] = f"[-+]?({'|'.join(NAMES)})"
    # GDAL sends only filters that name these.
    document["paths"]["/collections/{collectionId}/items"]["get"]["parameters"] += [
        {"name": field.name, "in": "query", "required": False, "schema": _schema(field)} for field in PROPERTIES
    ]
    return document | {"servers": [{"url": base}]}
