"""The documents of the service as web pages, by templates, and the files that the pages load."""

import re
import shlex
from collections.abc import Callable, Mapping
from dataclasses import dataclass
from functools import cache
from pathlib import Path
from typing import Any
from urllib.parse import parse_qsl, urlencode, urlsplit

from ..filters import conjunction, spatial_predicate
from ..layout import NAMES
from ..optional import required
from .collections import ALL
from .problems import ProblemError, not_found
from .query import PROPERTIES, equality

HTML = "text/html; charset=utf-8"
ROWS = 50  # of a page's table, unless the request has a limit
MOST_ROWS = "1000"
# What a page shows comes from the service alone, and only files of the service run.
POLICY = (
    "default-src 'none'; script-src 'self'; style-src 'self'; img-src 'self' data:; connect-src 'self'; "
    "form-action 'self'; base-uri 'none'; frame-ancestors 'self'"
)
STATIC = Path(__file__).parent / "static"
LEAFLET = Path("/usr/share/javascript/leaflet")  # of Debian's package libjs-leaflet
FILES = {
    **{f"/static/{path.name}": path for path in STATIC.iterdir()},
    **{f"/static/leaflet/{name}": LEAFLET / name for name in ("leaflet.css", "leaflet.min.js")},
}
MEDIA_TYPES = {".css": "text/css", ".js": "text/javascript", ".svg": "image/svg+xml"}
ADDRESS = "address"  # a parameter that only pages have

Document = dict[str, Any]
# Returns the document of a path and a query, or raises ProblemError.
Fetch = Callable[[str, Mapping[str, str]], Document]

# A name, a number or a quoted text.
_TOKEN = re.compile(r"[\w.]+|'[^']*'?|\"[^\"]*\"?|.?", re.DOTALL)
_NEAREST = re.compile(r"the nearest is (\w+)$")


@cache
def templates() -> Any:
    """Returns the templates of the pages. Raises ImportError if Jinja2 isn't installed."""
    jinja2 = required("jinja2")
    made = jinja2.Environment(
        loader=jinja2.PackageLoader("tigerline.service"), autoescape=True, trim_blocks=True, lstrip_blocks=True
    )
    made.tests["address"] = lambda value: isinstance(value, str) and value.startswith(("http://", "https://"))
    return made


def static_file(path: str) -> tuple[str, bytes]:
    """Returns the media type and the bytes of a file that pages load. Raises ProblemError if there is none."""
    file = FILES.get(path)
    if file is None or not file.is_file():
        raise not_found("such path")
    return MEDIA_TYPES[file.suffix], file.read_bytes()


def wants_page(query: str, accept: str) -> bool:
    """Returns whether a request is for a page: by f=html, or without f by an Accept that prefers HTML to JSON."""
    chosen = dict(parse_qsl(query, keep_blank_values=True)).get("f")
    if chosen is not None:
        return chosen == "html"
    weights = dict(map(_weighted, accept.lower().split(",")))
    return weights.get("text/html", 0) > max((weight for kind, weight in weights.items() if "json" in kind), default=0)


def _weighted(part: str) -> tuple[str, float]:
    """Returns a media type of the header Accept, and its weight (RFC 9110, section 12.5.1)."""
    kind, *_ = part.split(";")
    weight = re.search(r";\s*q=([01](?:\.[0-9]{0,3})?)\s*(?:;|$)", part)
    return kind.strip(), float(weight[1]) if weight else 1


def page(path: str, query: str, base: str, fetch: Fetch) -> bytes:
    """Returns the page of a document. Raises ProblemError if there is no such document."""
    given, path = _given(query), path.rstrip("/") or "/"
    match path[1:].split("/"):
        case ["collections", _, "items"]:
            return _segments(path, given, base, fetch)
        case [""]:
            landing, found = fetch(path, given), fetch("/collections", {})["collections"]
            shown = next((collection for collection in found if collection["id"] == ALL), found[0])
            if "extent" in shown:
                return _segments(f"/collections/{shown['id']}/items", {}, base, fetch, landing=landing)
            return _rendered("landing.html", base, document=landing, collections=found)
        case ["collections"]:
            template = "collections.html"
        case ["collections", _, "items", _]:
            template = "item.html"
        case ["geocode"]:
            template = "geocode.html"
        case _:
            template = "document.html"
    return _rendered(template, base, document=fetch(path, given), path=path)


def problem_page(path: str, query: str, base: str, problem: Document, fetch: Fetch) -> bytes:
    """Returns the page of a problem: for segments the page with their filter, which can be corrected there."""
    if path.endswith("/items") and problem["status"] not in (404, 405):
        return _segments(path, _given(query), base, fetch, problem)
    return _rendered("problem.html", base, problem=problem)


def _given(query: str) -> dict[str, str]:
    """Returns the parameters of a page without that of the format."""
    return {name: value for name, value in parse_qsl(query, keep_blank_values=True) if name != "f"}


def _segments(
    path: str,
    given: dict[str, str],
    base: str,
    fetch: Fetch,
    problem: Document | None = None,
    landing: Document | None = None,
) -> bytes:
    """Returns the page of segments: the filter, a map, a table, and the same in other formats."""
    addresses = given.pop(ADDRESS, "")
    # An empty text area is no filter.
    given = {name: value for name, value in given.items() if name != "filter" or value.strip()}
    code = path.split("/")[2]
    selection = {name: value for name, value in given.items() if name not in ("limit", "offset")}
    return _rendered(
        "items.html",
        base,
        path=path,
        given=given,
        selection=selection,
        collection=_collection(code, fetch),
        document=None if problem else fetch(path, given | {"limit": _rows(given.get("limit", str(ROWS)))}),
        problem=problem and refusal(problem, given.get("filter", "")),
        landing=landing,
        addresses=addresses,
        places=_places(addresses, code, fetch),
        command=command(code, selection),
        columns=NAMES,
    )


def _rows(limit: str) -> str:
    """Returns a limit, or the most rows that a page has."""
    return MOST_ROWS if limit.isdecimal() and len(limit.lstrip("0")) >= len(MOST_ROWS) else limit


def _collection(code: str, fetch: Fetch) -> Document:
    """Returns the description of a collection, or what is known of one that can't be read. Raises ProblemError."""
    try:
        return fetch(f"/collections/{code}", {})
    except ProblemError as error:
        if error.status == 404:
            raise
        return {"id": code, "title": code}


def _places(addresses: str, code: str, fetch: Fetch) -> Document:
    """Returns the places of addresses, or why they can't be looked up."""
    try:
        return fetch("/geocode", {ADDRESS: addresses, "collection": code}) if addresses.strip() else {"features": []}
    except (ProblemError, OSError) as error:
        return {"features": [], "problem": getattr(error, "detail", "the addresses can't be looked up")}


@dataclass(frozen=True)
class Refusal:
    """A problem. If it is at a place in the filter, this is marked, and the filter is in three parts."""

    name: str
    detail: str
    is_filter: bool
    pointer: str | None
    at: int | None = None
    before: str = ""
    marked: str = ""
    after: str = ""

    @property
    def end(self) -> int:
        """The index after the marked part."""
        return len(self.before) + len(self.marked)

    @property
    def nearest(self) -> str | None:
        """The name that may have been meant in place of the marked one."""
        found = _NEAREST.search(self.detail)
        return found[1] if found and self.marked else None

    @property
    def corrected(self) -> str:
        """The filter with this name."""
        return f"{self.before}{self.nearest}{self.after}"


def refusal(problem: Document, text: str) -> Refusal:
    """Returns a problem as a page shows it. Its text for programs, which is the first line of several, is left out."""
    name, detail = problem.get("name", problem["title"]), problem["detail"].partition("\n")
    found = Refusal(name, detail[2] or detail[0], "refusal" in problem, problem.get("pointer"))
    if "line" not in problem:
        return found
    at = min(sum(len(line) + 1 for line in text.split("\n")[: problem["line"] - 1]) + problem["column"] - 1, len(text))
    token = _TOKEN.match(text, at)
    end = token.end() if token else at
    return Refusal(name, found.detail, True, None, at, text[:at], text[at:end], text[end:])


def command(code: str, selection: Mapping[str, str]) -> str:
    """Returns the command line that writes the same segments."""
    try:
        conditions = [equality(field, selection[field.name]) for field in PROPERTIES if field.name in selection]
    except ProblemError:
        conditions = []
    if "bbox" in selection:
        conditions.append(spatial_predicate(f"BBOX({selection['bbox']})"))
    where = [f"--where={conjunction(selection.get('filter'), conditions) or 'TRUE'}"]
    if "filter-lang" in selection:
        where += ["--filter-lang", selection["filter-lang"]]
    if code.isdecimal():
        words = ["extractd", "select", *where, "--data", "DIR", "--format", "csv", code]
    else:
        words = ["tigerline", "select", "DIR", "segments.csv", *where]
        words += [] if code == ALL else ["--counties", code.upper()]
    return shlex.join(words)


def _rendered(template: str, base: str, **known: Any) -> bytes:
    """Returns a page. Its links begin with the path of the service, since browsers may know another name of the host."""
    text: str = templates().get_template(template).render(root=urlsplit(base).path, **known)
    return text.encode()
