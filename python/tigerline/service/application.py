"""Street segments as OGC API - Features 1.0, parts 1 to 3: a WSGI application.

Each collection is a county, a state, or all counties. `extractd select` selects the segments and writes the features.
Needs only the standard library and Jinja2.
"""

import json
import re
import time
from collections.abc import Iterable
from contextlib import suppress
from dataclasses import replace
from http import HTTPStatus
from typing import TYPE_CHECKING, Any
from urllib.parse import urlencode, urlsplit

from ..interrupts import Interrupts
from ..program import PathLike, find_program
from ..sources import County, counties_in
from ..terminal import report
from . import documents, geojson
from .boxes import Extent
from .collections import Collection, collections_of
from .documents import GEOJSON, JSON, OPENAPI, PROBLEM, SCHEMA, link, own_links
from .ids import REPEATED
from .lookups import Lookups
from .pages import templates
from .problems import RETRY_SECONDS, ClientLeftError, ProblemError, not_found
from .query import ItemsQuery, items_query, parameters, system, view
from .replies import METHODS, Body, Headers, Reply, feature_collection, respond
from .selections import Limits, Processes, Store, Watch, viewed
from .site import BY_ACCEPT, Visit

if TYPE_CHECKING:
    from wsgiref.types import StartResponse, WSGIEnvironment

# The most counties of which the extent is given. Each needs all features of its county once.
MOST_EXTENTS = 10

_HOST = re.compile(r"[A-Za-z0-9.\-_:\[\]]+")
_FEATURE_ID = re.compile(r"(?:([0-9]{5})\.)?(0|[1-9][0-9]{0,17})")
# How long a browser may remember that a page of another origin can send any header.
_PREFLIGHT = [
    ("Allow", METHODS),
    ("Access-Control-Allow-Methods", METHODS),
    ("Access-Control-Allow-Headers", "*"),
    ("Access-Control-Max-Age", "86400"),
]


def application(
    data: PathLike,
    counties: str | Iterable[str] | None = None,
    *,
    url: str | None = None,
    extractd: PathLike | None = None,
    limits: Limits = Limits(),
) -> "Service":
    """Returns a WSGI application that serves counties, which are named as for `select`.

    `url` is the public address of the service; without it, it is taken from each request. `close` ends all processes.
    Raises OSError if there is no program or no county, and ImportError if there is no Jinja2.
    """
    templates()
    with Interrupts() as interrupts:
        program = find_program(extractd, interrupts)
    found, processes = counties_in(data, counties), Processes(program, limits)
    lookups = Lookups(program, data, processes)
    return Service(found, Store(processes, limits), url and checked_url(url), lookups)


def checked_url(url: str) -> str:
    """Returns an address without a trailing slash. Raises ValueError if it isn't an HTTP address."""
    parts = urlsplit(url)
    if parts.scheme not in ("http", "https") or not parts.netloc or parts.query or parts.fragment:
        raise ValueError(f"{url!r} is no address such as https://example.org/tiger")
    return url.rstrip("/")


class Service:
    """Answers requests, as a WSGI application."""

    def __init__(self, counties: list[County], store: Store, url: str | None, lookups: Lookups) -> None:
        self.limits = store.limits
        self._lookups = lookups
        self._collections = collections_of(counties)
        self._store = store
        self._url = url

    def close(self) -> None:
        """Ends all processes. Requests that need one get status 503 from then on."""
        self._store.processes.close()

    def __call__(self, environ: "WSGIEnvironment", start_response: "StartResponse") -> Iterable[bytes]:
        base = "" if self._url is None else self._url
        status = HTTPStatus.OK
        try:
            base = base or _own_url(environ)
            media_type, body, headers = self._reply(environ, base)
        except (ProblemError, ClientLeftError, OSError, MemoryError, ValueError) as error:
            problem = _as_problem(error)
            status = HTTPStatus(problem.status)
            media_type, body, headers = self._problem(problem, status, environ, base)
        return respond(environ, start_response, status, [("Content-Type", media_type), *headers], body)

    def _reply(self, environ: "WSGIEnvironment", base: str) -> Reply:
        """Returns a document, or what is made of documents."""
        is_read = environ["REQUEST_METHOD"] in ("GET", "HEAD")
        return self._visit(environ, base).reply() if is_read else self._document_reply(environ, base)

    def _visit(self, environ: "WSGIEnvironment", base: str) -> Visit:
        def documents(path: str, query: str) -> Reply:
            return self._document_reply({**environ, "PATH_INFO": path, "QUERY_STRING": query}, base)

        path, query, accept = (environ.get(name, "") for name in ("PATH_INFO", "QUERY_STRING", "HTTP_ACCEPT"))
        return Visit(path, query, accept, base, documents, self._lookups, self._collections, self._watch(environ))

    def _watch(self, environ: "WSGIEnvironment") -> Watch:
        return self._store.processes.watch(environ.get("waitress.client_disconnected", lambda: False))

    def _problem(self, problem: ProblemError, status: HTTPStatus, environ: "WSGIEnvironment", base: str) -> Reply:
        """Returns a problem, as a page if the request is for one."""
        document, headers, visit = problem.document(status.phrase, base), _headers(status), self._visit(environ, base)
        if visit.wants_page:
            with suppress(ProblemError, ClientLeftError, OSError, MemoryError, ValueError):
                media_type, body, further = visit.problem(document)
                return media_type, body, [*headers, *further]
        return PROBLEM, Body(_json(document)), [*headers, BY_ACCEPT]

    def _document_reply(self, environ: "WSGIEnvironment", base: str) -> Reply:
        if environ["REQUEST_METHOD"] == "OPTIONS":
            return JSON, Body(b""), _PREFLIGHT
        if environ["REQUEST_METHOD"] not in METHODS.split(", "):
            raise ProblemError(405, "method", f"only {METHODS} are allowed")
        try:
            path = environ.get("PATH_INFO", "").encode("latin-1").decode()
        except UnicodeDecodeError:
            raise not_found("such path") from None
        query = environ.get("QUERY_STRING", "")
        watch = self._watch(environ)
        parts = path.removesuffix("/").split("/")[1:]
        if len(parts) in (3, 4) and [parts[0], parts[2]] == ["collections", "items"] and parts[1] in self._collections:
            collection = self._collections[parts[1]]
            if len(parts) == 3:
                return self._items(collection, query, base, watch)
            return self._item(collection, parts[3], query, base, watch)
        parameters(query, documents.DOCUMENT_PARAMETERS)
        media_type, document = self._document(parts, base, watch)
        return media_type, Body(_json(document)), []

    def _document(self, parts: list[str], base: str, watch: Watch) -> tuple[str, dict[str, Any]]:
        match parts:
            case []:
                return JSON, documents.landing(base)
            case ["api"]:
                return OPENAPI, documents.definition(base, list(self._collections), self.limits)
            case ["conformance"]:
                return JSON, {"conformsTo": documents.CONFORMS_TO}
            case ["collections"]:
                found = self._described([*self._collections.values()], base, watch)
                return JSON, {"links": own_links(JSON, f"{base}/collections"), "collections": found}
            case ["collections", name, *_] if name not in self._collections:
                raise not_found(f"collection {name[:60]!r}")
            case ["collections", name]:
                return JSON, self._described([self._collections[name]], base, watch)[0]
            case ["collections", name, "queryables"]:
                return SCHEMA, documents.queryables(base, self._collections[name])
            case ["collections", name, "sortables"]:
                return SCHEMA, documents.sortables(base, self._collections[name])
        raise not_found("such path")

    def _described(self, collections: list[Collection], base: str, watch: Watch) -> list[dict[str, Any]]:
        """Describes collections, with their extents if they have few counties."""
        has_extents = max(len(collection.counties) for collection in collections) <= MOST_EXTENTS
        return [
            documents.collection(base, collection, self._extent(collection, watch) if has_extents else None)
            for collection in collections
        ]

    def _extent(self, collection: Collection, watch: Watch) -> Extent | None:
        """Returns the extent of a collection. One that can't be read has none, and is served anyway."""
        try:
            return self._store.extent(collection, watch)
        except (ProblemError, OSError, MemoryError) as error:
            _as_problem(error)
            return None

    def _items(self, collection: Collection, query: str, base: str, watch: Watch) -> Reply:
        given = parameters(query, documents.ITEMS_PARAMETERS)
        request = items_query(given, self.limits.filter_length, self.limits.page)
        selection = replace(request.selection, has_county=not collection.is_county)
        slices, matched = self._store.page(collection, selection, request.offset, request.limit, watch)
        here = f"{base}/collections/{collection.id}"
        members = {
            "numberMatched": matched,
            "numberReturned": min(request.limit, max(0, matched - request.offset)),
            "timeStamp": time.strftime("%Y-%m-%dT%H:%M:%SZ", time.gmtime()),
            "links": [*_page_links(f"{here}/items", given, request, matched), link("collection", JSON, here)],
        }
        return GEOJSON, feature_collection(slices, members), [("Content-Crs", f"<{request.crs}>")]

    def _item(self, collection: Collection, text: str, query: str, base: str, watch: Watch) -> Reply:
        given = parameters(query, documents.ITEM_PARAMETERS)
        shown, found = view(given), _FEATURE_ID.fullmatch(text)
        code = found[1] or collection.id if found and bool(found[1]) != collection.is_county else ""
        county = next((part for part in collection.parts if part.id == code), None)
        if found is None or county is None:
            raise not_found(f"feature {text[:60]!r}")
        earlier, tlid = divmod(int(found[2]), REPEATED)
        line = self._store.segment(county, tlid, earlier, watch)
        if not line:
            raise not_found(f"feature {text}")
        here = f"{base}/collections/{collection.id}"
        links = [*own_links(GEOJSON, f"{here}/items/{text}"), link("collection", JSON, here)]
        feature = geojson.features([_json(text if found[1] else int(text))], geojson.split(line)[1])
        body = Body(geojson.single(viewed(shown, feature), links))
        return GEOJSON, body, [("Content-Crs", f"<{system(given, 'crs')}>")]


def _page_links(items: str, given: dict[str, str], request: ItemsQuery, matched: int) -> list[dict[str, str]]:
    """Returns the links to this page, the next and the previous one. Consecutive pages have each feature once."""

    def page(relation: str, offset: int, limit: int) -> dict[str, str]:
        query = urlencode(given | {"offset": str(offset), "limit": str(limit)})
        return link(relation, GEOJSON, f"{items}?{query}")

    links = own_links(GEOJSON, page("self", request.offset, request.limit)["href"])
    if request.offset + request.limit < matched:
        links.append(page("next", request.offset + request.limit, request.limit))
    last = min(request.offset, matched)
    first = max(0, last - request.limit)
    if first < last:
        links.append(page("prev", first, last - first))
    return links


def _own_url(environ: "WSGIEnvironment") -> str:
    host = environ.get("HTTP_HOST") or f"{environ['SERVER_NAME']}:{environ['SERVER_PORT']}"
    if not _HOST.fullmatch(host) or "HTTP_HOST" not in environ and environ.get("SERVER_PROTOCOL") == "HTTP/1.1":
        raise ProblemError(400, "bad-request", "the header Host has no name of a host")
    return f"{environ['wsgi.url_scheme']}://{host}{environ.get('SCRIPT_NAME', '').rstrip('/')}"


def _as_problem(error: Exception) -> ProblemError:
    """Returns the problem of an error. Names of files on this machine go only to standard error."""
    if isinstance(error, ProblemError):
        return error
    if isinstance(error, ClientLeftError):
        return ProblemError(503, "client-left", "the client has closed its connection")
    report(f"error: {error}")
    if isinstance(error, MemoryError):
        return ProblemError(503, "memory", "out of memory")
    return ProblemError(500, "failed", "the county can't be read; standard error of the service says why")


def _headers(status: HTTPStatus) -> Headers:
    headers = {405: [("Allow", METHODS)], 503: [("Retry-After", str(RETRY_SECONDS))]}
    return headers.get(status, [])


def _json(document: object) -> bytes:
    return json.dumps(document, separators=(",", ":")).encode()
