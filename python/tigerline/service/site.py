"""What the service answers besides documents: pages, downloads, the places of addresses, and listings of programs."""

import json
import threading
from collections.abc import Callable, Mapping
from dataclasses import dataclass
from urllib.parse import parse_qsl, urlencode

from . import downloads, pages
from .collections import ALL, Collection
from .documents import GEOJSON
from .lookups import Lookups
from .problems import bad_parameter, not_found
from .query import CQL2_JSON, LANGUAGES, parameters
from .replies import Body, Reply, WholeFile
from .selections import Watch, taken

MOST_FILES = 2  # that are made at once, since that takes a processor
TEXT = "text/plain; charset=utf-8"
CACHED = [("Cache-Control", "max-age=3600")]
BY_ACCEPT = ("Vary", "Accept")
PAGE_HEADERS = [("Content-Security-Policy", pages.POLICY), BY_ACCEPT]

_making = threading.BoundedSemaphore(MOST_FILES)

# Returns the reply with the document of a path and a query, or raises ProblemError.
Documents = Callable[[str, str], Reply]


@dataclass(frozen=True)
class Visit:
    """A request, and what answers it: documents, or what is made of them."""

    path: str
    query: str
    accept: str
    base: str
    documents: Documents
    lookups: Lookups
    collections: Mapping[str, Collection]
    watch: Watch

    @property
    def wants_page(self) -> bool:
        """Whether the request is for a page. Listings have none."""
        return self.path != "/explain" and pages.wants_page(self.query, self.accept)

    def reply(self) -> Reply:
        """Returns the reply. Raises ProblemError."""
        if self.path.startswith("/static/"):
            media_type, content = pages.static_file(self.path)
            return media_type, Body(content), CACHED
        if self.wants_page:
            return pages.HTML, Body(pages.page(self.path, self.query, self.base, self._fetch)), PAGE_HEADERS
        media_type, body, headers = self._answer(self.path, self.query)
        return media_type, body, [*headers, BY_ACCEPT]

    def problem(self, problem: pages.Document) -> Reply:
        """Returns the page of a problem."""
        page = pages.problem_page(self.path, self.query, self.base, problem, self._fetch)
        return pages.HTML, Body(page), PAGE_HEADERS

    def _fetch(self, path: str, given: Mapping[str, str]) -> pages.Document:
        document: pages.Document = json.loads(self._answer(path, urlencode(given))[1].content())
        return document

    def _answer(self, path: str, query: str) -> Reply:
        if path == "/geocode":
            return self._geocode(parameters(query, (pages.ADDRESS, "collection", "f")))
        if path == "/explain":
            return self._explain(parameters(query, ("filter", "filter-lang", "f")))
        given = dict(parse_qsl(query, keep_blank_values=True))
        if path.endswith("/items") and given.get("f") in downloads.MEDIA_TYPES:
            return self._download(given.pop("f"), path, given)
        return self.documents(path, query)

    def _geocode(self, given: dict[str, str]) -> Reply:
        name = given.get("collection", ALL)
        if name not in self.collections:
            raise not_found(f"collection {name[:60]!r}")
        codes = [county.code for county in self.collections[name].counties]
        found = self.lookups.places(given.get(pages.ADDRESS, ""), codes, self.watch)
        return GEOJSON, Body(json.dumps(found).encode()), []

    def _explain(self, given: dict[str, str]) -> Reply:
        language = given.get("filter-lang", LANGUAGES[0])
        if language not in LANGUAGES:
            raise bad_parameter("filter-lang", f"it is {' or '.join(LANGUAGES)}")
        if "filter" not in given:
            raise bad_parameter("filter", "it is missing")
        listing = self.lookups.listing(given["filter"], language == CQL2_JSON, self.watch)
        return TEXT, Body(listing), []

    def _download(self, kind: str, path: str, given: dict[str, str]) -> Reply:
        """Returns all features of a selection in a file, or those of a page if there is a limit."""

        def page(following: dict[str, str]) -> bytes:
            return self.documents(path, urlencode(following))[1].content()

        with taken(_making, self.watch):
            if kind == downloads.CSV:
                file = downloads.csv_file(downloads.features(page, given, str))
            else:
                found = downloads.features(page, given, float)
                file = downloads.geopackage(found, self.lookups.processes, self.watch)
        name = f"{path.split('/')[2]}.{kind}"
        headers = [("Content-Disposition", f'attachment; filename="{name}"')]
        return downloads.MEDIA_TYPES[kind], Body(WholeFile(file)), headers
