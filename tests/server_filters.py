"""Requests about filters, programs and addresses to a server, and the replies that docs/http.md says.

Draws requests for `/select`, `/compile`, `/filter-jobs`, `/explain` and `/geocode-batch`: with filters in text and in JSON, accepted and refused, with
parameters that are right, wrong, repeated and encoded, with bodies that are damaged, cut short or too long. The status and the headers follow from the page,
and the body from what the commands print, which other tests compare with SQL and with a second verifier. A job is driven to its end, and its rows are those
of `select`.
"""

import csv
import functools
import io
import socket
import subprocess
from pathlib import Path
from random import Random
from typing import NamedTuple
from urllib.parse import quote

from filter_counties import BY_NAME, NUMERIC, chance
from filter_dice import FilterDice
from filter_outlines import MappedCounty
from filters import CODES, spelled

FILTERS, PROGRAMS = 120, 60
MOST_BODY = 1_048_576
FORMATS = {"rows": "application/octet-stream", "csv": "text/csv", "geojsonseq": "application/geo+json-seq"}
# What the command takes and the server doesn't.
NO_SHAPES = b"error: --geometry shape needs the type 2 files, which a server doesn't load\n"
PHRASES = {
    200: b"OK",
    400: b"Bad Request",
    404: b"Not Found",
    405: b"Method Not Allowed",
    411: b"Length Required",
    413: b"Payload Too Large",
    422: b"Unprocessable Entity",
    503: b"Service Unavailable",
}
TEXTS = {
    400: b"bad request\n",
    404: b"not found\n",
    405: b"method not allowed\n",
    411: b"length required\n",
    413: b"too large\n",
}
JSON = (
    '{"op":"=","args":[{"property":"CFCC"},"A41"]}',
    '{"op":"in","args":[{"property":"CFCC"},["A41","A61"]]}',
    '{"op":"not","args":[{"op":"isNull","args":[{"property":"FENAME"}]}]}',
    '{"op":"or","args":[{"op":">","args":[{"property":"ZIPL"},36000]},{"op":"HAS_NUMBER","args":[1785]}]}',
    '{"op":"s_intersects","args":[{"property":"geometry"},{"bbox":[-86.7,32.4,-86.6,32.5]}]}',
    '{"op":"=","args":[{"property":"ZIPL"},"36067"]}',
    '{"op":"not"}',
    '{"op":"casei","args":[]}',
    "[]",
    "",
)
ADDRESSES = ("number", "name", "id", "zip", "predir", "type", "sufdir", "note")
# Repeated parameters, those of another route, and none.
FURTHER = (
    ("filter-lang", "cql2-json"),
    ("format", "csv"),
    ("score", "TLID"),
    ("columns", "RT"),
    ("geometry", "line"),
    ("other", "é&="),
    ("Score", "TLID"),
)


class Reply(NamedTuple):
    """What the server has to reply."""

    status: int
    body: bytes
    media: str = "text/plain"
    allow: str | None = None

    def bytes(self) -> bytes:
        head = [
            b"HTTP/1.1 %d %s" % (self.status, PHRASES[self.status]),
            f"Content-Type: {self.media}".encode(),
            b"Content-Length: %d" % len(self.body),
            b"Connection: close",
            *([f"Allow: {self.allow}".encode()] if self.allow else []),
        ]
        return b"\r\n".join([*head, b"", self.body])


def of_status(status: int, allow: str | None = None) -> Reply:
    return Reply(status, TEXTS[status], allow=allow)


class Request(NamedTuple):
    method: str
    path: str
    query: list[tuple[str, str]]
    body: bytes
    # The header line that says the length, or several, or none; and whether the last byte of the body is missing.
    lengths: list[str]
    is_short: bool = False

    def bytes(self, dice: Random) -> bytes:
        pairs = [f"{encoded(dice, key)}={encoded(dice, value)}" for key, value in self.query]
        target = self.path + ("?" + "&".join(pairs) if pairs else "")
        head = "\r\n".join(
            [f"{self.method} {target} HTTP/1.1", *(f"Content-Length: {length}" for length in self.lengths), "", ""]
        )
        return head.encode() + (self.body[:-1] if self.is_short else self.body)

    def value(self, key: str) -> str | None:
        """Returns the first value of a parameter; later ones don't count."""
        return next((value for name, value in self.query if name == key), None)


def encoded(dice: Random, text: str) -> str:
    """Encodes a text for a query, some of its characters without need."""
    return "".join(
        f"%{ord(character):02X}" if chance(dice, 10) and character.isascii() else quote(character) for character in text
    )


class Commands:
    """What the commands print about the counties in a folder."""

    def __init__(self, folder: Path) -> None:
        self.folder = folder
        self.run = functools.cache(self._run)

    def _run(self, *words: str, given: bytes = b"") -> tuple[int, bytes, bytes]:
        ran = subprocess.run(["extractd", *words], input=given, capture_output=True)
        return ran.returncode, ran.stdout, ran.stderr

    def compiled(self, filter_bytes: bytes, options: tuple[str, ...]) -> tuple[int, bytes, bytes]:
        return self.run("compile", "--filter", "-", *options, given=filter_bytes)

    def fault_of(self, command: tuple[str, ...], options: tuple[str, ...]) -> bytes | None:
        """Returns the line about wrong options, if they are. The command reads nothing before them."""
        status, _, errors = self.run(*command, *options)
        return errors.splitlines(keepends=True)[0] if status == 2 else None

    def selected(self, filter_text: str, options: tuple[str, ...]) -> bytes:
        status, rows, errors = self.run(
            "select", f"--where={filter_text}", *options, "--data", str(self.folder), *CODES
        )
        assert status == 0, errors
        return rows

    def explained(self, program: bytes) -> tuple[int, bytes, bytes]:
        path = self.folder / "program"
        path.write_bytes(program)
        return self._run("explain", "--program", str(path))

    def found(self, addresses: bytes) -> tuple[int, bytes, bytes]:
        return self._run("geocode-batch", "--addresses", "-", "--data", str(self.folder), *CODES, given=addresses)


class Reading:
    """The page on HTTP, read independently of the server."""

    ROUTES = ("/select", "/compile", "/filter-jobs", "/explain", "/geocode-batch")

    def __init__(self, commands: Commands) -> None:
        self.commands = commands

    def reply(self, request: Request) -> Reply | None:
        """Returns the reply, or None for an accepted job."""
        if request.path not in self.ROUTES:
            return of_status(404)
        if request.method != "POST":
            return of_status(405, "POST")
        if not request.lengths:
            return of_status(411)
        if len(request.lengths) > 1 or not (request.lengths[0].isascii() and request.lengths[0].isdigit()):
            return of_status(400)
        if int(request.lengths[0]) > MOST_BODY:
            return of_status(413)
        if request.is_short:
            return of_status(400)
        if request.path == "/explain":
            return self.explained(request)
        if request.path == "/geocode-batch":
            return self.found(request)
        return self.filtered(request)

    def filtered(self, request: Request) -> Reply | None:
        options = self.options(request)
        fault = self.fault(request, options)
        if fault is not None:
            return Reply(400, fault)
        try:
            text = request.body.decode()
        except UnicodeDecodeError:
            return of_status(400)
        status, program, errors = self.commands.compiled(request.body, self.of_filter(options))
        if status == 1:
            return Reply(422, errors)
        if request.path == "/compile":
            return Reply(200, program, FORMATS["rows"])
        if request.path == "/filter-jobs":
            return None
        return Reply(200, self.commands.selected(text, options), FORMATS[request.value("format") or "rows"])

    def fault(self, request: Request, options: tuple[str, ...]) -> bytes | None:
        """Returns the line about the parameters of a request, if they are wrong."""
        no_files = ("select", "--where", "TRUE", "--data", str(self.commands.folder / "none"), CODES[0])
        command = no_files if request.path == "/select" else ("compile", "--filter", str(self.commands.folder / "none"))
        fault = self.commands.fault_of(command, options)
        if fault is None and request.value("geometry") == "shape":
            return NO_SHAPES
        return fault

    def options(self, request: Request) -> tuple[str, ...]:
        """Returns the options of the command for the parameters, in their order."""
        first = {key: value for key, value in reversed(request.query)}
        keys = dict.fromkeys(key for key, _ in request.query)
        return tuple(word for key in keys for word in (f"--{key}", first[key]))

    def of_filter(self, options: tuple[str, ...]) -> tuple[str, ...]:
        pairs = zip(options[::2], options[1::2])
        return tuple(word for pair in pairs if pair[0] in ("--score", "--filter-lang") for word in pair)

    def explained(self, request: Request) -> Reply:
        status, listing, errors = self.commands.explained(request.body)
        return Reply(200 if status == 0 else 422, listing + errors)

    def found(self, request: Request) -> Reply:
        status, lines, errors = self.commands.found(request.body)
        return Reply(200, lines, FORMATS["csv"]) if status == 0 else Reply(422, errors.splitlines(keepends=True)[0])


class RequestDice:
    """Draws requests."""

    def __init__(self, dice: Random, counties: list[MappedCounty], commands: Commands) -> None:
        self.dice = dice
        self.filters = [self.filter(counties) for _ in range(FILTERS)]
        self.programs = [commands.compiled(dice.choice(self.filters).encode(), ())[1] for _ in range(PROGRAMS)]
        segments = [segment for county in counties for segment in county.segments]
        self.cells = {
            "number": [BY_NAME["FRADDL"].field(segment.line).decode("latin-1") for segment in segments]
            + ["164-20", "1" * 12, ""],
            "name": [name for county in counties for name in county.pools.names] + ["Maine", "x" * 31, ""],
            "zip": [BY_NAME["ZIPL"].field(segment.line).decode("latin-1") for segment in segments] + ["x", ""],
        }

    def filter(self, counties: list[MappedCounty]) -> str:
        return spelled(self.dice, FilterDice(self.dice, self.dice.choice(counties)).filter().tokens)

    def damaged(self, body: bytes) -> bytes:
        """Changes, drops or adds a byte."""
        place = self.dice.randint(0, len(body))
        byte = bytes([self.dice.choice((0, 10, 32, 39, 65, 128, 195, 233, 255, self.dice.randrange(256)))])
        return body[:place] + self.dice.choice((b"", byte)) + body[place + self.dice.randint(0, 1) :]

    def body(self, path: str, language: str | None) -> bytes:
        if path == "/explain":
            made = self.dice.choice(self.programs)
        elif path == "/geocode-batch":
            made = self.addresses()
        else:
            made = self.dice.choice(JSON if language == "cql2-json" else self.filters).encode()
        return self.damaged(made) if chance(self.dice, 25) else made

    def addresses(self) -> bytes:
        names = self.dice.sample(ADDRESSES, self.dice.randint(2, len(ADDRESSES)))
        rows = [
            [self.dice.choice(self.cells.get(name, ["", "N", "St", "a, b", "é"])) for name in names]
            for _ in range(self.dice.randint(0, 4))
        ]
        text = io.StringIO()
        csv.writer(text, lineterminator=self.dice.choice(("\n", "\r\n"))).writerows([names, *rows])
        return text.getvalue().encode()

    def layer(self) -> list[tuple[str, str]]:
        """Draws the parameters of a layer."""
        pairs = [("format", self.dice.choice((*FORMATS, *FORMATS, "csv", "csv", "CSV", "json", "")))]
        if chance(self.dice, 50):
            names = [
                self.dice.choice((*BY_NAME, "tlid", "TLIDS", "")) for _ in range(self.dice.choice((0, 1, 2, 2, 3)))
            ]
            pairs.append(("columns", ",".join(names)))
        if chance(self.dice, 40):
            pairs.append(("geometry", self.dice.choice(("none", "none", "line", "shape", "point", ""))))
        return pairs

    def query(self, path: str, language: str | None) -> list[tuple[str, str]]:
        pairs = [("filter-lang", language)] if language is not None else []
        if chance(self.dice, 40):
            pairs.append(
                ("score", self.dice.choice((*[column.name for column in NUMERIC], "fraddl", "FENAME", "", "ZIP")))
            )
        if path == "/select" and chance(self.dice, 60):
            pairs.extend(self.layer())
        if chance(self.dice, 15):
            pairs.append(self.dice.choice(FURTHER))
        self.dice.shuffle(pairs)
        return pairs

    def request(self) -> Request:
        path = self.dice.choice(Reading.ROUTES * 4 + ("/Select", "/select/", "/filter-jobs/1"))
        language = self.dice.choice((None, None, "cql2-text", "cql2-json", "cql2-json", "json"))
        query = self.query(path, language)
        body = self.body(path, next((value for key, value in query if key == "filter-lang"), None))
        request = Request("POST", path, query, body, [str(len(body))])
        if chance(self.dice, 88):
            return request
        return self.dice.choice(
            (
                self.of_other_method,
                self.without_length,
                self.of_two_lengths,
                self.of_bad_length,
                self.too_long,
                self.cut,
            )
        )(request)

    def of_other_method(self, request: Request) -> Request:
        return request._replace(method=self.dice.choice(("GET", "PUT", "DELETE", "HEAD", "post")))

    def without_length(self, request: Request) -> Request:
        return request._replace(lengths=[])

    def of_two_lengths(self, request: Request) -> Request:
        return request._replace(lengths=request.lengths * 2)

    def of_bad_length(self, request: Request) -> Request:
        return request._replace(lengths=[self.dice.choice(("", "+1", "1 1", "0x1", "-1"))])

    def too_long(self, request: Request) -> Request:
        return request._replace(lengths=[str(MOST_BODY + self.dice.choice((1, 10**20)))])

    def cut(self, request: Request) -> Request:
        return request._replace(is_short=bool(request.body))


class Client:
    def __init__(self, port: int) -> None:
        self.port = port
        self.jobs = 0

    def exchange(self, data: bytes, is_short: bool = False) -> bytes:
        with socket.create_connection(("127.0.0.1", self.port)) as connection:
            connection.sendall(data)
            if is_short:
                connection.shutdown(socket.SHUT_WR)
            return b"".join(iter(lambda: connection.recv(65536), b""))

    def job_rows(self, number: int) -> bytes:
        """Drives a job to its end, fetches its rows and removes it."""
        while True:
            body = self.exchange(b"GET /jobs/%d HTTP/1.1\r\n\r\n" % number).partition(b"\r\n\r\n")[2]
            progress, _, rows = body.partition(b"\n")
            done, total = progress.split()
            if done == total:
                break
        removed = self.exchange(b"DELETE /jobs/%d HTTP/1.1\r\n\r\n" % number)
        assert removed == Reply(200, b"dropped\n").bytes(), removed
        return rows


def difference(client: Client, reading: Reading, dice: Random, request: Request) -> str | None:
    """Sends a request, and returns how the reply differs, or None."""
    wanted = reading.reply(request)
    replied = client.exchange(request.bytes(dice), request.is_short)
    if wanted is None:
        client.jobs += 1
        wanted = Reply(200, b"%d\n" % client.jobs)
        options = reading.options(request)
        if replied == wanted.bytes() and client.job_rows(client.jobs) != reading.commands.selected(
            request.body.decode(), options
        ):
            return f"{request}\n    has other rows as a job"
    if replied == wanted.bytes():
        return None
    return f"{request}\n    must get {wanted.bytes()[:400]!r}\n    and gets {replied[:400]!r}"
