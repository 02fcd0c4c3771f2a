"""Requests and replies that a page shows, as curl's commands or byte for byte."""

import re
import socket
from collections.abc import Iterator
from typing import NamedTuple

from harness.program import TOP
from harness.server import Server

REPLY = re.compile(r"\| [0-9]+ \| ([45][0-9][0-9]) ([A-Z][A-Za-z ]+) \| `([^`]+)` \|.*")
REQUEST = re.compile(r"\| `([^`]+\\n[^`]*)` \| ([45][0-9][0-9])(?:, `(Allow: [A-Z, ]+)`)? \|.*")
SECONDS = 60


class Request(NamedTuple):
    """A request as it is sent, and the reply to it."""

    text: str
    reply: str

    def fault(self, server: Server) -> str | None:
        with socket.create_connection((server.host, server.port), SECONDS) as connection:
            try:
                connection.sendall(unescaped(self.text))
            except OSError:
                pass  # The server reads no further than it needs.
            got = b"".join(iter(lambda: connection.recv(65536), b"")).decode()
        return None if got == self.reply else f"shows {self.reply!r} for {self.text!r}, and it is {got!r}"


class Examples:
    """What a page shows, in its order and in the notation of crates/wire_tests."""

    def __init__(self) -> None:
        self.shown: list[str] = []
        self.statuses: dict[str, tuple[str, str]] = {}
        self.record = (TOP / "examples/one/TGR01001.RT1").read_text().replace("\r", "").removesuffix("\n")

    def add_row(self, row: str) -> Request | None:
        """Adds a row of a table: a status with its phrase and body, or a request, which it returns."""
        if match := REPLY.fullmatch(row):
            self.statuses[match[1]] = match[2], match[3]
        elif match := REQUEST.fullmatch(row):
            text, status, allow = match[1], match[2], match[3] or ""
            self.shown.append(f"{text} => {status}{allow.removeprefix('Allow:')}")
            phrase, body = self.statuses.get(status, ("", ""))
            head = f"HTTP/1.1 {status} {phrase}\r\nContent-Type: text/plain\r\nContent-Length: {len(body) + 1}\r\nConnection: close\r\n"
            return Request(text, head + (f"{allow}\r\n" if allow else "") + f"\r\n{body}\n")
        return None

    def add_block(self, text: str) -> None:
        """Adds each request by curl with a reply whose head the text shows. A body that curl writes to a file has the file's name."""
        asked = head = body = allow = ""
        for line in (*text.splitlines(), "$ "):
            if line.startswith("$ "):
                if head:
                    self.shown.append(f"{asked} => ={head}{body.replace(self.record, '{lantern}')}{allow}")
                asked, head, allow = asked_by(line), "", ""
                output = re.search(r" -o ([a-z_]+)", line)
                body = f" {{{output[1]}}}" if output else ""
            elif line.startswith("HTTP/1.1 "):
                head = line.partition(" ")[2] + ";"
            elif line.startswith("Content-"):
                head += f" {line.partition(': ')[2]};"
            elif line.startswith("Allow: "):
                allow = f"; {line.partition(': ')[2]}"
            elif line not in ("Connection: close", ""):
                body = (body or " ") + line.replace("\t", "\\t") + "\\n"

    def fault(self) -> str | None:
        """The tests must have each request that the page shows, in its order, and may have others."""
        rows = iter(tested_examples())
        for row in self.shown:
            if row not in rows:
                return f"shows\n{row}\nand the tests have no such row there:\n" + "\n".join(tested_examples())
        return None


def asked_by(command: str) -> str:
    """Returns the request of a curl command in the tests' notation, without its body."""
    target = re.split("[' ]", command.partition("127.0.0.1:8080")[2])[0]
    method = re.search(r" -X ([A-Z]+)", command)
    return f"{method[1] if method else 'POST' if ' --data-binary ' in command else 'GET'} {target}{{curl}}"


def tested_examples() -> Iterator[str]:
    """Yields the rows of the tests' tables of examples. A line that begins with two blanks continues the one above, and braces are escaped."""
    text = (TOP / "crates/wire_tests/src/examples.rt").read_text().partition("const ENDS")[0]
    for line in text.replace("\n  ", " ").replace(r"\x7b", "{").replace(r"\x7d", "}").splitlines():
        row = line.partition('r"')[2] or line
        asked, found, reply = row.partition('"')[0].partition(" => ")
        if found and asked != "turn" and re.match("[=45]", reply):
            yield f"{asked.partition(' >>')[0]} => {reply}"


def unescaped(text: str) -> bytes:
    return text.encode().decode("unicode_escape").encode("latin-1")
