"""The errors of the service, as problem details (RFC 9457)."""

import re
from typing import Any

from ..program import RefusedError

_PLACE = re.compile(r"line ([0-9]+) column ([0-9]+)|pointer (/.*)")
RETRY_SECONDS = 5


class ProblemError(Exception):
    """A request that results in an error: the status, the kind of problem, a text for people and further members."""

    def __init__(self, status: int, kind: str, detail: str, **members: Any) -> None:
        super().__init__(status, kind, detail)
        self.status = status
        self.kind = kind
        self.detail = detail
        self.members = members

    def document(self, title: str, base: str) -> dict[str, Any]:
        """Returns the members of the reply's body."""
        return {
            "type": f"{base}/api#{self.kind}",
            "title": title,
            "status": self.status,
            "detail": self.detail,
            **self.members,
        }


class ClientLeftError(Exception):
    """The client has closed its connection, so nobody needs the reply."""


def bad_parameter(name: str, detail: str) -> ProblemError:
    """Returns the problem of a parameter with an invalid value."""
    return ProblemError(400, "bad-parameter", f"{name}: {detail}", parameter=name)


def not_found(what: str) -> ProblemError:
    """Returns the problem of something that doesn't exist."""
    return ProblemError(404, "not-found", f"there is no {what}")


def refused_filter(refused: RefusedError) -> ProblemError:
    """Returns the problem of a filter that `extractd` refuses, with the place in the parameter's text or JSON."""
    members = {"parameter": "filter", "refusal": refused.number, "name": refused.name, **_place(refused.place)}
    return ProblemError(400, "refused-filter", refused.text, **members)


def _place(text: str) -> dict[str, int | str]:
    """Returns a line and a column, or a JSON pointer (RFC 6901), or nothing if the fault is in the whole filter."""
    found = _PLACE.fullmatch(text)
    if found is None:
        return {}
    return {"pointer": found[3]} if found[3] else {"line": int(found[1]), "column": int(found[2])}


def refused_county(refused: RefusedError, county: str) -> ProblemError:
    """Returns the problem of a county whose files `extractd` refuses."""
    return ProblemError(
        500, "refused-county", f"county {county}: {refused.text}", refusal=refused.number, name=refused.name
    )


def busy() -> ProblemError:
    """Returns the problem of a request that would have to wait for too many others."""
    return ProblemError(503, "busy", "too many requests are waiting for a selection; try again")


def many_to_sort(most: int) -> ProblemError:
    """Returns the problem of a selection that is too large to be sorted."""
    return bad_parameter("sortby", f"more than {most:,} segments are selected")


def late(seconds: float) -> ProblemError:
    """Returns the problem of a request whose selections took or waited too long."""
    return ProblemError(503, "time-limit", f"the selection took more than {seconds:g} seconds; try again")
