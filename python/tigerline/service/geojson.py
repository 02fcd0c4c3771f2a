"""Makes features of GeoJSON (RFC 7946) of those that `extractd` writes, one on each line, and reads them.

A feature of the service has an id in place of a score, and its line begins with a comma, so lines are a part of an array.
"""

import json
import re
from collections.abc import Sequence
from typing import Any

from ..layout import NAMES

# Strings escape quotation marks, so this is at the start of each line and nowhere else. The score of a filter is 0.
_START = re.compile(rb'\{"type":"Feature","properties":\{"score":0,(?=.*?"TLID":([0-9]+))')
_POINT = re.compile(rb"(-?[0-9.]+)(,)(-?[0-9.]+)")
_PROPERTIES = b'"properties":{'
_GEOMETRY = b'},"geometry":'
# What precedes the value of each property, and what follows it. No string contains it.
_BEFORE = {name: f'"{name}":'.encode() for name in NAMES}
_AFTER = {name: b"," + _BEFORE[following] for name, following in zip(NAMES, NAMES[1:])} | {NAMES[-1]: _GEOMETRY}
_NO_LINE = b"null"
COMMA = b","

# The longitudes and the latitudes of a line in millionths of a degree.
Line = tuple[list[int], list[int]]


class NotFeaturesError(OSError):
    """The program wrote something else."""

    def __init__(self) -> None:
        super().__init__("extractd wrote something that isn't features")


def split(lines: bytes) -> tuple[list[bytes], list[bytes]]:
    """Returns the TLID of each line of `extractd`, and what follows its score. Raises NotFeaturesError if it has none."""
    before, *parts = _START.split(lines)
    if before or len(parts) != 2 * lines.count(b"\n"):
        raise NotFeaturesError
    return parts[::2], parts[1::2]


def features(ids: Sequence[bytes], rests: Sequence[bytes]) -> bytes:
    """Returns features with ids, of the rests of their lines."""
    pieces = [COMMA + b'{"type":"Feature","id":', b"", b',"properties":{', b""] * len(ids)
    pieces[1::4], pieces[3::4] = ids, rests
    return b"".join(pieces)


def single(line: bytes, links: list[dict[str, str]]) -> bytes:
    """Returns a feature with links."""
    return b'%b,"links":%b}' % (line.removeprefix(COMMA).removesuffix(b"}\n"), json.dumps(links).encode())


def line_of(feature: bytes) -> Line | None:
    """Returns the geometry of a feature, whose coordinates have six decimals."""
    coordinates = feature[feature.rindex(b":") + 1 :]
    if coordinates.startswith(_NO_LINE):
        return None
    numbers = list(map(int, coordinates.translate(None, b"[.]}").split(b",")))
    return numbers[::2], numbers[1::2]


def values(features: Sequence[bytes], name: str) -> list[Any]:
    """Returns a property of each feature."""
    found = [_property(feature, name).removeprefix(_BEFORE[name]) for feature in features]
    return list(json.loads(b"[%b]" % b",".join(found)))


def _property(feature: bytes, name: str) -> bytes:
    start = feature.index(_BEFORE[name])
    return feature[start : feature.index(_AFTER[name], start)]


def with_properties(names: Sequence[str], lines: bytes) -> bytes:
    """Returns features with these properties alone."""
    return b"".join(_with_properties(names, line) for line in lines.splitlines(keepends=True))


def _with_properties(names: Sequence[str], line: bytes) -> bytes:
    start, end = line.index(_PROPERTIES) + len(_PROPERTIES), line.index(_GEOMETRY)
    return b"%b%b%b" % (line[:start], b",".join([_property(line, name) for name in names]), line[end:])


def latitude_first(lines: bytes) -> bytes:
    """Returns features whose points have the latitude before the longitude."""
    return b"".join(map(_latitude_first, lines.splitlines(keepends=True)))


def _latitude_first(line: bytes) -> bytes:
    start = line.rindex(b":")
    parts = _POINT.split(line[start:])
    parts[1::4], parts[3::4] = parts[3::4], parts[1::4]
    return line[:start] + b"".join(parts)
