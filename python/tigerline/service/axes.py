"""Exchanges latitudes and longitudes in filters, whose coordinates may be in a system that has the latitude first."""

import json
import re
from typing import Any

# A text or a name in quotation marks, a box, or another shape in WKT.
_PARTS = re.compile(
    r"""'[^']*'|"[^"]*"|(\bBBOX\s*\()([^(),]*),([^(),]*),([^(),]*),([^(),]*)"""
    r"|(\b(?:POINT|LINESTRING|POLYGON|MULTIPOLYGON)\s*\([-+0-9.,()\s]*)",
    re.IGNORECASE,
)
_POINT = re.compile(r"([-+0-9.]+)(\s+)([-+0-9.]+)")


def exchanged(text: str, is_json: bool) -> str:
    """Returns a filter with the coordinates of its shapes exchanged. One that isn't JSON stays, and is refused later."""
    if not is_json:
        return _PARTS.sub(_exchanged_part, text)
    try:
        return json.dumps(_exchanged_value(json.loads(text)), ensure_ascii=False)
    except (ValueError, RecursionError):
        return text


def _exchanged_part(found: re.Match[str]) -> str:
    if found[1]:
        return f"{found[1]}{found[3]},{found[2]},{found[5]},{found[4]}"
    return _POINT.sub(r"\3\2\1", found[6]) if found[6] else found[0]


def _exchanged_value(value: Any) -> Any:
    if isinstance(value, dict):
        return {
            name: _exchanged_pairs(item) if name in ("bbox", "coordinates") else _exchanged_value(item)
            for name, item in value.items()
        }
    return [_exchanged_value(item) for item in value] if isinstance(value, list) else value


def _exchanged_pairs(value: Any) -> Any:
    if not isinstance(value, list):
        return value
    if any(isinstance(item, list) for item in value):
        return [_exchanged_pairs(item) for item in value]
    return [item for pair in zip(value[1::2], value[::2]) for item in pair] if len(value) % 2 == 0 else value
