"""Writes a map as one HTML page that needs no other file and no network: the map of the explorer, with its data inside."""

import base64
import hashlib
from collections.abc import Iterator, Sequence
from pathlib import Path
from typing import Any

from jinja2 import Environment, PackageLoader
from markupsafe import Markup

from .drawing import PAGE, Drawing
from .layers import Group

LEAFLET = Path("/usr/share/javascript/leaflet")  # of Debian's package libjs-leaflet
EXPLORER, MAP = Path(__file__).parents[1] / "service" / "static", Path(__file__).parent / "static"


def _joined(*files: Path) -> Markup:
    try:
        return Markup("\n".join(file.read_text() for file in files))
    except FileNotFoundError as error:
        raise FileNotFoundError(f"there is no {error.filename}: apt install libjs-leaflet") from None


def _hashes(texts: Sequence[str]) -> str:
    return " ".join(f"'sha256-{base64.b64encode(hashlib.sha256(text.encode()).digest()).decode()}'" for text in texts)


STYLES = [_joined(LEAFLET / "leaflet.css"), _joined(EXPLORER / "explorer.css", MAP / "map.css")]
SCRIPTS = [_joined(LEAFLET / "leaflet.min.js"), _joined(EXPLORER / "segments.js", MAP / "map.js")]
# Nothing runs in a page but its own scripts.
POLICY = f"default-src 'none'; img-src data:; style-src {_hashes(STYLES)}; script-src {_hashes(SCRIPTS)}"
_templates = Environment(loader=PackageLoader("tigerline.maps"), autoescape=True, trim_blocks=True)


def write(drawing: Drawing, kind: str = PAGE) -> bytes:
    """Returns a page that zooms, and shows the name, the class and the score of the segment under the pointer."""
    data = {
        "selected": [*_rows(drawing.groups, drawing.score)],
        "around": [*_rows(drawing.background)],
        "restLabel": drawing.rest_label,
        "styles": [_style(group) for group in drawing.groups if not group.layer.prefixes],
        "title": drawing.title,
        "column": drawing.score or "Score",
    }
    template = _templates.get_template("map.html")
    text = template.render(drawing=drawing, policy=POLICY, styles=STYLES, scripts=SCRIPTS, data=data)
    return text.encode()


def _rows(groups: Sequence[Group], column: str | None = None) -> Iterator[list[Any]]:
    """Yields the row of the legend, the class, the name, the score and the points of each segment.

    The page knows the rows of classes. Scores are texts, since JavaScript rounds; without a column, 0 is no score.
    """
    for row, (layer, segments) in enumerate(groups):
        for cfcc, name, score, points in segments:
            yield [None if layer.prefixes else row, cfcc, name, str(score) if score or column else None, points]


def _style(group: Group) -> dict[str, Any]:
    layer = group.layer
    style = {"label": layer.label, "color": layer.color, "isDot": layer.is_dot}
    return style | (
        {"width": 8, "dashes": [8, 100]} if layer.is_dot else {"width": 1.5 * layer.width, "casing": layer.casing}
    )
