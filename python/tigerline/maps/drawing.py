"""A map, and how it is written: as a picture, or as a page that zooms."""

import re
from collections.abc import Callable
from dataclasses import dataclass
from typing import cast

from ..optional import required
from .layers import Group
from .view import View

PAGE = ".html"
PICTURES = (".svg", ".png", ".pdf", PAGE)
NOT_XML = re.compile("[\0-\x08\x0b\x0c\x0e-\x1f\ud800-\udfff\ufffe\uffff]")


def printable(text: str) -> str:
    """Returns a text without the characters that XML doesn't allow."""
    return NOT_XML.sub("\N{REPLACEMENT CHARACTER}", text)


@dataclass(frozen=True)
class Drawing:
    """A map: what it shows from the bottom to the top, a caption, and the title of its legend.

    The groups of the background are below the others, in pale colors. A segment without points is counted but not
    drawn. `score` names the scores if colors stand for them.
    """

    view: View
    groups: list[Group]
    background: list[Group]
    caption: str
    title: str
    score: str | None = None
    rest_label: str = "Not selected"

    @property
    def heading(self) -> str:
        """The caption as a text of SVG or HTML."""
        return printable(self.caption)

    @property
    def rest(self) -> int:
        """The number of segments in the background."""
        return sum(len(segments) for _, segments in self.background)

    def file(self, kind: str) -> bytes:
        """Returns the map as a file of this kind, which is one of PICTURES."""
        return writer_of(kind)(self, kind)


def writer_of(kind: str) -> Callable[[Drawing, str], bytes]:
    """Returns what writes files of this kind. Raises ImportError that says what to install."""
    module = required(f"tigerline.maps.{'page' if kind == PAGE else 'picture'}")
    return cast(Callable[[Drawing, str], bytes], module.write)
