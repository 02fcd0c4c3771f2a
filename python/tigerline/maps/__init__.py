"""Segments as a map: a picture, or a page that zooms."""

from .content import MapContent
from .drawing import PICTURES, Drawing, writer_of
from .view import MapSegment

__all__ = ["PICTURES", "Drawing", "MapContent", "MapSegment", "writer_of"]
