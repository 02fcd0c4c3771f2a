"""What of a county's shapefiles doesn't fit into TIGER/Line 2006 files: it is counted, and the first few are named."""

from dataclasses import dataclass, field
from enum import StrEnum

SHOWN = 3


class Loss(StrEnum):
    """A way in which something doesn't fit, and what is written instead."""

    LONG_NAME = "names cut after 30 bytes"
    LETTERS = "names with letters outside Latin-1, replaced"
    LONG_TYPE = "types of more than 4 characters, written into the name"
    LONG_DIRECTION = "directions of more than 2 characters, written into the name"
    HOUSE_NUMBER = "ranges left out for house numbers of more than 11 characters"
    NO_SIDE = "ranges left out that have no side"
    NO_SEGMENT = "rows of featnames and addr left out that have no segment"
    NAMES = "alternate names left out beyond 5,000 of a segment"
    RANGES = "ranges left out beyond 1,001 of a segment's side"
    POINTS = "shapes thinned to 10,000 points"
    LONG_PLACE = "names of places cut after 60 bytes"


@dataclass
class Lost:
    """A count, and the first few TLIDs or codes of places."""

    count: int = 0
    first: list[str] = field(default_factory=list)


@dataclass
class Losses:
    """The losses of a county."""

    found: dict[str, Lost] = field(default_factory=dict)

    def add(self, loss: str, which: object, count: int = 1) -> None:
        lost = self.found.setdefault(loss, Lost())
        lost.count += count
        if len(lost.first) < SHOWN and str(which) not in lost.first:
            lost.first.append(str(which))

    def __bool__(self) -> bool:
        return bool(self.found)

    def __str__(self) -> str:
        return "; ".join(_text(loss, lost) for loss, lost in sorted(self.found.items()))


def _text(loss: str, lost: Lost) -> str:
    more = ", .." if lost.count > len(lost.first) else ""
    return f"{loss}: {lost.count:,} ({', '.join(lost.first)}{more})"


def unknown_class(mtfcc: str) -> str:
    """Returns the loss of a class that the table lacks."""
    return f"MTFCC {mtfcc or 'missing'}, written as CFCC X00"
