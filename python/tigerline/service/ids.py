"""The ids of features: a feature's TLID, plus a number for each earlier segment with this TLID in the county's file.

So an id is unique, an integer, and the same for every selection.
"""

from collections import Counter
from collections.abc import Callable, Iterable
from hashlib import blake2b

from .geojson import features, split

# The second segment with a TLID, which has up to ten digits, has the TLID plus this number as its id, and so on.
REPEATED = 10**10

# Of each TLID that several segments have, the places of its lines among them, by their digests.
Repeated = dict[bytes, dict[bytes, list[int]]]


def repeated(parts: Callable[[], Iterable[bytes]]) -> Repeated:
    """Returns the repeated TLIDs of a county, whose lines `parts` yields in the file's order."""
    twice = _twice(parts())
    found: Repeated = {tlid: {} for tlid in twice}
    counts = Counter[bytes]()
    for lines in parts() if twice else ():
        _add_places(found, counts, lines)
    return found


def _twice(parts: Iterable[bytes]) -> set[bytes]:
    """Returns the TLIDs that several lines have."""
    seen: set[bytes] = set()
    twice: set[bytes] = set()
    for lines in parts:
        for tlid in split(lines)[0]:
            (twice if tlid in seen else seen).add(tlid)
    return twice


def _add_places(found: Repeated, counts: Counter[bytes], lines: bytes) -> None:
    for tlid, rest in zip(*split(lines)):
        if tlid in found:
            found[tlid].setdefault(digest(rest), []).append(counts[tlid])
            counts[tlid] += 1


class Numbering:
    """Gives the selected segments of a county their ids, one after the other.

    Equal lines are selected together, so the n-th of them that is selected is the n-th in the file. (Only blanks at the
    start of a text can tell their segments apart.) In a collection of several counties an id is a text that begins with
    the code of the county.
    """

    def __init__(self, found: Repeated, prefix: str) -> None:
        self._found = found
        self._form = f'"{prefix}%b"'.encode() if prefix else b"%b"
        self._counts = Counter[bytes]()

    def features(self, lines: bytes) -> bytes:
        """Returns the features of the next lines."""
        tlids, rests = split(lines)
        numbers = map(self._number, tlids, rests) if self._found else tlids
        return features([self._form % number for number in numbers], rests)

    def _number(self, tlid: bytes, rest: bytes) -> bytes:
        if tlid not in self._found:
            return tlid
        line = digest(rest)
        self._counts[line] += 1
        return b"%d" % (int(tlid) + REPEATED * self._found[tlid][line][self._counts[line] - 1])


def digest(text: bytes) -> bytes:
    """Returns 16 bytes that identify a text."""
    return blake2b(text, digest_size=16).digest()
