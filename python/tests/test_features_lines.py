"""Pages of lines of different lengths, at the borders of the chunks in which they are read, and boxes."""

import random
import tempfile
from collections.abc import Iterator
from itertools import product

import pytest
from tigerline.service.geojson import NotFeaturesError, split
from tigerline.service.lines import Lines
from tigerline.service.problems import ClientLeftError
from tigerline.service.query import box

pytestmark = pytest.mark.usefixtures("scratch")

CHUNK = 8


def texts() -> Iterator[list[bytes]]:
    """Yields lines: all of up to two of them around a chunk, and random ones."""
    yield []
    for lengths in product(range(1, 2 * CHUNK + 2), repeat=2):
        yield [b"%c" % (97 + number) * (length - 1) + b"\n" for number, length in enumerate(lengths)]
    randoms = random.Random(2006)
    for _ in range(100):
        count = randoms.randint(1, 12)
        yield [b"%c" % (97 + number) * randoms.choice((0, 1, 6, 7, 8, 15, 16, 40)) + b"\n" for number in range(count)]


def stored(text: bytes) -> Lines:
    with tempfile.TemporaryFile() as file:
        file.write(text)
        file.flush()
        return Lines(file)


def read(lines: Lines, first: int, last: int) -> bytes:
    """Returns the lines from one to before another, in small parts."""
    found = lines.slice(first, last)
    return b"".join(found.read(place, 3) for place in range(0, found.length, 3))


@pytest.mark.parametrize("chunk", [1, CHUNK, 1 << 20])
def test_pages(monkeypatch: pytest.MonkeyPatch, chunk: int) -> None:
    monkeypatch.setattr("tigerline.service.lines.CHUNK", chunk)
    for expected in texts():
        lines = stored(b"".join(expected))
        assert (lines.count, lines.size) == (len(expected), sum(map(len, expected)))
        assert b"".join(lines.parts()) == b"".join(expected)
        for offset, limit in product(range(len(expected) + 2), (0, 1, 2, 5, 100)):
            page = expected[offset : offset + limit]
            assert read(lines, offset, offset + limit) == b"".join(page)


def feature(number: int) -> bytes:
    """Returns a line as `extractd` writes it. Every third feature has no geometry."""
    start = b'{"type":"Feature","properties":{"score":0,"RT":"1","VERSION":"0006","TLID":%d},"geometry":' % number
    if number % 3 == 0:
        return start + b"null}\n"
    return start + b'{"type":"LineString","coordinates":[[-0.00000%d,0.000000],[1.000000,1.000000]]}}\n' % (number % 10)


def test_box_of_a_client_that_leaves(monkeypatch: pytest.MonkeyPatch) -> None:
    """It ends at each check, and the next client gets all that it requests."""
    monkeypatch.setattr("tigerline.service.lines.CHUNK", 1000)
    area = box("0,0,0.00001,0.00001")
    expected = b"".join(feature(number) for number in range(40) if number % 3)
    for checks in range(100):
        lines = stored(b"".join(map(feature, range(40))))
        left = [ClientLeftError()] + [None] * checks
        try:
            found = lines.in_box(area, lambda: raise_error(left.pop()))
        except ClientLeftError:
            assert read(lines.in_box(area, lambda: None), 0, 100) == expected
        else:
            assert read(found, 0, 100) == expected and checks == 2 * (lines.size // 1000 + 1)
            return
    raise AssertionError("it doesn't end")


def raise_error(error: Exception | None) -> None:
    if error is not None:
        raise error


@pytest.mark.parametrize("text", ["x", "x\n", '{"type":"Feature","properties":{"score":1,"TLID":1},"geometry":null}\n'])
def test_other_output(text: str) -> None:
    """Lines that aren't features and a line without an end are refused."""
    with pytest.raises(NotFeaturesError):
        split(read(stored(text.encode()), 0, 1))
