"""Through nginx, no client keeps another one waiting for long. waits.py makes the trouble, and measures it for docs/operating.md."""

from pathlib import Path

import pytest
import waits
from waits import ROWS, Row, Size

# Less than for the table of the page. A client gives up after the last number, in seconds.
SIZE = Size(400, 3, 120)
ALONE = Size(400, 1, 120)
# The longest wait, in seconds, on a machine that does nothing else. On another one it is this many times the wait of a client that is alone.
MOST, TIMES = 5.0, 20


@pytest.fixture(scope="session")
def county(extractd: str, tmp_path_factory: pytest.TempPathFactory) -> Path:
    folder = tmp_path_factory.mktemp("waits")
    waits.write_county(folder, SIZE.segments)
    return folder


@pytest.mark.needs("nginx", "openssl")
@pytest.mark.parametrize("row", ROWS, ids=[row.name.replace("`", "") for row in ROWS])
def test_wait(row: Row, county: Path) -> None:
    """Another client may do this."""
    alone = waits.waits_of(ROWS[0], True, county, ALONE).longest
    found = waits.waits_of(row, True, county, SIZE)
    assert (found.failed, found.lasted) == (0, True)
    assert found.asked > 0
    assert found.longest < max(MOST, TIMES * alone), f"a client that is alone waits {alone} s"
