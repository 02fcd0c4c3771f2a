"""The server replies to random requests what docs/http.md and the commands say."""

from collections import Counter
from pathlib import Path
from random import Random

import pytest
from filter_outlines import MappedCounty
from filters import CODES
from harness.batches import add_batches
from harness.server import Server
from server_filters import Client, Commands, Reading, RequestDice, difference

BATCHES = 4
# Of a batch.
REQUESTS = 250
# Each route gets about a fifth of them.
LEAST_OF_ROUTE = 20
# How many failures are shown.
SHOWN = 5


def pytest_generate_tests(metafunc: pytest.Metafunc) -> None:
    add_batches(metafunc, BATCHES)


@pytest.mark.needs("python3-shapely")
@pytest.mark.usefixtures("extractd")
def test_replies(batch: int, here: Path) -> None:
    dice = Random(batch)
    counties = [MappedCounty(dice, code) for code in CODES]
    for county in counties:
        county.write(here)
    commands = Commands(here)
    reading, drawn = Reading(commands), RequestDice(dice, counties, commands)
    requests = [drawn.request() for _ in range(REQUESTS)]
    with Server(here, counties=CODES) as server:
        client = Client(server.port)
        differences = [difference(client, reading, dice, request) for request in requests]
    assert len(differences) == REQUESTS
    wrong = list(filter(None, differences))
    assert not wrong, "\n".join([f"{len(wrong)} replies differ", *wrong[:SHOWN]])
    counts = Counter(request.path for request in requests)
    assert min(counts[route] for route in Reading.ROUTES) >= LEAST_OF_ROUTE
    assert client.jobs > 0
