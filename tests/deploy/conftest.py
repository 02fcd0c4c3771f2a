"""What the tests of the server and of its configuration share: requests with their replies, a server, and nginx in front of it."""

import os
import tempfile
from collections.abc import Iterator
from pathlib import Path

import pytest
from harness import bodies
from harness.nginx import Nginx
from harness.root import Debian, Installed, Packages
from harness.server import Server


@pytest.fixture(scope="session")
def inputs(extractd: str, tmp_path_factory: pytest.TempPathFactory) -> Path:
    """Returns a folder with bodies of requests and of replies. It doesn't change."""
    folder = tmp_path_factory.mktemp("inputs")
    bodies.write_requests(folder)
    bodies.write_replies(folder)
    return folder


@pytest.fixture(scope="module")
def server(extractd: str) -> Iterator[Server]:
    """Yields a server over the example county."""
    with Server(bodies.EXAMPLES) as server:
        yield server


@pytest.fixture(scope="module")
def proxy(server: Server) -> Iterator[Nginx]:
    """Yields nginx in front of the server."""
    with Nginx(server.port) as nginx:
        yield nginx


@pytest.fixture(scope="session")
def debian() -> Iterator[Debian]:
    """Yields a clean Debian. Each file of tests leaves it as it was, but for test_package_boot.py, which is the last of them."""
    with tempfile.TemporaryDirectory(prefix="root.") as folder:
        debian = Debian(Path(folder) / "root")
        try:
            if os.environ.get("REQUIRE_ALL"):
                debian.add_packages()
            yield debian
        finally:
            debian.close()


@pytest.fixture(scope="session")
def packages(extractd: str, tmp_path_factory: pytest.TempPathFactory) -> Packages:
    """Returns the packages of the built program."""
    return Packages.built(extractd, tmp_path_factory.mktemp("packages"))


@pytest.fixture(scope="module")
def installed(debian: Debian, packages: Packages, tmp_path_factory: pytest.TempPathFactory) -> Iterator[Installed]:
    """Yields a Debian with the packages. They leave nothing."""
    installed = Installed(debian, packages, tmp_path_factory.mktemp("kept"))
    yield installed
    installed.purge()
    assert installed.left() == []
