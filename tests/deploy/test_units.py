"""deploy/server/extractd.service and extractd@.service: what systemd says about them, and the command by which they wait for the server."""

import os
import re
import subprocess
from pathlib import Path

import pytest
from harness.bodies import EXAMPLES
from harness.nginx import SERVER
from harness.server import Server

pytestmark = pytest.mark.needs("systemd-analyze")

SECONDS = 120
PROGRAM = "/usr/local/bin/extractd"


@pytest.fixture
def units(extractd: str, tmp_path: Path) -> Path:
    """Returns a folder with the units. A command line in a unit can't name a program with a blank in its path, so this is a link."""
    (tmp_path / "extractd").symlink_to(extractd)
    for name in ("extractd.service", "extractd@.service"):
        text = (SERVER / name).read_text()
        assert f"\nExecStart={PROGRAM} " in text
        (tmp_path / name).write_text(text.replace(f"\nExecStart={PROGRAM} ", f"\nExecStart={tmp_path}/extractd "))
    return tmp_path


def analyze(*arguments: str | Path) -> subprocess.CompletedProcess[str]:
    return subprocess.run(["systemd-analyze", *arguments], capture_output=True, text=True)


@pytest.mark.parametrize("unit", ["extractd.service", "extractd@8081.service"])
def test_unit(unit: str, units: Path) -> None:
    """An unknown line only causes a message, not a failure."""
    done = analyze("verify", "--man=no", units / unit)
    assert (done.returncode, done.stdout, done.stderr) == (0, "", "")


def test_security(units: Path) -> None:
    done = analyze("security", "--offline=true", "--threshold=20", "--no-pager", units / "extractd.service")
    assert done.returncode == 0, done.stdout[-300:] + done.stderr


def waiting_command() -> str:
    """Returns the command that ends when the server answers. systemd joins its lines, and reads two backslashes as one."""
    text = (SERVER / "extractd.service").read_text().replace("\\\n", "")
    command = re.search(r"^ExecStartPost=/bin/bash -c '(.*)'$", text, re.MULTILINE)
    assert command
    return command[1].replace("\\\\", "\\")


def wait_for(server: Server) -> tuple[bool, str]:
    """Returns whether the command succeeds for a server, and what it says."""
    done = subprocess.run(
        ["bash", "-c", waiting_command()],
        env={**os.environ, "PORT": str(server.port), "MAINPID": str(server.process.pid)},
        stdin=subprocess.DEVNULL,
        capture_output=True,
        text=True,
        timeout=SECONDS,
    )
    return done.returncode == 0, done.stdout + done.stderr


def test_server_that_answers(extractd: str) -> None:
    with Server(EXAMPLES) as server:
        assert wait_for(server) == (True, "")


def test_server_that_has_ended(extractd: str) -> None:
    with Server(EXAMPLES) as server:
        pass
    assert wait_for(server) == (False, "")
