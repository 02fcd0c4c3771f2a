"""The examples in the help of the package's commands."""

import re
import shutil
import subprocess
from pathlib import Path

import pytest
from counties import EXAMPLES
from tigerline.commands.command_line import SUBCOMMANDS

pytestmark = pytest.mark.usefixtures("extractd", "frames", "gdal", "scratch")


@pytest.mark.parametrize("name", [name for name in SUBCOMMANDS if name != "serve"])
def test_example(here: Path, name: str) -> None:
    """It runs at the top of a clone. That of the service doesn't end."""
    shutil.copytree(EXAMPLES, "examples")
    shown = subprocess.run(["tigerline", name, "--help"], stdout=subprocess.PIPE, text=True, check=True).stdout
    (example,) = re.findall(r"^example:\n  (.*)$", shown, re.MULTILINE)
    assert subprocess.run(["bash", "-c", example], stdout=subprocess.PIPE).returncode == 0
