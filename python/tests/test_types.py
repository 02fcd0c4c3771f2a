"""The errors that mypy shows a caller of the package. tests/test_types.py checks the package itself."""

import subprocess
import sys
from pathlib import Path

import pytest
from counties import TOP

CALLER = """
import tigerline

for row in tigerline.rows("TRUE", "data", ["AL"]):
    reveal_type(row.TLID)
    reveal_type(row.FENAME)
    row.fename
tigerline.select("TRUE", "data", geometry="lines")
tigerline.select("TRUE", "data", geometry=False, columns=["TLID"])
"""


def test_package(tmp_path: Path) -> None:
    pytest.importorskip("mypy", reason="no mypy")
    (tmp_path / "caller.py").write_text(CALLER)
    options = ["--config-file", "pyproject.toml", "--cache-dir", str(tmp_path / "cache"), str(tmp_path / "caller.py")]
    done = subprocess.run([sys.executable, "-m", "mypy", *options], cwd=TOP, stdout=subprocess.PIPE, text=True)
    shown = done.stdout.splitlines()
    assert [line.split(": ", 2)[2] for line in shown[:3]] == [
        'Revealed type is "Union[builtins.int, None]"',
        'Revealed type is "Union[builtins.str, None]"',
        '"Row" has no attribute "fename"  [attr-defined]',
    ]
    assert 'Argument "geometry" to "select" has incompatible type' in shown[3]
    assert shown[-1].startswith("Found 2 errors in 1 file ")
