"""Counties for the tests of batches, the command that selects them, and replacements of `extractd` that disturb it."""

import os
import subprocess
import sys
import time
from collections.abc import Callable
from pathlib import Path

from counties import EXAMPLES, JOINED, TOP, copy_county, program_of, records, write_shapes

CODES = ("01001", "01003", "01005", "01007", "02013")
ROADS = "CFCC LIKE 'A%'"
SEGMENTS = 60
# Counts the class A, which is in the 56th byte of a record.
ROAD_COUNT = sum(record[55:56] == b"A" for record in records(EXAMPLES / "TGR01001.RT1")[: SEGMENTS * len(CODES)])
COMMAND = [sys.executable, "-m", "tigerline", "select"]


def write_counties(folder: Path) -> Path:
    """Writes five counties with shapes, each with different segments of the example county."""
    lines = records(EXAMPLES / "TGR01001.RT1")
    for place, code in enumerate(CODES):
        copy_county(folder, types=JOINED, code=code)
        first = place * SEGMENTS
        (folder / f"TGR{code}.RT1").write_bytes(b"\r\n".join(lines[first : first + SEGMENTS]) + b"\r\n")
        write_shapes(folder, code)
    return folder


def environment(**further: str) -> dict[str, str]:
    """Returns the environment of the command. GDAL writes this date into a GeoPackage."""
    return {
        **os.environ,
        "PYTHONPATH": str(TOP / "python"),
        "OGR_CURRENT_DATE": "2006-01-01T00:00:00.000Z",
        **further,
    }


def start(*arguments: object, **further: str) -> subprocess.Popen[str]:
    """Starts the command in its own process group, with pipes for its output."""
    command, pipe = [*COMMAND, *map(str, arguments)], subprocess.PIPE
    return subprocess.Popen(
        command, env=environment(**further), stdout=pipe, stderr=pipe, text=True, start_new_session=True
    )


def run(*arguments: object, **further: str) -> tuple[int, str, str]:
    """Runs the command, and returns its status, its output and its standard error."""
    process = start(*arguments, **further)
    output, said = process.communicate(timeout=120)
    return process.returncode, output, said


def wait_for(
    condition: Callable[[], object], seconds: float = 120, process: subprocess.Popen[str] | None = None
) -> None:
    """Waits until a condition holds. Fails at once if the process that is to bring it about has ended."""
    deadline = time.monotonic() + seconds
    while not condition():
        assert time.monotonic() < deadline
        assert process is None or process.poll() is None, process.communicate()
        time.sleep(0.02)


def disturbed(path: Path, extractd: str, disturbance: str) -> str:
    """Writes a replacement of `extractd` that logs each county and then disturbs the run of one.

    The variable `code` is the county's code, and `state` a folder for the disturbance's state.
    """
    state = path.with_name(path.name + ".state")
    state.mkdir()
    last = 'for code; do :; done; echo "$code" >> "$state/log"'
    script = f'state="{state}"\n{last}\n{disturbance}\nexec "{extractd}" "$@"'
    return program_of(path, script)


def counties_run(program: str) -> list[str]:
    """Returns the counties that a replacement was run for."""
    log = Path(f"{program}.state/log")
    return log.read_text().split() if log.exists() else []


# Kills the worker, which is the program's parent, in the first run of a county or in each.
KILL_ONCE = '[ "$code" = 01005 ] && [ ! -e "$state/killed" ] && { touch "$state/killed"; kill -9 $PPID; }'
KILL_ALWAYS = '[ "$code" = 01005 ] && kill -9 $PPID'
# Waits in a county until a file exists, but not forever.
WAIT = (
    'for turn in $(seq 2400); do [ "$code" = 01005 ] && [ ! -e "$state/go" ] || break; '
    'touch "$state/waits"; sleep 0.05; done'
)
# Delays the last county until all others have started.
FIRST_IS_LAST = 'while [ "$code" = 02013 ] && [ "$(wc -l < "$state/log")" -lt 5 ]; do sleep 0.05; done'
