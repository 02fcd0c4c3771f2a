#!/usr/bin/env python3
"""Builds the programs of examples/c/programs for extractd and natively. Their rows over the example county have to be the same.

    python3 c_programs.py

prints how many programs each compiler has accepted by level, as the table of docs/c-programs.md. `extractd` is the one on the search path. Compilers that
aren't installed are left out, and what isn't as expected is listed: builds have to write the rows of the native programs, or to be refused as REFUSED says.
"""

import os
import shutil
import subprocess
import sys
import tempfile
from concurrent.futures import ThreadPoolExecutor
from dataclasses import dataclass
from pathlib import Path

TOP = Path(__file__).resolve().parent.parent
TOOLS, PROGRAMS, COUNTY, CODE = TOP / "tools" / "c", TOP / "examples" / "c" / "programs", TOP / "examples", "01001"
NAMES = sorted(path.stem for path in PROGRAMS.glob("*.c"))
COMPILERS, LEVELS = ("clang", "clang-19", "bpf-gcc"), ("-O1", "-O2", "-Os")

# The builds that are refused, with a part of what is said.
REFUSED: dict[tuple[str, str, str], str] = {
    ("name_suffix", "clang", "-Os"): "PointerArithmetic",
    ("sorted_letters", "bpf-gcc", "-O1"): "a loop may have more than 256 rounds",
    ("sorted_letters", "bpf-gcc", "-O2"): "a loop may have more than 256 rounds",
    ("soundex", "bpf-gcc", "-O1"): "a loop may have more than 256 rounds",
}


@dataclass(frozen=True)
class Build:
    program: str
    compiler: str
    level: str

    @property
    def source(self) -> Path:
        return PROGRAMS / f"{self.program}.c"


@dataclass(frozen=True)
class Outcome:
    build: Build
    accepted: bool
    failure: str | None


def run(*command: str | Path, **environment: str) -> subprocess.CompletedProcess[bytes]:
    variables = {**os.environ, **environment}
    try:
        return subprocess.run(command, stdin=subprocess.DEVNULL, capture_output=True, timeout=120, env=variables)
    except subprocess.TimeoutExpired:
        return subprocess.CompletedProcess(command, 124, b"", b"more than 120 seconds")


def native_rows(name: str, folder: Path) -> bytes:
    source = PROGRAMS / f"{name}.c"
    program = folder / f"{source.stem}.native"
    flags = ("-w", "-O1", "-fsanitize=undefined", "-fsanitize-undefined-trap-on-error", f"-I{TOOLS}")
    made = run("cc", *flags, "-include", TOOLS / "native.h", source, TOOLS / "native.c", "-o", program)
    done = run(program, COUNTY, CODE) if made.returncode == 0 else made
    if done.returncode != 0:
        raise RuntimeError(f"{source.name} fails natively: {done.stderr.decode(errors='replace')}")
    return done.stdout


def try_build(build: Build, folder: Path, natively: bytes) -> Outcome:
    """Compiles and runs a program. A refusal is a failure if it isn't expected, and so is a missing one."""
    words = folder / "-".join((build.program, build.compiler, build.level))
    made = run(TOOLS / "compile.sh", build.source, words, build.level, CC=build.compiler)
    if made.returncode == 0:
        made = run("extractd", "run", "--program", words, "--data", COUNTY, CODE)
    said = made.stderr.decode(errors="replace").strip()
    expected = REFUSED.get((build.program, build.compiler, build.level))
    if made.returncode != 0:
        return Outcome(build, False, None if expected is not None and expected in said else said)
    if made.stdout != natively:
        return Outcome(build, True, "other rows than natively")
    return Outcome(build, True, None if expected is None else f"accepted, and not: {expected}")


def main() -> int:
    compilers = [compiler for compiler in COMPILERS if shutil.which(compiler)]
    builds = [Build(name, compiler, level) for compiler in compilers for level in LEVELS for name in NAMES]
    with tempfile.TemporaryDirectory() as folder, ThreadPoolExecutor(os.cpu_count()) as pool:
        rows = dict(zip(NAMES, pool.map(lambda name: native_rows(name, Path(folder)), NAMES), strict=True))
        outcomes = list(pool.map(lambda build: try_build(build, Path(folder), rows[build.program]), builds))
    accepted = [(outcome.build.compiler, outcome.build.level) for outcome in outcomes if outcome.accepted]
    for compiler in compilers:
        print(f"| {compiler} |", " | ".join(str(accepted.count((compiler, level))) for level in LEVELS), "|")
    failed = [outcome for outcome in outcomes if outcome.failure is not None]
    for outcome in failed:
        print(outcome.build.program, outcome.build.compiler, outcome.build.level, outcome.failure, sep=": ")
    return 1 if failed or not builds else 0


if __name__ == "__main__":
    sys.exit(main())
