#!/usr/bin/env python3
"""Prints the listing of a program by the second reading of the verifier's rules, as `explain` has to write it: python3 listings.py TEXT [LINES]

TEXT has `|` between its lines. LINES is a file of source lines, as `explain --lines` takes it. `extractd`, on the search path, supplies the words of a
program whose jumps are refused.
"""

import subprocess
import sys
from pathlib import Path
from tempfile import TemporaryDirectory

from verifier.listing import listing, source_lines
from verifier.program_text import read_instructions
from verifier.walk import verified


def assembled_words(text: str) -> bytes:
    with TemporaryDirectory() as folder:
        source = Path(folder, "program.s")
        source.write_text(text.replace("|", "\n") + "\n", "utf-8")
        return subprocess.run(["extractd", "asm", "--source", source], check=True, stdout=subprocess.PIPE).stdout


def main(text: str, lines: str | None = None) -> None:
    program = read_instructions(text)
    found = verified(program)
    source = source_lines(Path(lines).read_text("utf-8")) if lines is not None else []
    print(listing(program, found, source, b"" if found.states else assembled_words(text)), end="")
    if found.refusal:
        sys.exit(str(found.refusal))


if __name__ == "__main__":
    if len(sys.argv) not in (2, 3):
        sys.exit(__doc__)
    main(*sys.argv[1:])
