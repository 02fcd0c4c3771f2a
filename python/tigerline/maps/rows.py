"""Rows of `extractd` as segments of a map, with the other segments of their county."""

import io
import warnings
from pathlib import Path

from ..extract import ALL_SEGMENTS, Output, county_texts
from ..interrupts import Interrupts
from ..layout import RECORD_LENGTH
from ..program import RefusedError
from ..scratch import scratch_folder
from ..sources import County
from .content import DRAWN, MapContent

CODE = "00000"  # of a county whose file has any name


def split_rows(rows: bytes, name: str) -> tuple[list[int], bytes]:
    """Returns the scores of rows, and the records as a file of type 1. Raises OSError for other files.

    A record may contain any byte but LF, so it is found by its length from the end, and not by the tab before it.
    """
    scores, records = [], []
    for line in io.BytesIO(rows):
        before, record = line[: -RECORD_LENGTH - 1], line[-RECORD_LENGTH - 1 :]
        score, tab = before[:-1], before[-1:]
        if tab != b"\t" or not score.isdigit() or not record.endswith(b"\n"):
            raise OSError(f"{name}: this isn't a row that extractd wrote: {line[:40]!r}")
        scores.append(int(score))
        records.append(record[:-1] + b"\r\n")
    return scores, b"".join(records)


def content_of(program: str, rows: bytes, name: str, county: Path | None, interrupts: Interrupts) -> MapContent:
    """Returns the segments of rows, and the others of their county if its file of type 1 is given.

    `name` is that of the rows in messages.
    """
    scores, records = split_rows(rows, name)
    with scratch_folder() as folder:
        chosen = folder / "rows"
        chosen.write_bytes(records)
        selected = table_of(program, chosen, county or chosen, interrupts)
        everything = table_of(program, county, county, interrupts) if county else b""
    content = MapContent()
    content.add_county(selected, everything)
    content.selected = [segment._replace(score=score) for segment, score in zip(content.selected, scores, strict=True)]
    return content


def table_of(program: str, path: Path, county: Path, interrupts: Interrupts) -> bytes:
    """Returns the table of a file of type 1, with the shapes of the type 2 file beside that of the county."""
    county.stat()  # Raises OSError with this name.
    shapes = next((beside for beside in map(county.with_suffix, (".RT2", ".rt2")) if beside.exists()), None)
    files = {"1": path} if shapes is None else {"1": path, "2": shapes}
    output = Output(DRAWN, "line" if shapes is None else "shape")
    with warnings.catch_warnings():
        warnings.simplefilter("ignore")  # Names and address ranges aren't drawn.
        try:
            return county_texts(program, ALL_SEGMENTS, County(CODE, path.parent, files), [output], interrupts).texts[0]
        except RefusedError as refused:
            raise OSError(f"{path.name}: {refused.text.splitlines()[0]}") from None
