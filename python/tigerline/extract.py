"""Has `extractd` write the segments of counties, and returns what it wrote county by county."""

import os
import warnings
from collections.abc import Iterable, Iterator, Sequence
from contextlib import AbstractContextManager, nullcontext
from dataclasses import dataclass, replace
from pathlib import Path
from typing import Literal

from .filters import conjunction
from .interrupts import Interrupts
from .program import PathLike, find_program, run
from .progress import with_progress
from .scratch import scratch_folder
from .sources import County, counties_in, county_files, has_shapes, missing_names, record_types

# The system's limit on an argument is 131,072 bytes.
LONGEST_ARGUMENT = 100_000

# "auto" is the shape in counties with a file of record type 2, and a straight line in others.
Geometry = Literal["auto", "shape", "line", "none"]


@dataclass(frozen=True)
class Request:
    """The request for segments of some counties: a filter and further conditions, or a program as a file or its words."""

    where: str | None = None
    data: PathLike = "."
    counties: str | Iterable[str] | None = None
    program: PathLike | bytes | None = None
    score: str | None = None
    extractd: PathLike | None = None
    conditions: tuple[str, ...] = ()

    def __post_init__(self) -> None:
        has_filter = self.where is not None or bool(self.conditions)
        if has_filter == (self.program is not None):
            raise ValueError("segments are selected either by a filter, a box or a mask, or by a program")
        if self.score is not None and self.program is not None:
            raise ValueError("a score needs a filter: a program sets its score itself")

    @property
    def filter(self) -> str:
        """The filter with the conditions."""
        return conjunction(self.where, self.conditions)

    def found_program(self, interrupts: Interrupts) -> str:
        """Returns the path of `extractd`, after it has compiled a filter that has conditions.

        So a fault is reported at its place in the filter, and no parenthesis in it closes the one before it.
        """
        found = find_program(self.extractd, interrupts)
        if self.where is not None and self.conditions:
            run([found, "compile", "--filter", "-"], interrupts, standard_input=self.where.encode())
        return found


@dataclass(frozen=True)
class Output:
    """What is to be written about a county: rows, or a table in CSV (docs/layers.md) if columns are named.

    `of_all` asks for all segments, in place of the selected ones.
    """

    names: tuple[str, ...] = ()
    geometry: Geometry = "none"
    of_all: bool = False

    @property
    def options(self) -> list[str]:
        """The options of `extractd`."""
        if not self.names:
            return []
        return ["--format", "csv", "--columns", ",".join(self.names), "--geometry", self.geometry]

    def for_county(self, county: County) -> "Output":
        """Returns what is to be written about this county, with the geometry that it has."""
        if self.geometry != "auto":
            return self
        return replace(self, geometry="shape" if has_shapes(county) else "line")


ALL_SEGMENTS = Request("TRUE")
ROWS = Output()


@dataclass(frozen=True)
class CountyTexts:
    """What `extractd` wrote about a county, a text for each output. `warning` names the missing files."""

    county: str
    texts: tuple[bytes, ...]
    warning: str | None = None


def extract(
    request: Request, outputs: Sequence[Output], *, progress: bool = False, interrupts: Interrupts | None = None
) -> Iterator[CountyTexts]:
    """Yields the texts of each county after `extractd` has ended for it with status 0.

    At each yield, the county's temporary files and processes are gone.
    """
    with active_interrupts(interrupts) as active:
        program = request.found_program(active)
        chosen = counties_in(request.data, request.counties)
        wanted = outputs_of(chosen, outputs)
    for county in with_progress(chosen, len(chosen), "county", progress):
        with active_interrupts(interrupts) as active:
            texts = county_texts(program, request, county, wanted[county.code], active)
        yield reported(texts)


def reported(found: CountyTexts) -> CountyTexts:
    """Warns of missing files of a county, and returns its texts."""
    if found.warning is not None:
        warnings.warn(found.warning, stacklevel=3)
    return found


def active_interrupts(interrupts: Interrupts | None) -> AbstractContextManager[Interrupts]:
    if interrupts is None:
        return Interrupts()
    return nullcontext(interrupts)


def outputs_of(counties: Sequence[County], outputs: Sequence[Output]) -> dict[str, tuple[Output, ...]]:
    """Returns the outputs of each county, with the geometry that it has. Warns once if some have no shapes."""
    found = {county.code: tuple(output.for_county(county) for output in outputs) for county in counties}
    if any(output.geometry == "auto" for output in outputs):
        straight = [county for county in counties if all(output.geometry != "shape" for output in found[county.code])]
        if straight:
            warnings.warn(_straight_lines(straight), stacklevel=3)
    return found


def _straight_lines(counties: Sequence[County]) -> str:
    code, others = counties[0].code, len(counties) - 1
    if not others:
        return f"county {code} has no TGR{code}.RT2: its segments are straight lines"
    named = f"county {code} and {others} other{'s' if others > 1 else ''}"
    return f"{named} have no file of type 2: their segments are straight lines"


def types_for(outputs: Iterable[Output]) -> str:
    """Returns the record types that are read for these outputs."""
    return record_types(any(output.geometry == "shape" for output in outputs))


def county_texts(
    program: str, request: Request, county: County, outputs: Sequence[Output], interrupts: Interrupts
) -> CountyTexts:
    """Has `extractd` write one county. An output of all segments is empty if none is selected."""
    with county_files(county, types_for(outputs), interrupts) as files, scratch_folder() as scratch:
        folder = files["1"].parent
        try:
            selected = _selection(program, request, scratch, interrupts)
            texts: list[bytes] = []
            for output in outputs:
                # No segment is selected if there is no row, or a header alone.
                if output.of_all and len(texts[0]) <= (texts[0].find(b"\n") + 1 if outputs[0].names else 0):
                    texts.append(b"")
                    continue
                words = [program, "select", "--where=TRUE"] if output.of_all else selected
                command = [*words, "--data", str(folder), *output.options, county.code]
                texts.append(run(command, interrupts, county=county.code))
        except OSError as error:
            raise with_own_paths(error, county, files) from None
        return CountyTexts(county.code, tuple(texts), missing_names(county, files))


def _selection(program: str, request: Request, scratch: Path, interrupts: Interrupts) -> list[str]:
    """Returns the words of the command that select the segments.

    A program that isn't in a file yet, or that of a long filter, is written to a file in `scratch`.
    """
    words = scratch / "program.bpf"
    if request.program is None:
        where, score = request.filter.encode(), [] if request.score is None else ["--score", request.score]
        if len(where) <= LONGEST_ARGUMENT:
            return [program, "select", f"--where={request.filter}", *score]
        command = [program, "compile", "--filter", "-", *score]
        words.write_bytes(run(command, interrupts, standard_input=where))
    elif isinstance(request.program, bytes):
        words.write_bytes(request.program)
    else:
        words = Path(os.path.abspath(request.program))
    return [program, "run", "--program", str(words)]


def with_own_paths(error: OSError, county: County, files: dict[str, Path]) -> OSError:
    """Returns an error that names the county's files instead of the temporary links to them."""
    text = str(error)
    for record_type, path in files.items():
        text = text.replace(str(path), str(county.files.get(record_type, f"{county.archive}: {path.name}")))
    return OSError(text)
