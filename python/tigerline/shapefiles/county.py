"""Imports the shapefiles of a county: its TIGER/Line 2006 files appear together or not at all."""

import errno
import os
from dataclasses import dataclass
from pathlib import Path

from ..interrupts import Interrupts
from ..output import pending_file
from ..scratch import rename_errors_to, scratch_folder
from ..sources import files_of_county
from .files import Source
from .losses import Losses
from .names import fit_place
from .records import opened_files
from .segments import opened_county


@dataclass(frozen=True)
class Report:
    """What was imported of a county, and what of it doesn't fit."""

    code: str
    segments: int
    names: int
    ranges: int
    losses: str

    def __str__(self) -> str:
        counts = f"{self.segments:,} segments, {self.names:,} names, {self.ranges:,} ranges"
        return f"{self.code}: {counts}" + (f"; {self.losses}" if self.losses else "")


@dataclass(frozen=True)
class ImportTask:
    """The import of one county: all that a process needs, here or on another machine."""

    source: Source
    out: Path
    is_strict: bool = False
    overwrite: bool = False

    @property
    def code(self) -> str:
        """The county's code."""
        return self.source.code

    def run(self, interrupts: Interrupts) -> Report:
        """Writes the files of the county, and returns what is in them."""
        check_free(self.out, self.code, self.overwrite)
        losses, final = Losses(), self.out / f"TGR{self.code}.RT1"
        with pending_file(final, self.overwrite) as file, scratch_folder() as scratch, rename_errors_to(final):
            with (
                opened_files(file.path, self.code, losses) as files,
                opened_county(self.source, scratch, losses, interrupts) as county,
            ):
                for segment in county.segments():
                    files.add(segment)
                for fips, entity, name in county.places():
                    files.add_place(self.source.year, fips, entity, fit_place(name, fips, losses))
            if losses and self.is_strict:
                raise OSError(f"county {self.code} isn't imported, by --strict: {losses}")
            file.publish(interrupts)
        return Report(self.code, files.segments, len(county.names), files.ranges, str(losses))


def check_free(out: Path, code: str, overwrite: bool) -> None:
    """Raises OSError if a folder has files of a county that may not be replaced, or that others would be next to."""
    for path in files_of_county(out, code):
        if not overwrite:
            raise FileExistsError(errno.EEXIST, os.strerror(errno.EEXIST), str(path))
        if path.name != path.name.upper() or path.suffix == ".ZIP":
            raise OSError(f"{path} is of the same county: remove it, or write to another folder")
