"""Unpacks zip files from elsewhere, whose members may be links, lie outside of the folder, or be larger than stated."""

import re
import stat
import struct
import zipfile
import zlib
from collections.abc import Iterator, Mapping
from contextlib import contextmanager
from pathlib import Path, PurePosixPath
from typing import BinaryIO

from .interrupts import Interrupts
from .scratch import rename_errors_to

UNPACKED_LIMIT = 1 << 30
CHUNK = 1 << 20


def require_regular(path: Path) -> None:
    """Raises OSError for a pipe or a device, which could block whoever opens it."""
    if path.exists() and not path.is_file():
        raise OSError(f"{path} isn't a regular file")


@contextmanager
def opened_archive(path: Path) -> Iterator[zipfile.ZipFile]:
    """Opens a zip file. Raises OSError with its name for all that is wrong with it, also while it is read."""
    require_regular(path)
    try:
        with zipfile.ZipFile(path) as archive:
            yield archive
    except (zipfile.BadZipFile, zlib.error, struct.error, EOFError, IndexError, OverflowError, ValueError) as error:
        raise OSError(f"{path} isn't a whole zip file: {error}") from None
    except (NotImplementedError, RuntimeError) as error:
        raise OSError(f"{path} can't be unpacked: {error}") from None


def members(
    archive: zipfile.ZipFile, path: Path, pattern: re.Pattern[str]
) -> Iterator[tuple[re.Match[str], zipfile.ZipInfo]]:
    """Yields the members whose names, without their folders, have a pattern.

    Raises OSError for any member that is outside of the archive's folder, and for a link.
    """
    for member in archive.infolist():
        inside = PurePosixPath(member.filename.replace("\\", "/"))
        if inside.is_absolute() or ".." in inside.parts:
            raise OSError(f"{path} has a member outside its folder: {member.filename!r}")
        name = pattern.fullmatch(inside.name)
        if not name or member.is_dir():
            continue
        if stat.S_ISLNK(member.external_attr >> 16):
            raise OSError(f"{path} has a link in place of a file: {member.filename!r}")
        yield name, member


def unpack(
    archive: zipfile.ZipFile, path: Path, wanted: Mapping[Path, zipfile.ZipInfo], interrupts: Interrupts
) -> None:
    """Writes members to files."""
    if sum(member.file_size for member in wanted.values()) > UNPACKED_LIMIT:
        raise OSError(f"{path} unpacks to more than {UNPACKED_LIMIT:,} bytes")
    for unpacked, member in wanted.items():
        if member.compress_type not in (zipfile.ZIP_STORED, zipfile.ZIP_DEFLATED):
            raise OSError(f"{path} can't be unpacked: {member.filename!r} isn't compressed by deflate")
        with rename_errors_to(unpacked), open(unpacked, "wb") as file:
            _unpack_member(archive, member, path, file, interrupts)


def _unpack_member(
    archive: zipfile.ZipFile, member: zipfile.ZipInfo, path: Path, file: BinaryIO, interrupts: Interrupts
) -> None:
    """Writes a member to a file. Raises OSError if it doesn't have the stated size.

    `zipfile` stops after the stated size without an error, so it is given one byte more.
    """
    stated = member.file_size
    member.file_size = stated + 1
    with archive.open(member) as content:
        while chunk := content.read(CHUNK):
            interrupts.check()
            file.write(chunk)
    if file.tell() != stated:
        more_or_less = "more" if file.tell() > stated else "less"
        raise OSError(
            f"{path} isn't a whole zip file: {member.filename!r} has {more_or_less} than the stated {stated} bytes"
        )
