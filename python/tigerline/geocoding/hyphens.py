"""Reads hyphenated house numbers such as `164-20`, which are usual in Queens.

`extractd` reads no number in such an end of a range. So it gets a copy of the county with plain numbers in place of the
hyphenated ones, and without the plain ranges. It finds the segments and the places there as in any other county. Only
the copy isn't proved.
"""

import re
from pathlib import Path

from ..layout import LAYOUTS

SHIFT = 100_000  # Even, so that a number keeps the parity of its last part.
LONGEST_PART = 5  # digits; with the hyphen, two parts are as long as a field.
_END = re.compile(rb" *([0-9]{1,5})-([0-9]{1,5}) *")
_WIDTH = 11
# Where the range of the left side begins. That of the right side follows it.
_RANGES = {record_type: LAYOUTS[record_type]["FRADDL"].start for record_type in "16"}


def is_range(first: str, second: str) -> bool:
    """Returns whether two numbers with a hyphen may be a range, as `593-595`: the second is greater, and as long."""
    return len(second) == len(first) and second > first


def plain_number(block: str, last: str) -> int | None:
    """Returns what stands for a hyphenated number, or None if a part is too long."""
    if max(len(block), len(last)) > LONGEST_PART:
        return None
    return int(block) * SHIFT + int(last)


def hyphenated(number: str) -> str:
    """Returns the hyphenated number that a plain one stands for."""
    block, last = divmod(int(number), SHIFT)
    return f"{block}-{last:02}"


def copy_county(files: dict[str, Path], folder: Path) -> dict[str, Path]:
    """Writes the copy to a folder, and returns its files. Those without ranges are links."""
    copies = {record_type: folder / path.name for record_type, path in files.items()}
    for record_type, path in files.items():
        if record_type not in _RANGES:
            copies[record_type].symlink_to(path.resolve())
            continue
        start = _RANGES[record_type]
        with open(path, "rb") as lines, open(copies[record_type], "wb") as copy:
            copy.writelines(_with_plain_numbers(line, start) for line in lines)
    return copies


def _with_plain_numbers(line: bytes, start: int) -> bytes:
    """Returns a record with plain numbers in place of hyphenated ones. A record of another length isn't valid anyway."""
    end = start + 4 * _WIDTH
    sides = [_plain_range(line[at : at + 2 * _WIDTH]) for at in (start, start + 2 * _WIDTH)]
    return b"".join((line[:start], *sides, line[end:])) if len(line) > end else line


def _plain_range(field: bytes) -> bytes:
    """Returns the range of a side as plain numbers, or blanks if its ends aren't two numbers of one block."""
    ends = [_END.fullmatch(field[:_WIDTH]), _END.fullmatch(field[_WIDTH:])] if b"-" in field else []
    parts = [(int(found[1]), int(found[2])) for found in ends if found]
    if len(parts) < 2 or parts[0][0] != parts[1][0]:
        return b" " * 2 * _WIDTH
    return b"".join(b"%*d" % (_WIDTH, block * SHIFT + last) for block, last in parts)
