"""Messages for people, on standard error."""

import re
import sys
from contextlib import suppress

# Control characters, those that change the direction of the text, line separators, and parts of characters.
_CONTROL = re.compile("[\0-\x1f\x7f-\x9f\u2028-\u202e\u2066-\u2069\ud800-\udfff]")


def visible(text: str, *, keep_lines: bool = False) -> str:
    r"""Returns a text in which names of files can't control a terminal: an escape character becomes `\x1b`."""
    lines = text.split("\n") if keep_lines else [text]
    return "\n".join(_CONTROL.sub(lambda found: ascii(found[0])[1:-1], line) for line in lines)


def report(text: str, *, keep_lines: bool = False) -> None:
    """Writes a message if possible. `print` would use standard output if standard error is closed."""
    if sys.stderr is not None:
        with suppress(OSError):
            print(visible(text, keep_lines=keep_lines), file=sys.stderr, flush=True)
