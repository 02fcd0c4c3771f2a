"""Bodies of requests, and those of their replies, as files."""

import subprocess
from pathlib import Path

from harness.program import TOP

EXAMPLES = TOP / "examples"
# nginx's limits on a body, in bytes: that of /extract and the like, and the server's own.
WORDS, LONGEST = 65_536, 1_048_576


def output_of(*arguments: str | Path) -> bytes:
    """Returns what the program writes."""
    return subprocess.run(["extractd", *arguments], check=True, capture_output=True).stdout


def write_requests(folder: Path) -> None:
    words = (EXAMPLES / "programs/all.bpf").read_bytes()
    bodies = {
        "all.bpf": words,
        # An exit without a value.
        "bare.bpf": words[-8:],
        "not_water.bpf": (EXAMPLES / "programs/not_water.bpf").read_bytes(),
        "not_water.s": (EXAMPLES / "programs/not_water.s").read_bytes(),
        "no_text": b"\xff",
        "nothing": b"",
        "wordy": bytes(WORDS + 8),
        "long": bytes(LONGEST + 1),
        "longest": bytes(LONGEST),
    }
    for name, body in bodies.items():
        (folder / name).write_bytes(body)


def write_replies(folder: Path) -> None:
    """Writes the replies to some of these, and to requests for addresses, over the example county, as the program's commands write them."""
    geocode = ("geocode", "--data", EXAMPLES, "--number", "751", "--name", "main")
    replies = {
        "not_water.dis": output_of("dis", "--program", folder / "not_water.bpf"),
        "rows": output_of("run", "--program", folder / "all.bpf", "--data", EXAMPLES, "01001"),
        "hits": output_of(*geocode, "01001"),
        "hits.zip": output_of(*geocode, "--zip", "36067", "01001"),
    }
    for name, reply in replies.items():
        (folder / name).write_bytes(reply)
