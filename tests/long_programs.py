"""Long programs, and how long and how much memory the program takes for them.

Times are of whole processes. On a busy machine they are longer and the ratios vary more, so runs alternate, and the shortest of each counts.
"""

import ctypes
import os
import subprocess
import time
from collections.abc import Callable, Iterator
from contextlib import contextmanager
from pathlib import Path
from typing import NamedTuple

SHORT, LONG = 4096, 65536
COMMANDS = {"verify": "--program", "asm": "--source", "dis": "--program"}

# The least number of runs of a measurement, and its least duration.
LEAST_RUNS, LEAST_SECONDS = 7, 0.5
PEAK_RUNS = 3

FARTHEST = 32767  # the most words that a jump of 16 bits passes over
START = ["mov r0, 1", "exit"]
LOADED = ["mov r0, 1", "ldxb r2, [r1+55]"]

# ---- The programs, as lines of text. Both edges of each comparison are reached, since 65 is inside of 0 to 255 and not an end of it.


def straight(words: int) -> list[str]:
    return ["mov r0, 1"] * (words - 1) + ["exit"]


def jumps_of_0(words: int) -> list[str]:
    """The number of jumps is a multiple of 1,000."""
    return ["ldxb r2, [r1+55]"] + ["jne r2, 65, +0"] * (words // 1000 * 1000) + ["mov r0, 1", "exit"]


def all_jumps_to_the_end(words: int) -> list[str]:
    """Jumps that are too far away for 16 bits come first. Each is the opposite condition over a jump of 32 bits."""
    near = min(words - 3, FARTHEST + 1)
    pairs, left = divmod(words - 3 - near, 2)
    far = ["jne r2, 65, +1", "ja32 end"] * pairs
    return LOADED + ["mov r0, 1"] * left + far + ["jeq r2, 65, end"] * near + ["end:", "exit"]


def all_distinct_targets(words: int) -> list[str]:
    """The first jump leads to the first target, the second to the second, and so on, so the states of half of the words wait at the same time."""
    count, left = divmod(words - 3, 2)
    jumps = [f"jeq r2, 65, t{at}" for at in range(count)]
    targets = [line for at in range(count) for line in (f"t{at}:", "mov r0, 1")]
    return LOADED + jumps + targets + ["mov r0, 1"] * left + ["exit"]


def alternating(words: int) -> list[str]:
    pairs, left = divmod(words - 3, 2)
    return LOADED + ["jeq r2, 65, +1", "mov r0, 1"] * pairs + ["mov r0, 1"] * left + ["exit"]


def nested(words: int) -> list[str]:
    """The first jump leads to the last word, the second to the one before it, and so on. A jump that is too long for 16 bits is a pair as above."""
    pairs = max(0, -((FARTHEST + 4 - words) // 3))
    near, left = divmod(words - 2 - 3 * pairs, 2)
    far = [line for at in range(pairs) for line in ("jne r2, 65, +1", f"ja32 t{at}")]
    jumps = [f"jeq r2, 65, t{at}" for at in range(pairs, pairs + near)]
    targets = [line for at in reversed(range(1, pairs + near)) for line in (f"t{at}:", "mov r0, 1")]
    return LOADED + far + jumps + ["mov r0, 1"] * left + targets + ["t0:", "exit"]


PROGRAMS: dict[str, Callable[[int], list[str]]] = {
    "straight": straight,
    "jumps of 0": jumps_of_0,
    "all jumps to the end": all_jumps_to_the_end,
    "all distinct targets": all_distinct_targets,
    "alternating": alternating,
    "nested": nested,
}

# ---- Running them


class Files(NamedTuple):
    """A program as text and as words."""

    source: Path
    program: Path
    words: int

    def arguments(self, command: str) -> list[str]:
        return [command, COMMANDS[command], str(self.source if command == "asm" else self.program)]


class Failed(Exception):
    """A program isn't accepted, or a command fails."""


def output(extractd: str, *arguments: str) -> bytes:
    ran = subprocess.run([extractd, *arguments], stdin=subprocess.DEVNULL, capture_output=True)
    if ran.returncode != 0:
        raise Failed(f"{arguments[0]} gives status {ran.returncode}: {ran.stderr.decode().strip()}")
    return ran.stdout


def made(extractd: str, folder: Path, name: str, lines: list[str]) -> Files:
    """Writes a program. It must be accepted, and stay the same when it is turned into text and back."""
    source, program, again = folder / f"{name}.s", folder / f"{name}.bpf", folder / "again.s"
    source.write_text("\n".join(lines) + "\n")
    program.write_bytes(output(extractd, "asm", "--source", str(source)))
    if output(extractd, "verify", "--program", str(program)) != b"accepted\n":
        raise Failed(f"{name}: verify doesn't say that it is accepted")
    again.write_bytes(output(extractd, "dis", "--program", str(program)))
    if output(extractd, "asm", "--source", str(again)) != program.read_bytes():
        raise Failed(f"{name}: what dis writes isn't the same program")
    words = sum(not line.endswith(":") for line in lines)
    if program.stat().st_size != 8 * words:
        raise Failed(f"{name}: there should be {words} words")
    return Files(source, program, words)


def run_once(command: list[str], nowhere: int) -> float:
    """Returns the seconds from the start of a process to its end."""
    began = time.perf_counter()
    actions = [(os.POSIX_SPAWN_DUP2, nowhere, to) for to in (0, 1)]
    process = os.posix_spawn(command[0], command, os.environ, file_actions=actions)
    status = os.wait4(process, 0)[1]
    seconds = time.perf_counter() - began
    if status != 0:
        raise Failed(f"{' '.join(command)} ends with status {os.waitstatus_to_exitcode(status)}")
    return seconds


def least_times(commands: list[list[str]]) -> list[float]:
    """Returns the shortest time of each command. The runs alternate, so that other work on the machine affects all of them."""
    times: list[list[float]] = [[] for _ in commands]
    with open(os.devnull, "r+b") as nowhere:
        while min(map(len, times)) < LEAST_RUNS or min(sum(spent) for spent in times) < LEAST_SECONDS:
            for command, spent in zip(commands, times, strict=True):
                if len(spent) < LEAST_RUNS or sum(spent) < LEAST_SECONDS:
                    spent.append(run_once(command, nowhere.fileno()))
    return [min(spent) for spent in times]


class Times(NamedTuple):
    """The times of one command in seconds: on two words, on the short program and on the long one."""

    start: float
    short: float
    long: float

    def ratios(self) -> tuple[float, float]:
        """Returns the ratio of the whole times, and the one without the startup time."""
        return self.long / self.short, (self.long - self.start) / max(self.short - self.start, 1e-9)

    def __str__(self) -> str:
        whole, without_start = self.ratios()
        return f"{1000 * self.short:.2f}, {1000 * self.long:.2f} ms, {whole:.1f} and {without_start:.1f} times as long"


# ---- Memory

PR_SET_CHILD_SUBREAPER = 36


@contextmanager
def adopting() -> Iterator[None]:
    """Makes this process adopt the orphans of its children meanwhile."""
    library = ctypes.CDLL(None, use_errno=True)
    if library.prctl(PR_SET_CHILD_SUBREAPER, 1, 0, 0, 0) != 0:
        raise Failed(f"this system can't say how much memory a process takes: {os.strerror(ctypes.get_errno())}")
    try:
        yield
    finally:
        library.prctl(PR_SET_CHILD_SUBREAPER, 0, 0, 0, 0)


# The command begins when the shell has ended. A shell that still runs might wait for it itself.
DETACHED = 'exec 3<&0; { read -r _; exec "$@" < /dev/null 3<&-; } <&3 > /dev/null & echo $!'


def peak_once(command: list[str]) -> int:
    """Returns the maximum resident set of a process, in bytes.

    A direct child would start with the resident set of this process, which is larger than its own. So a shell starts it and exits. This process
    adopts the orphan and waits for it.
    """
    begin, beginning = os.pipe()
    with adopting(), open(begin), open(beginning, "w") as line:
        shell = subprocess.run(["sh", "-c", DETACHED, "sh", *command], stdin=begin, stdout=subprocess.PIPE, check=True)
        line.write("\n")
        line.flush()
        _, status, usage = os.wait4(int(shell.stdout), 0)
    if status != 0:
        raise Failed(f"{' '.join(command)} ends with status {os.waitstatus_to_exitcode(status)}")
    return int(usage.ru_maxrss) * 1024


def peak(command: list[str]) -> int:
    return max(peak_once(command) for _ in range(PEAK_RUNS))
