"""forward.py puts programs into an order in which all jumps lead forwards. `asm` and `dis` turn text into words and back. The expected orders, distances and
messages were worked out by hand.
"""

import subprocess
import sys
from pathlib import Path

import forward
import pytest
from harness.program import TOP

pytestmark = pytest.mark.usefixtures("extractd")

ORDERS = (
    # A program whose jumps lead forwards stays as it is.
    (
        "ldxb r0, [r1+55] | jeq r0, 65, out | mov r0, 0 | out: | exit",
        "ldxb r0, [r1+55] | jeq r0, 65, +1 | mov r0, 0 | exit",
    ),
    ("jeq r1, 1, +2 | mov r0, 0 | exit | mov r0, 1 | exit", "jeq r1, 1, +2 | mov r0, 0 | exit | mov r0, 1 | exit"),
    # A shared ending goes after the jump to it, and the jump over it is no longer needed.
    (
        "ja start | found: | mov r0, 1 | exit | start: | ldxb r2, [r1+55] | jeq r2, 65, found | mov r0, 0 | exit",
        "ldxb r2, [r1+55] | jeq r2, 65, +2 | mov r0, 0 | exit | mov r0, 1 | exit",
    ),
    # Both edges of a conditional jump may lead backwards.
    (
        "ja start | no: | mov r0, 0 | exit | yes: | mov r0, 1 | exit | start: | jeq r1, 1, no | ja yes",
        "jeq r1, 1, +1 | ja +2 | mov r0, 0 | exit | mov r0, 1 | exit",
    ),
    # A block that can't follow the one before it is reached by a jump.
    (
        "jeq r1, 1, second | join: | mov r0, 2 | exit | second: | mov r2, 3 | ja join",
        "jne r1, 1, +1 | mov r2, 3 | mov r0, 2 | exit",
    ),
    # Unreachable blocks are removed, whatever they contain. So are jumps to the next word.
    ("mov r0, 1 | exit | mov r0, 2 | ja -2 | exit", "mov r0, 1 | exit"),
    ("mov r0, 1 | ja +0 | exit", "mov r0, 1 | exit"),
    ("jeq r1, 1, +0 | exit", "jeq r1, 1, +0 | exit"),
    # A wide load has two places.
    (
        "ja start | found: | lddw r0, 4294967296 | exit | start: | jeq r1, 1, found | lddw r0, 1 | exit",
        "jeq r1, 1, +3 | lddw r0, 0x0000000000000001 | exit | lddw r0, 0x0000000100000000 | exit",
    ),
    # The rounds of a loop are written out: by a counter, by a quotient, by a pointer, and by two counters that meet.
    ("mov r0, 1 | top: | add r0, 1 | jne r0, 4, top | exit", "mov r0, 1 | add r0, 1 | add r0, 1 | add r0, 1 | exit"),
    (
        "ldxb r0, [r1+0] | top: | div r0, 10 | jne r0, 0, top | exit",
        "ldxb r0, [r1+0] | div r0, 10 | jeq r0, 0, +3 | div r0, 10 | jeq r0, 0, +1 | div r0, 10 | exit",
    ),
    (
        "mov r2, r1 | add r2, 2 | mov r0, 0 | top: | ldxb r3, [r1+0] | add r0, r3 | add r1, 1 | jne r1, r2, top | exit",
        "mov r2, r1 | add r2, 2 | mov r0, 0 | ldxb r3, [r1+0] | add r0, r3 | add r1, 1 | ldxb r3, [r1+0] | add r0, r3"
        " | add r1, 1 | exit",
    ),
    (
        "mov r0, 0 | mov r2, 3 | top: | add r0, 1 | add r2, -1 | jslt r0, r2, top | exit",
        "mov r0, 0 | mov r2, 3 | add r0, 1 | add r2, -1 | add r0, 1 | add r2, -1 | exit",
    ),
    # A counter in four bytes of the frame is a number again, and so is one that a copy bounds. The end is never reached.
    (
        "stw [r10-4], 0 | top: | ldxw r0, [r10-4] | add r0, 1 | stxw [r10-4], r0 | jlt r0, 2, top | exit",
        "stw [r10-4], 0 | mov r0, 0 | add r0, 1 | stxw [r10-4], r0 | mov r0, 1 | add r0, 1 | stxw [r10-4], r0 | exit",
    ),
    (
        "ldxb r2, [r1+0] | mov r3, r2 | add r3, -65 | mov r0, 0 | jgt r3, 25, +2 | add r1, r2 | ldxb r0, [r1-65] | exit",
        "ldxb r2, [r1+0] | mov r3, r2 | add r3, -65 | mov r0, 0 | jgt r3, 25, +4 | jgt r2, 90, +4 | jlt r2, 65, +3"
        " | add r1, r2 | ldxb r0, [r1-65] | exit | mov r0, 0 | exit",
    ),
)

# The conditions of RFC 9669, section 4.3.
CONDITIONS = ("jeq", "jgt", "jge", "jset", "jne", "jsgt", "jsge", "jlt", "jle", "jslt", "jsle")

ERRORS = (
    (
        "lddw r0, 1 | top: | add r0, 1 | ja top",
        "a loop may have more than 256 rounds: the jump at place 3 leads back to place 2",
    ),
    (
        "ldxdw r0, [r1+0] | top: | ldxdw r2, [r1+8] | xor r0, r2 | jne r0, 0, top | exit",
        "there is a loop: the jump at place 3 leads back to place 1",
    ),
    ("ja -1", "there is a loop: the jump at place 0 leads back to place 0"),
    ("jeq r1, 1, +0 | ja -2", "there is a loop: the jump at place 1 leads back to place 0"),
    # The program enters the loop at its later block; the error names the backward jump anyway.
    (
        "jeq r1, 1, two | ja two | one: | mov r0, 1 | two: | mov r0, 2 | ja one",
        "there is a loop: the jump at place 4 leads back to place 2",
    ),
    ("mov r0, 1", "the program runs past its last word after place 0"),
    ("jeq r1, 1, +1 | exit | mov r0, 1", "the program runs past its last word after place 2"),
    ("mov r0, 1 | jeq r0, 1, -2", "the program runs past its last word after place 1"),
    ("jeq r1, 1, +1 | exit", "the jump at place 0 leads to place 2, which is outside of the program"),
    ("ja -2 | exit", "the jump at place 0 leads to place -1, which is outside of the program"),
    ("jeq r1, 1, +1 | lddw r0, 1 | exit", "the jump at place 0 leads to place 2, the second word of a wide load"),
)

BYTE_ERRORS = (
    (b"", "the program is empty"),
    (bytes(8) * 65_537, "the program has 65537 words, and it may have 65536"),
    (bytes(9), "the program has 9 bytes, which isn't a multiple of 8"),
    (bytes((0x95,)) + bytes(7) + bytes((0x18,)) + bytes(7), "the wide load at place 1 lacks its second word"),
)

# The start of a program whose first ending comes before the jump to it.
FOUND_FIRST = "ja start | out: | mov r0, 1 | exit | start: | jeq r1, 1, out"

LINES = "0\tint x = f();\n1\tif (x)\n2\t{\n2\t    return 1;\n4\treturn 0;\n"


def assemble(text: str) -> bytes:
    source = Path("program.s")
    source.write_text("".join(f"{line.strip()}\n" for line in text.split("|")))
    return subprocess.run(["extractd", "asm", "--source", source], check=True, capture_output=True).stdout


def disassemble(words: bytes) -> str:
    Path("program.bpf").write_bytes(words)
    command = ["extractd", "dis", "--program", "program.bpf"]
    return subprocess.run(command, check=True, capture_output=True, text=True).stdout


def error_of(data: bytes) -> str:
    with pytest.raises(forward.ProgramError) as caught:
        forward.put_in_order(data)
    return str(caught.value)


@pytest.mark.parametrize("text, expected", ORDERS, ids=[text for text, _ in ORDERS])
def test_orders(text: str, expected: str, here: Path) -> None:
    words, _ = forward.put_in_order(assemble(text))
    assert disassemble(words).splitlines() == expected.split(" | ")


def test_conditions(here: Path) -> None:
    """Each condition, of 64 and of 32 bits, on a register and on a number. All jump to a block that is moved."""
    jumps = [f"{name}{bits} r1, {operand}" for name in CONDITIONS for bits in ("", "32") for operand in ("-1", "r2")]
    conditions = " | ".join(f"{jump}, out" for jump in jumps)
    words, _ = forward.put_in_order(
        assemble(f"ja32 start | out: | mov r0, 1 | exit | start: | {conditions} | mov r0, 0 | exit")
    )
    expected = [f"{jump}, +{len(jumps) + 1 - place}" for place, jump in enumerate(jumps)]
    expected += ["mov r0, 0", "exit", "mov r0, 1", "exit"]
    assert disassemble(words).splitlines() == expected


@pytest.mark.parametrize("text, expected", ERRORS, ids=[text for text, _ in ERRORS])
def test_errors(text: str, expected: str, here: Path) -> None:
    assert error_of(assemble(text)) == expected


@pytest.mark.parametrize("data, expected", BYTE_ERRORS, ids=[expected for _, expected in BYTE_ERRORS])
def test_byte_errors(data: bytes, expected: str) -> None:
    assert error_of(data) == expected


@pytest.mark.parametrize(
    "filling, beginning",
    [(32_765, ["jeq r1, 1, +32767"]), (32_766, ["jeq r1, 1, +1", "ja +1", "ja32 +32768"])],
    ids=["farthest", "too far"],
)
def test_farthest_jump(filling: int, beginning: list[str], here: Path) -> None:
    """A conditional jump reaches 32,767 words, and one more word with the help of a ja32."""
    text = FOUND_FIRST + " | mov r0, 0" * (filling + 1) + " | exit"
    words, _ = forward.put_in_order(assemble(text))
    listing = disassemble(words).splitlines()
    assert listing == [*beginning, *["mov r0, 0"] * (filling + 1), "exit", "mov r0, 1", "exit"]


def test_far_plain_jump(here: Path) -> None:
    """A plain jump that its offset field can't reach becomes a ja32."""
    text = "jeq r1, 1, second | join: | mov r0, 2" + " | exit | second:" + " | mov r2, 3" * 32_768 + " | ja32 join"
    words, _ = forward.put_in_order(assemble(text))
    listing = disassemble(words).splitlines()
    assert listing == ["jeq r1, 1, +1", "ja32 +32768", *["mov r2, 3"] * 32_768, "mov r0, 2", "exit"]


def test_longest(here: Path) -> None:
    text = "jeq r1, 1, second | join: | mov r0, 2 | exit | second:" + " | mov r2, 3" * 65_532 + " | ja32 join"
    words, _ = forward.put_in_order(assemble(text))
    assert len(words) // 8 == 65_536


def test_too_long(here: Path) -> None:
    """The first jump becomes too long and takes two more words."""
    text = FOUND_FIRST + " | mov r0, 0" * 65_531 + " | exit"
    assert error_of(assemble(text)) == "the program has 65537 words, and it may have 65536"


def test_lines(here: Path) -> None:
    """A block keeps its lines, and repeats the line before it if it is moved away from it."""
    text = "mov r0, 1 | ja start | out: | mov r0, 1 | exit | start: | jeq r0, 1, out | mov r0, 0 | exit"
    _, layout = forward.put_in_order(assemble(text))
    expected = "0\tint x = f();\n1\tif (x)\n1\treturn 0;\n4\t{\n4\t    return 1;\n"
    assert forward.move_lines(forward.read_lines(LINES), layout) == expected
    expected = "0\tint x = f();\n1\tint x = f();\n4\tint x = f();\n"
    assert forward.move_lines({0: ["int x = f();"]}, layout) == expected


def test_lines_without_places() -> None:
    with pytest.raises(forward.ProgramError):
        forward.read_lines("if (x)\n")


def run_command() -> subprocess.CompletedProcess[str]:
    command = [sys.executable, str(TOP / "tools/c/forward.py"), "program.bpf", "output.bpf"]
    return subprocess.run(command, capture_output=True, text=True)


def test_command(here: Path) -> None:
    Path("program.bpf").write_bytes(assemble("ja start | out: | exit | start: | mov r0, 1 | ja out"))
    assert run_command().returncode == 0
    assert disassemble(Path("output.bpf").read_bytes()) == "mov r0, 1\nexit\n"


def test_command_that_fails(here: Path) -> None:
    Path("program.bpf").write_bytes(assemble("ja -1"))
    done = run_command()
    assert (done.returncode, done.stdout, Path("output.bpf").exists()) == (1, "", False)
    assert done.stderr == "forward.py: there is a loop: the jump at place 0 leads back to place 0\n"
