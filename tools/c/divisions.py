#!/usr/bin/env python3
"""Replaces signed divisions in LLVM's text by calls: divisions.py < PROGRAM.ll > OUTPUT.ll

Before -mcpu=v4 clang has no instruction for them and ends with an error. link.py makes instructions of the calls.
"""
# Needs only Python 3.11.

import re
import sys

DIVISION = re.compile(r"  (%\S+) = (sdiv|srem) (?:exact )?(i\d+) (\S+), ([^\s,]+)(, !dbg !\d+)?.*")
FUNCTIONS = {"sdiv": "__divdi3", "srem": "__moddi3"}


def replaced(line: str, number: int) -> list[str]:
    """Returns the lines that a line becomes: a division of 64 bits, and moves from and to its type."""
    match = DIVISION.match(line)
    if match is None:
        return [line]
    result, operation, kind, left, right, debug = match.groups(default="")
    call = f"call i64 @{FUNCTIONS[operation]}"
    if kind == "i64":
        return [f"  {result} = {call}(i64 {left}, i64 {right}){debug}"]
    name = f"%division.{number}"
    return [
        f"  {name}.left = sext {kind} {left} to i64{debug}",
        f"  {name}.right = sext {kind} {right} to i64{debug}",
        f"  {name} = {call}(i64 {name}.left, i64 {name}.right){debug}",
        f"  {result} = trunc i64 {name} to {kind}{debug}",
    ]


def main() -> None:
    for number, line in enumerate(sys.stdin.read().splitlines()):
        print(*replaced(line, number), sep="\n")
    for name in FUNCTIONS.values():
        print(f"declare i64 @{name}(i64, i64)")


if __name__ == "__main__":
    main()
