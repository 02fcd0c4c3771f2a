#!/bin/sh
# Checks that `rt` is there, and says so if it isn't of a kit that README.md names. Another kit may refuse what this one proves, so that is no failure.

readme=$(cd "$(dirname "$0")/.." && pwd)/README.md
if ! command -v rt > /dev/null; then
    echo "rt: not found; it is the command of Rattle's kit, which has to be on the search path" >&2
    exit 1
fi
wanted=$(sed -n 's/^ *\(rattle-kit-[^ ]* logic [0-9a-f]*\)$/\1/p' "$readme")
found=$(rt version)
if ! printf '%s\n' "$wanted" | grep -Fqx "$found"; then
    {
        echo "This repository is proved with $(printf '%s\n' "$wanted" | paste -s -d ,), and rt is of $found."
        echo "The program behaves the same, but a proof may fail with this kit."
    } >&2
fi
