#!/bin/sh
# Compiles programs in C, and prints the name of each and its verdict without the place, which depends on the compiler:
#
#     verdict.sh PROGRAM.c...
#
# If a program can't be compiled, the verdict is the last line of what the compiler or link.py says. Runs the `extractd` on the search path, and
# needs what compile.sh needs.
set -u

scratch=$(mktemp -d)
trap 'rm -rf "$scratch"' EXIT
for source; do
    if said=$("$(dirname "$0")/compile.sh" "$source" "$scratch/program.bpf" 2>&1); then
        said=$(extractd verify --program "$scratch/program.bpf" 2>&1 | cut -d ' ' -f 1,2,5)
    else
        said=$(printf '%s\n' "$said" | tail -n 1 | sed 's/^link.py: [^:]*: //; s/: the jump at place [^(]*/ /')
    fi
    name=${source##*/}
    printf '%-14s%s\n' "${name%.c}" "$said"
done
