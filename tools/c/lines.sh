#!/bin/sh
# Prints the source lines of a program with the places of their words, as `extractd explain --lines` reads them:
#
#     lines.sh [--section NAME] PROGRAM.o
#     lines.sh PROGRAM.s
#
# PROGRAM.o is an object file compiled with -g; its code is in the section .text or in the given section. PROGRAM.s is a text for
# `extractd asm` with one instruction per line. A row is a place, a tab and a source line. Places count words from 0 and ascend; several
# source lines before one word have its place. Needs llvm-objdump, and the sources where they were when PROGRAM.o was compiled.
set -eu
export LC_ALL=C

usage() {
    echo "usage: ${0##*/} [--section NAME] PROGRAM.o | ${0##*/} PROGRAM.s" >&2
    exit 2
}

# Prints the lines of an assembler text. A wide load has two words; labels, comments and empty lines have none.
text_lines() {
    awk '
        { sub(/\r$/, "") ; code = $0; sub(/;.*/, "", code); gsub(/^[ \t]+|[ \t]+$/, "", code) }
        code == "" || code ~ /:$/ { next }
        { print place + 0 "\t" $0; place += code ~ /^lddw[ \t]/ ? 2 : 1 }
    ' "$1"
}

# Prints the lines of an object file. llvm-objdump counts words, and shows a source line as `; ` and the line, before its first word.
object_lines() {
    "${OBJDUMP:-llvm-objdump}" -d -S --no-show-raw-insn --section="$2" "$1" 2> "$scratch" | awk '
        /^;/ { sub(/\r$/, ""); held[count++] = substr($0, 3) }
        /^ *[0-9]+:/ { for (i = 0; i < count; i++) print $1 + 0 "\t" held[i]; count = 0 }
    '
}

section=.text
while [ $# -gt 1 ]; do
    case $1 in
    --section) section=$2 && shift 2 ;;
    --section=*) section=${1#*=} && shift ;;
    *) usage ;;
    esac
done
[ $# -eq 1 ] || usage
[ -r "$1" ] || { echo "${0##*/}: $1: can't be read" >&2; exit 1; }
case $1 in
*.s) text_lines "$1" && exit ;;
esac

scratch=$(mktemp)
trap 'rm -f "$scratch"' EXIT
lines=$(object_lines "$1" "$section")
if [ -z "$lines" ]; then
    # GCC's objects cause many warnings about relocations, which don't concern the lines.
    grep -v 'failed to compute relocation' "$scratch" >&2 || true
    echo "${0##*/}: $1: no source lines in the section $section; was it compiled with -g?" >&2
    exit 1
fi
printf '%s\n' "$lines"
