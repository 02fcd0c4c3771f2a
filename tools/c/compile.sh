#!/bin/sh
# Compiles a program in C to the words that `extractd run` takes:
#
#     compile.sh [--function NAME] [--lines LINES] PROGRAM.c OUTPUT [FLAG...]
#
# The program is the function `choose`, or NAME, wherever it is in the file. With --lines the script also writes the source lines of the words, as
# `extractd explain --lines` reads them. Each FLAG goes to the compiler after those of the file `flags`, so -Os replaces its -O2. With -O1 clang also gets
# those of `flags-O1`.
#
# CC names the compiler: clang if it isn't set, or GCC's bpf-gcc. Needs Python 3.11. Source lines, also those in errors, need llvm-objdump.
set -eu

usage() {
    echo "usage: ${0##*/} [--function NAME] [--lines LINES] PROGRAM.c OUTPUT [FLAG...]" >&2
    exit 2
}

here=$(dirname "$0")
function=choose lines=""
while [ $# -gt 1 ]; do
    case $1 in
    --function) function=$2 && shift 2 ;;
    --lines) lines=$2 && shift 2 ;;
    -*) usage ;;
    *) break ;;
    esac
done
[ $# -ge 2 ] || usage
source=$1 output=$2
shift 2

compiler=${CC:-clang}
case ${compiler##*/} in
*gcc*) flags=$here/gcc-flags ;;
*)
    flags=$here/flags
    case " $* " in *" -O1 "*) set -- "@$here/flags-O1" "$@" ;; esac
    ;;
esac

scratch=$(mktemp -d)
trap 'rm -rf "$scratch"' EXIT
object=$scratch/$(basename "$source" .c).o
# compile ARGUMENT..: prints what the compiler says, unless clang says that it has no signed division. Then link.py makes it.
compile() {
    "$compiler" "@$flags" -I"$here" -isystem "$here/include" "$@" -c "$source" -o "$object" 2> "$scratch/said" && cat "$scratch/said" >&2 && return
    grep -q -i 'unsupport[a-z]* signed division' "$scratch/said" || { cat "$scratch/said" >&2; return 1; }
    "$compiler" "@$flags" -I"$here" -isystem "$here/include" "$@" -S -emit-llvm "$source" -o "$scratch/program.ll"
    python3 "$here/divisions.py" < "$scratch/program.ll" > "$scratch/divided.ll"
    "$compiler" "@$flags" "$@" -w -Xclang -disable-llvm-passes -c -x ir "$scratch/divided.ll" -o "$object"
}
compile "$@"
python3 "$here/link.py" --function "$function" ${lines:+--lines "$lines"} "$object" "$output"
