#!/bin/sh
# Selects the segments of all counties with GNU parallel: parallel.sh DATA OUT FILTER [JOBS]
#
# JOBS counties run at once, by default one per processor. OUT/rows has the rows of all counties in the order of their codes. It
# appears if every county succeeded. Otherwise, the same call again runs only the counties that failed or had not run.

set -eu
export LC_ALL=C
if [ $# -lt 3 ] || [ $# -gt 4 ]; then
    echo "usage: ${0##*/} DATA OUT FILTER [JOBS]" >&2
    exit 2
fi
data=$1 out=$2 filter=$3 jobs=${4:-100%}
here=$(dirname "$(realpath "$0")")
mkdir -p "$out/counties"

# The log counts only for the same filter, program and files.
files=$(find "$data" -name 'TGR?????.RT[1456]' -printf '%p %s %T@\n' | sort)
call=$(printf '%s\n' "$filter" "$(extractd --version 2>&1)" "$files")
if [ ! -f "$out/call" ] || [ "$call" != "$(cat "$out/call")" ]; then
    rm -f "$out/joblog" "$out/rows" "$out/counties/"*.rows
    printf '%s\n' "$call" > "$out/call"
fi

find "$data" -name 'TGR?????.RT1' | sort |
    parallel --quote --jobs "$jobs" --joblog "$out/joblog" --resume-failed "$here/county.sh" "$filter" "$out/counties" {}
cat "$out/counties/"*.rows > "$out/rows.part"
mv "$out/rows.part" "$out/rows"
