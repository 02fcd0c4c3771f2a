#!/bin/sh
# Runs a program over each county of a folder, and keeps the rows of the counties that were read completely:
#     each_county.sh PROGRAM DATA OUT
# OUT gets one file per such county, named by its code. The others are named on standard error; then the exit status is 1.
[ $# = 3 ] || { echo "usage: ${0##*/} PROGRAM DATA OUT" >&2; exit 2; }
program=$1 data=$2 out=$3 ended=0
mkdir -p "$out" || exit 3
part=$out/.part.$$
trap 'rm -f "$part"' EXIT
trap 'exit 130' INT TERM HUP
for file in "$data"/TGR*.RT1; do
    [ -e "$file" ] || { echo "$data: no type 1 file" >&2; exit 3; }
    code=${file##*/TGR} code=${code%.RT1}
    extractd run --program "$program" --data "$data" "$code" > "$part"
    status=$?
    if [ $status = 0 ]; then
        mv "$part" "$out/$code" || exit 3
    else
        echo "$code: status $status" >&2
        ended=1
    fi
done
exit $ended
