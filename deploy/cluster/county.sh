#!/bin/sh
# Writes the rows of one county: county.sh FILTER OUT FILE
#
# FILE is the county's record type 1, such as data/AL/TGR01001.RT1. The rows appear as OUT/01001.rows once extractd has ended with
# status 0. If it fails, there is no such file, and the status is its own.

set -eu
code=${3##*TGR}
code=${code%.*}
part=$2/.$code.$$
trap 'rm -f "$part"' EXIT
trap 'exit 129' HUP
trap 'exit 130' INT
trap 'exit 143' TERM
rm -f "$2/$code.rows"
extractd select --where="$1" --data "$(dirname "$3")" "$code" > "$part"
mv "$part" "$2/$code.rows"
