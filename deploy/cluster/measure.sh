#!/bin/bash
# Measures each way to select the segments of many counties: measure.sh FOLDER [COUNTIES] [COPIES] [WORKERS...]
#
# Makes COUNTIES counties, by default 300, in five states. Each has COPIES times the segments of the example county, by default
# 38, which makes 15,200. Needs 4.2 MB per county in FOLDER, and as much for the output. extractd must be on the search path.
# Leaves out a way if its program is missing. Checks that all ways write the same rows, and prints a line for each:
# the way, the number of counties at once, the seconds and the segments per second. Dask's start isn't counted. Slurm runs one
# state per processor at once.

set -euo pipefail
export LC_ALL=C
top=$(realpath "$(dirname "$0")/../..")
folder=$1 counties=${2:-300} copies=${3:-38}
shift $(($# < 3 ? $# : 3))
[ $# -gt 0 ] || set -- 1 2 4
at_once=("$@")
filter="CFCC LIKE 'A%'"
python=${PYTHON:-python3}
EXTRACTD=$(command -v extractd)
export EXTRACTD PYTHONPATH=$top/python
mkdir -p "$folder"
cd "$folder"

# copy_records TYPE: prints the records of the example county, with different TLIDs in each copy.
copy_records() {
    awk -v copies="$copies" '{ record[NR] = $0 }
    END { for (copy = 0; copy < copies; copy++) for (line = 1; line <= NR; line++)
        printf "%s%10.0f%s\n", substr(record[line], 1, 5), substr(record[line], 6, 10) + copy * 1000000, substr(record[line], 16)
    }' "$top/examples/TGR01001.RT$1"
}

make_data() {
    local number state code type
    for type in 1 4 6; do copy_records $type > type$type; done
    cp "$top/examples/TGR01001.RT5" type5
    for ((number = 0; number < counties; number++)); do
        state=$((number % 5 + 1))
        printf -v code '%02d%03d' $state $((2 * (number / 5) + 1))
        mkdir -p data/0$state
        for type in 1 4 5 6; do cp type$type "data/0$state/TGR$code.RT$type"; done
    done
    cat data/*/* > /dev/null
}

segments=$((400 * copies * counties))
# measure WAY WORKERS COMMAND...
measure() {
    local way=$1 workers=$2 begin=$EPOCHREALTIME seconds
    "${@:3}" > /dev/null
    seconds=$(awk -v begin="$begin" -v end="$EPOCHREALTIME" 'BEGIN { print end - begin }')
    awk -v way="$way" -v workers="$workers" -v seconds="$seconds" -v segments=$segments \
        'BEGIN { printf "%-10s %2d %8.1f s %9.0f segments/s\n", way, workers, seconds, segments / seconds }'
}
has() { command -v "$1" > /dev/null || { echo "left out: $1"; return 1; }; }
types_1() { find data -name 'TGR?????.RT1' | sort; }

one_by_one() { types_1 | while read -r file; do "$top/deploy/cluster/county.sh" "$filter" rows "$file"; done; }
by_xargs() { types_1 | xargs -n 1 -P "$1" "$top/deploy/cluster/county.sh" "$filter" rows; }
by_slurm() {
    local job
    job=$(cd "$top" && sbatch --parsable --array=1-5 --cpus-per-task=1 --output=/dev/null deploy/cluster/slurm.sh \
        "$folder/data" "$folder/rows" "$filter")
    while squeue --noheader --jobs="$job" | grep -q .; do sleep 0.2; done
}
by_tigerline() { "$python" -m tigerline select data table.csv --overwrite --where "$filter" "$@"; }
same_rows() { cat rows/*.rows | cmp - rows.first && rm -rf rows && mkdir rows; }

by_dask() {
    local scheduler workers
    dask-scheduler --host 127.0.0.1 --port 0 --no-dashboard --scheduler-file scheduler 2> scheduler.log &
    scheduler=$!
    dask-worker --scheduler-file scheduler --nworkers "$1" --nthreads 1 --no-dashboard --local-directory dask 2> worker.log &
    workers=$!
    until [ "$(grep -c 'Registered to' worker.log)" -ge "$1" ]; do sleep 0.1; done
    measure dask "$1" by_tigerline --scheduler "$(sed -n 's/^ *"address": "\(.*\)",$/\1/p' scheduler)"
    kill $workers $scheduler
    wait
    rm -f scheduler
}

folder=$PWD
rm -rf data rows parallel
mkdir rows
make_data
measure loop 1 one_by_one
cat rows/*.rows > rows.first
same_rows
for n in "${at_once[@]}"; do measure xargs "$n" by_xargs "$n"; same_rows; done
if has parallel; then
    for n in "${at_once[@]}"; do
        measure parallel "$n" "$top/deploy/cluster/parallel.sh" data parallel "$filter" "$n"
        cmp parallel/rows rows.first
        rm -rf parallel
    done
fi
if has sbatch; then measure slurm "$(nproc)" by_slurm; same_rows; fi
measure tigerline 1 by_tigerline
mv table.csv table.first
for n in "${at_once[@]}"; do measure workers "$n" by_tigerline --workers "$n"; cmp table.csv table.first; done
if has dask-scheduler; then for n in "${at_once[@]}"; do by_dask "$n"; cmp table.csv table.first; done; fi
