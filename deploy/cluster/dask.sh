#!/bin/bash
# Selects the segments of all counties with dask.distributed on this machine: dask.sh DATA OUT FILTER [WORKERS]
#
# On several machines, start dask-scheduler on one and dask-worker on each, with PYTHONPATH and EXTRACTD as here, and pass the
# scheduler's address to tigerline. It needs python3-distributed.

set -euo pipefail
if [ $# -lt 3 ] || [ $# -gt 4 ]; then
    echo "usage: ${0##*/} DATA OUT FILTER [WORKERS]" >&2
    exit 2
fi
data=$1 out=$2 filter=$3 workers=${4:-$(nproc)}
python=${PYTHON:-python3}
PYTHONPATH=$(realpath "$(dirname "$0")/../../python")${PYTHONPATH:+:$PYTHONPATH}
export PYTHONPATH

scratch=$(mktemp -d)
trap 'kill $(jobs -p) 2> /dev/null; wait; rm -rf "$scratch"' EXIT
trap 'exit 130' INT
trap 'exit 143' TERM
dask-scheduler --host 127.0.0.1 --port 0 --no-dashboard --scheduler-file "$scratch/scheduler" 2> "$scratch/scheduler.log" &
scheduler=$!
dask-worker --scheduler-file "$scratch/scheduler" --nworkers "$workers" --nthreads 1 --no-dashboard \
    --local-directory "$scratch" 2> "$scratch/worker.log" &
for ((tenths = 0; ; tenths++)); do
    address=$(sed -n 's/^ *"address": "\(.*\)",$/\1/p' "$scratch/scheduler" 2> /dev/null || true)
    [ -z "$address" ] || break
    if ! kill -0 "$scheduler" 2> /dev/null; then
        tail -n 3 "$scratch/scheduler.log" >&2
        echo "error: dask-scheduler has ended" >&2
        exit 1
    fi
    [ "$tenths" -ne 100 ] || echo "waiting for dask-scheduler to start" >&2
    sleep 0.1
done
"$python" -m tigerline select "$data" "$out" --where "$filter" --scheduler "$address"
