#!/bin/bash
#SBATCH --job-name=tigerline
#SBATCH --cpus-per-task=4
#SBATCH --output=%x-%A-%a.log
# Selects the segments of one state in each task of a Slurm array: sbatch --array=1-78 deploy/cluster/slurm.sh DATA OUT FILTER
#
# Submit it at the top of a clone. The number of a task is the FIPS code of its state. DATA and OUT must be on a file system that
# all nodes share. Each county's rows appear as OUT/CODE.rows. A task fails if one of its counties does: submit its number again.

set -euo pipefail
export LC_ALL=C
if [ $# -ne 3 ] || [ -z "${SLURM_ARRAY_TASK_ID-}" ]; then
    echo "usage: sbatch --array=1-78 deploy/cluster/slurm.sh DATA OUT FILTER" >&2
    exit 2
fi
data=$1 out=$2 filter=$3
state=$(printf %02d "$SLURM_ARRAY_TASK_ID")
mkdir -p "$out"
find "$data" -name "TGR${state}???.RT1" | sort |
    xargs -r -d '\n' -n 1 -P "${SLURM_CPUS_PER_TASK:-1}" "${SLURM_SUBMIT_DIR:-.}/deploy/cluster/county.sh" "$filter" "$out"
