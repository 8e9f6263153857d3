#!/usr/bin/env bash
# All prefix values as one job array of Slurm, and then the merge: slurm.sh FOLDER, a folder that all nodes share. It
# waits for the merge, whose output is FOLDER/amplitudes. An array task that is requeued goes on from its journal.
set -eu -o pipefail
here=$(cd -- "$(dirname -- "$(readlink -f -- "$0")")" && pwd)
mkdir -p -- "$1"
folder=$(cd -- "$1" && pwd)
array=$(sbatch --parsable --requeue --array=0-3 --output="$folder/%a.log" \
  --wrap "exec '$here/prefix.sh' \"\$SLURM_ARRAY_TASK_ID\" '$folder'")
sbatch --wait --dependency="afterok:$array" --output="$folder/merge.log" \
  --wrap "exec '$here/merge.sh' '$folder' >'$folder/amplitudes'" >&2
cat -- "$folder/amplitudes"
